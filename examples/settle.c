/* Settles a tower of 150,000 grains on 256 by 256, and drops four more grains on the same site. */
#include "sandpile.h"
#include <inttypes.h>
#include <stdio.h>
#include <stdlib.h>

enum { SIDE = 256, SITES = SIDE * SIDE, CENTRE = SIDE / 2 * SIDE + SIDE / 2, DROPS = 4 };

int main(void) {
    uint64_t *heights = calloc(SITES, sizeof *heights), *odometer = calloc(SITES, sizeof *odometer);
    uint64_t lost = 0, topplings = 0;
    if (!heights || !odometer) return 1;
    heights[CENTRE] = 150000;
    uint32_t fault = sandpile_settle(SIDE, SIDE, false, heights, SITES, odometer, SITES, &lost, &topplings);
    if (fault) return (int)fault;
    printf("lost %" PRIu64 ", topplings %" PRIu64 "\n", lost, topplings);

    const size_t sites[DROPS] = {CENTRE, CENTRE, CENTRE, CENTRE};
    sandpile_avalanche avalanches[DROPS];
    sandpile_drive drive = {0};
    fault = sandpile_drive_new(SIDE, SIDE, false, heights, SITES, &drive);
    if (!fault) fault = sandpile_drive_drop(&drive, sites, DROPS, avalanches, DROPS);
    sandpile_drive_free(&drive);
    if (fault) return (int)fault;
    for (int i = 0; i < DROPS; i++) {
        printf("drop %d: size %" PRIu64 ", area %" PRIu32 "\n", i + 1, avalanches[i].size, avalanches[i].area);
    }
    printf("8193 wide: %s\n", sandpile_explain(sandpile_identity(8193, SIDE, false, heights, SITES)));
    free(heights);
    free(odometer);
    return 0;
}
