/* The order of a pile in the sandpile group of 3 by 3, which has 100,352 = 2^11 * 7^2 elements. */
#include "sandpile.h"
#include <inttypes.h>
#include <stdio.h>
#include <string.h>

enum { SIDE = 3, SITES = SIDE * SIDE, ELEMENTS = 100352 };

static uint64_t neutral[SITES];

/* Whether n copies of a recurrent pile add up to the identity. */
static bool cancels(const uint64_t *pile, uint64_t n) {
    uint64_t sum[SITES];
    memcpy(sum, pile, sizeof sum);
    return sandpile_multiple(SIDE, SIDE, false, sum, SITES, n) == 0 && memcmp(sum, neutral, sizeof sum) == 0;
}

int main(void) {
    uint64_t pile[SITES] = {1, 0, 0, 0, 0, 0, 0, 0, 0}, negative[SITES];
    size_t found[SITES], count = 0;
    bool recurrent = false;
    uint32_t fault = sandpile_identity(SIDE, SIDE, false, neutral, SITES);
    if (!fault) fault = sandpile_recurrent(SIDE, SIDE, false, pile, SITES);
    if (!fault) fault = sandpile_burn(SIDE, SIDE, false, pile, SITES, found, SITES, &count, &recurrent);
    if (fault) return (int)fault;
    printf("recurrent: %s, %zu sites burn\n", recurrent ? "yes" : "no", count);

    uint64_t order = ELEMENTS;
    while (order % 2 == 0 && cancels(pile, order / 2)) order /= 2;
    while (order % 7 == 0 && cancels(pile, order / 7)) order /= 7;
    printf("order %" PRIu64 "\n", order);

    memcpy(negative, pile, sizeof negative);
    fault = sandpile_inverse(SIDE, SIDE, false, negative, SITES);
    if (!fault) fault = sandpile_add(SIDE, SIDE, false, pile, SITES, negative, SITES);
    if (fault) return (int)fault;
    printf("with its inverse: %s\n", memcmp(pile, neutral, sizeof pile) == 0 ? "the identity" : "another pile");
    return 0;
}
