/* Calls take at most as much memory as include/sandpile.h says, and so does a driven pile: also on small grids, on those with few
   columns or few rows, and on cylinders. */
#undef NDEBUG
#include <assert.h>
#include <malloc.h>
#include <stdlib.h>
#include <string.h>

#include "sandpile.h"

void *__libc_malloc(size_t size);
void *__libc_realloc(void *block, size_t size);
void __libc_free(void *block);

static size_t held, most;

static void *taken(void *block) {
    held += malloc_usable_size(block);
    most = held > most ? held : most;
    return block;
}

void *malloc(size_t size) {
    return taken(__libc_malloc(size));
}

void free(void *block) {
    held -= malloc_usable_size(block);
    __libc_free(block);
}

/* The old block and the new one may both be there for a moment. */
void *realloc(void *block, size_t size) {
    const size_t before = malloc_usable_size(block);
    void *moved = taken(__libc_realloc(block, size));
    held -= before;
    return moved;
}

enum { MOST_SITES = 8192 };

static uint64_t pile[MOST_SITES], heights[MOST_SITES], odometer[MOST_SITES];
static int64_t signed_heights[MOST_SITES], firing[MOST_SITES];
static size_t found[MOST_SITES];
static uint32_t times[MOST_SITES];
static uint8_t directions[MOST_SITES];

static size_t bound(size_t width, size_t height, size_t n) {
    return n * (width + 16) * (height + 16);
}

/* Has a call made, and compares what it took with n for each site of the larger grid, and `more`. */
#define TAKES(n, more, call) \
    do { \
        const size_t before = most = held; \
        assert((call) == 0); \
        assert(most - before <= bound(width, height, n) + (more)); \
    } while (0)

static void of_a_pile(size_t width, size_t height, bool cylinder) {
    const size_t sites = width * height, square = 12 * width * width, empty = held;
    uint64_t lost, topplings;
    sandpile_drive drive = {0};
    memcpy(heights, pile, sizeof heights);
    TAKES(80, square, sandpile_settle(width, height, cylinder, heights, sites, odometer, sites, &lost, &topplings));
    memcpy(heights, pile, sizeof heights);
    TAKES(100, square, sandpile_recurrent(width, height, cylinder, heights, sites));
    for (size_t i = 0; i < sites; i++) {
        signed_heights[i] = (int64_t)pile[i] - 3;
    }
    TAKES(140, square, sandpile_class(width, height, cylinder, signed_heights, sites, firing, sites));
    TAKES(80, square, sandpile_drive_new(width, height, cylinder, pile, sites, &drive));
    assert(held - empty <= bound(width, height, 42));
    sandpile_drive_free(&drive);
}

static void of_a_grid(size_t width, size_t height, bool cylinder) {
    const size_t sites = width * height, square = 12 * width * width;
    size_t count;
    bool recurrent;
    /* Full and one grain more, high, and a heap. */
    const uint64_t each[3] = {3, 6, 0}, more[3] = {1, 0, 4 * sites + 100};
    for (int kind = 0; kind < 3; kind++) {
        for (size_t i = 0; i < sites; i++) {
            pile[i] = each[kind];
        }
        pile[height / 2 * width + width / 2] += more[kind];
        of_a_pile(width, height, cylinder);
    }
    TAKES(100, square, sandpile_identity(width, height, cylinder, heights, sites));
    TAKES(20, 0, sandpile_random(width, height, cylinder, 1, 2, heights, sites));
    TAKES(20, 0, sandpile_burn(width, height, cylinder, heights, sites, found, sites, &count, &recurrent));
    TAKES(24, 0, sandpile_burn_times(width, height, cylinder, heights, sites, times, sites));
    TAKES(30, 0, sandpile_tree(width, height, cylinder, heights, sites, directions, sites));
    TAKES(20, 0, sandpile_of_tree(width, height, cylinder, directions, sites, heights, sites));
    TAKES(100, square, sandpile_multiple(width, height, cylinder, heights, sites, 1000003));
}

int main(void) {
    static const size_t SIDES[][2] = {
        {1, 1}, {4, 4}, {16, 16}, {64, 64}, {1, 256}, {256, 1}, {16, 256}, {256, 16}, {8, 1024}, {1024, 8},
    };
    for (size_t i = 0; i < sizeof SIDES / sizeof SIDES[0]; i++) {
        of_a_grid(SIDES[i][0], SIDES[i][1], false);
    }
    of_a_grid(3, 256, true);
    of_a_grid(256, 3, true);
    return 0;
}
