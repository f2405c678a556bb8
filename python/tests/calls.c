/* Calls every export, with values worked out by hand. Piles have three sites in a row, unless something else is said. The
   recurrent ones are a group of 56 elements: the determinant of the toppling matrix, whose rows are 4 -1 0, -1 4 -1, 0 -1 4. */
#undef NDEBUG
#include "sandpile.h"
#include <assert.h>
#include <string.h>

/* Whether two arrays of the same length are equal. */
#define ARE_EQUAL(one, other) (sizeof(one) == sizeof(other) && memcmp(one, other, sizeof(one)) == 0)

static bool is_avalanche(sandpile_avalanche a, size_t site, uint64_t size, uint32_t area, uint32_t reach, uint64_t lost) {
    return a.site == site && a.size == size && a.area == area && a.reach == reach && a.lost == lost;
}

static void version(void) {
    assert(sandpile_version() == SANDPILE_VERSION);
}

/* 2^57 - 1 is 144,115,188,075,855,871: over the square of 363 it is less than 2^40 - 1, over that of 362 more. */
static void grain_limit(void) {
    const uint64_t low = 1093695695314;
    const struct { size_t width, height; bool cylinder; uint64_t limit; uint32_t fault; } rows[] = {
        {1, 1, false, 1099511627775, 0}, {8192, 361, true, 1099511627775, 0}, {1, 362, false, low, 0}, {3, 8192, true, 2146959455, 0},
        {0, 1, false, 7, SANDPILE_SIDE}, {8193, 1, true, 7, SANDPILE_SIDE}, {2, 8193, true, 7, SANDPILE_SIDE},
        {2, 8192, true, 7, SANDPILE_NARROW},
    };
    for (size_t i = 0; i < sizeof rows / sizeof *rows; i++) {
        uint64_t limit = 7;
        assert(sandpile_grain_limit(rows[i].width, rows[i].height, rows[i].cylinder, &limit) == rows[i].fault);
        assert(limit == rows[i].limit);
    }
}

/* A column of 362 sites takes so many grains, drops included, and a quota at most what is left. */
static void fill_up(void) {
    enum { ROWS = 362 };
    uint64_t heights[ROWS] = {[181] = 1093695695313}, odometer[ROWS], lost, topplings;
    const size_t drops[2] = {181, 0};
    sandpile_avalanche a[2];
    sandpile_drive driven = {0};
    sandpile_pass pass = {0};
    assert(sandpile_drive_new(1, ROWS, false, heights, ROWS, &driven) == 0);
    assert(sandpile_drive_drop(&driven, drops, 2, a, 2) == SANDPILE_FULL && sandpile_drive_drop(&driven, drops, 1, a, 1) == 0);
    assert(sandpile_drive_drop(&driven, drops, 1, a, 1) == SANDPILE_FULL);
    assert(sandpile_shared_new(1, ROWS, false, heights, ROWS, 2, &pass) == SANDPILE_TOO_MANY_GRAINS);
    assert(sandpile_shared_new(1, ROWS, false, heights, ROWS, 1, &pass) == 0);
    heights[0] = 2;
    assert(sandpile_settle(1, ROWS, false, heights, ROWS, odometer, ROWS, &lost, &topplings) == SANDPILE_TOO_MANY_GRAINS);
    sandpile_drive_free(&driven);
    sandpile_pass_free(&pass);
}

/* 5 0 0: the first site topples, and gives a grain to its neighbour and three to the sink. On a cylinder it gives one to the
   last site, too. */
static void settle(void) {
    const uint64_t settled[2][3] = {{1, 1, 0}, {1, 1, 1}}, once[3] = {1, 0, 0}, lost[2] = {3, 2};
    for (int cylinder = 0; cylinder < 2; cylinder++) {
        uint64_t heights[3] = {5, 0, 0}, odometer[3] = {7, 7, 7}, sunk = 7, topplings = 7;
        assert(sandpile_settle(3, 1, cylinder, heights, 3, odometer, 3, &sunk, &topplings) == 0);
        assert(ARE_EQUAL(heights, settled[cylinder]) && ARE_EQUAL(odometer, once));
        assert(sunk == lost[cylinder] && topplings == 1);
    }
}

/* The pile of `settle`; one that is stable; and 0 4 0, whose middle topples. */
static void settle_all(void) {
    const uint64_t start[9] = {5, 0, 0, 1, 2, 3, 0, 4, 0}, once[9] = {1, 0, 0, 0, 0, 0, 0, 1, 0}, each[3] = {1, 0, 1};
    const uint64_t settled[2][9] = {{1, 1, 0, 1, 2, 3, 1, 0, 1}, {1, 1, 1, 1, 2, 3, 1, 0, 1}};
    const uint64_t lost[2][3] = {{3, 0, 2}, {2, 0, 2}};
    for (int cylinder = 0; cylinder < 2; cylinder++) {
        uint64_t heights[9], odometer[9] = {7, 7, 7, 7, 7, 7, 7, 7, 7}, sunk[3] = {7, 7, 7}, topplings[3] = {7, 7, 7};
        memcpy(heights, start, sizeof heights);
        assert(sandpile_settle_all(3, 1, cylinder, heights, 9, odometer, 9, sunk, 3, topplings, 3) == 0);
        assert(ARE_EQUAL(heights, settled[cylinder]) && ARE_EQUAL(odometer, once));
        assert(ARE_EQUAL(sunk, lost[cylinder]) && ARE_EQUAL(topplings, each));
        assert(sandpile_settle_all(3, 1, cylinder, heights, 0, odometer, 0, sunk, 0, topplings, 0) == 0);
        assert(ARE_EQUAL(heights, settled[cylinder]) && ARE_EQUAL(sunk, lost[cylinder]));
    }
}

/* Each row has the faults that are checked after its own, too. The limit is for each pile, not for all together. */
static void settle_all_faults(void) {
    const uint64_t limit = 1099511627775;
    const struct {
        size_t width;
        bool cylinder;
        size_t heights, odometer, lost, topplings;
        uint64_t last;
        uint32_t fault;
    } rows[] = {
        {0, true, 3, 4, 2, 1, limit + 1, SANDPILE_SIDE},
        {8193, false, 3, 4, 2, 1, limit + 1, SANDPILE_SIDE},
        {2, true, 3, 4, 2, 1, limit + 1, SANDPILE_NARROW},
        {2, false, 4, 4, 2, 1, limit + 1, SANDPILE_LENGTH},
        {2, false, 3, 4, 2, 2, limit + 1, SANDPILE_LENGTH},
        {2, false, 4, 3, 2, 2, limit + 1, SANDPILE_LENGTH},
        {2, false, 2, 2, 2, 2, limit + 1, SANDPILE_LENGTH},
        {2, false, 4, 4, 1, 1, limit + 1, SANDPILE_LENGTH},
        {2, false, 4, 4, 0, 0, limit + 1, SANDPILE_LENGTH},
        {2, false, 4, 4, 2, 2, limit + 1, SANDPILE_TOO_MANY_GRAINS},
        {2, false, 4, 4, 2, 2, UINT64_MAX, SANDPILE_TOO_MANY_GRAINS},
        {2, false, 4, 4, 2, 2, limit, 0},
    };
    for (size_t i = 0; i < sizeof rows / sizeof *rows; i++) {
        uint64_t heights[4] = {4, 0, 0, rows[i].last}, odometer[4] = {7, 7, 7, 7}, lost[2] = {7, 7}, topplings[2] = {7, 7};
        const uint64_t start[4] = {4, 0, 0, rows[i].last}, sevens[4] = {7, 7, 7, 7}, none[2] = {7, 7};
        uint32_t fault = sandpile_settle_all(rows[i].width, 1, rows[i].cylinder, heights, rows[i].heights, odometer,
                                             rows[i].odometer, lost, rows[i].lost, topplings, rows[i].topplings);
        assert(fault == rows[i].fault);
        if (fault == 0) continue;
        assert(ARE_EQUAL(heights, start) && ARE_EQUAL(odometer, sevens));
        assert(ARE_EQUAL(lost, none) && ARE_EQUAL(topplings, none));
    }
}

/* The published keystreams of ChaCha8 begin 3e00ef2f 895f40d6 7f5bb8e8 if key and nonce are 0, go on with d2aefa0d eaa5c151
   in the second block of 16 words, and begin cf5ee9a0 494aa961 if the key has a 1 in front, and 2b8f4bb3 798306ca if the nonce
   has. The first byte of a word is its lowest, so it is the site of 256 in a row. The last row is by another program. */
static void sites(void) {
    const struct { uint64_t seed, stream, from; size_t sites[2]; } rows[] = {
        {0, 0, 0, {0x3e, 0x89}},
        {0, 0, 1, {0x89, 0x7f}},
        {0, 0, 16, {0xd2, 0xea}},
        {1, 0, 0, {0xcf, 0x49}},
        {0, 1, 0, {0x2b, 0x79}},
        {0x0123456789abcdef, 4294967301, 68719476741, {31, 184}},
    };
    for (size_t i = 0; i < sizeof rows / sizeof *rows; i++) {
        size_t drawn[2] = {0};
        assert(sandpile_sites(256, 1, false, rows[i].seed, rows[i].stream, rows[i].from, drawn, 2) == 0);
        assert(ARE_EQUAL(drawn, rows[i].sites));
    }
}

/* The words of key and nonce 0 at the places 0 and 1, and 16 and 17 (see `sites`). A grid of 256 rows of 256 sites takes one for a
   site, and one of 257 rows takes two. */
static void sites_of_large_grids(void) {
    const struct { size_t height; uint64_t from, number; } rows[] = {
        {256, 0, 0x2fef003e}, {256, 16, 0x0dfaaed2}, {257, 0, 0xd6405f892fef003e}, {257, 8, 0x51c1a5ea0dfaaed2},
    };
    for (size_t i = 0; i < sizeof rows / sizeof *rows; i++) {
        size_t drawn = 0;
        assert(sandpile_sites(256, rows[i].height, false, 0, 0, rows[i].from, &drawn, 1) == 0);
        assert(drawn == rows[i].number % (256 * rows[i].height));
    }
}

/* A site burns if it has a grain for each neighbour that has not. In 0 1 1 only the last site burns first, then the one next
   to it, then the first. In 1 0 0 only the first burns. */
static void burn(void) {
    const uint64_t recurrent[3] = {0, 1, 1}, other[3] = {1, 0, 0};
    const size_t order[3] = {2, 1, 0};
    size_t found[3] = {7, 7, 7}, count = 7;
    bool burns = false;
    assert(sandpile_burn(3, 1, false, recurrent, 3, found, 3, &count, &burns) == 0);
    assert(ARE_EQUAL(found, order) && count == 3 && burns);
    assert(sandpile_burn(3, 1, false, other, 3, found, 3, &count, &burns) == 0);
    assert(found[0] == 1 && found[1] == 2 && count == 2 && !burns);
}

/* The steps of the fires of `burn`: in 0 1 1 the last site burns first, and in 1 0 0 two never burn. */
static void burn_times(void) {
    const uint64_t recurrent[3] = {0, 1, 1}, other[3] = {1, 0, 0};
    const uint32_t steps[2][3] = {{3, 2, 1}, {1, 0, 0}};
    uint32_t times[3] = {7, 7, 7};
    assert(sandpile_burn_times(3, 1, false, recurrent, 3, times, 3) == 0 && ARE_EQUAL(times, steps[0]));
    assert(sandpile_burn_times(3, 1, false, other, 3, times, 3) == 0 && ARE_EQUAL(times, steps[1]));
}

/* East, east and north: the depths are 3 2 1. Of the first site all edges lead below depth 3, of the middle one all but that to
   the west below 2, and of the last one all but that below 1, and none comes before its own. So the pile is 0 1 1. If the last
   site leads south, two edges to the sink come before, and its height is 3. */
static void tree(void) {
    const uint64_t piles[2][3] = {{0, 1, 1}, {0, 1, 3}};
    const uint8_t trees[2][3] = {{2, 2, 0}, {2, 2, 3}};
    for (int i = 0; i < 2; i++) {
        uint8_t directions[3] = {7, 7, 7};
        uint64_t heights[3] = {7, 7, 7};
        assert(sandpile_tree(3, 1, false, piles[i], 3, directions, 3) == 0 && ARE_EQUAL(directions, trees[i]));
        assert(sandpile_of_tree(3, 1, false, trees[i], 3, heights, 3) == 0 && ARE_EQUAL(heights, piles[i]));
    }
}

/* Each row has the faults that are checked after its own, too. */
static void tree_faults(void) {
    const struct {
        size_t width;
        bool cylinder;
        size_t directions, heights;
        uint8_t last;
        uint32_t fault;
    } rows[] = {
        {0, true, 1, 1, 4, SANDPILE_SIDE},
        {2, true, 1, 1, 4, SANDPILE_NARROW},
        {2, false, 1, 2, 4, SANDPILE_LENGTH},
        {2, false, 2, 1, 4, SANDPILE_LENGTH},
        {2, false, 2, 2, 4, SANDPILE_NOT_TREE},
        {2, false, 2, 2, 255, SANDPILE_NOT_TREE},
        {2, false, 2, 2, 1, SANDPILE_NOT_TREE}, /* the two sites lead to each other */
        {2, false, 2, 2, 2, 0},
    };
    for (size_t i = 0; i < sizeof rows / sizeof *rows; i++) {
        const uint8_t directions[2] = {2, rows[i].last};
        const uint64_t sevens[2] = {7, 7};
        uint64_t heights[2] = {7, 7};
        uint32_t fault = sandpile_of_tree(rows[i].width, 1, rows[i].cylinder, directions, rows[i].directions, heights,
                                          rows[i].heights);
        assert(fault == rows[i].fault && ARE_EQUAL(heights, sevens) == (fault != 0));
    }
}

/* The keystream of key and nonce 0 (see `sites`) begins with the byte 3e, whose pairs of bits, from the lowest on, are 2, 3, 3 and
   0. The first walk goes east and south into the sink, and the second one, from the last site, south. That is the tree 2 3 3 of
   depths 2 1 1: all edges of the first site lead to what is less deep, and none to depth 1 comes before its own, so that it has
   4 - 4 grains. With a 1 in front of the key the byte is cf, whose pairs are 3, 3, 0 and 3, and the tree 3 3 0; in front of the
   nonce 2b, with 3, 2, 2 and 0, and the tree 3 2 2. On a cylinder its last site leads to the first, and the depths are 1 3 2. */
static void random_pile(void) {
    const struct { bool cylinder; uint64_t seed, stream, pile[3]; } rows[] = {
        {false, 0, 0, {0, 3, 3}}, {false, 1, 0, {3, 3, 1}}, {false, 0, 1, {3, 1, 2}}, {true, 1, 0, {3, 3, 2}}, {true, 0, 1, {3, 0, 1}},
    };
    for (size_t i = 0; i < sizeof rows / sizeof *rows; i++) {
        uint64_t heights[3] = {7, 7, 7};
        assert(sandpile_random(3, 1, rows[i].cylinder, rows[i].seed, rows[i].stream, heights, 3) == 0);
        assert(ARE_EQUAL(heights, rows[i].pile));
    }
}

/* A toppling of each site takes 3 2 3 grains, which is recurrent; on a cylinder 2 2 2. */
static void identity(void) {
    const uint64_t neutral[2][3] = {{3, 2, 3}, {2, 2, 2}};
    for (int cylinder = 0; cylinder < 2; cylinder++) {
        uint64_t heights[3] = {7, 7, 7};
        assert(sandpile_identity(3, 1, cylinder, heights, 3) == 0 && ARE_EQUAL(heights, neutral[cylinder]));
    }
}

/* With the identity, 1 0 0 is 4 2 3, and the first site topples. */
static void recurrent(void) {
    uint64_t heights[3] = {1, 0, 0};
    const uint64_t equivalent[3] = {0, 3, 3};
    assert(sandpile_recurrent(3, 1, false, heights, 3) == 0 && ARE_EQUAL(heights, equivalent));
}

/* 0 3 3 and 3 2 0 are 3 5 3. The middle topples, then both ends, which have 4, and the middle has 3. */
static void add(void) {
    uint64_t heights[3] = {0, 3, 3};
    const uint64_t others[3] = {3, 2, 0}, sum[3] = {0, 3, 0};
    assert(sandpile_add(3, 1, false, heights, 3, others, 3) == 0 && ARE_EQUAL(heights, sum));
}

/* 1 0 1 and 2 2 2 are the identity. */
static void inverse(void) {
    uint64_t heights[3] = {1, 0, 1};
    const uint64_t negative[3] = {2, 2, 2};
    assert(sandpile_inverse(3, 1, false, heights, 3) == 0 && ARE_EQUAL(heights, negative));
}

/* Toppling the middle shows that 1 0 1 is 4 times 0 1 0, and toppling both ends that 4 0 4 is 2 times 0 1 0. So 16 times 0 1 0
   is 2 times 0 1 0, 14 times 0 1 0 is the identity, and so is 7 times 1 0 1, which is 28 times 0 1 0. And 2^64 is 2 modulo 7.
   For less than (2^40 - 1) / 18 copies, a multiple of 7, one settling is enough. */
static void multiple(void) {
    const struct { uint64_t n, sum[3]; } rows[] = {
        {0, {3, 2, 3}}, {1, {1, 0, 1}}, {2, {2, 0, 2}}, {3, {3, 0, 3}}, {7, {3, 2, 3}}, {UINT64_MAX, {1, 0, 1}},
        {61083979319, {2, 2, 2}}, {61083979320, {3, 2, 3}}, {61083979321, {1, 0, 1}},
    };
    for (size_t i = 0; i < sizeof rows / sizeof *rows; i++) {
        uint64_t heights[3] = {1, 0, 1};
        assert(sandpile_multiple(3, 1, false, heights, 3, rows[i].n) == 0 && ARE_EQUAL(heights, rows[i].sum));
    }
}

/* 4 3 3 topples, and the first two sites of 0 0 3 form a forbidden set. Neither is reported as out of memory. */
static void no_elements(void) {
    const uint64_t piles[2][3] = {{4, 3, 3}, {0, 0, 3}}, full[3] = {3, 3, 3};
    const uint32_t faults[2] = {SANDPILE_UNSTABLE, SANDPILE_NOT_RECURRENT};
    for (int i = 0; i < 2; i++) {
        uint64_t heights[3], sum[3] = {3, 3, 3};
        uint8_t directions[3];
        uint32_t times[3];
        memcpy(heights, piles[i], sizeof heights);
        assert(sandpile_tree(3, 1, false, heights, 3, directions, 3) == faults[i]);
        assert(sandpile_add(3, 1, false, heights, 3, full, 3) == faults[i]);
        assert(sandpile_add(3, 1, false, sum, 3, heights, 3) == faults[i] && ARE_EQUAL(sum, full));
        assert(sandpile_inverse(3, 1, false, heights, 3) == faults[i]);
        assert(sandpile_multiple(3, 1, false, heights, 3, 2) == faults[i] && ARE_EQUAL(heights, piles[i]));
        assert(sandpile_burn_times(3, 1, false, heights, 3, times, 3) == (i == 0 ? SANDPILE_UNSTABLE : 0));
    }
}

/* -1 0 0 needs a toppling of each site taken back: with 3 2 3, or on a cylinder 2 2 2, it is recurrent. */
static void class(void) {
    const int64_t equivalent[2][3] = {{2, 2, 3}, {1, 2, 2}}, back[3] = {-1, -1, -1};
    for (int cylinder = 0; cylinder < 2; cylinder++) {
        int64_t heights[3] = {-1, 0, 0}, same[3] = {-1, 0, 0}, firing[3] = {7, 7, 7};
        assert(sandpile_class(3, 1, cylinder, heights, 3, firing, 3) == 0);
        assert(ARE_EQUAL(heights, equivalent[cylinder]) && ARE_EQUAL(firing, back));
        assert(sandpile_class(3, 1, cylinder, same, 3, NULL, 0) == 0 && ARE_EQUAL(same, heights));
        assert(sandpile_class(3, 1, cylinder, same, 3, firing, 2) == SANDPILE_LENGTH && ARE_EQUAL(same, heights));
    }
}

/* 3 2 3 is a toppling of each site, which leaves 0 0 0. And 3 less -1 0 0 is 4 3 3: from the first site to the last each topples
   once, and 1 1 0 is left; it burns, so 2 2 3 is superstable. */
static void superstable(void) {
    int64_t heights[2][3] = {{3, 2, 3}, {-1, 0, 0}};
    const int64_t equivalent[2][3] = {{0, 0, 0}, {2, 2, 3}};
    for (int i = 0; i < 2; i++) {
        assert(sandpile_superstable(3, 1, false, heights[i], 3) == 0 && ARE_EQUAL(heights[i], equivalent[i]));
    }
}

/* 7 2 3 above 2 3 3 and 3 3 3: the first site topples, and all have 3. The grain in the middle topples it, then the four sides,
   then the corners, which have 5 by then, and then the middle again, which has 4. A side loses one grain, a corner two. The
   grain on the second site topples only this site. */
static void drive(void) {
    const uint64_t start[9] = {7, 2, 3, 2, 3, 3, 3, 3, 3}, full[9] = {3, 3, 3, 3, 3, 3, 3, 3, 3};
    const uint64_t settled[9] = {2, 0, 2, 3, 1, 3, 1, 3, 1}, toppled[9] = {2, 2, 1, 1, 2, 1, 1, 1, 1};
    uint64_t heights[9] = {0}, odometer[9] = {0}, topplings = 7, lost = 7, drops = 7;
    const size_t sites[2] = {4, 1};
    sandpile_avalanche a[2];
    sandpile_drive driven = {0};
    assert(sandpile_drive_new(3, 3, false, start, 9, &driven) == 0);
    assert(sandpile_drive_read(&driven, heights, 9, odometer, 0, &topplings, &lost, &drops) == 0);
    assert(ARE_EQUAL(heights, full) && topplings == 1 && lost == 2 && drops == 0);
    assert(sandpile_drive_drop(&driven, sites, 2, a, 2) == 0);
    assert(is_avalanche(a[0], 4, 10, 9, 2, 12) && is_avalanche(a[1], 1, 1, 1, 0, 1));
    assert(sandpile_drive_read(&driven, heights, 9, odometer, 9, &topplings, &lost, &drops) == 0);
    assert(ARE_EQUAL(heights, settled) && ARE_EQUAL(odometer, toppled) && topplings == 12 && lost == 15 && drops == 2);
    sandpile_drive_free(&driven);
    assert(!driven.at);
}

static bool is_wave(sandpile_wave a, uint64_t number, uint64_t wave, uint64_t size) {
    return a.number == number && a.wave == wave && a.size == size;
}

/* The drops of `drive`, and one that topples nothing. In the first wave of the first drop all sites topple, and in the second
   one the middle alone. On a cylinder the first wave is the same, and the second one is the middle and the two sites next to
   it. The outer rows then have 3 3 3, and a grain on one of them topples that row. A drop has at most two waves. */
static void waves(void) {
    const uint64_t start[9] = {3, 3, 3, 3, 3, 3, 3, 3, 3};
    const size_t drops[3] = {4, 1, 0};
    sandpile_wave found[6] = {{7, 7, 7}, {7, 7, 7}, {7, 7, 7}, {7, 7, 7}, {7, 7, 7}, {7, 7, 7}};
    size_t count = 7;
    sandpile_avalanche a[3];
    sandpile_drive driven = {0};
    assert(sandpile_drive_new(3, 3, false, start, 9, &driven) == 0);
    assert(sandpile_drive_waves(&driven, drops, 3, a, 3, found, 6, &count) == 0 && count == 3);
    assert(is_wave(found[0], 0, 0, 9) && is_wave(found[1], 0, 1, 1) && is_wave(found[2], 1, 0, 1) && is_wave(found[3], 7, 7, 7));
    assert(is_avalanche(a[0], 4, 10, 9, 2, 12) && is_avalanche(a[1], 1, 1, 1, 0, 1) && is_avalanche(a[2], 0, 0, 0, 0, 0));
    sandpile_drive_free(&driven);
    assert(sandpile_drive_new(3, 3, true, start, 9, &driven) == 0);
    assert(sandpile_drive_waves(&driven, drops, 1, a, 1, found, 2, &count) == 0 && count == 2);
    assert(is_wave(found[0], 0, 0, 9) && is_wave(found[1], 0, 1, 3) && is_avalanche(a[0], 4, 12, 9, 2, 6));
    assert(sandpile_drive_waves(&driven, drops + 1, 1, a, 1, found, 3, &count) == 0 && count == 1);
    assert(is_wave(found[0], 1, 0, 3) && is_wave(found[1], 0, 1, 3) && is_avalanche(a[0], 1, 3, 3, 1, 3));
    sandpile_drive_free(&driven);
}

/* 3 by 3 of all 3 on a cylinder. The grain in the middle topples all sites. The outer rows then have 2, since each of their
   sites has lost a grain, and the middle row has 3 4 3. Its middle topples again, then the two sites next to it. */
static void avalanche(void) {
    const uint64_t start[9] = {3, 3, 3, 3, 3, 3, 3, 3, 3}, settled[9] = {3, 3, 3, 1, 2, 1, 3, 3, 3};
    const uint64_t toppled[9] = {1, 1, 1, 2, 2, 2, 1, 1, 1};
    uint64_t heights[9] = {0}, counts[9] = {0}, topplings = 7, lost = 7, drops = 7;
    sandpile_avalanche a;
    sandpile_drive driven = {0};
    assert(sandpile_drive_new(3, 3, true, start, 9, &driven) == 0);
    assert(sandpile_drive_avalanche(&driven, 4, &a, counts, 9) == 0);
    assert(is_avalanche(a, 4, 12, 9, 2, 6) && ARE_EQUAL(counts, toppled));
    assert(sandpile_drive_read(&driven, heights, 9, counts, 0, &topplings, &lost, &drops) == 0);
    assert(ARE_EQUAL(heights, settled) && topplings == 12 && lost == 6 && drops == 1);
    sandpile_drive_free(&driven);
}

/* 3 3 3 above 1 2 1 and 3 3 3 on a cylinder. A grain in the middle topples nothing. A second one, dropped in a list, topples
   the middle, which has 4, then the sites above and below it, and the corners, which have 4 and 5. The sites beside the middle
   then have 4 and 5, too, and once they topple the middle has 4 again. That leaves 2 3 2 above 2 0 2 and 2 3 2. A third grain
   topples nothing, and one above it only its site. */
static void avalanches(void) {
    const uint64_t start[9] = {3, 3, 3, 1, 2, 1, 3, 3, 3}, settled[9] = {3, 0, 3, 2, 2, 2, 2, 3, 2};
    const uint64_t none[9] = {0}, above[9] = {0, 1}, toppled[9] = {1, 2, 1, 1, 2, 1, 1, 1, 1};
    uint64_t heights[9] = {0}, counts[9], odometer[9] = {0}, topplings = 7, lost = 7, drops = 7;
    const size_t middle = 4;
    sandpile_avalanche a;
    sandpile_drive driven = {0};
    assert(sandpile_drive_new(3, 3, true, start, 9, &driven) == 0);
    for (int i = 0; i < 2; i++) {
        memset(counts, 0x55, sizeof counts);
        assert(sandpile_drive_avalanche(&driven, middle, &a, counts, 9) == 0);
        assert(is_avalanche(a, 4, 0, 0, 0, 0) && ARE_EQUAL(counts, none));
        if (i == 0) assert(sandpile_drive_drop(&driven, &middle, 1, &a, 1) == 0 && is_avalanche(a, 4, 10, 9, 2, 6));
    }
    assert(sandpile_drive_avalanche(&driven, 1, &a, counts, 9) == 0);
    assert(is_avalanche(a, 1, 1, 1, 0, 1) && ARE_EQUAL(counts, above));
    assert(sandpile_drive_read(&driven, heights, 9, odometer, 9, &topplings, &lost, &drops) == 0);
    assert(ARE_EQUAL(heights, settled) && ARE_EQUAL(odometer, toppled) && topplings == 11 && lost == 7 && drops == 4);
    sandpile_drive_free(&driven);
}

/* 5 0 0 settles to 1 1 0. Three grains on the first site make it 4 1 0, and then 0 2 0. */
static void site(void) {
    const uint64_t start[3] = {5, 0, 0}, first[2][2] = {{1, 1}, {0, 2}}, second[2][2] = {{1, 0}, {2, 0}};
    const size_t drops[3] = {0, 0, 0};
    uint64_t found[2] = {7, 7};
    sandpile_avalanche a[3];
    sandpile_drive driven = {0};
    assert(sandpile_drive_new(3, 1, false, start, 3, &driven) == 0);
    for (int i = 0; i < 2; i++) {
        assert(sandpile_drive_site(&driven, 0, &found[0], &found[1]) == 0 && ARE_EQUAL(found, first[i]));
        assert(sandpile_drive_site(&driven, 1, &found[0], &found[1]) == 0 && ARE_EQUAL(found, second[i]));
        assert(sandpile_drive_drop(&driven, drops, 3, a, 3) == 0);
    }
    assert(sandpile_drive_site(&driven, 3, &found[0], &found[1]) == SANDPILE_NO_SITE && ARE_EQUAL(found, second[1]));
    sandpile_drive_free(&driven);
    assert(sandpile_drive_site(&driven, 3, &found[0], &found[1]) == SANDPILE_EMPTY && ARE_EQUAL(found, second[1]));
}

static bool holds(sandpile_pass *pass, uint64_t left, uint64_t seen, size_t drops, uint16_t first_row, uint16_t end_row) {
    sandpile_holding h;
    assert(sandpile_pass_holding(pass, &h) == 0);
    return h.left == left && h.seen == seen && h.drops == drops && h.first_row == first_row && h.end_row == end_row;
}

/* 9 0 2 in a column: each site is a row. Five drops make it 11 0 5. The first row topples twice (3 2 5), the last one once
   (3 3 1). The sixth drop makes it 3 4 1: the middle topples (4 0 2), and then the first row (0 1 2). A toppling in the middle
   loses two grains, one at an end three. Of the quota of 20, `child` gets 9 and drops 2, and `first` keeps 11 and drops 3. */
static void share(void) {
    const uint64_t start[3] = {9, 0, 2}, settled[3] = {0, 1, 2}, toppled[3] = {3, 1, 1};
    const size_t drops[6] = {0, 0, 2, 2, 2, 1};
    uint64_t heights[3] = {0}, odometer[3] = {0}, number = 7, topplings = 7, lost = 7;
    size_t history[6] = {0};
    sandpile_pass first = {0}, child = {0}, lower = {0};
    assert(sandpile_shared_new(1, 3, false, start, 3, 20, &first) == 0 && holds(&first, 20, 0, 0, 0, 3));
    assert(sandpile_pass_split(&first, 9, &child) == 0 && holds(&child, 9, 0, 0, 0, 0));
    assert(sandpile_pass_split_rows(&first, 2, &lower) == 0 && holds(&lower, 0, 0, 0, 1, 3));
    assert(sandpile_pass_drop(&first, drops, 3, &number) == 0 && number == 0 && holds(&first, 8, 3, 3, 0, 1));
    assert(sandpile_pass_drop(&child, drops + 3, 2, &number) == 0 && number == 3 && holds(&child, 7, 5, 2, 0, 0));
    assert(sandpile_pass_sweep(&first, &topplings) == 0 && topplings == 2);
    assert(sandpile_pass_sweep(&lower, &topplings) == 0 && topplings == 1);
    assert(sandpile_pass_tally(&first, &number) == 0 && number == 5 && holds(&first, 8, 5, 3, 0, 1));
    assert(sandpile_pass_join(&lower, &child) == 0 && !child.at && holds(&lower, 7, 5, 2, 1, 3));
    assert(sandpile_pass_join(&first, &lower) == 0 && !lower.at && holds(&first, 15, 5, 5, 0, 3));
    assert(sandpile_pass_drop(&first, drops + 5, 1, &number) == 0 && number == 5 && holds(&first, 14, 6, 6, 0, 3));
    assert(sandpile_pass_settle(&first, heights, 3, odometer, 3, history, 6, &topplings, &lost) == 0);
    assert(ARE_EQUAL(heights, settled) && ARE_EQUAL(odometer, toppled) && ARE_EQUAL(history, drops));
    assert(topplings == 5 && lost == 14);
    sandpile_pass_free(&first);
    assert(!first.at);
}

/* A shared pile without drops is the pile of `settle`. */
static void share_no_drops(void) {
    const uint64_t start[3] = {5, 0, 0}, settled[2][3] = {{1, 1, 0}, {1, 1, 1}}, once[3] = {1, 0, 0}, lost[2] = {3, 2};
    for (int cylinder = 0; cylinder < 2; cylinder++) {
        uint64_t heights[3] = {7, 7, 7}, odometer[3] = {7, 7, 7}, sunk = 7, topplings = 7;
        size_t history[1];
        sandpile_pass pass = {0};
        assert(sandpile_shared_new(3, 1, cylinder, start, 3, 0, &pass) == 0);
        assert(sandpile_pass_settle(&pass, heights, 3, odometer, 3, history, 0, &topplings, &sunk) == 0);
        assert(ARE_EQUAL(heights, settled[cylinder]) && ARE_EQUAL(odometer, once));
        assert(sunk == lost[cylinder] && topplings == 1);
        sandpile_pass_free(&pass);
    }
}

/* An array of length 0 may be null, as that of an empty std::vector. */
static void null_arrays(void) {
    uint64_t heights[3] = {5, 0, 0}, odometer[3] = {0}, number = 7, lost = 7, topplings = 7, drops = 7;
    size_t count = 7;
    const uint64_t settled[3] = {1, 1, 0}, once[3] = {1, 0, 0};
    sandpile_drive driven = {0};
    sandpile_pass pass = {0};
    assert(sandpile_settle_all(3, 1, false, NULL, 0, NULL, 0, NULL, 0, NULL, 0) == 0);
    assert(sandpile_sites(3, 1, false, 0, 0, 0, NULL, 0) == 0);
    assert(sandpile_drive_new(3, 1, false, heights, 3, &driven) == 0);
    assert(sandpile_drive_drop(&driven, NULL, 0, NULL, 0) == 0);
    assert(sandpile_drive_waves(&driven, NULL, 0, NULL, 0, NULL, 0, &count) == 0 && count == 0);
    assert(sandpile_drive_read(&driven, NULL, 0, NULL, 0, &topplings, &lost, &drops) == 0);
    assert(topplings == 1 && lost == 3 && drops == 0);
    assert(sandpile_shared_new(3, 1, false, heights, 3, 0, &pass) == 0);
    assert(sandpile_pass_drop(&pass, NULL, 0, &number) == 0);
    assert(sandpile_pass_settle(&pass, heights, 3, odometer, 3, NULL, 0, &topplings, &lost) == 0);
    assert(ARE_EQUAL(heights, settled) && ARE_EQUAL(odometer, once) && topplings == 1 && lost == 3);
    sandpile_drive_free(&driven);
    sandpile_pass_free(&pass);
}

/* Where an array has an element for each site, null and 0 are the wrong length. */
static void null_piles(void) {
    uint64_t heights[3] = {1, 1, 0}, lost, topplings;
    size_t count;
    bool recurrent;
    sandpile_avalanche a;
    sandpile_drive driven = {0};
    sandpile_pass pass = {0};
    assert(sandpile_settle(3, 1, false, NULL, 0, NULL, 0, &lost, &topplings) == SANDPILE_LENGTH);
    assert(sandpile_burn(3, 1, false, NULL, 0, NULL, 0, &count, &recurrent) == SANDPILE_LENGTH);
    assert(sandpile_burn_times(3, 1, false, NULL, 0, NULL, 0) == SANDPILE_LENGTH);
    assert(sandpile_tree(3, 1, false, NULL, 0, NULL, 0) == SANDPILE_LENGTH);
    assert(sandpile_of_tree(3, 1, false, NULL, 0, NULL, 0) == SANDPILE_LENGTH);
    assert(sandpile_random(3, 1, false, 0, 0, NULL, 0) == SANDPILE_LENGTH);
    assert(sandpile_identity(3, 1, false, NULL, 0) == SANDPILE_LENGTH);
    assert(sandpile_recurrent(3, 1, false, NULL, 0) == SANDPILE_LENGTH);
    assert(sandpile_add(3, 1, false, NULL, 0, NULL, 0) == SANDPILE_LENGTH);
    assert(sandpile_inverse(3, 1, false, NULL, 0) == SANDPILE_LENGTH);
    assert(sandpile_multiple(3, 1, false, NULL, 0, 2) == SANDPILE_LENGTH);
    assert(sandpile_class(3, 1, false, NULL, 0, NULL, 0) == SANDPILE_LENGTH);
    assert(sandpile_superstable(3, 1, false, NULL, 0) == SANDPILE_LENGTH);
    assert(sandpile_drive_new(3, 1, false, NULL, 0, &driven) == SANDPILE_LENGTH && !driven.at);
    assert(sandpile_drive_new(3, 1, false, heights, 3, &driven) == 0);
    assert(sandpile_drive_avalanche(&driven, 0, &a, NULL, 0) == SANDPILE_LENGTH);
    assert(sandpile_shared_new(3, 1, false, NULL, 0, 0, &pass) == SANDPILE_LENGTH && !pass.at);
    sandpile_drive_free(&driven);
}

/* Like `free`, a call that frees takes null; and an empty handle, which stays empty. */
static void free_nothing(void) {
    sandpile_drive driven = {0};
    sandpile_pass pass = {0};
    sandpile_drive_free(NULL);
    sandpile_pass_free(NULL);
    sandpile_drive_free(&driven);
    sandpile_pass_free(&pass);
    assert(!driven.at && !pass.at);
}

int main(void) {
    version();
    grain_limit();
    fill_up();
    settle();
    settle_all();
    settle_all_faults();
    sites();
    sites_of_large_grids();
    burn();
    burn_times();
    tree();
    tree_faults();
    random_pile();
    identity();
    recurrent();
    add();
    inverse();
    multiple();
    no_elements();
    class();
    superstable();
    drive();
    waves();
    avalanche();
    avalanches();
    site();
    share();
    share_no_drops();
    null_arrays();
    null_piles();
    free_nothing();
    return 0;
}
