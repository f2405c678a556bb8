/* libsandpile: abelian sandpiles on grids with open edges and on cylinders, for C99 and C++.

   A grid has `width` columns and `height` rows, each from 1 to 8192. On a cylinder the first and the last column are
   neighbours, and the width is at least 3. Site `row * width + column` has the height `heights[row * width + column]`.
   An array is passed as a pointer and its number of elements. A pile has one element per site, and at most as many grains,
   drops included, as `sandpile_grain_limit` says: 1,099,511,627,775 on up to 361 rows, fewer on more.

   Functions that list faults return 0 or the number of a fault; after a fault, no array or number passed in has
   changed. Faults are listed in the order in which they are checked. Only MEMORY may come before one that is listed after
   "then".

   An array of length 0 may be null, and so may the handle that a call frees. No other pointer may be, also not one to a number
   that is not wanted. No two pointers of one call may point to the same memory (`sandpile_pass_join` says what it does if they
   do). No state is kept between calls, except behind handles (below): threads may call concurrently, on different arrays, or on
   one array that all their calls take as `const`.

   The library needs a processor of x86-64-v2, as most since 2009 are; on an older one, a call ends the program by SIGILL.
   If it was built for x86-64-v3, it exports `sandpile_x86_64_v3`, and on an older processor the loader of glibc refuses it:
   "CPU ISA level is lower than required". The loader also refuses a program in which GNU ld has linked the static library, if
   the program loads glibc. Any other program with a static library for x86-64-v3 has to check the processor itself.

   Calls compute with floating-point numbers, too. If a program has made inexact results trap (`feenableexcept`), SIGFPE ends
   it. Calls may raise floating-point flags. They return the same in each rounding mode.

   A call needs at most 24 KiB of stack. Do not call from a signal handler, or in a forked child if its parent had several
   threads. Memory comes from `malloc`, `realloc` and `free`. In a program that replaces them, all three must belong to one
   allocator, and the address of a block must be a multiple of each power of two up to 16 that divides the block's size.

   While it runs, a call takes at most n bytes for each site of a grid with 16 more columns and 16 more rows. Here n is 20 to burn a
   pile, to draw a random one or to make that of a tree, 24 for burning times, 30 for the tree of a pile, 80 to settle, 100 for the
   other calls of the group, and 140 for integer heights. Where a pile settles, it takes 12 times the square of the width as well:
   most of it if there are far more columns than rows. What handles keep is said below. */
#ifndef SANDPILE_H
#define SANDPILE_H

#include <stdbool.h>
#include <stddef.h>
#include <stdint.h>

#ifdef __cplusplus
extern "C" {
#endif

/* The version of this header: 10000 * major + 100 * minor + patch. */
#define SANDPILE_VERSION 10000

enum {
    SANDPILE_SIDE = 1,
    SANDPILE_LENGTH = 2,
    SANDPILE_TOO_MANY_GRAINS = 3,
    SANDPILE_MEMORY = 4,
    SANDPILE_FULL = 6,
    SANDPILE_UNSTABLE = 7,
    SANDPILE_NOT_RECURRENT = 8,
    SANDPILE_TOO_MUCH = 10,
    SANDPILE_ROWS = 11,
    SANDPILE_APART = 12,
    SANDPILE_SPENT = 13,
    SANDPILE_MISSING = 14,
    SANDPILE_TAKEN = 17,
    SANDPILE_NARROW = 24,
    SANDPILE_NO_SITE = 25,
    SANDPILE_EMPTY = 26,
    SANDPILE_OTHER_PILE = 27,
    SANDPILE_NOT_TREE = 28
};

/* A sentence for a fault. */
static inline const char *sandpile_explain(uint32_t fault) {
    switch (fault) {
    case 0: return "no fault";
    case SANDPILE_SIDE: return "the width or the height of a grid is outside 1 to 8192";
    case SANDPILE_LENGTH: return "an array has the wrong length";
    case SANDPILE_TOO_MANY_GRAINS: return "the pile has more grains than the limit of its grid";
    case SANDPILE_MEMORY: return "an allocation failed";
    case SANDPILE_FULL: return "the pile and its drops exceed the grain limit of the grid together";
    case SANDPILE_UNSTABLE: return "a site has more than 3 grains";
    case SANDPILE_NOT_RECURRENT: return "a pile is not recurrent: some of its sites form a forbidden set";
    case SANDPILE_TOO_MUCH: return "the quota exceeds what the pass has left";
    case SANDPILE_ROWS: return "more rows than the pass has";
    case SANDPILE_APART: return "the rows of the two passes are not adjacent";
    case SANDPILE_SPENT: return "more drops than the pass has left";
    case SANDPILE_MISSING: return "the pass is missing quota, drops or rows";
    case SANDPILE_TAKEN: return "the handle already holds something";
    case SANDPILE_NARROW: return "a cylinder is less than 3 wide";
    case SANDPILE_NO_SITE: return "a site is outside the grid";
    case SANDPILE_EMPTY: return "the handle holds nothing";
    case SANDPILE_OTHER_PILE: return "the two passes belong to different piles";
    case SANDPILE_NOT_TREE: return "the directions are not a spanning tree";
    default: return "unknown fault number";
    }
}

/* The version of the linked library, in the format of SANDPILE_VERSION. */
uint32_t sandpile_version(void);

/* Writes the grain limit of a grid: 1,099,511,627,775, or (2^57 - 1) / (height + 1)^2, rounded down, if that is less. A settled pile
   has then toppled less than 2^54 times. SIDE, NARROW. */
uint32_t sandpile_grain_limit(size_t width, size_t height, bool cylinder, uint64_t *limit);

/* What one drop caused. */
typedef struct sandpile_avalanche {
    size_t site;    /* where the grain was dropped */
    uint64_t size;  /* topplings */
    uint32_t area;  /* sites that toppled */
    uint32_t reach; /* greatest distance from the drop to a site that toppled, in columns plus rows; 0 if none did. On a
                       cylinder columns are counted the shorter way around */
    uint64_t lost;  /* grains that fell over the edge */
} sandpile_avalanche;

/* Settles a pile. Writes the settled heights, how often each site toppled, the grains lost and the number of topplings.
   `heights_length` and `odometer_length` are width times height. A stable pile takes no memory.
   SIDE, NARROW, LENGTH, TOO_MANY_GRAINS, MEMORY. */
uint32_t sandpile_settle(size_t width, size_t height, bool cylinder, uint64_t *heights, size_t heights_length,
                         uint64_t *odometer, size_t odometer_length, uint64_t *lost, uint64_t *topplings);

/* Settles several piles on grids of one shape. `heights` has all heights of the first pile, then those of the second, and so
   on. Writes for each pile what `sandpile_settle` writes. `lost_length` and `topplings_length` are the number of piles, which
   may be 0; `heights_length` and `odometer_length` are width times height times the number of piles. The limit is for each
   pile alone; if one exceeds it, none is settled. The call needs 16 bytes for each site of each pile, 16 bytes for each
   pile, and what settling one of them needs.
   SIDE, NARROW, LENGTH, TOO_MANY_GRAINS, MEMORY. */
uint32_t sandpile_settle_all(size_t width, size_t height, bool cylinder, uint64_t *heights, size_t heights_length,
                             uint64_t *odometer, size_t odometer_length, uint64_t *lost, size_t lost_length,
                             uint64_t *topplings, size_t topplings_length);

/* Writes `sites_length` sites of a stream of random drops, without the first `from` sites of the stream. A stream consists of
   the 32-bit words of ChaCha8, each modulo the number of sites; on more than 65,536 sites it consists of pairs of words, each
   pair read as a number of 64 bits, the low half first, modulo the number of sites. The key is the seed's 8 bytes, the lowest
   first, and then 24 zeros; the 64-bit nonce is `stream`, and the 64-bit block counter begins with 0. SIDE, NARROW. */
uint32_t sandpile_sites(size_t width, size_t height, bool cylinder, uint64_t seed, uint64_t stream, uint64_t from, size_t *sites,
                        size_t sites_length);

/* Burns a stable pile. If it is recurrent, `found` becomes a burning order of all sites, and `count` is their number; if not,
   the first `count` elements of `found` become the greatest forbidden set, ascending, and the others stay as they were.
   `heights_length` and `found_length` are width times height.
   SIDE, NARROW, LENGTH, TOO_MANY_GRAINS; then UNSTABLE or MEMORY. */
uint32_t sandpile_burn(size_t width, size_t height, bool cylinder, const uint64_t *heights, size_t heights_length,
                       size_t *found, size_t found_length, size_t *count, bool *recurrent);

/* Writes the identity of the sandpile group. `heights_length` is width times height. SIDE, NARROW, LENGTH, MEMORY. */
uint32_t sandpile_identity(size_t width, size_t height, bool cylinder, uint64_t *heights, size_t heights_length);

/* Replaces a pile with the recurrent pile equivalent to it. `heights_length` is width times height. SIDE, NARROW, LENGTH,
   TOO_MANY_GRAINS, MEMORY. */
uint32_t sandpile_recurrent(size_t width, size_t height, bool cylinder, uint64_t *heights, size_t heights_length);

/* Replaces the first of two recurrent piles with their sum. To double a pile take `sandpile_multiple`, since the two may
   not be one array. `heights_length` and `others_length` are width times height. SIDE, NARROW, LENGTH, TOO_MANY_GRAINS; then
   UNSTABLE or NOT_RECURRENT for the first pile, then for the second; or MEMORY. */
uint32_t sandpile_add(size_t width, size_t height, bool cylinder, uint64_t *heights, size_t heights_length,
                      const uint64_t *others, size_t others_length);

/* Replaces a recurrent pile with its inverse. `heights_length` is width times height. SIDE, NARROW, LENGTH,
   TOO_MANY_GRAINS; then UNSTABLE, NOT_RECURRENT or MEMORY. */
uint32_t sandpile_inverse(size_t width, size_t height, bool cylinder, uint64_t *heights, size_t heights_length);

/* Replaces a recurrent pile with the sum of n copies of it; for n = 0 that is the identity. `heights_length` is width times
   height. SIDE, NARROW, LENGTH, TOO_MANY_GRAINS; then UNSTABLE, NOT_RECURRENT or MEMORY. */
uint32_t sandpile_multiple(size_t width, size_t height, bool cylinder, uint64_t *heights, size_t heights_length, uint64_t n);

/* The two calls below take integer heights, which may be negative; the absolute values sum to at most the grain limit. Heights are
   equivalent if topplings, legal or not, and topplings taken back lead from one to the other. */

/* Replaces integer heights with the one recurrent pile equivalent to them. `firing` becomes the firing vector: how often each
   site topples on the way, less than 0 where topplings are taken back. Only one vector leads there, and for a recurrent pile it
   is 0. `heights_length` is width times height; `firing_length` is the same, or 0 to leave the vector out. SIDE, NARROW, LENGTH,
   TOO_MANY_GRAINS, MEMORY. */
uint32_t sandpile_class(size_t width, size_t height, bool cylinder, int64_t *heights, size_t heights_length, int64_t *firing,
                        size_t firing_length);

/* Replaces integer heights with the one superstable configuration (G-parking function) equivalent to them: no height is
   negative, and if the sites of any non-empty set topple once each, at least one of them becomes negative. Superstable heights,
   and no others, stay as they are. `heights_length` is width times height. SIDE, NARROW, LENGTH, TOO_MANY_GRAINS, MEMORY. */
uint32_t sandpile_superstable(size_t width, size_t height, bool cylinder, int64_t *heights, size_t heights_length);

/* Writes the step in which each site of a stable pile burns, from 1 on, if in each step all sites burn that can; 0 for each site
   that never burns. `heights_length` and `times_length` are width times height. SIDE, NARROW, LENGTH, TOO_MANY_GRAINS; then
   UNSTABLE or MEMORY. */
uint32_t sandpile_burn_times(size_t width, size_t height, bool cylinder, const uint64_t *heights, size_t heights_length,
                             uint32_t *times, size_t times_length);

/* Spanning trees.

   A spanning tree has a direction for each site, 0 (north), 1 (west), 2 (east) or 3 (south), over which it reaches the sink.
   A direction may lead out of the grid: into the sink. The depth of a site is the number of edges on its way to the sink. The
   pile of a tree has at each site 4 grains, less the number of its edges that lead to less than its own depth, plus the number
   of its edges before its own direction, in the order north, west, east, south, that lead to one depth less. It is recurrent,
   and its burning times are the depths. Each recurrent pile is the pile of exactly one tree (Majumdar and Dhar 1992). */

/* Writes the directions of the tree of a recurrent pile. `heights_length` and `directions_length` are width times height. SIDE,
   NARROW, LENGTH, TOO_MANY_GRAINS; then UNSTABLE, NOT_RECURRENT or MEMORY. */
uint32_t sandpile_tree(size_t width, size_t height, bool cylinder, const uint64_t *heights, size_t heights_length,
                       uint8_t *directions, size_t directions_length);

/* Writes the pile of a tree. `directions_length` and `heights_length` are width times height. NOT_TREE is returned for
   directions that lead around a cycle, and for a direction above 3. SIDE, NARROW, LENGTH; then NOT_TREE or MEMORY. */
uint32_t sandpile_of_tree(size_t width, size_t height, bool cylinder, const uint8_t *directions, size_t directions_length,
                          uint64_t *heights, size_t heights_length);

/* Writes a random recurrent pile; each is as likely as any other. It is the pile of the tree that Wilson's algorithm (1996) makes
   by walks from each site in turn. Each step takes the next two bits of the stream's words, the lowest first, as its direction;
   the streams are those of `sandpile_sites`. `heights_length` is width times height. SIDE, NARROW, LENGTH, MEMORY. */
uint32_t sandpile_random(size_t width, size_t height, bool cylinder, uint64_t seed, uint64_t stream, uint64_t *heights,
                         size_t heights_length);

/* Handles.

   A handle is a struct that the caller owns; `{0}` is an empty one. What it holds lives until a call frees it or a join
   takes it. A call fills a handle only if it is empty and the call succeeds; after a fault no handle has changed. The field
   `at` belongs to the library: never write it. You may move a handle by copying the struct, if the old one is no longer
   used; a copy is not a second handle.

   Calls on one handle must not run at the same time, except those that take it as `const`: these only read, and any number of
   them may. Calls on different handles may run at the same time, on any threads, even if their passes share a pile. Pass a
   handle to another thread by anything that makes the calls before happen before the calls after: starting or joining a
   thread, a lock, a condition variable, a pipe, or an atomic that one thread stores with `memory_order_release` and the other
   loads with `memory_order_acquire`.

   A fork copies what handles hold, like all memory. Parent and child go on independently: neither sees the other's drops. */

/* A driven pile: settled, and settled again after each drop. It takes at most 42 bytes for each site of a grid with 16 more
   columns and 16 more rows. Three calls settle a pile, drop grains on it and write the result: `sandpile_drive_new`,
   `sandpile_drive_drop` and `sandpile_drive_read`. */
typedef struct sandpile_drive {
    void *at;
} sandpile_drive;

/* Fills an empty handle with a settled copy of a pile. `heights_length` is width times height. TAKEN, SIDE, NARROW, LENGTH,
   TOO_MANY_GRAINS, MEMORY. */
uint32_t sandpile_drive_new(size_t width, size_t height, bool cylinder, const uint64_t *heights, size_t heights_length,
                            sandpile_drive *drive);

/* Drops a grain at each site of `drops` in turn; each settles before the next. Writes an avalanche for each drop;
   `avalanches_length` is `drops_length`. The call needs no memory. Several calls do the same as one call with all their
   drops. The grains of the start and of all drops since may not exceed the limit (FULL), even if some are lost. EMPTY,
   LENGTH, NO_SITE, FULL. */
uint32_t sandpile_drive_drop(sandpile_drive *drive, const size_t *drops, size_t drops_length, sandpile_avalanche *avalanches,
                             size_t avalanches_length);

/* A wave of a drop: the site of the drop topples once, and then each other site that this brings to 4, also once. */
typedef struct sandpile_wave {
    uint64_t number; /* of the drop, from 0 since `sandpile_drive_new` */
    uint64_t wave;   /* which wave of the drop, from 0 */
    uint64_t size;   /* sites that topple in it */
} sandpile_wave;

/* Drops grains as `sandpile_drive_drop` does. Also writes the waves of the first drop in order, then those of the next, and how
   many there are in all; `waves` does not change behind them. A drop has as many waves as its site topples: at most the greatest
   distance of a site to the nearest open edge, counted from 1, which is (min(width, height) + 1) / 2, or (height + 1) / 2 on a
   cylinder. `avalanches_length` is `drops_length`, and `waves_length` is at least that times this distance. The call needs no
   memory. EMPTY, LENGTH, NO_SITE, FULL. */
uint32_t sandpile_drive_waves(sandpile_drive *drive, const size_t *drops, size_t drops_length, sandpile_avalanche *avalanches,
                              size_t avalanches_length, sandpile_wave *waves, size_t waves_length, size_t *count);

/* Drops a grain at a site. Writes its avalanche, and how often each site topples in it. `topplings_length` is width times
   height. EMPTY, LENGTH, NO_SITE, FULL. */
uint32_t sandpile_drive_avalanche(sandpile_drive *drive, size_t site, sandpile_avalanche *avalanche, uint64_t *topplings,
                                  size_t topplings_length);

/* Writes the heights and, since `sandpile_drive_new` and with its settling, how often each site toppled, the number of
   topplings and the grains lost; and how many grains have been dropped. `heights_length` and `odometer_length` are each width
   times height, or 0 if that array is not to be written; the three numbers always are. EMPTY, LENGTH. */
uint32_t sandpile_drive_read(const sandpile_drive *drive, uint64_t *heights, size_t heights_length, uint64_t *odometer,
                             size_t odometer_length, uint64_t *topplings, uint64_t *lost, uint64_t *drops);

/* Writes the height of a site and, since `sandpile_drive_new` and with its settling, how often it toppled. EMPTY, NO_SITE. */
uint32_t sandpile_drive_site(const sandpile_drive *drive, size_t site, uint64_t *height, uint64_t *topplings);

/* Frees what a handle holds, if anything, and empties it. Does nothing if the pointer is null. */
void sandpile_drive_free(sandpile_drive *drive);

/* A pass of a shared pile: the right to drop some grains on it and to topple some of its rows. Threads drop and topple at
   the same time, each with a pass of its own, without locks. The pile is freed when its last pass is. A pass takes 16 bytes
   for each grain of its quota, from the start, and at least 8 bytes for each site. */
typedef struct sandpile_pass {
    void *at;
} sandpile_pass;

/* What a pass holds. */
typedef struct sandpile_holding {
    uint64_t left;      /* grains that it may still drop */
    uint64_t seen;      /* drops, by any pass, that it knows have begun */
    size_t drops;       /* drops made with it and with passes joined to it */
    uint16_t first_row; /* its first row, or 0 if it has none */
    uint16_t end_row;   /* one past its last row, or 0 */
} sandpile_holding;

/* Makes a shared pile; the heights may be unstable. Fills an empty handle with its first pass, which has all rows and the
   whole quota: how many grains may be dropped in all. `heights_length` is width times height. TAKEN, SIDE, NARROW, LENGTH,
   TOO_MANY_GRAINS (the quota included), MEMORY. */
uint32_t sandpile_shared_new(size_t width, size_t height, bool cylinder, const uint64_t *heights, size_t heights_length,
                             uint64_t quota, sandpile_pass *pass);

/* Moves `quota` of the drops that `pass` has left to a new pass, in the empty handle `child`. With a quota of 0 the child
   can only look on. TAKEN (the child), EMPTY, TOO_MUCH, MEMORY. */
uint32_t sandpile_pass_split(sandpile_pass *pass, uint64_t quota, sandpile_pass *child);

/* Moves the last `rows` rows of `pass` to a new pass, in the empty handle `child`. TAKEN (the child), EMPTY, ROWS, MEMORY. */
uint32_t sandpile_pass_split_rows(sandpile_pass *pass, uint16_t rows, sandpile_pass *child);

/* Drops a grain at each site of `drops` in turn, and topples nothing. The drops of all passes are numbered from 0. Those of
   one call get consecutive numbers, and `first` becomes the first of them; without drops it becomes a number that means
   nothing. EMPTY, NO_SITE, SPENT. */
uint32_t sandpile_pass_drop(sandpile_pass *pass, const size_t *drops, size_t drops_length, uint64_t *first);

/* Writes how many drops of all passes have begun, which the pass then has seen. EMPTY. */
uint32_t sandpile_pass_tally(sandpile_pass *pass, uint64_t *drops);

/* Visits each site of the pass's rows once, and topples it as often as the grains on it then allow. Writes the number of
   topplings. EMPTY. */
uint32_t sandpile_pass_sweep(sandpile_pass *pass, uint64_t *topplings);

/* Writes what a pass holds. EMPTY. */
uint32_t sandpile_pass_holding(const sandpile_pass *pass, sandpile_holding *holding);

/* Moves all that `other` holds to `pass`, and empties `other`. If both have rows, these must be adjacent (APART). Both must
   be passes of one pile, and two of them. A test refuses others with OTHER_PILE, also a handle that is joined to itself or
   to a copy of its struct. But no proof rests on the test: joins on the other pile at the same moment could deceive it, and
   then the behaviour is undefined. EMPTY (either handle), OTHER_PILE, APART, MEMORY. */
uint32_t sandpile_pass_join(sandpile_pass *pass, sandpile_pass *other);

/* Settles what is left to topple, in memory of its own. Needs a pass with all rows and the whole quota, left or dropped,
   such as the first pass after all others have joined it. Writes the settled heights, how often each site toppled, the site
   of each drop by number, the number of topplings and the grains lost: what one thread gets that drops this history.
   `heights_length` and `odometer_length` are width times height; `history_length` is the number of drops made with the pass
   (`drops` of its holding). The pile and the pass do not change, and may go on. The call needs 16 bytes more for each site than
   settling, and 8 for each drop. EMPTY, LENGTH, MISSING, MEMORY. */
uint32_t sandpile_pass_settle(sandpile_pass *pass, uint64_t *heights, size_t heights_length, uint64_t *odometer,
                              size_t odometer_length, size_t *history, size_t history_length, uint64_t *topplings,
                              uint64_t *lost);

/* Frees what a handle holds, if anything, and empties it. Does nothing if the pointer is null. If a pass that is freed had quota,
   drops or rows, `settle` by any other pass of its pile returns MISSING from then on. */
void sandpile_pass_free(sandpile_pass *pass);

#ifdef __cplusplus
}
#endif

#endif
