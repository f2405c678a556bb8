/* Makes every call on a thread that has a stack of 24 KiB and no byte more: a page that cannot be touched is below it. Writes
   how many bytes of the stack each call took, with what the system itself takes for a thread. */
#define _DEFAULT_SOURCE
#include "sandpile.h"
#include <pthread.h>
#include <stdio.h>
#include <stdlib.h>
#include <string.h>
#include <sys/mman.h>
#include <unistd.h>

enum { STACK = 24 * 1024, PAINT = 0xa5, SIDE = 256, SITES = SIDE * SIDE, DROPS = 100, TALL = 300, WAVES = DROPS * TALL / 2 };

/* What the next call is given. */
static size_t width, height, sites;
static bool cylinder;
static uint64_t heights[SITES], others[SITES], odometer[SITES];
static int64_t integers[SITES], firing[SITES];
static size_t places[SITES];
static uint32_t times[SITES];
static uint8_t directions[SITES];
static sandpile_avalanche avalanches[DROPS];
static sandpile_drive driven;
static sandpile_pass whole, upper, lower, child;

static uint32_t nothing(void) { return 0; }

static uint32_t version(void) { return sandpile_version() != SANDPILE_VERSION; }

static uint32_t grain_limit(void) {
    uint64_t limit;
    return sandpile_grain_limit(width, height, cylinder, &limit);
}

static uint32_t settle(void) {
    uint64_t lost, topplings;
    return sandpile_settle(width, height, cylinder, heights, sites, odometer, sites, &lost, &topplings);
}

static uint32_t settle_all(void) {
    uint64_t lost[1], topplings[1];
    return sandpile_settle_all(width, height, cylinder, heights, sites, odometer, sites, lost, 1, topplings, 1);
}

static uint32_t draw(void) { return sandpile_sites(width, height, cylinder, 1, 2, 3, places, sites); }

static uint32_t burn(void) {
    size_t count;
    bool recurrent;
    return sandpile_burn(width, height, cylinder, heights, sites, places, sites, &count, &recurrent);
}

static uint32_t burn_times(void) { return sandpile_burn_times(width, height, cylinder, heights, sites, times, sites); }

static uint32_t tree(void) { return sandpile_tree(width, height, cylinder, heights, sites, directions, sites); }

static uint32_t of_tree(void) { return sandpile_of_tree(width, height, cylinder, directions, sites, heights, sites); }

static uint32_t random_pile(void) { return sandpile_random(width, height, cylinder, 1, 2, heights, sites); }

static uint32_t identity(void) { return sandpile_identity(width, height, cylinder, heights, sites); }

static uint32_t recurrent(void) { return sandpile_recurrent(width, height, cylinder, heights, sites); }

static uint32_t add(void) { return sandpile_add(width, height, cylinder, heights, sites, others, sites); }

static uint32_t inverse(void) { return sandpile_inverse(width, height, cylinder, heights, sites); }

static uint32_t multiple(void) { return sandpile_multiple(width, height, cylinder, heights, sites, UINT64_MAX); }

static uint32_t class(void) { return sandpile_class(width, height, cylinder, integers, sites, firing, sites); }

static uint32_t superstable(void) { return sandpile_superstable(width, height, cylinder, integers, sites); }

static uint32_t drive_new(void) { return sandpile_drive_new(width, height, cylinder, heights, sites, &driven); }

static uint32_t drive_drop(void) { return sandpile_drive_drop(&driven, places, DROPS, avalanches, DROPS); }

static uint32_t drive_waves(void) {
    static sandpile_wave waves[WAVES];
    size_t count;
    return sandpile_drive_waves(&driven, places, DROPS, avalanches, DROPS, waves, WAVES, &count);
}

static uint32_t drive_avalanche(void) {
    return sandpile_drive_avalanche(&driven, sites / 2, avalanches, odometer, sites);
}

static uint32_t drive_read(void) {
    uint64_t topplings, lost, drops;
    return sandpile_drive_read(&driven, heights, sites, odometer, sites, &topplings, &lost, &drops);
}

static uint32_t drive_site(void) {
    uint64_t grains, topplings;
    return sandpile_drive_site(&driven, sites - 1, &grains, &topplings);
}

static uint32_t drive_free(void) {
    sandpile_drive_free(&driven);
    return driven.at != NULL;
}

static uint32_t shared_new(void) { return sandpile_shared_new(width, height, cylinder, heights, sites, DROPS, &whole); }

static uint32_t pass_split(void) { return sandpile_pass_split(&whole, DROPS / 2, &child); }

static uint32_t pass_split_rows(void) { return sandpile_pass_split_rows(&whole, (uint16_t)(height / 2), &child); }

static uint32_t pass_drop(void) {
    uint64_t first;
    return sandpile_pass_drop(&whole, places, DROPS, &first);
}

static uint32_t pass_tally(void) {
    uint64_t drops;
    return sandpile_pass_tally(&whole, &drops);
}

static uint32_t pass_sweep(void) {
    uint64_t topplings;
    return sandpile_pass_sweep(&whole, &topplings);
}

static uint32_t pass_holding(void) {
    sandpile_holding holding;
    return sandpile_pass_holding(&whole, &holding);
}

static uint32_t pass_join(void) { return sandpile_pass_join(&upper, &lower); }

static uint32_t pass_settle(void) {
    uint64_t topplings, lost;
    return sandpile_pass_settle(&whole, heights, sites, odometer, sites, places, DROPS, &topplings, &lost);
}

static uint32_t pass_free(void) {
    sandpile_pass_free(&whole);
    return whole.at != NULL;
}

/* What is in the handles before a call. */

static uint32_t share_and_drop(void) { return shared_new() || pass_drop(); }

/* Two halves of one pile, each with rows and drops. */
static uint32_t share_in_two(void) {
    uint64_t first;
    return sandpile_shared_new(width, height, cylinder, heights, sites, DROPS, &upper)
        || sandpile_pass_split(&upper, DROPS / 2, &lower)
        || sandpile_pass_split_rows(&upper, (uint16_t)(height / 2), &child)
        || sandpile_pass_join(&lower, &child)
        || sandpile_pass_drop(&upper, places, DROPS / 2, &first)
        || sandpile_pass_drop(&lower, places, DROPS / 2, &first);
}

/* A call, the height of each site of the pile that it is given, and what fills the handles before. Of integer heights, every
   second one is below 0. */
static const struct { const char *name; uint32_t (*make)(void); uint64_t each; uint32_t (*fill)(void); } calls[] = {
    {"no call", nothing, 0, nothing},
    {"sandpile_version", version, 0, nothing},
    {"sandpile_grain_limit", grain_limit, 0, nothing},
    {"sandpile_settle", settle, 4, nothing},
    {"sandpile_settle", settle, 16777215, nothing},
    {"sandpile_settle_all", settle_all, 4, nothing},
    {"sandpile_settle_all", settle_all, 16777215, nothing},
    {"sandpile_sites", draw, 0, nothing},
    {"sandpile_burn", burn, 0, nothing},
    {"sandpile_burn", burn, 3, nothing},
    {"sandpile_burn_times", burn_times, 0, nothing},
    {"sandpile_burn_times", burn_times, 3, nothing},
    {"sandpile_tree", tree, 3, nothing},
    {"sandpile_of_tree", of_tree, 3, tree},
    {"sandpile_random", random_pile, 0, nothing},
    {"sandpile_identity", identity, 0, nothing},
    {"sandpile_recurrent", recurrent, 0, nothing},
    {"sandpile_recurrent", recurrent, 16777215, nothing},
    {"sandpile_add", add, 3, nothing},
    {"sandpile_inverse", inverse, 3, nothing},
    {"sandpile_multiple", multiple, 3, nothing},
    {"sandpile_class", class, 4, nothing},
    {"sandpile_class", class, 16777215, nothing},
    {"sandpile_superstable", superstable, 4, nothing},
    {"sandpile_superstable", superstable, 16777215, nothing},
    {"sandpile_drive_new", drive_new, 4, nothing},
    {"sandpile_drive_new", drive_new, 16777215, nothing},
    {"sandpile_drive_drop", drive_drop, 3, drive_new},
    {"sandpile_drive_drop", drive_drop, 24, drive_new},
    {"sandpile_drive_waves", drive_waves, 3, drive_new},
    {"sandpile_drive_waves", drive_waves, 24, drive_new},
    {"sandpile_drive_avalanche", drive_avalanche, 3, drive_new},
    {"sandpile_drive_avalanche", drive_avalanche, 24, drive_new},
    {"sandpile_drive_read", drive_read, 3, drive_new},
    {"sandpile_drive_site", drive_site, 3, drive_new},
    {"sandpile_drive_free", drive_free, 3, drive_new},
    {"sandpile_shared_new", shared_new, 3, nothing},
    {"sandpile_shared_new", shared_new, 16777215, nothing},
    {"sandpile_pass_split", pass_split, 3, shared_new},
    {"sandpile_pass_split_rows", pass_split_rows, 3, share_and_drop},
    {"sandpile_pass_drop", pass_drop, 3, shared_new},
    {"sandpile_pass_tally", pass_tally, 3, share_and_drop},
    {"sandpile_pass_sweep", pass_sweep, 4, share_and_drop},
    {"sandpile_pass_sweep", pass_sweep, 16777215, share_and_drop},
    {"sandpile_pass_holding", pass_holding, 3, share_and_drop},
    {"sandpile_pass_join", pass_join, 3, share_in_two},
    {"sandpile_pass_settle", pass_settle, 3, share_and_drop},
    {"sandpile_pass_settle", pass_settle, 16777215, share_and_drop},
    {"sandpile_pass_free", pass_free, 3, share_and_drop},
};

static void stop(const char *what) {
    fprintf(stderr, "%s failed\n", what);
    exit(1);
}

static void empty_handles(void) {
    sandpile_drive_free(&driven);
    sandpile_pass_free(&whole);
    sandpile_pass_free(&upper);
    sandpile_pass_free(&lower);
    sandpile_pass_free(&child);
}

static void *start(void *make) { return (void *)(uintptr_t)(*(uint32_t (**)(void))make)(); }

/* Runs a call on a thread of its own, and returns how many bytes of the stack it has written. */
static size_t stack_of(uint32_t (*make)(void)) {
    size_t page = (size_t)sysconf(_SC_PAGESIZE);
    unsigned char *memory = mmap(NULL, page + STACK, PROT_READ | PROT_WRITE, MAP_PRIVATE | MAP_ANONYMOUS, -1, 0);
    unsigned char *stack = memory + page;
    pthread_attr_t how;
    pthread_t thread;
    void *fault;
    if (memory == MAP_FAILED || mprotect(memory, page, PROT_NONE)) stop("mmap");
    memset(stack, PAINT, STACK);
    if (pthread_attr_init(&how) || pthread_attr_setstack(&how, stack, STACK)) stop("pthread_attr_setstack");
    if (pthread_create(&thread, &how, start, &make) || pthread_join(thread, &fault)) stop("pthread_create");
    if (fault) stop("the call");
    size_t clean = 0;
    while (clean < STACK && stack[clean] == PAINT) clean++;
    pthread_attr_destroy(&how);
    munmap(memory, page + STACK);
    return STACK - clean;
}

/* The most that a call takes on five sizes, with open edges and on a cylinder. */
static size_t most_of(size_t call) {
    const size_t sizes[5][2] = {{3, 1}, {64, 64}, {SIDE, SIDE}, {TALL, 20}, {20, TALL}};
    size_t most = 0;
    for (int i = 0; i < 10; i++) {
        width = sizes[i / 2][0];
        height = sizes[i / 2][1];
        sites = width * height;
        cylinder = i % 2;
        for (size_t at = 0; at < SITES; at++) {
            heights[at] = calls[call].each;
            integers[at] = at % 2 ? -(int64_t)calls[call].each : (int64_t)calls[call].each;
            others[at] = 3;
            places[at] = at % sites;
        }
        if (calls[call].fill()) stop("filling the handles");
        size_t taken = stack_of(calls[call].make);
        if (taken > most) most = taken;
        empty_handles();
    }
    return most;
}

int main(void) {
    for (size_t call = 0; call < sizeof calls / sizeof *calls; call++) {
        printf("%s: ", calls[call].name);
        fflush(stdout);
        printf("%zu bytes\n", most_of(call));
    }
    return 0;
}
