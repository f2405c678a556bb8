/* Four threads drop grains on one pile, two topple it, and one looks on. The result is that of one thread that drops
   the same grains in the order of their numbers. Build with -pthread. */
#include "sandpile.h"
#include <inttypes.h>
#include <pthread.h>
#include <stdio.h>
#include <stdlib.h>
#include <string.h>

enum { SIDE = 64, SITES = SIDE * SIDE, DROPPERS = 4, EACH = 20000, DROPS = DROPPERS * EACH, LIST = 100 };

struct dropper {
    sandpile_pass pass;
    uint64_t stream;
};

struct result {
    uint64_t heights[SITES], odometer[SITES], topplings, lost;
};

static sandpile_pass first, upper, lower, observer;
static struct dropper droppers[DROPPERS];
static uint64_t start[SITES];
static size_t history[DROPS]; /* the site of each drop, by number */
static struct result many, one;

static void check(uint32_t fault) {
    if (fault) {
        fprintf(stderr, "%s\n", sandpile_explain(fault));
        exit(1);
    }
}

static void *drop(void *argument) {
    struct dropper *dropper = argument;
    size_t sites[LIST];
    uint64_t number;
    for (uint64_t i = 0; i < EACH; i += LIST) {
        check(sandpile_sites(SIDE, SIDE, false, 7, dropper->stream, i, sites, LIST));
        check(sandpile_pass_drop(&dropper->pass, sites, LIST, &number));
    }
    return NULL;
}

static void *sweep(void *pass) {
    uint64_t toppled;
    for (int i = 0; i < 200; i++) check(sandpile_pass_sweep(pass, &toppled));
    return NULL;
}

static void *look_on(void *pass) {
    uint64_t drops = 0;
    while (drops < DROPS) check(sandpile_pass_tally(pass, &drops));
    return NULL;
}

/* Gives each thread a pass of its own. */
static void share_out(void) {
    check(sandpile_shared_new(SIDE, SIDE, false, start, SITES, DROPS, &first));
    check(sandpile_pass_split(&first, 0, &observer));
    check(sandpile_pass_split_rows(&first, SIDE / 2, &lower));
    check(sandpile_pass_split_rows(&first, SIDE / 2, &upper));
    for (int i = 0; i < DROPPERS; i++) {
        droppers[i].stream = (uint64_t)i;
        check(sandpile_pass_split(&first, EACH, &droppers[i].pass));
    }
}

static pthread_t started(void *(*task)(void *), void *argument) {
    pthread_t thread;
    if (pthread_create(&thread, NULL, task, argument)) {
        fprintf(stderr, "a thread could not be started\n");
        exit(1);
    }
    return thread;
}

static void run_threads(void) {
    pthread_t threads[DROPPERS];
    pthread_t above = started(sweep, &upper), below = started(sweep, &lower), onlooker = started(look_on, &observer);
    for (int i = 0; i < DROPPERS; i++) threads[i] = started(drop, &droppers[i]);
    for (int i = 0; i < DROPPERS; i++) pthread_join(threads[i], NULL);
    pthread_join(above, NULL);
    pthread_join(below, NULL);
    pthread_join(onlooker, NULL);
}

/* Joins the passes, so that the first has all rows and the whole quota again, and settles the pile. */
static void settle(void) {
    for (int i = 0; i < DROPPERS; i++) check(sandpile_pass_join(&first, &droppers[i].pass));
    check(sandpile_pass_join(&first, &upper));
    check(sandpile_pass_join(&first, &lower));
    check(sandpile_pass_settle(&first, many.heights, SITES, many.odometer, SITES, history, DROPS, &many.topplings,
                               &many.lost));
    sandpile_pass_free(&observer);
    sandpile_pass_free(&first);
}

static void drop_as_one_thread(void) {
    sandpile_drive drive = {0};
    sandpile_avalanche avalanches[LIST];
    uint64_t drops;
    check(sandpile_drive_new(SIDE, SIDE, false, start, SITES, &drive));
    for (int i = 0; i < DROPS; i += LIST) check(sandpile_drive_drop(&drive, history + i, LIST, avalanches, LIST));
    check(sandpile_drive_read(&drive, one.heights, SITES, one.odometer, SITES, &one.topplings, &one.lost, &drops));
    sandpile_drive_free(&drive);
}

int main(void) {
    for (int i = 0; i < SITES; i++) start[i] = 2;
    share_out();
    run_threads();
    settle();
    drop_as_one_thread();
    bool same = !memcmp(&many, &one, sizeof many);
    printf("%d drops, %" PRIu64 " topplings, %" PRIu64 " lost: %s\n", DROPS, many.topplings, many.lost,
           same ? "as one thread" : "DIFFERENT");
    return !same;
}
