/* Measures the piles that live behind handles: drops on a shared pile by four threads and by one, single drops on a driven
   pile against a list of them, and reading it. Prints the least of several rounds.

   cc -O2 -pthread -I include tools/bench/handles.c -L crates/sand_c/out -lsandpile -Wl,-rpath,"$PWD/crates/sand_c/out" -o handles */
#include "sandpile.h"
#include <pthread.h>
#include <stdio.h>
#include <stdlib.h>
#include <time.h>

enum {
    ROUNDS = 8, THREADS = 4, EACH = 1000000, LIST = 62500, SIDE = 128, WIDE = 256, BURN_IN = 60000, SINGLE = 20000, FEW = 2000,
    READS = 20
};

struct dropper {
    sandpile_pass pass;
    uint64_t stream;
};

static uint64_t heights[WIDE * WIDE], odometer[WIDE * WIDE], topplings, lost, made;
static size_t history[THREADS * EACH], sites[BURN_IN];
static sandpile_avalanche avalanches[BURN_IN];

static void check(uint32_t fault) {
    if (fault) {
        fprintf(stderr, "%s\n", sandpile_explain(fault));
        exit(1);
    }
}

static double seconds(clockid_t clock) {
    struct timespec now;
    clock_gettime(clock, &now);
    return (double)now.tv_sec + 1e-9 * (double)now.tv_nsec;
}

static void keep_least(double *least, double value) {
    if (*least == 0 || value < *least) *least = value;
}

/* At the sites where a dropper of `lab --seed 7` drops. */
static void *drop(void *argument) {
    struct dropper *dropper = argument;
    static _Thread_local size_t list[LIST];
    uint64_t number;
    for (uint64_t from = 0; from < EACH; from += LIST) {
        check(sandpile_sites(SIDE, SIDE, false, 7, dropper->stream, from, list, LIST));
        check(sandpile_pass_drop(&dropper->pass, list, LIST, &number));
    }
    return NULL;
}

/* The time of the drops alone, and that of all, in nanoseconds a drop. */
static void share(int threads, double *dropping, double *all) {
    struct dropper droppers[THREADS] = {0};
    pthread_t running[THREADS];
    sandpile_pass first = {0};
    size_t drops = (size_t)threads * EACH;
    for (int i = 0; i < SIDE * SIDE; i++) heights[i] = 3;
    double begun = seconds(CLOCK_MONOTONIC);
    check(sandpile_shared_new(SIDE, SIDE, false, heights, SIDE * SIDE, drops, &first));
    for (int i = 0; i < threads; i++) {
        droppers[i].stream = (uint64_t)i;
        check(sandpile_pass_split(&first, EACH, &droppers[i].pass));
    }
    double split = seconds(CLOCK_MONOTONIC);
    for (int i = 0; i < threads; i++) check((uint32_t)pthread_create(&running[i], NULL, drop, &droppers[i]));
    for (int i = 0; i < threads; i++) pthread_join(running[i], NULL);
    double dropped = seconds(CLOCK_MONOTONIC);
    for (int i = 0; i < threads; i++) check(sandpile_pass_join(&first, &droppers[i].pass));
    check(sandpile_pass_settle(&first, heights, SIDE * SIDE, odometer, SIDE * SIDE, history, drops, &topplings, &lost));
    keep_least(dropping, (dropped - split) * 1e9 / (double)drops);
    keep_least(all, (seconds(CLOCK_MONOTONIC) - begun) * 1e9 / (double)drops);
    sandpile_pass_free(&first);
}

/* Makes `heights` a typical pile. */
static void burn_in(void) {
    sandpile_drive drive = {0};
    for (int i = 0; i < WIDE * WIDE; i++) heights[i] = 3;
    check(sandpile_sites(WIDE, WIDE, false, 5, 0, 0, sites, BURN_IN));
    check(sandpile_drive_new(WIDE, WIDE, false, heights, WIDE * WIDE, &drive));
    check(sandpile_drive_drop(&drive, sites, BURN_IN, avalanches, BURN_IN));
    check(sandpile_drive_read(&drive, heights, WIDE * WIDE, NULL, 0, &topplings, &lost, &made));
    sandpile_drive_free(&drive);
}

enum way { LISTED, SINGLY, WITH_COUNTS, WITH_A_HEIGHT, WITH_TOPPLINGS, WAYS };
static const char *const ways[WAYS] = {"in a list", "one a call", "and the counts", "and one height", "and all topplings"};

static void drop_singly(sandpile_drive *drive, enum way way, size_t site) {
    uint64_t height, times;
    if (way == WITH_TOPPLINGS) {
        check(sandpile_drive_avalanche(drive, site, avalanches, odometer, WIDE * WIDE));
        return;
    }
    check(sandpile_drive_drop(drive, &site, 1, avalanches, 1));
    if (way == WITH_COUNTS) check(sandpile_drive_read(drive, NULL, 0, NULL, 0, &topplings, &lost, &made));
    if (way == WITH_A_HEIGHT) check(sandpile_drive_site(drive, site, &height, &times));
}

/* The processor time of a drop, in microseconds. */
static double driven(enum way way) {
    sandpile_drive drive = {0};
    size_t drops = way == WITH_TOPPLINGS ? FEW : SINGLE;
    check(sandpile_drive_new(WIDE, WIDE, false, heights, WIDE * WIDE, &drive));
    double begun = seconds(CLOCK_PROCESS_CPUTIME_ID);
    if (way == LISTED) check(sandpile_drive_drop(&drive, sites, drops, avalanches, drops));
    for (size_t i = 0; way != LISTED && i < drops; i++) drop_singly(&drive, way, sites[i]);
    double took = seconds(CLOCK_PROCESS_CPUTIME_ID) - begun;
    sandpile_drive_free(&drive);
    return took * 1e6 / (double)drops;
}

/* The processor time of reading heights or counts, in nanoseconds a site. */
static double read_all(bool counts) {
    sandpile_drive drive = {0};
    size_t length = WIDE * WIDE;
    check(sandpile_drive_new(WIDE, WIDE, false, heights, length, &drive));
    check(sandpile_drive_drop(&drive, sites, SINGLE, avalanches, SINGLE));
    double begun = seconds(CLOCK_PROCESS_CPUTIME_ID);
    for (int i = 0; i < READS; i++)
        check(counts ? sandpile_drive_read(&drive, NULL, 0, odometer, length, &topplings, &lost, &made)
                     : sandpile_drive_read(&drive, odometer, length, NULL, 0, &topplings, &lost, &made));
    double took = seconds(CLOCK_PROCESS_CPUTIME_ID) - begun;
    sandpile_drive_free(&drive);
    return took * 1e9 / (double)(READS * length);
}

int main(void) {
    double dropping[2] = {0}, all[2] = {0}, driving[WAYS] = {0}, reading[2] = {0};
    for (int round = 0; round < ROUNDS; round++)
        for (int k = 0; k < 2; k++) share(k ? 1 : THREADS, &dropping[k], &all[k]);
    for (int k = 0; k < 2; k++)
        printf("shared pile, %d threads: %.1f ns a drop, with all calls %.1f\n", k ? 1 : THREADS, dropping[k], all[k]);
    burn_in();
    for (int round = 0; round < ROUNDS; round++)
        for (int way = 0; way < WAYS; way++) keep_least(&driving[way], driven((enum way)way));
    for (int way = 0; way < WAYS; way++) printf("driven pile, drops %s: %.2f us\n", ways[way], driving[way]);
    for (int round = 0; round < ROUNDS; round++)
        for (int k = 0; k < 2; k++) keep_least(&reading[k], read_all(k));
    for (int k = 0; k < 2; k++) printf("driven pile, %s read: %.2f ns a site\n", k ? "counts" : "heights", reading[k]);
    return 0;
}
