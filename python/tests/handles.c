/* Tests of the handles of sandpile.h, one by each word given:

     interleave   2,000 random interleavings of the calls on passes, by up to four threads, against sandpile_settle
     refuse       each allocation of each call fails in turn: nothing changes, and nothing is leaked
     churn        100,000 handles are filled and freed: memory does not grow
     misuse       faults in their order, and handles that stay as they are
     readers      four threads read a drive and a pass at the same time
     strangers    joins of passes of two piles, while another thread makes joins on one of them
     avalanches   20,000 avalanches, one a call, between drops in lists, against a drive with all drops in lists
     fork         parent and child drop on copies of a drive and of a shared pile

   A test prints one line. malloc, calloc, realloc and free are defined here, to count blocks and to fail, unless IS_WATCHED says
   that a tool has its own. */
#include "sandpile.h"
#include <inttypes.h>
#include <pthread.h>
#include <stdatomic.h>
#include <stddef.h>
#include <stdio.h>
#include <stdlib.h>
#include <string.h>
#include <sys/wait.h>
#include <unistd.h>

enum { SIDE = 16, SITES = SIDE * SIDE, WAVES = SIDE / 2, QUOTA = 200, THREADS = 4 };

#ifndef READS
#define READS 100000
#endif

/* Memory */

extern void *__libc_malloc(size_t), *__libc_calloc(size_t, size_t), *__libc_realloc(void *, size_t);
extern void __libc_free(void *);

static atomic_long blocks;        /* those that live */
static atomic_long requests = -1; /* how many requests are still granted; below 0: all */

#ifndef IS_WATCHED

static bool is_refused(void) {
    long left = atomic_load(&requests);
    if (left < 0) return false;
    if (left == 0) return true;
    atomic_fetch_sub(&requests, 1);
    return false;
}

void *malloc(size_t size) {
    if (is_refused()) return NULL;
    void *block = __libc_malloc(size);
    if (block) atomic_fetch_add(&blocks, 1);
    return block;
}

/* Not used by the library, but by the C library for threads, which then calls free. */
void *calloc(size_t count, size_t size) {
    void *block = __libc_calloc(count, size);
    if (block) atomic_fetch_add(&blocks, 1);
    return block;
}

void *realloc(void *old, size_t size) {
    if (is_refused()) return NULL;
    void *block = __libc_realloc(old, size);
    if (block && !old) atomic_fetch_add(&blocks, 1);
    return block;
}

void free(void *block) {
    if (block) atomic_fetch_sub(&blocks, 1);
    __libc_free(block);
}

#endif

/* Checks */

static void fail(const char *what, int line) {
    fprintf(stderr, "line %d: %s\n", line, what);
    _Exit(1);
}

#define EXPECT(condition) do { if (!(condition)) fail(#condition, __LINE__); } while (0)
#define OK(call) EXPECT((call) == 0)

static uint64_t drawn(uint64_t *seed) { /* SplitMix64, Steele, Lea and Flood 2014 */
    uint64_t x = (*seed += 0x9e3779b97f4a7c15);
    x = (x ^ (x >> 30)) * 0xbf58476d1ce4e5b9;
    x = (x ^ (x >> 27)) * 0x94d049bb133111eb;
    return x ^ (x >> 31);
}

static uint64_t below(uint64_t *seed, uint64_t limit) { return drawn(seed) % limit; }

/* Records */

struct record {
    uint64_t heights[SITES], odometer[SITES], topplings, lost;
    size_t history[QUOTA];
};

static uint32_t settle_into(struct record *record, sandpile_pass *pass, size_t sites, size_t drops) {
    return sandpile_pass_settle(pass, record->heights, sites, record->odometer, sites, record->history, drops,
                                &record->topplings, &record->lost);
}

/* Interleavings */

struct round;

struct job {
    struct round *round;
    sandpile_pass pass;
    uint64_t seed;
};

/* A pile, and jobs that drop on it at the same time. */
struct round {
    size_t width, height, sites, quota, count;
    bool cylinder;
    uint64_t start[SITES];
    size_t where[QUOTA]; /* the site of each drop, by number */
    struct job jobs[THREADS];
};

static void drop_some(struct job *job, sandpile_pass *pass) {
    sandpile_holding held;
    OK(sandpile_pass_holding(pass, &held));
    size_t sites[8], count = below(&job->seed, 9);
    if (count > held.left) count = held.left;
    for (size_t i = 0; i < count; i++) sites[i] = below(&job->seed, job->round->sites);
    uint64_t first, toppled;
    OK(sandpile_pass_drop(pass, sites, count, &first));
    if (count > 0) {
        EXPECT(first >= held.seen && first + count <= job->round->quota);
        memcpy(job->round->where + first, sites, count * sizeof *sites);
    }
    if (below(&job->seed, 3) == 0) OK(sandpile_pass_sweep(pass, &toppled));
}

/* Moves some rows of a pass to a new one. */
static void split_some_rows(sandpile_pass *pass, uint64_t *seed, sandpile_pass *child) {
    sandpile_holding held;
    OK(sandpile_pass_holding(pass, &held));
    OK(sandpile_pass_split_rows(pass, (uint16_t)below(seed, held.end_row - held.first_row + 1u), child));
}

static void split_some_quota(sandpile_pass *pass, uint64_t *seed, sandpile_pass *child) {
    sandpile_holding held;
    OK(sandpile_pass_holding(pass, &held));
    OK(sandpile_pass_split(pass, below(seed, held.left + 1), child));
}

/* Splits a pass, drops by both parts, and joins them again. */
static void part_and_join(struct job *job) {
    sandpile_pass child = {0};
    if (below(&job->seed, 2)) split_some_quota(&job->pass, &job->seed, &child);
    else split_some_rows(&job->pass, &job->seed, &child);
    drop_some(job, &child);
    drop_some(job, &job->pass);
    if (below(&job->seed, 2)) {
        OK(sandpile_pass_join(&job->pass, &child));
    } else {
        OK(sandpile_pass_join(&child, &job->pass));
        job->pass = child; /* moved: the old place is forgotten */
    }
}

static void *work(void *argument) {
    struct job *job = argument;
    uint64_t seen = 0, now;
    for (int i = 0; i < 6; i++) {
        if (below(&job->seed, 2)) part_and_join(job);
        else drop_some(job, &job->pass);
        OK(sandpile_pass_tally(&job->pass, &now));
        EXPECT(now >= seen);
        seen = now;
    }
    return NULL;
}

static void drop_the_rest(struct job *job) {
    sandpile_holding held;
    OK(sandpile_pass_holding(&job->pass, &held));
    uint64_t number;
    for (uint64_t i = 0; i < held.left; i++) {
        size_t site = below(&job->seed, job->round->sites);
        OK(sandpile_pass_drop(&job->pass, &site, 1, &number));
        EXPECT(number < job->round->quota);
        job->round->where[number] = site;
    }
}

static void make_pile(struct round *round, uint64_t *seed) {
    round->width = 1 + below(seed, SIDE);
    round->height = 1 + below(seed, SIDE);
    round->sites = round->width * round->height;
    round->cylinder = round->width > 2 && below(seed, 2);
    round->quota = below(seed, QUOTA + 1);
    for (size_t i = 0; i < round->sites; i++) round->start[i] = below(seed, 8);
    OK(sandpile_shared_new(round->width, round->height, round->cylinder, round->start, round->sites, round->quota,
                           &round->jobs[0].pass));
}

/* Gives each job rows and quota. The last job gets the last rows, so that the first can join all in order. */
static void share_out(struct round *round, uint64_t *seed) {
    sandpile_pass *first = &round->jobs[0].pass;
    for (size_t i = round->count; --i > 0;) {
        sandpile_pass quota = {0};
        split_some_rows(first, seed, &round->jobs[i].pass);
        OK(sandpile_pass_split(first, round->quota / round->count, &quota));
        OK(sandpile_pass_join(&round->jobs[i].pass, &quota));
    }
}

static void work_on_threads(struct round *round) {
    pthread_t threads[THREADS];
    for (size_t i = 1; i < round->count; i++) EXPECT(!pthread_create(&threads[i], NULL, work, &round->jobs[i]));
    work(&round->jobs[0]);
    for (size_t i = 1; i < round->count; i++) EXPECT(!pthread_join(threads[i], NULL));
}

/* A pass that lacks rows makes no record. */
static void expect_no_record(struct round *round) {
    struct record record;
    sandpile_holding held;
    OK(sandpile_pass_holding(&round->jobs[0].pass, &held));
    if (held.end_row - held.first_row == (int)round->height) return;
    EXPECT(settle_into(&record, &round->jobs[0].pass, round->sites, held.drops) == SANDPILE_MISSING);
}

/* Makes the drops that are left, and joins all passes to the first. */
static void finish(struct round *round) {
    sandpile_pass *first = &round->jobs[0].pass;
    uint64_t drops;
    drop_the_rest(&round->jobs[0]);
    for (size_t i = 1; i < round->count; i++) {
        drop_the_rest(&round->jobs[i]);
        OK(sandpile_pass_join(first, &round->jobs[i].pass));
    }
    OK(sandpile_pass_tally(first, &drops));
    EXPECT(drops == round->quota);
}

/* The record is that of one thread which drops the same history. */
static void expect_one_thread(struct round *round) {
    struct record many, one;
    size_t sites = round->sites, bytes = sites * sizeof *round->start;
    OK(settle_into(&many, &round->jobs[0].pass, sites, round->quota));
    EXPECT(!memcmp(many.history, round->where, round->quota * sizeof *round->where));
    memcpy(one.heights, round->start, bytes);
    for (size_t i = 0; i < round->quota; i++) one.heights[many.history[i]]++;
    OK(sandpile_settle(round->width, round->height, round->cylinder, one.heights, sites, one.odometer, sites,
                       &one.lost, &one.topplings));
    EXPECT(!memcmp(many.heights, one.heights, bytes));
    EXPECT(!memcmp(many.odometer, one.odometer, bytes));
    EXPECT(many.topplings == one.topplings && many.lost == one.lost);
}

static void interleave_once(uint64_t seed, size_t count) {
    struct round round = {.count = count};
    for (size_t i = 0; i < count; i++) round.jobs[i].round = &round, round.jobs[i].seed = drawn(&seed);
    make_pile(&round, &seed);
    share_out(&round, &seed);
    work_on_threads(&round);
    expect_no_record(&round);
    finish(&round);
    expect_one_thread(&round);
    sandpile_pass_free(&round.jobs[0].pass);
}

static void interleave(void) {
    interleave_once(0, THREADS); /* the C library keeps a block for the stack of each thread */
    long live = atomic_load(&blocks);
    for (uint64_t seed = 1; seed < 2000; seed++) {
        interleave_once(seed, 1 + seed % THREADS);
        EXPECT(atomic_load(&blocks) == live);
    }
    printf("interleave: 2000 interleavings, each as one thread, no block leaked\n");
}

/* Failed allocations */

static sandpile_drive drive;
static sandpile_pass pass, other;
static uint64_t all[SITES]; /* a pile of threes */
static const size_t drops[4] = {0, 1, 17, 255};

/* What the calls write. */
static struct outputs {
    sandpile_avalanche rows[4];
    sandpile_wave waves[4 * WAVES];
    size_t count;
    uint64_t counts[2][SITES], sums[3];
    struct record record;
} out;

static uint32_t new_drive(void) { return sandpile_drive_new(SIDE, SIDE, false, all, SITES, &drive); }
static uint32_t drop_on_drive(void) { return sandpile_drive_drop(&drive, drops, 4, out.rows, 4); }
static uint32_t waves(void) { return sandpile_drive_waves(&drive, drops, 4, out.rows, 4, out.waves, 4 * WAVES, &out.count); }
static uint32_t avalanche(void) { return sandpile_drive_avalanche(&drive, 3, out.rows, out.counts[0], SITES); }
static uint32_t read_drive(void) {
    return sandpile_drive_read(&drive, out.counts[0], SITES, out.counts[1], SITES, &out.sums[0], &out.sums[1], &out.sums[2]);
}
static uint32_t read_site(void) { return sandpile_drive_site(&drive, 17, &out.sums[0], &out.sums[1]); }
static uint32_t new_shared(void) { return sandpile_shared_new(SIDE, SIDE, false, all, SITES, QUOTA, &pass); }
static uint32_t split(void) { return sandpile_pass_split(&pass, 5, &other); }
static uint32_t split_rows(void) { return sandpile_pass_split_rows(&pass, 2, &other); }
static uint32_t join(void) { return sandpile_pass_join(&pass, &other); }
static uint32_t drop_by(void) { return sandpile_pass_drop(&pass, drops, 4, out.sums); }
static uint32_t tally(void) { return sandpile_pass_tally(&pass, out.sums); }
static uint32_t sweep(void) { return sandpile_pass_sweep(&pass, out.sums); }
static uint32_t settle(void) { return settle_into(&out.record, &pass, SITES, 4); }

static void fill_with_threes(void) {
    for (int i = 0; i < SITES; i++) all[i] = 3;
}

struct state {
    sandpile_drive drive;
    sandpile_pass pass, other;
    sandpile_holding holdings[2];
    uint64_t all[SITES], drive_sums[3];
    struct outputs out;
    long blocks;
};

static void take_state(struct state *now) {
    uint64_t unread[2];
    memset(now, 0, sizeof *now);
    now->drive = drive, now->pass = pass, now->other = other, now->out = out;
    memcpy(now->all, all, sizeof all);
    if (pass.at) OK(sandpile_pass_holding(&pass, &now->holdings[0]));
    if (other.at) OK(sandpile_pass_holding(&other, &now->holdings[1]));
    if (drive.at)
        OK(sandpile_drive_read(&drive, &unread[0], 0, &unread[1], 0, &now->drive_sums[0], &now->drive_sums[1],
                               &now->drive_sums[2]));
    now->blocks = atomic_load(&blocks);
}

/* Refuses each request of a call in turn, until none is left to refuse. Returns how many there were. */
static long refuse_each(uint32_t (*call)(void)) {
    static struct state before, after;
    memset(&out, 0x55, sizeof out); /* what no call writes */
    for (long granted = 0;; granted++) {
        take_state(&before);
        atomic_store(&requests, granted);
        uint32_t fault = call();
        atomic_store(&requests, -1);
        if (fault == 0) return granted;
        EXPECT(fault == SANDPILE_MEMORY);
        take_state(&after);
        EXPECT(!memcmp(&before, &after, sizeof before));
    }
}

static void refuse(void) {
    fill_with_threes();
    long live = atomic_load(&blocks);
    EXPECT(refuse_each(new_drive) > 0);
    EXPECT(refuse_each(drop_on_drive) == 0);
    EXPECT(refuse_each(waves) == 0);
    EXPECT(refuse_each(avalanche) == 0);
    EXPECT(refuse_each(read_drive) == 0);
    EXPECT(refuse_each(read_site) == 0);
    EXPECT(refuse_each(new_shared) > 0);
    EXPECT(refuse_each(split) > 0);
    refuse_each(join); /* only one handle for a child */
    EXPECT(refuse_each(split_rows) > 0);
    refuse_each(join);
    EXPECT(refuse_each(tally) == 0);
    EXPECT(refuse_each(sweep) == 0);
    EXPECT(refuse_each(drop_by) == 0);
    EXPECT(refuse_each(settle) > 0);
    sandpile_drive_free(&drive);
    sandpile_pass_free(&pass);
    EXPECT(atomic_load(&blocks) == live && !drive.at && !pass.at && !other.at);
    printf("refuse: each request of 14 calls refused, nothing changed, no block leaked\n");
}

/* Handles filled and freed */

static void churn(void) {
    fill_with_threes();
    long live = atomic_load(&blocks);
    for (int i = 0; i < 25000; i++) {
        OK(sandpile_drive_new(4, 4, false, all, 16, &drive));
        OK(sandpile_shared_new(4, 4, false, all, 16, 10, &pass));
        OK(sandpile_pass_split(&pass, 3, &other));
        sandpile_drive_free(&drive);
        sandpile_pass_free(&pass);
        sandpile_pass_free(&other);
        OK(sandpile_drive_new(4, 4, true, all, 16, &drive));
        sandpile_drive_free(&drive);
        sandpile_drive_free(&drive);
        EXPECT(atomic_load(&blocks) == live);
    }
    printf("churn: 100000 handles filled and freed, no block more\n");
}

/* Faults */

static const size_t outside = SITES;
static int refused;

#define REFUSED(fault, call) do { EXPECT((call) == (fault)); refused++; } while (0)

static void misuse_a_drive(void) {
    out.sums[0] = out.sums[1] = out.sums[2] = 5;
    REFUSED(SANDPILE_EMPTY, drop_on_drive());
    REFUSED(SANDPILE_EMPTY, waves());
    REFUSED(SANDPILE_EMPTY, sandpile_drive_site(&drive, outside, &out.sums[0], &out.sums[1]));
    OK(new_drive());
    REFUSED(SANDPILE_TAKEN, new_drive());
    REFUSED(SANDPILE_LENGTH, sandpile_drive_drop(&drive, &outside, 1, out.rows, 2));
    REFUSED(SANDPILE_NO_SITE, sandpile_drive_drop(&drive, &outside, 1, out.rows, 1));
    REFUSED(SANDPILE_LENGTH, sandpile_drive_waves(&drive, &outside, 1, out.rows, 2, out.waves, WAVES, &out.count));
    REFUSED(SANDPILE_LENGTH, sandpile_drive_waves(&drive, &outside, 1, out.rows, 1, out.waves, WAVES - 1, &out.count));
    REFUSED(SANDPILE_LENGTH, sandpile_drive_waves(&drive, &outside, 1, out.rows, 1, out.waves, 0, &out.count));
    REFUSED(SANDPILE_NO_SITE, sandpile_drive_waves(&drive, &outside, 1, out.rows, 1, out.waves, WAVES, &out.count));
    REFUSED(SANDPILE_LENGTH, sandpile_drive_avalanche(&drive, 0, out.rows, out.counts[0], 1));
    REFUSED(SANDPILE_NO_SITE, sandpile_drive_avalanche(&drive, outside, out.rows, out.counts[0], SITES));
    REFUSED(SANDPILE_LENGTH, sandpile_drive_read(&drive, out.counts[0], 1, out.counts[1], SITES,
                                                 &out.sums[0], &out.sums[1], &out.sums[2]));
    REFUSED(SANDPILE_NO_SITE, sandpile_drive_site(&drive, outside, &out.sums[0], &out.sums[1]));
    EXPECT(out.sums[0] == 5 && out.sums[1] == 5 && out.sums[2] == 5);
    sandpile_drive_free(&drive);
}

static void misuse_a_pass(void) {
    sandpile_pass stranger = {0};
    uint64_t number = 5;
    REFUSED(SANDPILE_EMPTY, sandpile_pass_tally(&pass, &number));
    REFUSED(SANDPILE_TOO_MANY_GRAINS, sandpile_shared_new(SIDE, SIDE, false, all, SITES, UINT64_MAX, &pass));
    EXPECT(!pass.at);
    OK(sandpile_shared_new(SIDE, SIDE, false, all, SITES, 3, &pass));
    OK(sandpile_shared_new(SIDE, SIDE, false, all, SITES, 3, &stranger));
    REFUSED(SANDPILE_OTHER_PILE, sandpile_pass_join(&pass, &stranger));
    sandpile_pass copy = pass;
    REFUSED(SANDPILE_OTHER_PILE, sandpile_pass_join(&pass, &pass));
    REFUSED(SANDPILE_OTHER_PILE, sandpile_pass_join(&pass, &copy));
    REFUSED(SANDPILE_EMPTY, sandpile_pass_join(&pass, &other));
    REFUSED(SANDPILE_EMPTY, sandpile_pass_join(&other, &pass));
    REFUSED(SANDPILE_EMPTY, sandpile_pass_join(&other, &other));
    EXPECT(pass.at == copy.at && !other.at);
    REFUSED(SANDPILE_TAKEN, sandpile_pass_split(&pass, 4, &stranger));
    REFUSED(SANDPILE_TOO_MUCH, sandpile_pass_split(&pass, 4, &other));
    REFUSED(SANDPILE_ROWS, sandpile_pass_split_rows(&pass, 17, &other));
    EXPECT(stranger.at && !other.at);
    REFUSED(SANDPILE_SPENT, sandpile_pass_drop(&pass, drops, 4, &number));
    REFUSED(SANDPILE_NO_SITE, sandpile_pass_drop(&pass, &outside, 1, &number));
    EXPECT(number == 5);
    sandpile_pass_free(&stranger);
}

/* The pass has all rows, and three drops left. */
static void misuse_a_record(void) {
    sandpile_pass middle = {0};
    uint64_t number;
    OK(sandpile_pass_split_rows(&pass, 3, &other));
    OK(sandpile_pass_split_rows(&pass, 3, &middle));
    REFUSED(SANDPILE_APART, sandpile_pass_join(&pass, &other));
    EXPECT(other.at);
    REFUSED(SANDPILE_MISSING, settle_into(&out.record, &pass, SITES, 0));
    OK(sandpile_pass_join(&pass, &middle));
    OK(sandpile_pass_join(&pass, &other));
    OK(sandpile_pass_drop(&pass, drops, 1, &number));
    EXPECT(number == 0);
    OK(settle_into(&out.record, &pass, SITES, 1));
    OK(sandpile_pass_split(&pass, 1, &other));
    sandpile_pass_free(&other);
    REFUSED(SANDPILE_MISSING, settle_into(&out.record, &pass, SITES, 1));
    sandpile_pass_free(&pass);
}

static void misuse(void) {
    fill_with_threes();
    misuse_a_drive();
    misuse_a_pass();
    misuse_a_record();
    printf("misuse: %d calls refused, each with its fault\n", refused);
}

/* Readers: `drive` is a pile of threes on which one grain has dropped, and `pass` has made one drop. */

static void expect_to_read(const uint64_t *heights, const uint64_t *odometer, int i) {
    uint64_t now[2][SITES], sums[3];
    sandpile_holding held;
    OK(sandpile_drive_site(&drive, 17, &sums[0], &sums[1]));
    EXPECT(sums[0] == heights[17] && sums[1] == odometer[17]);
    OK(sandpile_pass_holding(&pass, &held));
    EXPECT(held.left == QUOTA - 1 && held.seen == 1 && held.drops == 1 && held.first_row == 0 && held.end_row == SIDE);
    if (i % 10) return;
    OK(sandpile_drive_read(&drive, now[0], SITES, now[1], SITES, &sums[0], &sums[1], &sums[2]));
    EXPECT(!memcmp(now[0], heights, sizeof now[0]) && !memcmp(now[1], odometer, sizeof now[1]) && sums[2] == 1);
}

static void *read_on(void *argument) {
    const uint64_t *first = argument;
    for (int i = 0; i < READS; i++) expect_to_read(first, first + SITES, i);
    return NULL;
}

static void readers(void) {
    static uint64_t first[2 * SITES];
    pthread_t threads[THREADS];
    uint64_t sums[3];
    const void *held[2];
    fill_with_threes();
    OK(new_drive());
    OK(sandpile_drive_drop(&drive, drops + 2, 1, out.rows, 1));
    OK(new_shared());
    OK(sandpile_pass_drop(&pass, drops, 1, out.sums));
    OK(sandpile_drive_read(&drive, first, SITES, first + SITES, SITES, &sums[0], &sums[1], &sums[2]));
    held[0] = drive.at, held[1] = pass.at;
    for (int i = 0; i < THREADS; i++) EXPECT(!pthread_create(&threads[i], NULL, read_on, first));
    for (int i = 0; i < THREADS; i++) EXPECT(!pthread_join(threads[i], NULL));
    EXPECT(drive.at == held[0] && pass.at == held[1]);
    OK(sandpile_drive_drop(&drive, drops, 4, out.rows, 4));
    sandpile_drive_free(&drive);
    sandpile_pass_free(&pass);
    printf("readers: %d threads read two handles %d times each\n", THREADS, READS);
}

/* Strangers: `pass` and `other` are of two piles. Another thread joins passes of the second one without end. */

enum { TRIES = 100000 };

static atomic_bool is_over;

static void *join_own(void *argument) {
    sandpile_pass *own = argument, child = {0};
    while (!atomic_load(&is_over)) {
        OK(sandpile_pass_split(own, 0, &child));
        OK(sandpile_pass_join(own, &child));
    }
    return NULL;
}

static void strangers(void) {
    sandpile_pass own = {0};
    pthread_t thread;
    fill_with_threes();
    OK(sandpile_shared_new(SIDE, SIDE, false, all, SITES, 3, &pass));
    OK(sandpile_shared_new(SIDE, SIDE, false, all, SITES, 3, &own));
    OK(sandpile_pass_split(&own, 1, &other));
    EXPECT(!pthread_create(&thread, NULL, join_own, &own));
    for (int i = 0; i < TRIES; i++) EXPECT(sandpile_pass_join(&pass, &other) == SANDPILE_OTHER_PILE);
    atomic_store(&is_over, true);
    EXPECT(!pthread_join(thread, NULL));
    OK(sandpile_pass_join(&own, &other));
    sandpile_pass_free(&own);
    sandpile_pass_free(&pass);
    printf("strangers: %d joins of two piles refused\n", TRIES);
}

/* Avalanches: `drive` makes them one by one, between drops in lists. `twin` makes all drops in lists, and its odometers before
   and after an avalanche tell the topplings. */

enum { STEPS = 2000, MOST = 5 };

static sandpile_drive twin;

static const struct grid { size_t width, height; bool cylinder; } grids[] = {
    {1, 1, false},  {1, 256, false}, {256, 1, false}, {23, 11, false}, {16, 16, false},
    {3, 1, true},   {256, 1, true},  {3, 85, true},   {64, 4, true},   {11, 23, true},
};

static void read_twin(uint64_t *heights, uint64_t *odometer, size_t sites) {
    uint64_t sums[3];
    OK(sandpile_drive_read(&twin, heights, sites, odometer, sites, &sums[0], &sums[1], &sums[2]));
}

static void drop_in_lists(uint64_t *seed, size_t sites) {
    sandpile_avalanche rows[2][MOST];
    size_t where[MOST], count = below(seed, MOST + 1);
    for (size_t i = 0; i < count; i++) where[i] = below(seed, sites);
    OK(sandpile_drive_drop(&drive, where, count, rows[0], count));
    OK(sandpile_drive_drop(&twin, where, count, rows[1], count));
    EXPECT(!memcmp(rows[0], rows[1], count * sizeof **rows));
}

static void drop_alone(uint64_t *seed, size_t sites) {
    static uint64_t heights[SITES], before[SITES], after[SITES], counts[SITES];
    sandpile_avalanche rows[2];
    size_t site = below(seed, sites);
    read_twin(heights, before, sites);
    memset(counts, 0x55, sizeof counts);
    OK(sandpile_drive_avalanche(&drive, site, &rows[0], counts, sites));
    OK(sandpile_drive_drop(&twin, &site, 1, &rows[1], 1));
    read_twin(heights, after, sites);
    EXPECT(!memcmp(&rows[0], &rows[1], sizeof *rows));
    for (size_t i = 0; i < sites; i++) EXPECT(counts[i] == after[i] - before[i]);
}

static void expect_twins(size_t sites) {
    struct record one = {.lost = 0}, other = {.lost = 0};
    uint64_t made[2];
    OK(sandpile_drive_read(&drive, one.heights, sites, one.odometer, sites, &one.topplings, &one.lost, &made[0]));
    OK(sandpile_drive_read(&twin, other.heights, sites, other.odometer, sites, &other.topplings, &other.lost, &made[1]));
    EXPECT(!memcmp(&one, &other, sizeof one) && made[0] == made[1]);
    for (size_t i = 0; i < sites; i++) {
        uint64_t height, topplings;
        OK(sandpile_drive_site(&drive, i, &height, &topplings));
        EXPECT(height == other.heights[i] && topplings == other.odometer[i]);
    }
}

static void avalanches_on(struct grid grid, uint64_t seed) {
    size_t sites = grid.width * grid.height;
    for (size_t i = 0; i < sites; i++) all[i] = below(&seed, 8);
    OK(sandpile_drive_new(grid.width, grid.height, grid.cylinder, all, sites, &drive));
    OK(sandpile_drive_new(grid.width, grid.height, grid.cylinder, all, sites, &twin));
    for (int i = 0; i < STEPS; i++) {
        if (below(&seed, 4) == 0) drop_in_lists(&seed, sites);
        drop_alone(&seed, sites);
        if (i % 50 == 0) expect_twins(sites);
    }
    sandpile_drive_free(&drive);
    sandpile_drive_free(&twin);
}

static void avalanches(void) {
    size_t count = sizeof grids / sizeof *grids;
    for (size_t i = 0; i < count; i++) avalanches_on(grids[i], i);
    printf("avalanches: %zu avalanches on %zu grids, each with its topplings\n", count * STEPS, count);
}

/* Forks: two sites side by side, with heights 3 and 1. The right one gets a grain before the fork. */

enum { PAIR = 2 };

static void make_a_pair(void) {
    const uint64_t start[PAIR] = {3, 1};
    const size_t right = 1;
    uint64_t number;
    OK(sandpile_drive_new(2, 1, false, start, PAIR, &drive));
    OK(sandpile_shared_new(2, 1, false, start, PAIR, 3, &pass));
    OK(sandpile_drive_drop(&drive, &right, 1, out.rows, 1));
    OK(sandpile_pass_drop(&pass, &right, 1, &number));
    EXPECT(number == 0);
}

static void drop_on_both(size_t site) {
    uint64_t number, toppled;
    OK(sandpile_drive_drop(&drive, &site, 1, out.rows, 1));
    OK(sandpile_pass_drop(&pass, &site, 1, &number));
    OK(sandpile_pass_sweep(&pass, &toppled));
}

static void expect_of_both(const struct record *wanted, size_t count) {
    struct record got = {.lost = 0};
    uint64_t made;
    OK(settle_into(&got, &pass, PAIR, count));
    EXPECT(!memcmp(&got, wanted, sizeof got)); /* the shared pile */
    memset(&got, 0, offsetof(struct record, history));
    OK(sandpile_drive_read(&drive, got.heights, PAIR, got.odometer, PAIR, &got.topplings, &got.lost, &made));
    EXPECT(!memcmp(&got, wanted, sizeof got) && made == count); /* the drive */
}

/* The heights are 3 and 2. A grain on the left topples the left site; two on the right topple the right site, then the
   left one. */
static const struct record of_parent = {{0, 3}, {1, 0}, 1, 3, {1, 0}};
static const struct record of_child = {{0, 1}, {1, 1}, 2, 6, {1, 1, 1}};

static void go_on_as_child(const int *ends) {
    char byte;
    close(ends[1]);
    EXPECT(read(ends[0], &byte, 1) == 1); /* the parent has dropped */
    drop_on_both(1);
    drop_on_both(1);
    expect_of_both(&of_child, 3);
    _Exit(0);
}

static void go_on_as_parent(const int *ends, pid_t child) {
    int status;
    drop_on_both(0);
    EXPECT(write(ends[1], "", 1) == 1);
    EXPECT(waitpid(child, &status, 0) == child && status == 0);
    expect_of_both(&of_parent, 2);
}

static void fork_once(void) {
    int ends[2];
    make_a_pair();
    EXPECT(!pipe(ends));
    pid_t child = fork();
    EXPECT(child >= 0);
    if (child == 0) go_on_as_child(ends);
    go_on_as_parent(ends, child);
    sandpile_drive_free(&drive);
    sandpile_pass_free(&pass);
    printf("fork: parent and child each see their own drops\n");
}

int main(int count, char **words) {
    for (int i = 1; i < count; i++) {
        if (!strcmp(words[i], "interleave")) interleave();
        else if (!strcmp(words[i], "refuse")) refuse();
        else if (!strcmp(words[i], "churn")) churn();
        else if (!strcmp(words[i], "misuse")) misuse();
        else if (!strcmp(words[i], "readers")) readers();
        else if (!strcmp(words[i], "strangers")) strangers();
        else if (!strcmp(words[i], "avalanches")) avalanches();
        else if (!strcmp(words[i], "fork")) fork_once();
        else return 2;
    }
    return 0;
}
