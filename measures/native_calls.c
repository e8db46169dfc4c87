/* Times calls of the hash map of map.c, for measures/native: as native code, as plain C with
   -DPLAIN, on libpmemobj with -DPMEMOBJ. SYNC is a number of `enum cnvm_sync`. With -DCNVM_COUNT
   events are counted, those of the library by count_pmem.c. */
#define _GNU_SOURCE
#include <inttypes.h>
#include <stdint.h>
#include <stdio.h>
#include <stdlib.h>
#include <string.h>
#include <time.h>
#include <unistd.h>

static const char usage[] =
    "native_calls calls FILE SYNC ROUNDS CALLS\n"
    "       ns a call of each round: half puts, a quarter gets, a quarter removals\n"
    "native_calls open FILE SYNC ROUNDS    us of each opening\n"
    "native_calls create FILE SYNC         us of the creation\n"
    "native_calls events FILE              stores, flushes and fences of each kind of call\n"
    "native_calls cut FILE SYNC            fills the pool, and ends within a call\n";

enum { KEYS = 256, ENDED_WITHIN = 99 };

#ifdef PLAIN
#include "prelude.h"
#include "map.c"

static void create(const char *path, int sync) { (void)path, (void)sync; }
#elif defined PMEMOBJ
#define main peer_main
#include "map_pmemobj.c"
#undef main

static void create(const char *path, int sync) {
    (void)sync;
    pool = pmemobj_create(path, POBJ_LAYOUT_NAME(map), (size_t)64 << 20, 0600);
    if (pool == NULL) fail(path);
    find_root();
}

static void open_pool(const char *path, int sync) {
    (void)sync;
    pool = pmemobj_open(path, POBJ_LAYOUT_NAME(map));
    if (pool == NULL) fail(path);
}

static void close_pool(void) { pmemobj_close(pool); }

/* Ends right before a transaction would be committed. */
static void end_within(void) {
    TX_BEGIN(pool) {
        TOID(struct node) p = TX_ZNEW(struct node);
        TX_SET(map, bucket[0], p);
        TX_SET(map, size, D_RO(map)->size + 1);
        _exit(ENDED_WITHIN);
    } TX_END
}

#ifdef CNVM_COUNT
extern uint64_t pmem_events[2];

static void read_events(uint64_t *events) {
    events[0] = 0;
    memcpy(events + 1, pmem_events, sizeof pmem_events);
}
#endif
#else
#include "map_pool.h"

unsigned long cut_at = -1ul;
static struct map_pool *pool;

static void fail(const char *what, struct cnvm_fault fault) {
    fprintf(stderr, "%s: fault %d, error %d\n", what, fault.kind, fault.error);
    exit(1);
}

static void create(const char *path, int sync) {
    struct cnvm_fault fault;
    pool = map_pool_create(path, sync, &fault);
    if (pool == NULL) fail(path, fault);
}

static void open_pool(const char *path, int sync) {
    struct cnvm_fault fault;
    pool = map_pool_open(path, sync, NULL, &fault);
    if (pool == NULL) fail(path, fault);
}

static void close_pool(void) { map_pool_close(pool); }

static int64_t value(struct cnvm_answer answer) {
    if (answer.status == CNVM_DONE) return answer.value;
    fprintf(stderr, "a call ended with status %d\n", answer.status);
    exit(1);
}

static int64_t put(int64_t key, int64_t number) { return value(map_put(pool, key, number)); }
static int64_t get(int64_t key) { return value(map_get(pool, key)); }
static int64_t del(int64_t key) { return value(map_del(pool, key)); }

#ifdef CNVM_COUNT
static void read_events(uint64_t *events) { map_pool_events(pool, events); }

/* Ends after 30 of the 41 events of a call, before its last fences. */
static void end_within(void) {
    uint64_t events[3];
    read_events(events);
    cut_at = events[0] + events[1] + events[2] + 30;
    put(1000, 7);
}
#endif
#endif

static uint64_t state = 88172645463325252u;

static uint64_t drawn(uint64_t below) {
    state ^= state << 13;
    state ^= state >> 7;
    state ^= state << 17;
    return state % below;
}

static double now(void) {
    struct timespec time;
    clock_gettime(CLOCK_MONOTONIC, &time);
    return (double)time.tv_sec * 1e9 + (double)time.tv_nsec;
}

static int64_t draw_call(void) {
    uint64_t kind = drawn(4);
    int64_t key = (int64_t)drawn(KEYS);
    if (kind < 2) return put(key, (int64_t)drawn(1000));
    return kind == 2 ? get(key) : del(key);
}

static void fill(void) {
    for (int64_t key = 0; key < KEYS; key++) put(key, 1);
}

/* A sum of all values comes last, which has to be the same everywhere. */
static void time_calls(int rounds, int calls) {
    uint64_t sum = 0;
    for (int i = 0; i < rounds; i++) {
        double begin = now();
        for (int k = 0; k < calls; k++) sum = sum * 31 + (uint64_t)draw_call();
        printf("%.1f ", (now() - begin) / calls);
    }
    printf("\n%" PRIu64 "\n", sum);
}

#ifndef PLAIN
static void time_openings(const char *path, int sync, int rounds) {
    for (int i = 0; i < rounds; i++) {
        double begin = now();
        open_pool(path, sync);
        printf("%.1f ", (now() - begin) / 1000);
        close_pool();
    }
    printf("\n");
}
#endif

#ifdef CNVM_COUNT
static uint64_t before[3];

static void count(const char *what, double calls) {
    uint64_t events[3];
    read_events(events);
    if (what != NULL) printf("%s", what);
    for (int i = 0; what != NULL && i < 3; i++)
        printf("\t%.1f", (double)(events[i] - before[i]) / calls);
    if (what != NULL) printf("\n");
    memcpy(before, events, sizeof before);
}

static void tell_events(void) {
    enum { MANY = 100, MIXED = 100000 };
    fill();
    count(NULL, 1);
    for (int64_t key = 0; key < MANY; key++) put(1000 + key, 7);
    count("put of a new key", MANY);
    for (int64_t key = 0; key < MANY; key++) put(1000 + key, 8);
    count("put of a key that is there", MANY);
    for (int64_t key = 0; key < MANY; key++) get(1000 + key);
    count("get", MANY);
    for (int64_t key = 0; key < MANY; key++) del(1000 + key);
    count("del of a key that is there", MANY);
    for (int64_t key = 0; key < MANY; key++) del(1000 + key);
    count("del of a key that isn't there", MANY);
    for (int i = 0; i < MIXED; i++) draw_call();
    count("the mix", MIXED);
}
#endif

int main(int argc, char **words) {
    const char *what = argc > 1 ? words[1] : "";
    int sync = argc > 3 ? atoi(words[3]) : 0, rounds = argc > 4 ? atoi(words[4]) : 1;
    double begin = now();
    if (argc < 3) return fputs(usage, stderr), 2;
#ifndef PLAIN
    if (strcmp(what, "open") == 0) return time_openings(words[2], sync, rounds), 0;
#endif
    create(words[2], sync);
    if (strcmp(what, "create") == 0) printf("%.0f\n", (now() - begin) / 1000);
    if (strcmp(what, "calls") == 0) time_calls(rounds, argc > 5 ? atoi(words[5]) : 1000);
#ifdef CNVM_COUNT
    if (strcmp(what, "events") == 0) tell_events();
    if (strcmp(what, "cut") == 0) fill(), end_within();
#endif
    return 0;
}
