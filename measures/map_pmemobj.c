/* The hash map of map.c on libpmemobj. It makes a pool of the given size in the given file, reads
   the `call` lines of a script from its input, runs each as one transaction, and writes each value
   on a line. An update, an insertion and a removal are transactions of the library, with an undo
   record for each word of the pool that they overwrite; `get` writes nothing. A line `cut` closes
   the pool and opens it again, which runs the library's recovery. */
#include <libpmemobj.h>
#include <stdint.h>
#include <stdio.h>
#include <stdlib.h>
#include <string.h>

POBJ_LAYOUT_BEGIN(map);
POBJ_LAYOUT_ROOT(map, struct map);
POBJ_LAYOUT_TOID(map, struct node);
POBJ_LAYOUT_END(map);

struct node {
    int64_t key, val;
    TOID(struct node) next;
};

struct map {
    int64_t size;
    TOID(struct node) bucket[64];
};

static PMEMobjpool *pool;
static TOID(struct map) map;

static int place(int64_t k) { return (k ^ (k >> 32)) & 63; }

static void fail(const char *what) {
    fprintf(stderr, "%s: %s\n", what, pmemobj_errormsg());
    exit(1);
}

static TOID(struct node) find(int64_t k) {
    TOID(struct node) p = D_RO(map)->bucket[place(k)];
    while (!TOID_IS_NULL(p) && D_RO(p)->key != k) p = D_RO(p)->next;
    return p;
}

static int64_t put(int64_t k, int64_t v) {
    TOID(struct node) p = find(k);
    int64_t old = TOID_IS_NULL(p) ? 0 : D_RO(p)->val;
    TX_BEGIN(pool) {
        if (!TOID_IS_NULL(p)) {
            TX_SET(p, val, v);
        } else {
            p = TX_ZNEW(struct node);
            int b = place(k);
            D_RW(p)->key = k;
            D_RW(p)->val = v;
            D_RW(p)->next = D_RO(map)->bucket[b];
            TX_SET(map, bucket[b], p);
            TX_SET(map, size, D_RO(map)->size + 1);
        }
    } TX_ONABORT { fail("put"); } TX_END
    return old;
}

static int64_t get(int64_t k) {
    TOID(struct node) p = find(k);
    return TOID_IS_NULL(p) ? -1 : D_RO(p)->val;
}

static int64_t del(int64_t k) {
    int b = place(k);
    TOID(struct node) p = D_RO(map)->bucket[b], before = TOID_NULL(struct node);
    while (!TOID_IS_NULL(p) && D_RO(p)->key != k) before = p, p = D_RO(p)->next;
    if (TOID_IS_NULL(p)) return 0;
    TX_BEGIN(pool) {
        if (TOID_IS_NULL(before)) TX_SET(map, bucket[b], D_RO(p)->next);
        else TX_SET(before, next, D_RO(p)->next);
        TX_FREE(p);
        TX_SET(map, size, D_RO(map)->size - 1);
    } TX_ONABORT { fail("del"); } TX_END
    return 1;
}

static void find_root(void) {
    map = POBJ_ROOT(pool, struct map);
    if (TOID_IS_NULL(map)) fail("root");
}

int main(int count, char **words) {
    if (count != 3) return fprintf(stderr, "usage: map_pmemobj FILE MEGABYTES\n"), 2;
    pool = pmemobj_create(words[1], POBJ_LAYOUT_NAME(map), (size_t)atoi(words[2]) << 20, 0600);
    if (!pool) fail(words[1]);
    find_root();
    char line[128], name[16];
    while (fgets(line, sizeof line, stdin)) {
        long long k = 0, v = 0;
        if (!strcmp(line, "cut\n")) {
            pmemobj_close(pool);
            pool = pmemobj_open(words[1], POBJ_LAYOUT_NAME(map));
            if (!pool) fail(words[1]);
            find_root();
        } else if (sscanf(line, "call %15s %lld %lld", name, &k, &v) >= 2) {
            int64_t value = !strcmp(name, "put")   ? put(k, v)
                            : !strcmp(name, "get") ? get(k)
                                                   : del(k);
            printf("= %lld\n", (long long)value);
        }
    }
    pmemobj_close(pool);
    return 0;
}
