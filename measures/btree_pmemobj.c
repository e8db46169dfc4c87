/* The B-tree of examples/btree.c on libpmemobj, in the shape of PMDK's btree_map: order 8, and a
   whole node is added to the transaction before keys move in it. It makes a pool of the given size
   in the given file, reads the `call put` lines of a script from its input, runs each as one
   transaction, and writes each value on a line. */
#include <libpmemobj.h>
#include <stdint.h>
#include <stdio.h>
#include <stdlib.h>
#include <string.h>

POBJ_LAYOUT_BEGIN(tree);
POBJ_LAYOUT_ROOT(tree, struct tree);
POBJ_LAYOUT_TOID(tree, struct node);
POBJ_LAYOUT_END(tree);

enum { ORDER = 8, KEYS = ORDER - 1, HALF = ORDER / 2 };

struct item {
    int64_t key, value;
};

struct node {
    int64_t n;
    struct item item[KEYS];
    TOID(struct node) slot[ORDER];
};

struct tree {
    TOID(struct node) top;
    int64_t size;
};

static PMEMobjpool *pool;
static TOID(struct tree) tree;

static void fail(const char *what) {
    fprintf(stderr, "%s: %s\n", what, pmemobj_errormsg());
    exit(1);
}

static int place_of(TOID(struct node) node, int64_t key) {
    int i = 0;
    while (i < D_RO(node)->n && D_RO(node)->item[i].key < key) i++;
    return i;
}

static int holds(TOID(struct node) node, int i, int64_t key) {
    return i < D_RO(node)->n && D_RO(node)->item[i].key == key;
}

static void put_at(TOID(struct node) node, int p, struct item item) {
    TX_ADD(node);
    struct node *to = D_RW(node);
    memmove(&to->item[p + 1], &to->item[p], sizeof item * (to->n - p));
    to->item[p] = item;
    to->n += 1;
}

/* Splits the full child at place p of a node; the middle key goes up into the node. */
static void split(TOID(struct node) parent, int p) {
    TOID(struct node) child = D_RO(parent)->slot[p], next = TX_ZNEW(struct node);
    TX_ADD(child);
    struct node *left = D_RW(child), *right = D_RW(next);
    memcpy(right->item, &left->item[HALF], sizeof left->item[0] * (KEYS - HALF));
    for (int i = HALF; i < ORDER; i++) {
        right->slot[i - HALF] = left->slot[i];
        left->slot[i] = TOID_NULL(struct node);
    }
    right->n = KEYS - HALF;
    left->n = HALF - 1;
    put_at(parent, p, left->item[HALF - 1]);
    struct node *up = D_RW(parent);
    memmove(&up->slot[p + 2], &up->slot[p + 1], sizeof up->slot[0] * (up->n - 1 - p));
    up->slot[p + 1] = next;
}

static TOID(struct node) room_at_top(void) {
    TOID(struct node) top = D_RO(tree)->top;
    if (!TOID_IS_NULL(top) && D_RO(top)->n < KEYS) return top;
    TOID(struct node) up = TX_ZNEW(struct node);
    D_RW(up)->slot[0] = top;
    if (!TOID_IS_NULL(top)) split(up, 0);
    TX_SET(tree, top, up);
    return up;
}

static void insert(struct item item) {
    TOID(struct node) node = room_at_top();
    for (;;) {
        int i = place_of(node, item.key);
        TOID(struct node) child = D_RO(node)->slot[i];
        if (TOID_IS_NULL(child)) {
            put_at(node, i, item);
            return;
        }
        if (D_RO(child)->n == KEYS) {
            split(node, i);
            if (D_RO(node)->item[i].key < item.key) i++;
        }
        node = D_RO(node)->slot[i];
    }
}

static TOID(struct node) found(int64_t key) {
    TOID(struct node) node = D_RO(tree)->top;
    while (!TOID_IS_NULL(node)) {
        int i = place_of(node, key);
        if (holds(node, i, key)) return node;
        node = D_RO(node)->slot[i];
    }
    return node;
}

static int put(int64_t key, int64_t value) {
    TOID(struct node) node = found(key);
    int is_new = TOID_IS_NULL(node);
    TX_BEGIN(pool) {
        if (!is_new) {
            TX_SET(node, item[place_of(node, key)].value, value);
        } else {
            insert((struct item){key, value});
            TX_SET(tree, size, D_RO(tree)->size + 1);
        }
    } TX_ONABORT { fail("put"); } TX_END
    return is_new;
}

int main(int count, char **words) {
    if (count != 3) return fprintf(stderr, "usage: btree_pmemobj FILE MEGABYTES\n"), 2;
    pool = pmemobj_create(words[1], POBJ_LAYOUT_NAME(tree), (size_t)atoi(words[2]) << 20, 0600);
    if (!pool) fail(words[1]);
    tree = POBJ_ROOT(pool, struct tree);
    if (TOID_IS_NULL(tree)) fail("root");
    char line[128];
    while (fgets(line, sizeof line, stdin)) {
        long long key, value;
        if (sscanf(line, "call put %lld %lld", &key, &value) == 2)
            printf("= %d\n", put(key, value));
    }
    pmemobj_close(pool);
    return 0;
}
