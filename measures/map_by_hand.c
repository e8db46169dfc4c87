/* The hash map of map.c on the protocol of cnvm, written by hand: the same events on the same
   simulated lines, without code of a machine between. It reads the `call` lines of a script and
   writes the answers of `cnvm run`, so its time is one that no interpreter of the protocol comes
   below. */
#include <stdint.h>
#include <stdio.h>
#include <stdlib.h>
#include <string.h>

enum { LAST = 16, DONE = 17, ATTEMPT = 18, MARK = 19, FUNCTION = 24, SEAL = 47, RECORDS = 6 };
enum { BUCKETS = 1, ROOT_LINES = 9, FIELDS = 3 };

/* The versions of a line that are older than its newest, oldest first, and the mark, or -1. */
struct older {
    int64_t (*versions)[8];
    int count, room, mark;
};

static int64_t *words;
static struct older *lines;
static int64_t records = 256, slots = 1024, heap, first_slot;
static int64_t marked[1 << 16], dirty[1 << 16];
static int marks, dirties, logged;
static int64_t in_use; /* no slot up to this one is free */

static void fail(const char *what) {
    fprintf(stderr, "%s\n", what);
    exit(1);
}

static void store(int64_t word, int64_t value) {
    struct older *line = &lines[word / 8];
    if (line->count == line->room) {
        line->room = line->room ? 2 * line->room : 4;
        line->versions = realloc(line->versions, line->room * sizeof *line->versions);
        if (!line->versions) fail("no memory");
    }
    memcpy(line->versions[line->count++], &words[word / 8 * 8], 64);
    words[word] = value;
}

static void flush(int64_t at) {
    if (lines[at].count == 0) return;
    lines[at].mark = lines[at].count;
    if (marks == 1 << 16) fail("too many marks");
    marked[marks++] = at;
}

static void fence(void) {
    for (int i = 0; i < marks; i++) {
        struct older *line = &lines[marked[i]];
        if (line->mark < 0) continue;
        line->count -= line->mark;
        memmove(line->versions, line->versions + line->mark, line->count * sizeof *line->versions);
        line->mark = -1;
    }
    marks = 0;
}

static void seal(int64_t function, const int64_t *args, int count) {
    store(FUNCTION, function);
    for (int i = 0; i < count; i++) store(FUNCTION + 1 + i, args[i]);
    for (int i = 0; i <= count / 8; i++) flush(3 + i);
    fence();
    store(SEAL, words[DONE] + 1);
    flush(5);
    fence();
}

/* How many records are valid, which a call reads at its start. */
static int64_t count(void) {
    int64_t found = 0;
    while (found < records && words[8 * (RECORDS + found) + 2] == words[ATTEMPT] + 1) found++;
    return found;
}

static void record(int64_t heap_word) {
    int64_t line = RECORDS + logged++;
    store(8 * line, heap_word);
    store(8 * line + 1, words[heap + heap_word]);
    store(8 * line + 2, words[ATTEMPT] + 1);
    flush(line);
    fence();
}

static void put_word(int64_t heap_word, int64_t value) {
    int64_t line = (heap + heap_word) / 8;
    int known = 0;
    for (int i = 0; i < dirties && !known; i++) known = dirty[i] == line;
    if (!known) dirty[dirties++] = line;
    store(heap + heap_word, value);
}

static void put_logged(int64_t heap_word, int64_t value) {
    record(heap_word);
    put_word(heap_word, value);
}

static int64_t header(int64_t slot) { return first_slot + 16 * (slot - 1); }
static int64_t field(int64_t slot, int at) { return words[heap + header(slot) + 1 + at]; }
static int64_t bucket(int64_t key) { return BUCKETS + ((key ^ (key >> 32)) & 63); }

static int64_t new_node(void) {
    while (in_use < slots && words[heap + header(in_use + 1)] != 0) in_use++;
    if (in_use == slots) return 0;
    int64_t slot = in_use + 1;
    for (int i = 0; i < FIELDS; i++) put_word(header(slot) + 1 + i, 0);
    put_logged(header(slot), 1);
    return slot;
}

static int64_t find(int64_t key) {
    int64_t p = words[heap + bucket(key)];
    while (p != 0 && field(p, 0) != key) p = field(p, 2);
    return p;
}

static int64_t put(int64_t key, int64_t value) {
    int64_t p = find(key);
    if (p != 0) {
        int64_t old = field(p, 1);
        put_logged(header(p) + 2, value);
        return old;
    }
    p = new_node();
    if (p == 0) return -1;
    put_word(header(p) + 1, key);
    put_word(header(p) + 2, value);
    put_word(header(p) + 3, words[heap + bucket(key)]);
    put_logged(bucket(key), p);
    put_logged(0, words[heap] + 1);
    return 0;
}

static int64_t get(int64_t key) {
    int64_t p = find(key);
    return p == 0 ? -1 : field(p, 1);
}

static int64_t del(int64_t key) {
    int64_t p = words[heap + bucket(key)], before = 0;
    while (p != 0 && field(p, 0) != key) {
        before = p;
        p = field(p, 2);
    }
    if (p == 0) return 0;
    put_logged(before == 0 ? bucket(key) : header(before) + 3, field(p, 2));
    put_logged(header(p), 0);
    if (in_use >= p) in_use = p - 1;
    put_logged(0, words[heap] - 1);
    return 1;
}

int main(int argc, char **argv) {
    if (argc > 1) slots = atoll(argv[1]);
    if (argc > 2) records = atoll(argv[2]);
    heap = 8 * (RECORDS + records);
    first_slot = 8 * ROOT_LINES;
    int64_t all = RECORDS + records + ROOT_LINES + 2 * slots;
    words = calloc(8 * all, sizeof *words);
    lines = malloc(all * sizeof *lines);
    if (!words || !lines) fail("no memory");
    for (int64_t i = 0; i < all; i++) lines[i] = (struct older){NULL, 0, 0, -1};
    char text[128], name[16];
    while (fgets(text, sizeof text, stdin)) {
        int64_t args[2] = {0, 0};
        int given = sscanf(text, "call %15s %ld %ld", name, &args[0], &args[1]) - 1;
        int function = name[0] == 'p' ? 1 : name[0] == 'g' ? 2 : 3;
        if (given != (function == 1 ? 2 : 1)) fail("a line isn't a call");
        if (words[MARK] != 0) fail("the pool is unusable");
        if (function == 2) { /* it only looks */
            printf("= %ld log 0\n", get(args[0]));
            continue;
        }
        seal(function, args, given);
        logged = count();
        dirties = 0;
        int64_t value = function == 1 ? put(args[0], args[1]) : del(args[0]);
        for (int i = 0; i < dirties; i++) flush(dirty[i]);
        fence();
        store(LAST, value);
        store(DONE, words[DONE] + 1);
        store(ATTEMPT, words[ATTEMPT] + 1);
        flush(2);
        fence();
        printf("= %ld log %d\n", value, logged);
    }
    return 0;
}
