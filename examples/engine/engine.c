/* A store of numbers under names, which a kill leaves as it was: `engine POOL` answers the commands
   on its standard input, a line each, once what they did is durable.

       put KEY NUMBER        new, or was NUMBER where there is no room for it
       get KEY               is NUMBER, or none
       del KEY               gone, or none
       move KEY KEY NUMBER   moved, or refused where a key isn't there or has too little
       count                 count NUMBER

   A key has 1 to 24 bytes without blanks. The transactions stand in store.c. */
#include "store_pool.h"
#include <errno.h>
#include <inttypes.h>
#include <stdio.h>
#include <stdlib.h>
#include <string.h>

enum { KEY_BYTES = 24, MOST_WORDS = 5, LINE_BYTES = 256 };

/* A key as the words of store.c; what it doesn't fill is 0. */
struct key {
    int64_t words[KEY_BYTES / 8];
};

static struct store_pool *pool;

/* Tells why there is no pool to work on, and ends. */
static void give_up(const char *path, struct cnvm_fault fault) {
    switch (fault.kind) {
    case CNVM_SYSTEM: fprintf(stderr, "engine: %s: %s\n", path, strerror(fault.error)); break;
    case CNVM_BUSY: fprintf(stderr, "engine: %s: another process has it\n", path); break;
    case CNVM_DIGEST: fprintf(stderr, "engine: %s: it is a pool of another program\n", path); break;
    default:
        fprintf(stderr, "engine: %s: it is no pool of this program", path);
        fprintf(stderr, " (fault %d: %" PRId64 ", %" PRId64 ")\n", fault.kind, fault.found,
                fault.wanted);
    }
    exit(1);
}

/* Opens the pool, after which nothing is owed; or creates it, if it isn't there. */
static void begin(const char *path) {
    struct cnvm_fault fault;
    struct cnvm_answer recovered;
    pool = store_pool_open(path, CNVM_AUTO, &recovered, &fault);
    if (pool == NULL && fault.kind == CNVM_SYSTEM && fault.error == ENOENT)
        pool = store_pool_create(path, CNVM_AUTO, &fault);
    if (pool == NULL) give_up(path, fault);
}

/* Whether the word is a key, and that key. */
static int read_key(const char *word, struct key *key) {
    size_t length = strlen(word);
    if (length == 0 || length > KEY_BYTES) return 0;
    *key = (struct key){{0}};
    memcpy(key->words, word, length);
    return 1;
}

/* Whether the word is a number, and that number. */
static int read_number(const char *word, int64_t *number) {
    char *end;
    errno = 0;
    *number = strtoll(word, &end, 10);
    return errno == 0 && end != word && *end == '\0';
}

/* The value of an answer that a transaction of this store has to give. */
static int64_t value_of(struct cnvm_answer answer) {
    if (answer.status == CNVM_DONE) return answer.value;
    fprintf(stderr, "engine: the pool is unusable (status %d, trap %d)\n", answer.status,
            answer.trap);
    exit(1);
}

static int is_done(struct cnvm_answer answer) {
    if (answer.status == CNVM_ABORTED) return 0;
    value_of(answer);
    return 1;
}

static struct cnvm_answer get(struct key k) {
    return store_get(pool, k.words[0], k.words[1], k.words[2]);
}

static void put(struct key k, int64_t number) {
    struct cnvm_answer old = get(k);
    int had = is_done(old);
    if (!is_done(store_put(pool, k.words[0], k.words[1], k.words[2], number))) puts("full");
    else if (had) printf("was %" PRId64 "\n", old.value);
    else puts("new");
}

static void tell(struct key k) {
    struct cnvm_answer answer = get(k);
    if (is_done(answer)) printf("is %" PRId64 "\n", answer.value);
    else puts("none");
}

static void del(struct key k) {
    int was_there = value_of(store_del(pool, k.words[0], k.words[1], k.words[2])) != 0;
    puts(was_there ? "gone" : "none");
}

static void move(struct key k, struct key l, int64_t number) {
    struct cnvm_answer answer = store_move(pool, k.words[0], k.words[1], k.words[2], l.words[0],
                                           l.words[1], l.words[2], number);
    puts(is_done(answer) ? "moved" : "refused");
}

/* Answers a command; whether it is one. */
static int answer(char **words, int count) {
    struct key key, other;
    int64_t number;
    const char *name = words[0];
    if (count == 1 && strcmp(name, "count") == 0) {
        printf("count %" PRId64 "\n", value_of(store_count(pool)));
        return 1;
    }
    if (count < 2 || !read_key(words[1], &key)) return 0;
    if (count == 2 && strcmp(name, "get") == 0) return tell(key), 1;
    if (count == 2 && strcmp(name, "del") == 0) return del(key), 1;
    if (count == 3 && strcmp(name, "put") == 0 && read_number(words[2], &number))
        return put(key, number), 1;
    if (count != 4 || strcmp(name, "move") != 0) return 0;
    if (!read_key(words[2], &other) || !read_number(words[3], &number)) return 0;
    return move(key, other, number), 1;
}

int main(int count, char **words) {
    char line[LINE_BYTES], *parts[MOST_WORDS];
    if (count != 2) return fprintf(stderr, "usage: engine POOL < COMMANDS\n"), 2;
    begin(words[1]);
    while (fgets(line, sizeof line, stdin) != NULL) {
        int found = 0;
        char *part = strtok(line, " \n");
        for (; part != NULL && found < MOST_WORDS; part = strtok(NULL, " \n"))
            parts[found++] = part;
        if (found != 0 && !answer(parts, found)) puts("what?");
        fflush(stdout);
    }
    store_pool_close(pool);
    return 0;
}
