/* Runs commands on a pool of an emitted program, for tools/check_native.

       driver create|open FILE SYNC [--stop K] [--old OLD] [--told TOLD] < COMMANDS

   Commands are lines, and most are answered as `cnvm run` does:

       call NAME A..      runs a transaction
       last               tells how many are done, and the last value
       stop K             ends the process right before the event numbered K from now
       threads N M NAME A..   runs M of these calls in each of N threads, and tells how many were
                          done
       beside FILE N M NAME A..   the same with half of the threads on another pool, of which it
                          tells what `last` tells
       looks N M LOOK NAME A..    the same where half of the threads call LOOK, without arguments

   The first answer of an opening is that of its recovery. --stop is a `stop` of the opening itself;
   --old keeps OLD as shadow.h says. With --told the calls are read first, and then run without an
   answer; TOLD has how many were begun, how many have ended, and the last value. */
#define _GNU_SOURCE
#include "shadow.h"
#include "table.h"
#include <fcntl.h>
#include <inttypes.h>
#include <pthread.h>
#include <stdio.h>
#include <stdlib.h>
#include <string.h>
#include <sys/mman.h>
#include <unistd.h>

enum { MOST_WORDS = 32, MOST_THREADS = 64 };

unsigned long cut_at = -1ul;

static POOL *pool;

struct call {
    int64_t args[MOST_WORDS];
    int entry;
};

static int fail(const char *what) {
    fprintf(stderr, "driver: %s\n", what);
    exit(2);
}

static const char *kind_of(int trap) {
    static const char *const kinds[] = {"?",     "null",  "stale",   "index", "divide",
                                        "steps", "abort", "logfull", "depth"};
    return kinds[trap >= 1 && trap <= 8 ? trap : 0];
}

/* An answer, as `cnvm run` writes it; that of a recovery has a word before it. */
static void tell(const char *before, struct cnvm_answer a) {
    const char *done = *before ? "recovered redone" : "=";
    switch (a.status) {
    case CNVM_DONE: printf("%s %" PRId64 " log %" PRIu64 "\n", done, a.value, a.logged); break;
    case CNVM_ABORTED: printf("%saborted %s\n", before, kind_of(a.trap)); break;
    case CNVM_TRAPPED: printf("%strap %s\n", before, kind_of(a.trap)); break;
    case CNVM_UNUSABLE: printf("refused unusable %s\n", kind_of(a.trap)); break;
    case CNVM_NUMBERS: printf("refused numbers\n"); break;
    case CNVM_NONE: printf("recovered none\n"); break;
    default: fail("an answer has a status that there isn't");
    }
}

/* The words of a line, cut at its blanks. */
static int words_of(char *line, char **words) {
    int count = 0;
    char *word = strtok(line, " \n");
    for (; word != NULL && count < MOST_WORDS; word = strtok(NULL, " \n")) words[count++] = word;
    return count;
}

/* A number from -2^63 to 2^64 - 1, as a word. */
static int64_t number(const char *word) { return (int64_t)strtoull(word, NULL, 10); }

/* A call, of its name and its arguments. */
static struct call call_of(char **words, int count) {
    struct call call = {.entry = 0};
    while (call.entry < ENTRIES && strcmp(entries[call.entry].name, words[0]) != 0) call.entry++;
    if (call.entry == ENTRIES) fail("no such call");
    if (entries[call.entry].parameters != count - 1) fail("another number of arguments");
    for (int i = 1; i < count; i++) call.args[i - 1] = number(words[i]);
    return call;
}

static struct cnvm_answer run(POOL *on, const struct call *call) {
    return entries[call->entry].run(on, call->args);
}

static uint64_t events_so_far(void) {
    uint64_t events[3] = {0};
#ifdef CNVM_COUNT
    POOL_EVENTS(pool, events);
#endif
    return events[0] + events[1] + events[2];
}

/* How often a thread runs a call on a pool, and how many of these were done. */
struct share {
    POOL *pool;
    struct call call;
    int64_t times, done;
};

static void *run_share(void *given) {
    struct share *share = given;
    for (int64_t i = 0; i < share->times; i++)
        share->done += run(share->pool, &share->call).status == CNVM_DONE;
    return NULL;
}

/* The words tell how many threads there are, and how often each runs the call. Every other thread
   has the other pool and the other call. */
static void run_threads(POOL *other, char **words, struct call call, struct call other_call) {
    pthread_t threads[MOST_THREADS];
    struct share shares[MOST_THREADS];
    int64_t done = 0;
    int most = (int)number(words[0]);
    if (most > MOST_THREADS) fail("too many threads");
    for (int i = 0; i < most; i++) {
        shares[i] = (struct share){i % 2 ? other : pool, i % 2 ? other_call : call,
                                   number(words[1]), 0};
        if (pthread_create(&threads[i], NULL, run_share, &shares[i]) != 0) fail("no thread");
    }
    for (int i = 0; i < most; i++) {
        pthread_join(threads[i], NULL);
        done += shares[i].done;
    }
    printf("done %" PRId64, done);
}

static void tell_last(const char *before, POOL *of, const char *after) {
    printf("%slast %" PRIu64 " %" PRId64 "%s", before, POOL_DONE(of), POOL_LAST(of), after);
}

static void run_beside(char **words, int count) {
    POOL *other = POOL_OPEN(words[0], CNVM_NOSYNC, NULL, NULL);
    if (other == NULL) fail("no other pool");
    struct call call = call_of(words + 3, count - 3);
    run_threads(other, words + 1, call, call);
    tell_last(" ", other, "\n");
    POOL_CLOSE(other);
}

static void command(char *line) {
    char *words[MOST_WORDS];
    int count = words_of(line, words);
    if (count >= 2 && strcmp(words[0], "call") == 0) {
        struct call call = call_of(words + 1, count - 1);
        tell("", run(pool, &call));
    } else if (count == 1 && strcmp(words[0], "last") == 0) {
        tell_last("", pool, "\n");
    } else if (count == 2 && strcmp(words[0], "stop") == 0) {
        cut_at = events_so_far() + (unsigned long)number(words[1]);
    } else if (count >= 4 && strcmp(words[0], "threads") == 0) {
        struct call call = call_of(words + 3, count - 3);
        run_threads(pool, words + 1, call, call);
        printf("\n");
    } else if (count >= 5 && strcmp(words[0], "looks") == 0) {
        run_threads(pool, words + 1, call_of(words + 4, count - 4), call_of(words + 3, 1));
        printf("\n");
    } else if (count >= 5 && strcmp(words[0], "beside") == 0) {
        run_beside(words + 1, count - 1);
    } else if (count != 0) {
        fail("no such command");
    }
    fflush(stdout);
}

/* What another process may read while this one runs, and after it was killed. The answer of a call
   goes where that of the call before isn't: a kill may come before the call counts as ended. */
struct told {
    volatile uint64_t begun, ended;
    volatile int64_t values[2];
};

static struct told *map_told(const char *path) {
    int file = open(path, O_RDWR);
    if (file < 0) fail("no file to tell in");
    void *at = mmap(NULL, sizeof(struct told), PROT_READ | PROT_WRITE, MAP_SHARED, file, 0);
    if (at == MAP_FAILED) fail("no map of the file to tell in");
    return at;
}

/* Reads all calls, and runs them as fast as they go. */
static void run_told(struct told *told) {
    static char line[1024];
    struct call *calls = NULL;
    size_t count = 0, room = 0;
    while (fgets(line, sizeof line, stdin) != NULL) {
        char *words[MOST_WORDS];
        int found = words_of(line, words);
        if (count == room) {
            room = 2 * room + 64;
            calls = realloc(calls, room * sizeof *calls);
            if (calls == NULL) fail("no memory");
        }
        calls[count++] = call_of(words + 1, found - 1);
    }
    for (size_t i = 0; i < count; i++) {
        told->begun = i + 1;
        told->values[i % 2] = run(pool, &calls[i]).value;
        told->ended = i + 1;
    }
    free(calls);
    pause();
}

static void begin(char **words, const char *old) {
    struct cnvm_fault fault = {0};
    struct cnvm_answer recovered;
    int sync = (int)number(words[3]), creates = strcmp(words[1], "create") == 0;
    if (!creates && old != NULL) shadow_begin(words[2], old);
    pool = creates ? POOL_CREATE(words[2], sync, &fault)
                   : POOL_OPEN(words[2], sync, &recovered, &fault);
    if (pool == NULL) {
        printf("fault %d %d %" PRId64 " %" PRId64 "\n", fault.kind, fault.error, fault.found,
               fault.wanted);
        exit(1);
    }
    if (creates && old != NULL) shadow_begin(words[2], old);
    if (!creates) tell("recovered ", recovered);
    fflush(stdout);
}

int main(int count, char **words) {
    const char *old = NULL, *told = NULL;
    static char line[1024];
    if (count < 4) return fail("usage: driver create|open FILE SYNC ..");
    for (int i = 4; i + 1 < count; i += 2) {
        if (strcmp(words[i], "--stop") == 0) cut_at = (unsigned long)number(words[i + 1]);
        if (strcmp(words[i], "--old") == 0) old = words[i + 1];
        if (strcmp(words[i], "--told") == 0) told = words[i + 1];
    }
    begin(words, old);
    if (told != NULL) run_told(map_told(told));
    else while (fgets(line, sizeof line, stdin) != NULL) command(line);
    POOL_CLOSE(pool);
    return 0;
}
