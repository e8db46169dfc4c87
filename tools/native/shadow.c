#include "shadow.h"
#include "test_build.h"
#include <fcntl.h>
#include <stdint.h>
#include <stdlib.h>
#include <string.h>
#include <sys/mman.h>
#include <sys/stat.h>
#include <unistd.h>

enum { LINE = 64 };

static char *old_lines, *pending;   /* what is durable, and what the next fence makes durable */
static unsigned long *waiting, waits, most;

static void *made(void *memory) {
    if (memory == NULL || memory == MAP_FAILED) abort();
    return memory;
}

void shadow_begin(const char *pool, const char *old) {
    struct stat about;
    int from = open(pool, O_RDONLY), to = open(old, O_RDWR | O_CREAT | O_TRUNC, 0600);
    if (from < 0 || to < 0 || fstat(from, &about) != 0 || ftruncate(to, about.st_size) != 0)
        abort();
    size_t bytes = (size_t)about.st_size;
    old_lines = made(mmap(NULL, bytes, PROT_READ | PROT_WRITE, MAP_SHARED, to, 0));
    if (read(from, old_lines, bytes) != (ssize_t)bytes) abort();
    pending = made(malloc(bytes));
    close(from);
    close(to);
}

void shadow_flush(const void *words, unsigned long line) {
    if (old_lines == NULL) return;
    if (waits == most) {
        most = 2 * most + 64;
        waiting = made(realloc(waiting, most * sizeof *waiting));
    }
    memcpy(pending + LINE * line, (const char *)words + LINE * line, LINE);
    waiting[waits++] = line;
}

/* Makes the waiting lines durable that lie between two bytes of the pool; others are lost. */
static void settle(size_t from, size_t to) {
    if (old_lines == NULL) return;
    for (unsigned long i = 0; i < waits; i++) {
        size_t at = LINE * waiting[i];
        if (from <= at && at + LINE <= to) memcpy(old_lines + at, pending + at, LINE);
    }
    waits = 0;
}

void shadow_fence(void) { settle(0, SIZE_MAX); }

int shadow_sync(const void *words, const void *from, unsigned long bytes) {
    size_t begin = (size_t)((const char *)from - (const char *)words);
    settle(begin, begin + bytes);
    return 0;
}
