/* Counts the lines that libpmemobj has libpmem flush, and its fences. It is linked into a program,
   whose functions the library then calls in place of libpmem's. */
#define _GNU_SOURCE
#include <dlfcn.h>
#include <stddef.h>
#include <stdint.h>

enum { NO_DRAIN = 1, NO_FLUSH = 32 };   /* flags of libpmem.h */

uint64_t pmem_events[2];   /* lines, fences */

/* Calls that libpmem makes of its own functions aren't counted twice. */
static int depth;

static void count(const void *at, size_t bytes, uint64_t fences) {
    uintptr_t first = (uintptr_t)at / 64, last = ((uintptr_t)at + bytes - 1) / 64;
    if (depth++ != 0) return;
    if (bytes != 0) pmem_events[0] += last - first + 1;
    pmem_events[1] += fences;
}

static void count_copy(const void *at, size_t bytes, unsigned flags) {
    if (flags & NO_FLUSH) count(at, 0, 0);
    else count(at, bytes, flags & NO_DRAIN ? 0 : 1);
}

#define REAL(name, ...) ((__typeof__(&name))dlsym(RTLD_NEXT, #name))(__VA_ARGS__)

void pmem_flush(const void *at, size_t bytes) {
    count(at, bytes, 0);
    REAL(pmem_flush, at, bytes);
    depth--;
}

void pmem_drain(void) {
    count(NULL, 0, 1);
    REAL(pmem_drain);
    depth--;
}

void pmem_persist(const void *at, size_t bytes) {
    count(at, bytes, 1);
    REAL(pmem_persist, at, bytes);
    depth--;
}

void *pmem_memcpy(void *to, const void *from, size_t bytes, unsigned flags) {
    count_copy(to, bytes, flags);
    void *given = REAL(pmem_memcpy, to, from, bytes, flags);
    depth--;
    return given;
}

void *pmem_memmove(void *to, const void *from, size_t bytes, unsigned flags) {
    count_copy(to, bytes, flags);
    void *given = REAL(pmem_memmove, to, from, bytes, flags);
    depth--;
    return given;
}

void *pmem_memset(void *to, int byte, size_t bytes, unsigned flags) {
    count_copy(to, bytes, flags);
    void *given = REAL(pmem_memset, to, byte, bytes, flags);
    depth--;
    return given;
}
