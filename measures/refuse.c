/* An allocator that refuses one request, the one numbered REFUSE (from 1), and tells at the end how
   many there were, in the file that REFUSE_COUNT names. Build: cc -shared -fPIC -o refuse.so
   refuse.c */
#define _GNU_SOURCE
#include <dlfcn.h>
#include <errno.h>
#include <fcntl.h>
#include <stdlib.h>
#include <string.h>
#include <unistd.h>

static long refused, asked;

static int refuse(void) { return ++asked == refused; }

__attribute__((constructor)) static void begin(void) {
    const char *number = getenv("REFUSE");
    refused = number ? atol(number) : 0;
    asked = 0;
}

__attribute__((destructor)) static void tell(void) {
    const char *path = getenv("REFUSE_COUNT");
    if (!path) return;
    char digits[24];
    int n = 0, fd = open(path, O_WRONLY | O_CREAT | O_TRUNC, 0644);
    for (long left = asked; n == 0 || left; left /= 10) digits[23 - n++] = '0' + left % 10;
    if (fd < 0 || write(fd, digits + 24 - n, n) != n) _exit(70);
    close(fd);
}

void *__libc_malloc(size_t);
void *__libc_calloc(size_t, size_t);
void *__libc_realloc(void *, size_t);
void *__libc_memalign(size_t, size_t);

void *malloc(size_t size) { return refuse() ? NULL : __libc_malloc(size); }
void *calloc(size_t count, size_t size) { return refuse() ? NULL : __libc_calloc(count, size); }
void *realloc(void *old, size_t size) { return refuse() ? NULL : __libc_realloc(old, size); }
void *memalign(size_t align, size_t size) { return refuse() ? NULL : __libc_memalign(align, size); }
void *aligned_alloc(size_t align, size_t size) { return memalign(align, size); }
int posix_memalign(void **to, size_t align, size_t size) {
    void *given = memalign(align, size);
    if (!given) return ENOMEM;
    *to = given;
    return 0;
}
