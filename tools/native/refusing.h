/* Comes before an emitted file in a test: no folder can be synced, and `free` changes errno, as it
   may. */
#ifndef REFUSING
#define REFUSING
#define _GNU_SOURCE
#include <errno.h>
#include <stdlib.h>
#include <sys/stat.h>
#include <unistd.h>

static inline int sync_but_folders(int file) {
    struct stat about;
    if (fstat(file, &about) != 0 || !S_ISDIR(about.st_mode)) return fsync(file);
    errno = EIO;
    return -1;
}

static inline void free_and_forget(void *memory) {
    free(memory);
    errno = 0;
}
#define fsync sync_but_folders
#define free free_and_forget
#endif
