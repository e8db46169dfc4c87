/* Makes a program of the subset legal C, so that gcc compiles the same text. */
#include <stdint.h>
#include <stdlib.h>
#define tx
#define persistent
#define pm_new(type) ((type *)calloc(1, sizeof(type)))
#define pm_free(pointer) free(pointer)
