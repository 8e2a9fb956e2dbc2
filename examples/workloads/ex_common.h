/* What PMDK's examples include under this name, and Debian's package doesn't have: as much of it as mapcli.c and the maps use. */
#ifndef EX_COMMON_H
#define EX_COMMON_H
#include <stdint.h>
#include <sys/stat.h>
#include <unistd.h>

#define CREATE_MODE_RW (S_IWUSR | S_IRUSR)
#define MIN(one, other) ((one) < (other) ? (one) : (other))

/* 0 if there is a file of this name. */
static inline int file_exists(const char *name) { return access(name, F_OK); }

/* The number of the highest bit of a value that is not 0. */
static inline int find_last_set_64(uint64_t value) { return 63 - __builtin_clzll(value); }
#endif
