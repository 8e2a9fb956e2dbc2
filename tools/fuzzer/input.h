/* What the drivers share: the fuzzer's bytes, taken one by one; checks; memory that is refused. */
#ifndef FUZZER_INPUT_H
#define FUZZER_INPUT_H

#include "pmem.h"
#include <stdio.h>
#include <stdlib.h>

/* Ends the run, which libFuzzer then keeps as a finding, unless the condition holds. */
#define CHECK(condition)                                                                  \
    do {                                                                                  \
        if (!(condition)) {                                                               \
            fprintf(stderr, "%s:%d: does not hold: %s\n", __FILE__, __LINE__, #condition); \
            abort();                                                                      \
        }                                                                                 \
    } while (0)

/* The bytes that are left. */
typedef struct input {
    const uint8_t *at;
    size_t left;
} input;

/* The next byte; 0 once there is none. */
static inline uint8_t next_byte(input *given) {
    if (given->left == 0) return 0;
    given->left--;
    return *given->at++;
}

/* A number below `below`. */
static inline size_t next_below(input *given, size_t below) { return next_byte(given) % below; }

/* A block of exactly this many bytes, so that AddressSanitizer sees an access behind them; the caller frees it. It has one byte if `len` is
 * 0, and then the driver passes NULL or a pointer behind which nothing may be read. */
static inline uint8_t *block_of(const void *bytes, size_t len) {
    uint8_t *block = (uint8_t *)malloc(len != 0 ? len : 1);
    CHECK(block != NULL);
    if (len != 0 && bytes != NULL) memcpy(block, bytes, len);
    return block;
}

/* A block of bytes that all have one value. */
static inline uint8_t *filled_block(size_t len, uint8_t value) {
    uint8_t *block = block_of(NULL, len);
    if (len != 0) memset(block, value, len);
    return block;
}

/* Whether all bytes from one place up to another have this value. */
static inline bool is_filled(const uint8_t *block, size_t from, size_t to, uint8_t value) {
    for (size_t i = from; i < to; i++)
        if (block[i] != value) return false;
    return true;
}

/* The lesser of two lengths. */
static inline size_t least(size_t one, size_t other) { return one < other ? one : other; }

#endif
