/* Memory that is refused: the driver is linked with --wrap for malloc, calloc and realloc. */
#ifndef FUZZER_REFUSING_H
#define FUZZER_REFUSING_H

#include "input.h"

void *__real_malloc(size_t len);
void *__real_calloc(size_t count, size_t len);
void *__real_realloc(void *at, size_t len);
void *__wrap_malloc(size_t len);
void *__wrap_calloc(size_t count, size_t len);
void *__wrap_realloc(void *at, size_t len);

/* Which requests are refused while `is_on`: all after `left` more, and those for more than `most` bytes. */
static struct {
    bool is_on;
    size_t left, most, refused;
} limits;

static bool is_refused(size_t len) {
    if (!limits.is_on) return false;
    if (limits.left != 0 && len <= limits.most) {
        limits.left--;
        return false;
    }
    limits.refused++;
    return true;
}

void *__wrap_malloc(size_t len) { return is_refused(len) ? NULL : __real_malloc(len); }
void *__wrap_calloc(size_t count, size_t len) { return is_refused(count * len) ? NULL : __real_calloc(count, len); }
void *__wrap_realloc(void *at, size_t len) { return is_refused(len) ? NULL : __real_realloc(at, len); }

/* From here on some requests are refused, as the fuzzer's next byte says; mostly none is. */
static void refuse_some(input *given) {
    uint8_t kind = next_byte(given);
    limits.refused = 0;
    limits.left = kind < 48 ? kind % 12 : SIZE_MAX;
    limits.most = kind < 48 ? SIZE_MAX : (size_t)1 << (20 + kind % 6);
    limits.is_on = kind < 80;
}

/* From here on none is refused. Answers whether one was. */
static bool refuse_none(void) {
    limits.is_on = false;
    return limits.refused != 0;
}

#endif
