/* The exports of crates/pmem_c for the portable build. tools/portable translates the WebAssembly module of the proved program to C; that C
 * comes before this file, and has a function in_NAME for each export NAME of the module. The module computes in its own memory,
 * an instance. Each session has an instance, so a copy of a session is a copy of its memory. */
#include "session.h"
#include <stdlib.h>

enum {
    HANDLE_BYTES = 64,                /* room for the proved code's handle, which has 16 bytes */
    OUT_BYTES = 4096,                 /* room for a reply in an instance; a longer reply is taken in pieces */
    FIRST_ROOM = 65536, ROOM_PER_BYTE = 32 /* what pmem_answer first makes room for, and as much for each byte of the trace */
};

/* The program looks at 1,000,000 lines of at most 1,025 bytes each, and at one byte more. */
static const size_t longest_trace = 1000000 * (size_t)1025 + 1;

/* A session's memory, and the places in it of what goes in and out. */
typedef struct instance {
    u8 *m;
    u64 handle, whole, line, out;
} instance;

/* Copies bytes into an instance. Gives their address there; 0 if there is no memory. */
static u64 given(u8 *m, const uint8_t *from, size_t len) {
    u64 at = len < SIZE_MAX ? in_host_alloc(m, (u64)len + 1) : 0;
    if (at != 0 && len != 0) put_bytes(m, at, from, len);
    return at;
}

/* Runs the program in a new instance with this much room for its output. */
static uint8_t answered(const uint8_t *words, size_t words_len, const uint8_t *trace, size_t trace_len, uint8_t *out, size_t room, size_t *whole) {
    u8 *m = new_instance(PMEM_INSTANCE_BYTES);
    uint8_t status = PMEM_NO_MEMORY;
    *whole = 0;
    if (m == NULL) return status;
    u64 words_at = given(m, words, words_len), trace_at = given(m, trace, trace_len);
    u64 out_at = in_host_alloc(m, (u64)room + 1), whole_at = in_host_alloc(m, sizeof(u64));
    if (words_at != 0 && trace_at != 0 && out_at != 0 && whole_at != 0) {
        status = (uint8_t)in_pmem_answer(m, words_at, words_len, trace_at, trace_len, out_at, room, whole_at);
        *whole = (size_t)load64(m, whole_at);
        if (room != 0) take_bytes(m, out, out_at, *whole < room ? *whole : room);
    }
    drop_instance(m);
    return status;
}

uint8_t pmem_proved_answer(const uint8_t *words, size_t words_len, const uint8_t *trace, size_t trace_len, uint8_t *out, size_t room,
                           size_t *whole) {
    uint8_t status;
    size_t held;
    if (trace_len > longest_trace) trace_len = longest_trace;
    /* A caller may have more room than there is memory: the output decides how much of it is needed. */
    held = FIRST_ROOM + ROOM_PER_BYTE * trace_len;
    if (held > room) held = room;
    status = answered(words, words_len, trace, trace_len, out, held, whole);
    if (*whole > held && room > held) {
        held = *whole < room ? *whole : room;
        status = answered(words, words_len, trace, trace_len, out, held, whole);
    }
    return status;
}

static void end_instance(instance *its) {
    if (its == NULL) return;
    if (its->m != NULL) drop_instance(its->m);
    free(its);
}

/* Makes room for what goes in and out of a session, and puts a closed handle there. Answers whether there was memory. */
static bool make_places(instance *its) {
    static const uint8_t closed[HANDLE_BYTES] = {0};
    its->handle = given(its->m, closed, sizeof closed);
    its->whole = in_host_alloc(its->m, sizeof(u64));
    its->line = in_host_alloc(its->m, PMEM_TEXT_BYTES + 1);
    its->out = in_host_alloc(its->m, OUT_BYTES);
    return its->handle != 0 && its->whole != 0 && its->line != 0 && its->out != 0;
}

uint8_t pmem_session_open(proved *handle, const uint8_t *words, size_t words_len) {
    uint8_t status = PMEM_NO_MEMORY;
    instance *its;
    if (handle->is_open) return PMEM_IS_OPEN;
    its = (instance *)calloc(1, sizeof *its);
    if (its != NULL && (its->m = new_instance(PMEM_INSTANCE_BYTES)) != NULL && make_places(its)) {
        u64 words_at = given(its->m, words, words_len);
        if (words_at != 0) {
            status = (uint8_t)in_pmem_session_open(its->m, its->handle, words_at, words_len);
            in_host_free(its->m, words_at);
        }
    }
    if (status != PMEM_OK) {
        end_instance(its);
        return status;
    }
    handle->at = its;
    handle->is_open = true;
    return status;
}

size_t pmem_session_reply(proved *handle, size_t from, uint8_t *out, size_t room) {
    const instance *its = (const instance *)handle->at;
    size_t put = 0;
    if (!handle->is_open) return 0;
    for (;;) {
        size_t part = room - put < OUT_BYTES ? room - put : OUT_BYTES;
        size_t whole = (size_t)in_pmem_session_reply(its->m, its->handle, from + put, its->out, part);
        if (part == 0 || whole <= from || whole - from <= put) return whole;
        if (part > whole - from - put) part = whole - from - put;
        take_bytes(its->m, out + put, its->out, part);
        put += part;
    }
}

uint8_t pmem_session_tell(proved *handle, const uint8_t *line, size_t line_len, uint8_t *out, size_t room, size_t *whole) {
    const instance *its = (const instance *)handle->at;
    size_t part = room < OUT_BYTES ? room : OUT_BYTES;
    uint8_t status;
    *whole = 0;
    if (!handle->is_open) return PMEM_NOT_OPEN;
    if (line_len > PMEM_TEXT_BYTES) return PMEM_LINE_LONG; /* session.c gives none of these */
    if (line_len != 0) put_bytes(its->m, its->line, line, line_len);
    status = (uint8_t)in_pmem_session_tell(its->m, its->handle, its->line, line_len, its->out, part, its->whole);
    *whole = (size_t)load64(its->m, its->whole);
    if (*whole > part && room > part) pmem_session_reply(handle, 0, out, room);
    else if (part != 0) take_bytes(its->m, out, its->out, *whole < part ? *whole : part);
    return status;
}

uint8_t pmem_session_close(proved *handle) {
    if (!handle->is_open) return PMEM_NOT_OPEN;
    end_instance((instance *)handle->at);
    handle->is_open = false;
    handle->at = NULL;
    return PMEM_OK;
}

uint8_t pmem_session_copy(const proved *handle, proved *copy) {
    const instance *its = (const instance *)handle->at;
    instance *new_one = (instance *)malloc(sizeof *new_one);
    if (new_one == NULL) return PMEM_NO_MEMORY;
    *new_one = *its;
    new_one->m = copied_instance(its->m);
    if (new_one->m == NULL) {
        free(new_one);
        return PMEM_NO_MEMORY;
    }
    copy->at = new_one;
    copy->is_open = true;
    return PMEM_OK;
}
