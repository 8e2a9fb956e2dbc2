/* Random calls: `random_calls COUNT SEED`. Every block that is handed over ends at a page that can't be touched, so that a byte too far ends
 * the program; what the calls answer is checked against what the header says of any call. */
#define _DEFAULT_SOURCE
#include "pmem.h"
#include <stdio.h>
#include <stdlib.h>
#include <sys/mman.h>
#include <unistd.h>

enum { HANDLES = 6, BLOCK_BYTES = 8192 };

static uint64_t state;
static unsigned long counts[256];

static uint64_t below(uint64_t end) {
    state = state * 6364136223846793005u + 1442695040888963407u;
    return (state >> 33) % end;
}

/* A block whose last byte is the last one before a page without access. */
static uint8_t *guarded_end(void) {
    size_t page = (size_t)sysconf(_SC_PAGESIZE), size = (BLOCK_BYTES + page - 1) / page * page;
    uint8_t *at = (uint8_t *)mmap(NULL, size + page, PROT_READ | PROT_WRITE, MAP_PRIVATE | MAP_ANONYMOUS, -1, 0);
    if (at == MAP_FAILED || mprotect(at + size, page, PROT_NONE) != 0) abort();
    return at + size;
}

static void check(int holds, const char *what) {
    if (holds) return;
    fprintf(stderr, "random_calls: %s\n", what);
    abort();
}

static size_t put_word(uint8_t *line, size_t len, const char *word) {
    memcpy(line + len, word, strlen(word));
    return len + strlen(word);
}

static size_t put_number(uint8_t *line, size_t len) {
    static const uint64_t ends[] = {2, 8, 9, 64, 600, 1400, UINT64_MAX};
    char digits[32];
    if (below(60) == 0) return put_word(line, len, " 18446744073709551616");
    snprintf(digits, sizeof digits, " %llu", (unsigned long long)below(ends[below(7)]));
    return put_word(line, len, digits);
}

static size_t put_hex(uint8_t *line, size_t len, size_t bytes) {
    line[len++] = ' ';
    uint8_t digit = (uint8_t)"0123456789abcdefABCDEFg"[below(200) == 0 ? 22 : below(22)];
    for (size_t i = 0; i < 2 * bytes; i++) line[len++] = digit;
    return len;
}

/* A line of a session: mostly a command of one of the four, at times bytes of any kind. */
static size_t some_line(uint8_t *line) {
    static const char *const none[] = {"turn", "flush", "off", "on", "snap", "stat", "begin", "commit", "abort", "", "#"};
    static const char *const one[] = {"drain", "fence", "cut", "back", "peek", "loss", "read", "place", "count"};
    static const char *const two[] = {"read", "flip", "move"};
    static const char *const writes[] = {"write", "put", "poke"};
    size_t len = 0;
    switch (below(12)) {
    case 0: case 1: return put_word(line, 0, none[below(11)]);
    case 2: case 3: case 4: return put_number(line, put_word(line, 0, one[below(9)]));
    case 5: case 6: return put_number(line, put_number(line, put_word(line, 0, two[below(3)])));
    case 7: case 8: return put_hex(line, put_number(line, put_number(line, put_word(line, 0, "post"))), 64);
    case 9: return put_hex(line, put_number(line, put_word(line, 0, writes[below(3)])), below(9) ? 64 : 63);
    case 10:
        len = put_number(line, put_number(line, put_number(line, put_word(line, 0, "part"))));
        return put_hex(line, len, below(66));
    default:
        for (size_t end = below(1100); len < end; len++) line[len] = (uint8_t)below(256);
        return len;
    }
}

static size_t some_words(uint8_t *words) {
    static const char *const tasks[] = {"run", "wear", "txn", "tree", "make", ""};
    static const char *const options[] = {"--suite=aes", "--levels=2", "--sets=1", "--ways=1", "--every=2", "--loss=16", "--major=3", "--none"};
    size_t len = put_word(words, 0, tasks[below(9) == 0 ? below(6) : below(4)]) + 1;
    words[len - 1] = 0;
    if (below(20) != 0) {
        len = put_word(words, len, below(5) ? "--suite=weak" : "--suite=blur") + 1;
        words[len - 1] = 0;
        len = put_word(words, len, "--levels=1") + 1;
        words[len - 1] = 0;
    }
    for (uint64_t i = below(3); i != 0; i--) {
        len = put_word(words, len, options[below(8)]) + 1;
        words[len - 1] = 0;
    }
    if (below(50) == 0) words[below(len)] = 0xff;
    return len - (below(2) && len > 0 ? 1 : 0);
}

/* The last `len` bytes before the end, or NULL if there are none and chance wants it. */
static uint8_t *block(uint8_t *end, size_t len) { return len == 0 && below(2) ? NULL : end - len; }

static uint8_t *moved(uint8_t *end, const uint8_t *from, size_t len) {
    uint8_t *at = block(end, len);
    if (len != 0) memcpy(at, from, len);
    return at;
}

static void one_tell(pmem *handle, uint8_t *given, uint8_t *taken, uint8_t *again) {
    uint8_t line[2048];
    size_t len = some_line(line), room = below(5) ? 2048 : below(200), whole = 99;
    uint8_t *out = block(taken, room), status;
    bool was_open = handle->is_open;
    if (room != 0) memset(out, 0xee, room);
    status = pmem_tell(handle, moved(given, line, len), len, out, room, &whole);
    counts[status]++;
    check(handle->is_open == was_open && (status == PMEM_NOT_OPEN) == !was_open, "open or closed");
    check((status == PMEM_LINE_LONG) == (len > PMEM_TEXT_BYTES && was_open && status != PMEM_OVER), "a long line");
    check(whole == 0 || status == PMEM_OK || status == PMEM_SHOWN, "a reply without an answer");
    size_t kept = pmem_reply(handle, 0, again - room, room), put = whole < room ? whole : room;
    check(kept == whole && (put == 0 || memcmp(out, again - room, put) == 0), "the reply again");
    if (put < room) check(out[put] == 0xee && out[room - 1] == 0xee, "bytes after the reply");
}

static void one_typed(pmem *handle) {
    uint8_t line[PMEM_LINE_BYTES] = {(uint8_t)below(256)};
    pmem_result result;
    switch (below(6)) {
    case 0: result = pmem_post(handle, (unsigned)below(9), below(1100), line); break;
    case 1: result = pmem_part(handle, (unsigned)below(9), below(1100), (unsigned)below(70), line, below(67) % 65); break;
    case 2: result = pmem_fence(handle, (unsigned)below(8)); break;
    case 3: result = pmem_on(handle); break;
    case 4: result = pmem_read(handle, (unsigned)below(8), below(1100)); break;
    default: result = pmem_stats(handle); break;
    }
    check(handle->is_open || (result.status == PMEM_NOT_OPEN && result.kind == PMEM_NONE), "a typed call of a closed handle");
    check(result.marks_len <= result.reply_len && result.reply_len == pmem_reply(handle, 0, NULL, 0), "the length of a reply");
}

int main(int argc, char **argv) {
    pmem handles[HANDLES] = {PMEM_CLOSED, PMEM_CLOSED, PMEM_CLOSED, PMEM_CLOSED, PMEM_CLOSED, PMEM_CLOSED};
    uint8_t *given = guarded_end(), *taken = guarded_end(), *again = guarded_end(), words[512];
    long calls = argc > 1 ? atol(argv[1]) : 1000;
    state = argc > 2 ? strtoull(argv[2], NULL, 10) : 0;
    for (long i = 0; i < calls; i++) {
        pmem *handle = &handles[below(HANDLES)];
        bool was_open = handle->is_open;
        uint64_t which = below(1000);
        if (which < 10) {
            check((pmem_close(handle) == PMEM_OK) == was_open && !handle->is_open && handle->session == NULL, "a close");
        } else if (which < 60) {
            size_t len = some_words(words);
            uint8_t status = pmem_open(handle, moved(given, words, len), len);
            check((status == PMEM_IS_OPEN) == was_open && handle->is_open == (was_open || status == PMEM_OK), "an open");
        } else if (which < 65) {
            pmem *copy = &handles[below(HANDLES)];
            bool is_free = !copy->is_open;
            uint8_t status = pmem_copy(handle, copy);
            check((status == PMEM_OK) == (was_open && is_free) && (status == PMEM_NOT_OPEN) == !was_open, "a copy");
            check(copy->is_open == (!is_free || status == PMEM_OK), "the copy's handle");
        } else if (which < 67) {
            size_t len = some_words(words), whole = 99;
            uint8_t line[2048];
            size_t line_len = some_line(line), room = below(300);
            pmem_answer(moved(given, words, len), len, moved(again, line, line_len), line_len, block(taken, room), room, &whole);
        } else if (which < 200) {
            one_typed(handle);
        } else {
            one_tell(handle, given, taken, again);
        }
    }
    for (int i = 0; i < HANDLES; i++) pmem_close(&handles[i]);
    for (int i = 0; i < 256; i++)
        if (counts[i] != 0) printf("status %d: %lu\n", i, counts[i]);
    return 0;
}
