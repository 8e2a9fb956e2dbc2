/* Stands in for the program: `program answer WORD ..` by one call of pmem_answer, `program tell WORD ..` by a session that gets each line.
 * Reads a trace from standard input, writes what the program would, and ends with its status. */
#include "pmem.h"
#include <stdio.h>
#include <stdlib.h>

typedef struct bytes {
    uint8_t *at;
    size_t len, room;
} bytes;

static void put(bytes *to, const void *from, size_t len) {
    while (to->room - to->len < len) {
        to->room = to->room == 0 ? 4096 : 2 * to->room;
        to->at = (uint8_t *)realloc(to->at, to->room);
        if (to->at == NULL) abort();
    }
    if (len != 0) memcpy(to->at + to->len, from, len);
    to->len += len;
}

static int answer(const bytes *words, const bytes *trace) {
    size_t whole = 0, room = 64;
    uint8_t *out = (uint8_t *)malloc(room);
    uint8_t status = pmem_answer(words->at, words->len, trace->at, trace->len, out, room, &whole);
    if (whole > room) {
        room = whole;
        out = (uint8_t *)realloc(out, room);
        if (out == NULL) abort();
        if (pmem_answer(words->at, words->len, trace->at, trace->len, out, room, &whole) != status || whole != room) abort();
    }
    fwrite(out, 1, whole, stdout);
    free(out);
    return status;
}

/* The last line of a stop, and the program's status. */
static int stop(uint8_t status, unsigned long number) {
    if (status == PMEM_NO_MEMORY) puts("stop memory");
    if (status < PMEM_LINE_WORD || status > PMEM_LINE_LONG) return status;
    printf("stop line %lu %d\n", number, status - 50);
    return PMEM_BAD_LINE;
}

static int tell(const bytes *words, const bytes *trace) {
    pmem handle = PMEM_CLOSED;
    uint8_t status = pmem_open(&handle, words->at, words->len), *out = (uint8_t *)malloc(16);
    size_t room = 16, from = 0;
    if (status == PMEM_BAD_WORDS) puts("stop words");
    for (unsigned long number = 1; status == PMEM_OK && from < trace->len; number++) {
        const uint8_t *line = trace->at + from, *lf = (const uint8_t *)memchr(line, '\n', trace->len - from);
        size_t len = lf == NULL ? trace->len - from : (size_t)(lf - line), whole = 77;
        status = pmem_tell(&handle, line, len, out, room, &whole);
        if (whole > room) {
            room = whole;
            out = (uint8_t *)realloc(out, room);
            if (out == NULL || pmem_reply(&handle, 0, out, room) != whole) abort();
        }
        fwrite(out, 1, whole, stdout);
        if (status != PMEM_OK) status = (uint8_t)stop(status, number);
        from += len + 1;
    }
    pmem_close(&handle);
    free(out);
    return status;
}

int main(int argc, char **argv) {
    bytes words = {NULL, 0, 0}, trace = {NULL, 0, 0};
    uint8_t piece[4096];
    size_t count;
    if (argc < 2) return 99;
    for (int i = 2; i < argc; i++) put(&words, argv[i], strlen(argv[i]) + 1);
    while ((count = fread(piece, 1, sizeof piece, stdin)) != 0) put(&trace, piece, count);
    int status = strcmp(argv[1], "tell") == 0 ? tell(&words, &trace) : answer(&words, &trace);
    free(words.at);
    free(trace.at);
    return status;
}
