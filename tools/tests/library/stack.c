/* `stack BYTES`: every call, on a thread whose stack has this many bytes. The status is 0 if all went well; a stack that is too small ends the
 * program by a signal. */
#define _GNU_SOURCE
#include "pmem.h"
#include <pthread.h>
#include <stdio.h>
#include <stdlib.h>

static const char *const sessions[] = {
    "run", "run --suite weak --levels 6", "run --levels 6 --sets 64 --ways 8", "wear --every 1", "txn", "tree", "tree --levels 6 --suite weak",
};

static int failures;

/* Every command of `run`, with recovery, in a session. */
static void run_all(pmem *memory) {
    uint8_t line[PMEM_LINE_BYTES] = {1};
    for (uint64_t i = 0; i < 40; i++) {
        pmem_post(memory, 0, 64 * (i % 16), line);
        if (pmem_drain(memory, 0).kind != PMEM_DONE) failures++;
    }
    pmem_part(memory, 1, 3, 60, line, 4);
    pmem_fence(memory, 1);
    pmem_read(memory, 0, 3);
    pmem_turn(memory);
    pmem_flush(memory);
    pmem_loss(memory, 8);
    pmem_snap(memory);
    pmem_peek(memory, 0);
    pmem_post(memory, 0, 0, line);
    pmem_cut(memory, 1);
    pmem_drain(memory, 0);
    if (pmem_on(memory).kind != PMEM_RECOVERED) failures++;
    pmem_off(memory);
    if (pmem_on(memory).kind != PMEM_RECOVERED) failures++;
    if (pmem_stats(memory).kind != PMEM_COUNTS) failures++;
}

/* Every command of the other sessions; those that a session does not have are answered as such. */
static void tell_all(pmem *memory) {
    static const char *const lines[] = {"begin", "put 3", "commit", "write 3", "read 3", "place 3", "cut 9", "write 3", "on", "off", "on", "read 3"};
    char text[256];
    for (size_t i = 0; i < sizeof lines / sizeof lines[0]; i++) {
        size_t len = strlen(lines[i]);
        bool has_line = strcmp(lines[i], "put 3") == 0 || strcmp(lines[i], "write 3") == 0;
        memcpy(text, lines[i], len + 1);
        if (has_line) {
            text[len] = ' ';
            memset(text + len + 1, '7', 2 * PMEM_LINE_BYTES);
            text[len + 1 + 2 * PMEM_LINE_BYTES] = 0;
        }
        pmem_ask_text(memory, text);
    }
}

static void *work(void *nothing) {
    static const char trace[] = "stat\npost 0 0 00\noff\non\n", words[] = "run\0--levels=6\0--suite=weak", sample[] = "sample\0007\000600";
    uint8_t out[64];
    size_t whole;
    for (size_t i = 0; i < sizeof sessions / sizeof sessions[0]; i++) {
        pmem memory = PMEM_CLOSED, copy = PMEM_CLOSED;
        if (pmem_open_text(&memory, sessions[i]) != PMEM_OK) failures++;
        if (sessions[i][0] == 'r') run_all(&memory);
        else tell_all(&memory);
        if (pmem_copy(&memory, &copy) != PMEM_OK) failures++;
        pmem_close(&copy);
        pmem_close(&memory);
    }
    pmem_answer((const uint8_t *)words, sizeof words - 1, (const uint8_t *)trace, sizeof trace - 1, out, sizeof out, &whole);
    if (pmem_answer((const uint8_t *)sample, sizeof sample - 1, NULL, 0, out, sizeof out, &whole) != PMEM_OK) failures++;
    return nothing;
}

int main(int argc, char **argv) {
    pthread_attr_t attributes;
    pthread_t thread;
    size_t bytes = argc > 1 ? strtoull(argv[1], NULL, 10) : PMEM_STACK_BYTES;
    if (pthread_attr_init(&attributes) != 0 || pthread_attr_setstacksize(&attributes, bytes) != 0) return 98;
    if (pthread_create(&thread, &attributes, work, NULL) != 0 || pthread_join(thread, NULL) != 0) return 99;
    return failures != 0;
}
