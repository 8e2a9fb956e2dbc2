/* Copies in the portable build: each session has its own memory, and a copy is a copy of that memory. Nothing is kept for it. */
#include "session.h"

const char pmem_build_name[] = "portable";

bool pmem_history_begin(history *its, const uint8_t *words, size_t words_len) {
    (void)its, (void)words, (void)words_len;
    return true;
}

bool pmem_history_make_room(history *its, size_t line_len) {
    (void)its, (void)line_len;
    return true;
}

void pmem_history_add(history *its, const uint8_t *line, size_t line_len) { (void)its, (void)line, (void)line_len; }

void pmem_history_forget(history *its) { (void)its; }

void pmem_history_end(history *its) { (void)its; }

uint8_t pmem_session_copied(session *its, session *copy) { return pmem_session_copy(&its->handle, &copy->handle); }
