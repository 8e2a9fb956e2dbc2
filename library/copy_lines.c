/* Copies in the native build: a session keeps its arguments and the lines that it answered, and a copy is a new session that answers them
 * again. */
#include "session.h"
#include <stdlib.h>

const char pmem_build_name[] = "native";

static bool make_room(bytes *its, size_t more) {
    size_t room = its->room == 0 ? 256 : its->room;
    uint8_t *grown;
    if (more <= its->room - its->len) return true;
    if (more > SIZE_MAX - its->len) return false;
    while (room < its->len + more) {
        if (room > SIZE_MAX / 2) return false;
        room *= 2;
    }
    grown = (uint8_t *)realloc(its->at, room);
    if (grown == NULL) return false;
    its->at = grown;
    its->room = room;
    return true;
}

/* Appends bytes that there is room for. */
static void append(bytes *its, const uint8_t *from, size_t len) {
    if (len != 0) memcpy(its->at + its->len, from, len);
    its->len += len;
}

static void empty(bytes *its) {
    free(its->at);
    its->at = NULL;
    its->len = its->room = 0;
}

bool pmem_history_begin(history *its, const uint8_t *words, size_t words_len) {
    if (!make_room(&its->words, words_len)) return false;
    append(&its->words, words, words_len);
    return true;
}

bool pmem_history_make_room(history *its, size_t line_len) { return its->is_forgotten || make_room(&its->lines, line_len + 1); }

void pmem_history_add(history *its, const uint8_t *line, size_t line_len) {
    static const uint8_t lf = '\n';
    if (its->is_forgotten) return;
    append(&its->lines, line, line_len);
    append(&its->lines, &lf, 1);
}

void pmem_history_forget(history *its) {
    its->is_forgotten = true;
    empty(&its->lines);
}

void pmem_history_end(history *its) {
    empty(&its->words);
    empty(&its->lines);
}

/* Tells a new session the lines. Each was answered once: it is answered again, unless memory runs out. */
static bool is_told(session *its, const bytes *lines) {
    for (size_t from = 0, len, whole; from < lines->len; from += len + 1) {
        const uint8_t *line = lines->at + from;
        len = (size_t)((const uint8_t *)memchr(line, '\n', lines->len - from) - line);
        pmem_session_tell(&its->handle, line, len, NULL, 0, &whole);
        if (whole == 0) return false;
    }
    append(&its->told.lines, lines->at, lines->len);
    return true;
}

uint8_t pmem_session_copied(session *its, session *copy) {
    const history *told = &its->told;
    size_t whole;
    uint8_t status = pmem_session_open(&copy->handle, told->words.at, told->words.len);
    if (status != PMEM_OK) return status;
    if (!pmem_history_begin(&copy->told, told->words.at, told->words.len)) return PMEM_NO_MEMORY;
    if (!make_room(&copy->told.lines, told->lines.len) || !is_told(copy, &told->lines)) return PMEM_NO_MEMORY;
    /* A session without a reply has a copy without one. */
    if (pmem_session_reply(&its->handle, 0, NULL, 0) == 0) pmem_session_tell(&copy->handle, NULL, 0, NULL, 0, &whole);
    return PMEM_OK;
}
