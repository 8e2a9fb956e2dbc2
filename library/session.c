/* The calls of pmem.h over the proved handle of crates/pmem_c, which opens, answers each line, keeps its reply, and closes. This C checks
 * pointers and lengths, and has copies made (copy_lines.c, copy_memory.c). */
#include "session.h"
#include <stdlib.h>

const char *pmem_version(void) { return PMEM_VERSION; }

const char *pmem_build(void) { return pmem_build_name; }

/* Whether two blocks have a byte in common. The proved code takes blocks that have none. */
static bool overlap(const void *one, size_t one_len, const void *other, size_t other_len) {
    uintptr_t first = (uintptr_t)one, second = (uintptr_t)other;
    if (one_len == 0 || other_len == 0) return false;
    return first <= second ? second - first < one_len : first - second < other_len;
}

/* The proved code refuses arguments that are not UTF-8 without a line. They get the line of all invalid arguments. */
static void refuse_words(uint8_t *out, size_t room, size_t *whole) {
    static const char line[] = "stop words\n";
    *whole = sizeof line - 1;
    if (room != 0) memcpy(out, line, room < *whole ? room : *whole);
}

uint8_t pmem_answer(const uint8_t *words, size_t words_len, const uint8_t *trace, size_t trace_len, uint8_t *out, size_t room,
                    size_t *whole) {
    uint8_t status;
    if (whole == NULL) return PMEM_NULL;
    if (overlap(out, room, words, words_len) || overlap(out, room, trace, trace_len) || overlap(whole, sizeof *whole, words, words_len) ||
        overlap(whole, sizeof *whole, trace, trace_len) || overlap(whole, sizeof *whole, out, room)) return PMEM_OVERLAP;
    status = pmem_proved_answer(words, words_len, trace, trace_len, out, room, whole);
    if (status == PMEM_BAD_WORDS && *whole == 0) refuse_words(out, room, whole);
    return status;
}

static void end_session(session *its) {
    pmem_session_close(&its->handle);
    pmem_history_end(&its->told);
    free(its);
}

uint8_t pmem_open(pmem *handle, const uint8_t *words, size_t words_len) {
    session *its;
    uint8_t status;
    if (handle == NULL) return PMEM_NULL;
    if (handle->is_open) return PMEM_IS_OPEN;
    its = (session *)calloc(1, sizeof *its);
    if (its == NULL) return PMEM_NO_MEMORY;
    status = pmem_session_open(&its->handle, words, words_len);
    if (status == PMEM_OK && !pmem_history_begin(&its->told, words, words_len)) status = PMEM_NO_MEMORY;
    if (status != PMEM_OK) {
        end_session(its);
        return status;
    }
    handle->is_open = true;
    handle->session = its;
    return PMEM_OK;
}

/* Drops the reply, and gives this status unless the session is over. */
static uint8_t skipped(session *its, uint8_t status) {
    size_t whole;
    uint8_t other = pmem_session_tell(&its->handle, NULL, 0, NULL, 0, &whole);
    return other == PMEM_OK ? status : other;
}

uint8_t pmem_tell(pmem *handle, const uint8_t *line, size_t line_len, uint8_t *out, size_t room, size_t *whole) {
    session *its;
    uint8_t status;
    if (handle == NULL || whole == NULL) return PMEM_NULL;
    if (overlap(out, room, line, line_len) || overlap(whole, sizeof *whole, line, line_len) || overlap(whole, sizeof *whole, out, room))
        return PMEM_OVERLAP;
    *whole = 0;
    if (!handle->is_open) return PMEM_NOT_OPEN;
    its = (session *)handle->session;
    if (line_len > PMEM_TEXT_BYTES) return skipped(its, PMEM_LINE_LONG);
    if (line_len != 0 && memchr(line, '\n', line_len) != NULL) return skipped(its, PMEM_LINE_WORD);
    if (!pmem_history_make_room(&its->told, line_len)) return skipped(its, PMEM_NO_MEMORY);
    status = pmem_session_tell(&its->handle, line, line_len, out, room, whole);
    /* A line that was answered has a reply, even if there was no memory for its text. */
    if (*whole != 0 || status == PMEM_REPLY_LOST) pmem_history_add(&its->told, line, line_len);
    return status;
}

size_t pmem_reply(pmem *handle, size_t from, uint8_t *out, size_t room) {
    if (handle == NULL || !handle->is_open) return 0;
    return pmem_session_reply(&((session *)handle->session)->handle, from, out, room);
}

uint8_t pmem_copy(const pmem *handle, pmem *copy) {
    session *its, *new_one;
    uint8_t status;
    if (handle == NULL || copy == NULL) return PMEM_NULL;
    if (!handle->is_open) return PMEM_NOT_OPEN;
    if (copy->is_open) return PMEM_IS_OPEN;
    its = (session *)handle->session;
    if (its->told.is_forgotten) return PMEM_FORGOTTEN;
    new_one = (session *)calloc(1, sizeof *new_one);
    if (new_one == NULL) return PMEM_NO_MEMORY;
    status = pmem_session_copied(its, new_one);
    if (status != PMEM_OK) {
        end_session(new_one);
        return PMEM_NO_MEMORY;
    }
    copy->is_open = true;
    copy->session = new_one;
    return PMEM_OK;
}

uint8_t pmem_forget(pmem *handle) {
    if (handle == NULL) return PMEM_NULL;
    if (!handle->is_open) return PMEM_NOT_OPEN;
    pmem_history_forget(&((session *)handle->session)->told);
    return PMEM_OK;
}

uint8_t pmem_close(pmem *handle) {
    if (handle == NULL) return PMEM_NULL;
    if (!handle->is_open) return PMEM_NOT_OPEN;
    end_session((session *)handle->session);
    handle->is_open = false;
    handle->session = NULL;
    return PMEM_OK;
}
