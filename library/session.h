/* A session as the C of the library sees it: the handle that the proved code of crates/pmem_c fills, the calls that it exports, and the
 * history that a copy needs. */
#ifndef PMEM_SESSION_H
#define PMEM_SESSION_H

#include "pmem.h"

/* The proved code's handle. It holds a session exactly while `is_open` is true. */
typedef struct proved {
    bool is_open;
    void *at;
} proved;

/* The exports of crates/pmem_c, with the statuses of pmem.h. The native build links them: tools/library renames `pmem_answer` there to
 * `pmem_proved_answer`, as pmem.h's call of that name checks its arguments first. In the portable build portable.c has them. */
uint8_t pmem_proved_answer(const uint8_t *words, size_t words_len, const uint8_t *trace, size_t trace_len, uint8_t *out, size_t room,
                           size_t *whole);
uint8_t pmem_session_open(proved *handle, const uint8_t *words, size_t words_len);
uint8_t pmem_session_tell(proved *handle, const uint8_t *line, size_t line_len, uint8_t *out, size_t room, size_t *whole);
size_t pmem_session_reply(proved *handle, size_t from, uint8_t *out, size_t room);
uint8_t pmem_session_close(proved *handle);

/* Portable build: opens the closed handle `copy` on a copy of the memory of an open session. PMEM_OK or PMEM_NO_MEMORY. */
uint8_t pmem_session_copy(const proved *handle, proved *copy);

/* Bytes that grow. */
typedef struct bytes {
    uint8_t *at;
    size_t len, room;
} bytes;

/* What a session was given, for copies in the native build. In the portable build it stays empty. */
typedef struct history {
    bytes words, lines;  /* the arguments; the lines that were answered, each with its LF */
    bool is_forgotten;
} history;

typedef struct session {
    proved handle;
    history told;
} session;

/* Two files have these calls: copy_lines.c for the native build and copy_memory.c for the portable one. */

/* The name of the build, for pmem_build. */
extern const char pmem_build_name[];

/* Keeps the arguments of a new session. Answers whether there was memory for them. */
bool pmem_history_begin(history *its, const uint8_t *words, size_t words_len);

/* Makes room for a line of this length before the session gets it. Answers whether there was memory for it. */
bool pmem_history_make_room(history *its, size_t line_len);

/* Keeps a line that was answered. There is room for it. */
void pmem_history_add(history *its, const uint8_t *line, size_t line_len);

/* Frees the lines, and keeps none from here on. */
void pmem_history_forget(history *its);

/* Frees everything. */
void pmem_history_end(history *its);

/* Opens `copy`, which is all 0, in the state of an open session. At another status than PMEM_OK, pmem_history_end and pmem_session_close
 * free what it has. */
uint8_t pmem_session_copied(session *its, session *copy);

#endif
