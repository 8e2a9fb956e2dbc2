/* pmem.h: the controller of an untrusted persistent memory, as a library for C11 and C++17.
 *
 *     pmem memory = PMEM_CLOSED;
 *     uint8_t bytes[PMEM_LINE_BYTES] = {0x11};
 *     if (pmem_open_text(&memory, "run") != PMEM_OK) return 1;
 *     pmem_post(&memory, 0, 7, bytes);                   a write of data line 7 waits at port 0
 *     pmem_cut(&memory, 3);                              power fails after three more persist steps
 *     pmem_result result = pmem_drain(&memory, 0);       PMEM_CUT_LOST: the write is not in memory
 *     pmem_on(&memory);                                  power comes back, with recovery
 *     result = pmem_read(&memory, 0, 7);                 PMEM_LINE: zeros, as before the write
 *     pmem_close(&memory);
 *
 * The library has three layers:
 *   - `pmem_answer` is the proved program as one call. For all input bytes it is safe, ends, and answers as the program does.
 *   - A session, from `pmem_open` to `pmem_close`, answers a trace line by line. Opening, answering, keeping the reply and closing are
 *     proved. A little C around them checks the arguments and makes copies.
 *   - The typed calls are inline C over `pmem_tell`. They spell a command as a line and read its answer from the text.
 * docs/LIBRARY.md states what is proved, what a call costs and how to link. docs/MACHINE.md and docs/FORMATS.md explain commands and
 * answers.
 *
 * Two builds have this header. The native build links the machine code that the toolchain proved and compiled. The portable build is C,
 * translated from the WebAssembly module of the same proved program. They answer alike, byte for byte, unless a call below names the
 * build. `pmem_build` tells which one is linked.
 *
 * Pointers and lengths. Each pointer is to as many bytes as the length behind it says. If that length is 0, the pointer is not used and
 * may be NULL. The block that a call writes must not overlap another one that it is given: such a call answers PMEM_OVERLAP, and does
 * nothing. No call keeps a pointer, except what a handle owns.
 *
 * Threads. The library keeps no state outside its handles. One thread at a time may use a handle. Different threads may use different handles, and
 * `pmem_answer`, at the same time.
 *
 * Stack. A call needs at most PMEM_STACK_BYTES of stack. Some coroutines and threads have less (musl's threads have 128 kB): give them
 * more, or use the portable build, compiled as tools/library compiles it: there 64 kB are enough.
 *
 * Signals and jumps. Do not call the library from a signal handler, and do not leave a call by `longjmp` or by a C++ exception thrown in
 * a handler: the session would be left half changed.
 *
 * `fork`. A process with one thread may fork: both processes then have the session, and the two go on independently. In a process with
 * several threads the child must not use the library before it calls `exec`, as for every function that allocates. `pmem_copy` has no
 * such limit.
 *
 * Memory comes from `malloc`. The portable build reserves addresses for each session, 4 GiB or as much as the system gives; a page of them
 * takes memory once it is used. Running out of memory is an answer: no call ends the program for it. */
#ifndef PMEM_H
#define PMEM_H

#include <stdbool.h>
#include <stddef.h>
#include <stdint.h>
#include <string.h>

#ifdef __cplusplus
extern "C" {
#endif

/* How a call is declared. Those who build a shared library define it, for example as __attribute__((visibility("default"))). */
#ifndef PMEM_API
#define PMEM_API
#endif

/* The version of this header. `pmem_version` gives the version of the library that is linked. */
#define PMEM_VERSION "1.0.0"

/* The bytes of a line of memory, and the most bytes of a line of text. */
#define PMEM_LINE_BYTES 64
#define PMEM_TEXT_BYTES 1024

/* The most stack that a call needs, in bytes (measured; a test runs every call on a thread with this stack). */
#define PMEM_STACK_BYTES (512 * 1024)

/* What a call came to. 0 to 8 are the statuses of the program (docs/FORMATS.md). 3, a source that fails, never comes. */
typedef enum pmem_status {
    PMEM_OK = 0,             /* done; pmem_answer: the trace was read to its end, or the exhibit holds */
    PMEM_NO_MEMORY = 1,      /* out of memory; nothing was done, and the handle is unchanged */
    PMEM_BAD_WORDS = 2,      /* the arguments are invalid, are not UTF-8, or name no session */
    PMEM_REPLY_LOST = 4,     /* out of memory for the text of a reply; pmem_answer: for the text of all replies */
    PMEM_BAD_LINE = 5,       /* pmem_answer: a line is not in the grammar */
    PMEM_SHOWN = 6,          /* the answer is an exhibit (evidence that a cipher was broken) and ends the session */
    PMEM_TOO_MANY_LINES = 7, /* pmem_answer: there are more than 1,000,000 lines */
    PMEM_HOLDS_NOT = 8,      /* pmem_answer: the exhibit to be checked does not hold */

    /* pmem_tell: the line is not in the grammar; nothing was done, and the session goes on */
    PMEM_LINE_WORD = 51,     /* its first word is not a command */
    PMEM_LINE_COUNT = 52,    /* too few or too many words */
    PMEM_LINE_NUMBER = 53,   /* a word is not a number */
    PMEM_LINE_PORT = 54,     /* a port above 7 */
    PMEM_LINE_HEX = 55,      /* a word does not have the hex digits asked for */
    PMEM_LINE_LONG = 56,     /* more than PMEM_TEXT_BYTES bytes */

    /* wrong use; nothing was done */
    PMEM_NOT_OPEN = 64,      /* the handle is closed */
    PMEM_IS_OPEN = 65,       /* the handle is open already */
    PMEM_OVER = 66,          /* an exhibit ended the session; it can only be copied or closed */
    PMEM_FORGOTTEN = 67,     /* pmem_copy, native build: the session's lines were forgotten */
    PMEM_NULL = 68,          /* a pointer is NULL that must not be: a handle, or `whole` */
    PMEM_OVERLAP = 69        /* `out` or `whole` overlaps another block of the call */
} pmem_status;

/* ---- which library this is */

/* The version of the library that is linked, as PMEM_VERSION. The text is constant. */
PMEM_API const char *pmem_version(void);

/* Which build is linked: "native" or "portable". The text is constant. */
PMEM_API const char *pmem_build(void);

/* ---- the program as one call */

/* Runs the whole program on a trace, as `pmem WORD ..` does on standard input. Returns its status, a pmem_status up to 8.
 *   words   the command-line arguments. A byte 0 ends each of them; the end of the block ends the last one too: "run\0--suite\0weak", 16.
 *           A length of 0 means no arguments: PMEM_BAD_WORDS.
 *   trace   the bytes that the program would read.
 *   out     receives the output, as far as there is room. Bytes behind it are unchanged.
 *   whole   receives the length of the whole output. If that is more than `room`, call again with more room.
 * PMEM_NO_MEMORY: the last line is `stop memory`, or there is no output. PMEM_REPLY_LOST: the output is a prefix of what it would have
 * been. PMEM_BAD_WORDS: the output is `stop words`, also if an argument is not UTF-8. PMEM_NULL: `whole` is NULL.
 * PMEM_OVERLAP: `out` or `whole` overlaps another block, and nothing was written. Each call makes a new memory and keeps no state. */
PMEM_API uint8_t pmem_answer(const uint8_t *words, size_t words_len, const uint8_t *trace, size_t trace_len, uint8_t *out, size_t room,
                    size_t *whole);

/* ---- sessions */

/* A session: a memory with its controller. A closed handle equals PMEM_CLOSED and owns nothing. An open handle owns memory, which
 * pmem_close frees. Never write its fields. An open handle may be moved, for example by memcpy, if the old place is not used again: two
 * copies of an open handle are one session, and no call may be made on the second one. */
typedef struct pmem {
    bool is_open;
    void *session;
} pmem;

#define PMEM_CLOSED {false, NULL}

/* Opens a closed handle on a new, formatted memory with power on. `words` are the program's arguments, spelled as for pmem_answer:
 * `run`, `wear`, `txn` or `tree`, and options. With `--log` each reply begins with its log (pmem_accesses).
 * PMEM_OK: the handle is open. PMEM_NO_MEMORY, PMEM_BAD_WORDS (also for `make`, `sample` and `check`): it is still closed.
 * PMEM_IS_OPEN: it was open and is unchanged. PMEM_NULL: `handle` is NULL. */
PMEM_API uint8_t pmem_open(pmem *handle, const uint8_t *words, size_t words_len);

/* Answers one line of a trace, without its LF, and keeps the reply's text until the next line.
 *   line    a command, a blank line or a comment. A line that contains an LF is PMEM_LINE_WORD.
 *   out     receives the reply, as far as there is room. Bytes behind it are unchanged. The reply is exactly what the program prints for
 *           this line: the log if the session has one, then the marks, then the answer, each line with its LF. A blank line or a comment
 *           has no reply.
 *   whole   receives the length of the whole reply.
 * PMEM_OK: the line was answered or skipped. PMEM_SHOWN: the reply ends with an exhibit, and the session is over. PMEM_REPLY_LOST: the
 * line was answered, but there was no memory for the reply's text; the session goes on, or is over if the answer was an exhibit.
 * PMEM_NO_MEMORY, PMEM_LINE_WORD to PMEM_LINE_LONG, PMEM_NOT_OPEN, PMEM_OVER: nothing was done. Unless the status is PMEM_OK or
 * PMEM_SHOWN, `whole` receives 0. PMEM_NULL: `handle` or `whole` is NULL; nothing was written either.
 * PMEM_OVERLAP: `out` or `whole` overlaps another block; nothing was written either.
 * A session has no limit on the number of lines. It keeps the marks of its writes; the native build also keeps the lines that it
 * answered, for pmem_copy. */
PMEM_API uint8_t pmem_tell(pmem *handle, const uint8_t *line, size_t line_len, uint8_t *out, size_t room, size_t *whole);

/* Copies the kept reply again, from byte `from` on, as far as there is room. Bytes behind it are unchanged. Returns the length of the
 * whole reply; 0 if there is none, if the handle is closed, or if it is NULL. */
PMEM_API size_t pmem_reply(pmem *handle, size_t from, uint8_t *out, size_t room);

/* Copies an open session into a closed handle, for example to try something on the copy. The two go on independently.
 * Cost: the portable build copies the session's memory: one or two milliseconds for the default memory, about 0.1 s with `--levels 6`.
 * The native build answers all lines again, so a copy takes as long as the run so far.
 * PMEM_OK: the copy is open, in the same state, with the same kept reply. PMEM_NOT_OPEN: there is no session. PMEM_IS_OPEN: the handle of
 * the copy was open. PMEM_FORGOTTEN: native build, after pmem_forget. PMEM_NO_MEMORY. PMEM_NULL: a handle is NULL. Unless the status is
 * PMEM_OK, the handle of the copy is unchanged. */
PMEM_API uint8_t pmem_copy(const pmem *handle, pmem *copy);

/* Frees the lines that the native build keeps for pmem_copy, and keeps none from here on: for a long run of which no copy is wanted. The
 * portable build keeps no lines: there this call does nothing, and the session can still be copied.
 * PMEM_OK. PMEM_NOT_OPEN. PMEM_NULL: `handle` is NULL. */
PMEM_API uint8_t pmem_forget(pmem *handle);

/* Closes a handle and frees its memory. PMEM_OK: it was open. PMEM_NOT_OPEN: it was closed. Either way it is closed now.
 * PMEM_NULL: `handle` is NULL. */
PMEM_API uint8_t pmem_close(pmem *handle);

#ifdef __cplusplus
}
#endif

/* ---- inline C over these calls: not proved, tested against the program */

/* What an answer is. */
typedef enum pmem_kind {
    PMEM_NONE,            /* there is none: the status is not PMEM_OK or PMEM_SHOWN, or the line was skipped */
    PMEM_DONE,            /* ok */
    PMEM_LINE,            /* read: `line` */
    PMEM_RAW,             /* peek: `line` */
    PMEM_RECOVERED,       /* on: `trials`, `digests` */
    PMEM_COUNTS,          /* stat: `stat` */
    PMEM_CUT,             /* read, turn, flush, loss, on: power was cut */
    PMEM_CUT_KEPT,        /* drain, fence: power was cut, and the write had reached memory */
    PMEM_CUT_LOST,        /* drain, fence: power was cut, and the write had not reached memory */
    PMEM_REFUSED_DATA,    /* data line `place` is not as it was written */
    PMEM_REFUSED_META,    /* metadata line `place` is not as it was written */
    PMEM_REFUSED_COUNTER, /* on: no counter fits data line `place` */
    PMEM_REFUSED_ROOT,    /* on: the chip keeps the root `kept`, the device has the root `found` */
    PMEM_SPENT,           /* drain, fence: the counters of page `place` are exhausted */
    PMEM_FULL,            /* post, part: 16 writes wait at the port */
    PMEM_EMPTY,           /* drain: no write waits */
    PMEM_IDLE,            /* turn: no page is under re-encryption */
    PMEM_CLEAN,           /* flush: no metadata is dirty */
    PMEM_OFF,             /* power is off */
    PMEM_ALREADY,         /* on: power is on */
    PMEM_RANGE,           /* there is no such place */
    PMEM_NO_SNAPSHOT,     /* back: no snapshot was taken */
    PMEM_EXHIBIT,         /* evidence that a cipher was broken: pmem_reply has its text */
    PMEM_OTHER            /* an answer that only `wear`, `txn` or `tree` has: pmem_reply has its text */
} pmem_kind;

/* The five counts of `stat` since formatting: device lines read and written, latches, tags and digests computed. */
typedef struct pmem_stat {
    uint64_t reads, writes, latches, tags, digests;
} pmem_stat;

/* A command's answer. A field that the answer does not have is 0. */
typedef struct pmem_result {
    pmem_status status;
    pmem_kind kind;
    uint64_t steps;                   /* persist steps: line writes and latches of the device */
    uint64_t count;                   /* fence: writes drained; turn: lines of the page left; flush: the metadata line's position */
    uint64_t place;                   /* the data line, metadata line or page that the answer names */
    uint64_t trials, digests;         /* on: counters that recovery tried, and digests that it computed */
    pmem_stat stat;
    uint8_t line[PMEM_LINE_BYTES];    /* read: the memory's line; peek: the device's */
    uint8_t kept[16], found[16];      /* the two roots of PMEM_REFUSED_ROOT */
    size_t reply_len;                 /* the length of the reply's text: log, marks and answer, each line with its LF */
    size_t log_len;                   /* the length of its log: 0 unless the session was opened with `--log` */
    size_t marks_len;                 /* the length of its marks, which stand behind the log */
} pmem_result;

/* What an access of the device was. */
typedef enum pmem_access_kind {
    PMEM_ACCESS_READ,   /* device line `line` was read */
    PMEM_ACCESS_WRITE,  /* device line `line` was written: a persist step */
    PMEM_ACCESS_LATCH   /* all on-chip registers changed at once: a persist step. `line` lines are in the commit group now */
} pmem_access_kind;

/* An access that a command made, for simulators of timing. A device line is 64 bytes: its address is 64 * `line`. */
typedef struct pmem_access {
    pmem_access_kind kind;
    uint64_t line;
} pmem_access;

/* The tags and digests that a command computed. */
typedef struct pmem_work {
    uint64_t tags, digests;
} pmem_work;

/* A mark: a data line was sealed, or the re-encryption of a page began. */
typedef struct pmem_mark {
    bool is_begin;       /* true: a begin; `at` is a page, and the other fields are 0. false: a seal; `at` is a data line */
    uint32_t at;
    uint64_t major;      /* the counter of the seal */
    uint8_t minor;
    uint8_t tag[16];
} pmem_mark;

/* A line of text that is being spelled. */
typedef struct pmem_speller {
    uint8_t text[PMEM_TEXT_BYTES];
    size_t len;
} pmem_speller;

static inline void pmem_spell(pmem_speller *speller, const char *word) {
    size_t len = strlen(word);
    memcpy(speller->text + speller->len, word, len);
    speller->len += len;
}

static inline void pmem_spell_number(pmem_speller *speller, uint64_t number) {
    uint8_t digits[20];
    size_t count = 0;
    do {
        digits[count++] = (uint8_t)('0' + (int)(number % 10));
        number /= 10;
    } while (number != 0);
    speller->text[speller->len++] = ' ';
    while (count != 0) speller->text[speller->len++] = digits[--count];
}

static inline void pmem_spell_bytes(pmem_speller *speller, const uint8_t *bytes, size_t count) {
    static const char digits[] = "0123456789abcdef";
    speller->text[speller->len++] = ' ';
    for (size_t i = 0; i < count; i++) {
        speller->text[speller->len++] = (uint8_t)digits[bytes[i] >> 4];
        speller->text[speller->len++] = (uint8_t)digits[bytes[i] & 15];
    }
}

/* The words that are left of a line of text. */
typedef struct pmem_words {
    const uint8_t *at, *end;
} pmem_words;

/* Takes the next word, which is empty at the end. */
static inline pmem_words pmem_next_word(pmem_words *words) {
    pmem_words word = {words->at, words->at};
    while (word.end != words->end && *word.end != ' ') word.end++;
    words->at = word.end == words->end ? word.end : word.end + 1;
    return word;
}

static inline bool pmem_is_word(pmem_words word, const char *name) {
    size_t len = strlen(name);
    return (size_t)(word.end - word.at) == len && memcmp(word.at, name, len) == 0;
}

static inline bool pmem_is_number(pmem_words word) {
    return word.at != word.end && *word.at >= '0' && *word.at <= '9';
}

static inline uint64_t pmem_take_number(pmem_words *words) {
    uint64_t number = 0;
    pmem_words word = pmem_next_word(words);
    for (; word.at != word.end && *word.at >= '0' && *word.at <= '9'; word.at++) number = number * 10 + (uint64_t)(*word.at - '0');
    return number;
}

static inline uint8_t pmem_hex_digit(uint8_t digit) {
    return (uint8_t)(digit <= '9' ? digit - '0' : (digit | 32) - 'a' + 10);
}

static inline void pmem_take_bytes(pmem_words *words, uint8_t *bytes, size_t count) {
    pmem_words word = pmem_next_word(words);
    for (size_t i = 0; i < count && (size_t)(word.end - word.at) >= 2; i++, word.at += 2)
        bytes[i] = (uint8_t)(pmem_hex_digit(word.at[0]) << 4 | pmem_hex_digit(word.at[1]));
}

/* Takes `steps`, the last number of a text, and `before` if another number stands before it. */
static inline void pmem_take_steps(pmem_words *words, uint64_t *before, uint64_t *steps) {
    uint64_t first = pmem_take_number(words);
    if (words->at == words->end) {
        *steps = first;
        return;
    }
    *before = first;
    *steps = pmem_take_number(words);
}

static inline void pmem_take_refusal(pmem_words *words, pmem_result *result) {
    pmem_words word = pmem_next_word(words);
    if (pmem_is_number(word)) {
        pmem_words drained = word;
        result->count = pmem_take_number(&drained);
        word = pmem_next_word(words);
    }
    if (pmem_is_word(word, "root")) {
        result->kind = PMEM_REFUSED_ROOT;
        pmem_take_bytes(words, result->kept, sizeof result->kept);
        pmem_take_bytes(words, result->found, sizeof result->found);
    } else {
        result->kind = pmem_is_word(word, "data") ? PMEM_REFUSED_DATA
                       : pmem_is_word(word, "meta") ? PMEM_REFUSED_META
                                                    : PMEM_REFUSED_COUNTER;
        result->place = pmem_take_number(words);
    }
    result->steps = pmem_take_number(words);
}

static inline void pmem_take_cut(pmem_words *words, pmem_result *result) {
    pmem_words rest = *words, word = pmem_next_word(&rest);
    result->kind = pmem_is_word(word, "kept") ? PMEM_CUT_KEPT : pmem_is_word(word, "lost") ? PMEM_CUT_LOST : PMEM_CUT;
    if (result->kind != PMEM_CUT) *words = rest;
    pmem_take_steps(words, &result->count, &result->steps);
}

static inline void pmem_take_spent(pmem_words *words, pmem_result *result) {
    uint64_t first = pmem_take_number(words), second = pmem_take_number(words);
    bool is_fence = words->at != words->end;
    result->kind = PMEM_SPENT;
    result->count = is_fence ? first : 0;
    result->place = is_fence ? second : first;
    result->steps = is_fence ? pmem_take_number(words) : second;
}

static inline void pmem_take_stat(pmem_words *words, pmem_stat *stat) {
    stat->reads = pmem_take_number(words);
    stat->writes = pmem_take_number(words);
    stat->latches = pmem_take_number(words);
    stat->tags = pmem_take_number(words);
    stat->digests = pmem_take_number(words);
}

/* The kind of an answer of one word. */
static inline pmem_kind pmem_plain_kind(pmem_words word) {
    static const struct {
        const char *name;
        pmem_kind kind;
    } plain[] = {
        {"full", PMEM_FULL}, {"empty", PMEM_EMPTY}, {"idle", PMEM_IDLE}, {"clean", PMEM_CLEAN}, {"off", PMEM_OFF},
        {"already", PMEM_ALREADY}, {"range", PMEM_RANGE}, {"none", PMEM_NO_SNAPSHOT},
        {"clash", PMEM_EXHIBIT}, {"forged", PMEM_EXHIBIT}, {"twin", PMEM_EXHIBIT},
    };
    for (size_t i = 0; i < sizeof plain / sizeof plain[0]; i++)
        if (pmem_is_word(word, plain[i].name)) return plain[i].kind;
    return PMEM_OTHER;
}

/* Reads the text of an answer of `run`, without its LF. */
static inline void pmem_read_answer(const uint8_t *text, size_t len, pmem_result *result) {
    pmem_words words = {text, text + len}, word = pmem_next_word(&words);
    if (pmem_is_word(word, "ok")) {
        result->kind = PMEM_DONE;
        if (words.at != words.end) pmem_take_steps(&words, &result->count, &result->steps);
    } else if (pmem_is_word(word, "line")) {
        result->kind = PMEM_LINE;
        pmem_take_bytes(&words, result->line, sizeof result->line);
        result->steps = pmem_take_number(&words);
    } else if (pmem_is_word(word, "raw")) {
        result->kind = PMEM_RAW;
        pmem_take_bytes(&words, result->line, sizeof result->line);
    } else if (pmem_is_word(word, "on")) {
        result->kind = PMEM_RECOVERED;
        result->trials = pmem_take_number(&words);
        result->digests = pmem_take_number(&words);
        result->steps = pmem_take_number(&words);
    } else if (pmem_is_word(word, "stat")) {
        result->kind = PMEM_COUNTS;
        pmem_take_stat(&words, &result->stat);
    } else if (pmem_is_word(word, "cut")) {
        pmem_take_cut(&words, result);
    } else if (pmem_is_word(word, "refused")) {
        pmem_take_refusal(&words, result);
    } else if (pmem_is_word(word, "spent")) {
        pmem_take_spent(&words, result);
    } else {
        result->kind = pmem_plain_kind(word);
    }
}

/* Reads a kept reply line by line, whatever its length. */
typedef struct pmem_reader {
    pmem *handle;
    size_t from, held, at;   /* `held` bytes of the reply, from its byte `from` on; the next line begins at byte `at` of them */
    uint8_t text[PMEM_TEXT_BYTES];
} pmem_reader;

/* Loads the reply's bytes from `from` on. */
static inline void pmem_load(pmem_reader *reader, size_t from) {
    size_t whole = pmem_reply(reader->handle, from, reader->text, sizeof reader->text);
    reader->from = from;
    reader->held = whole <= from ? 0 : whole - from < sizeof reader->text ? whole - from : sizeof reader->text;
    reader->at = 0;
}

/* Takes the next line, without its LF. Answers whether there is one. Each line of a reply has less than PMEM_TEXT_BYTES bytes. */
static inline bool pmem_next_line(pmem_reader *reader, pmem_words *line) {
    for (int i = 0; i < 2; i++) {
        size_t left = reader->held - reader->at;
        const uint8_t *at = reader->text + reader->at, *lf = left == 0 ? NULL : (const uint8_t *)memchr(at, '\n', left);
        if (lf != NULL) {
            line->at = at;
            line->end = lf;
            reader->at += (size_t)(lf - at) + 1;
            return true;
        }
        pmem_load(reader, reader->from + reader->at);
    }
    return false;
}

/* Reads a line of a log. Answers whether it is one: `look`, `line` or `latch` with a number, or `work`, the last line of a log, with two.
 * The answer of a read begins with `line` too, but has three words. */
static inline bool pmem_read_logged(pmem_words line, pmem_access *access, pmem_work *work, bool *is_work) {
    pmem_words word = pmem_next_word(&line);
    *is_work = pmem_is_word(word, "work");
    if (*is_work) {
        work->tags = pmem_take_number(&line);
        work->digests = pmem_take_number(&line);
        return true;
    }
    if (pmem_is_word(word, "look")) access->kind = PMEM_ACCESS_READ;
    else if (pmem_is_word(word, "line")) access->kind = PMEM_ACCESS_WRITE;
    else if (pmem_is_word(word, "latch")) access->kind = PMEM_ACCESS_LATCH;
    else return false;
    access->line = pmem_take_number(&line);
    return line.at == line.end;
}

/* Reads the log at the beginning of a text, which may be any bytes: for example of the output of pmem_answer with `run --log`.
 * Fills at most `room` accesses (`accesses` may be NULL if `room` is 0); `count` receives how many there are, `work` what was computed.
 * Returns the length of the log, with the LF of its last line; 0 if no whole log stands there, and then `count` is 0. */
static inline size_t pmem_read_log(const uint8_t *text, size_t len, pmem_access *accesses, size_t room, size_t *count, pmem_work *work) {
    pmem_access access = {PMEM_ACCESS_READ, 0};
    bool is_work = false;
    *count = 0;
    work->tags = work->digests = 0;
    for (size_t from = 0; from < len;) {
        const uint8_t *lf = (const uint8_t *)memchr(text + from, '\n', len - from);
        pmem_words line;
        line.at = text + from;
        line.end = lf;
        if (lf == NULL || !pmem_read_logged(line, &access, work, &is_work)) break;
        from = (size_t)(lf - text) + 1;
        if (is_work) return from;
        if (*count < room) accesses[*count] = access;
        *count += 1;
    }
    *count = 0;
    return 0;
}

/* Reads the log of the kept reply. Answers its length in bytes; 0 if there is no log. */
static inline size_t pmem_reply_log(pmem *handle, pmem_access *accesses, size_t room, size_t *count, pmem_work *work) {
    pmem_reader reader;
    pmem_words line;
    pmem_access access = {PMEM_ACCESS_READ, 0};
    bool is_work = false;
    reader.handle = handle;
    *count = 0;
    pmem_load(&reader, 0);
    while (pmem_next_line(&reader, &line) && pmem_read_logged(line, &access, work, &is_work)) {
        if (is_work) return reader.from + reader.at;
        if (*count < room) accesses[*count] = access;
        *count += 1;
    }
    *count = 0;
    return 0;
}

/* The accesses of the device that the last command made, in order, if the session was opened with `--log`: the controller's own reads,
 * writes and latches, also those of recovery. What an attacker or `peek` does to the device is not an access.
 * Fills at most `room` of them (`accesses` may be NULL if `room` is 0), and `work` unless it is NULL.
 * Returns how many accesses there are; 0 for a session without a log, or if the last line was skipped or not answered. */
static inline size_t pmem_accesses(pmem *handle, pmem_access *accesses, size_t room, pmem_work *work) {
    pmem_work done = {0, 0};
    size_t count = 0;
    pmem_reply_log(handle, accesses, room, &count, &done);
    if (work != NULL) *work = done;
    return count;
}

/* The length of the log of the kept reply, whose first bytes these are: 0 unless the first line is one of a log. */
static inline size_t pmem_log_len(pmem *handle, const uint8_t *text, size_t len) {
    const uint8_t *lf = (const uint8_t *)memchr(text, '\n', len);
    pmem_words line;
    pmem_access access;
    pmem_work work;
    bool is_work;
    size_t count;
    line.at = text;
    line.end = lf;
    if (lf == NULL || !pmem_read_logged(line, &access, &work, &is_work)) return 0;
    return pmem_reply_log(handle, NULL, 0, &count, &work);
}

/* Tells a session a line of bytes and reads its answer as an answer of `run`. The answer is the reply's last line. */
static inline pmem_result pmem_ask(pmem *handle, const uint8_t *line, size_t len) {
    pmem_result result;
    uint8_t text[PMEM_TEXT_BYTES];
    size_t whole = 0, from = 0, held, start;
    memset(&result, 0, sizeof result);
    result.status = (pmem_status)pmem_tell(handle, line, len, text, sizeof text, &whole);
    result.reply_len = whole;
    if (whole == 0) return result;
    result.log_len = pmem_log_len(handle, text, whole < sizeof text ? whole : sizeof text);
    if (whole > sizeof text) {
        from = whole - sizeof text;
        pmem_reply(handle, from, text, sizeof text);
    }
    held = whole - from - 1;
    for (start = held; start != 0 && text[start - 1] != '\n';) start--;
    result.marks_len = from + start - result.log_len;
    pmem_read_answer(text + start, held - start, &result);
    return result;
}

/* The same for a string. */
static inline pmem_result pmem_ask_text(pmem *handle, const char *line) {
    return pmem_ask(handle, (const uint8_t *)line, strlen(line));
}

/* Opens a handle with arguments that are separated by single spaces: pmem_open_text(&memory, "run --levels 1 --suite weak"). */
static inline pmem_status pmem_open_text(pmem *handle, const char *words) {
    uint8_t bytes[PMEM_TEXT_BYTES];
    size_t len = strlen(words);
    if (len > sizeof bytes) return PMEM_BAD_WORDS;
    for (size_t i = 0; i < len; i++) bytes[i] = (uint8_t)(words[i] == ' ' ? 0 : words[i]);
    return (pmem_status)pmem_open(handle, bytes, len);
}

/* Whether a word is this many bytes in hex digits. */
static inline bool pmem_is_hex(pmem_words word, size_t count) {
    static const char digits[] = "0123456789abcdefABCDEF";
    if ((size_t)(word.end - word.at) != 2 * count) return false;
    for (; word.at != word.end; word.at++)
        if (memchr(digits, *word.at, sizeof digits - 1) == NULL) return false;
    return true;
}

static inline bool pmem_is_digits(pmem_words word) {
    if (word.at == word.end) return false;
    for (; word.at != word.end; word.at++)
        if (*word.at < '0' || *word.at > '9') return false;
    return true;
}

/* Reads the words of a seal after its first one. Answers whether they are a seal's: a line, MAJOR.MINOR and a tag. */
static inline bool pmem_read_seal(pmem_words words, pmem_mark *mark) {
    pmem_words line = pmem_next_word(&words), major = pmem_next_word(&words), minor = major, tag = pmem_next_word(&words);
    while (minor.at != minor.end && *minor.at != '.') minor.at++;
    if (minor.at == minor.end) return false;
    major.end = minor.at++;
    if (!pmem_is_digits(line) || !pmem_is_digits(major) || !pmem_is_digits(minor)) return false;
    if (!pmem_is_hex(tag, sizeof mark->tag) || words.at != words.end) return false;
    mark->at = (uint32_t)pmem_take_number(&line);
    mark->major = pmem_take_number(&major);
    mark->minor = (uint8_t)pmem_take_number(&minor);
    pmem_take_bytes(&tag, mark->tag, sizeof mark->tag);
    return true;
}

/* Reads the mark at the beginning of a text, which may be any bytes. Returns its length with its LF; 0 if no mark stands there: then all
 * of `mark` is 0. The marks of a reply begin at its byte `log_len`. */
static inline size_t pmem_read_mark(const uint8_t *text, size_t len, pmem_mark *mark) {
    const uint8_t *lf = len == 0 ? NULL : (const uint8_t *)memchr(text, '\n', len);
    pmem_words words, word;
    memset(mark, 0, sizeof *mark);
    if (lf == NULL) return 0;
    words.at = text;
    words.end = lf;
    word = pmem_next_word(&words);
    if (pmem_is_word(word, "begin") && pmem_is_digits(words)) {
        mark->is_begin = true;
        mark->at = (uint32_t)pmem_take_number(&words);
    } else if (!pmem_is_word(word, "seal") || !pmem_read_seal(words, mark)) {
        return 0;
    }
    return (size_t)(lf - text) + 1;
}

/* ---- the commands of `run`. `port` is 0 to 7, `at` a data line, `device` a device line. A NULL line is PMEM_LINE_COUNT */

static inline pmem_result pmem_command(pmem *handle, const char *name, const uint64_t *numbers, size_t count, const uint8_t *bytes,
                                       size_t bytes_len) {
    pmem_speller speller;
    speller.len = 0;
    pmem_spell(&speller, name);
    for (size_t i = 0; i < count; i++) pmem_spell_number(&speller, numbers[i]);
    if (bytes != NULL) pmem_spell_bytes(&speller, bytes, bytes_len);
    return pmem_ask(handle, speller.text, speller.len);
}

static inline pmem_result pmem_numbers(pmem *handle, const char *name, size_t count, uint64_t first, uint64_t second) {
    uint64_t numbers[2];
    numbers[0] = first;
    numbers[1] = second;
    return pmem_command(handle, name, numbers, count, NULL, 0);
}

/* Puts a write of a whole data line into a port's queue. */
static inline pmem_result pmem_post(pmem *handle, unsigned port, uint64_t at, const uint8_t line[PMEM_LINE_BYTES]) {
    uint64_t numbers[2];
    numbers[0] = port;
    numbers[1] = at;
    return pmem_command(handle, "post", numbers, 2, line, PMEM_LINE_BYTES);
}

/* The same for `len` bytes, 1 to 64, from byte `from` of the line on. Length 0 is PMEM_LINE_COUNT, a length above 64 PMEM_LINE_HEX. */
static inline pmem_result pmem_part(pmem *handle, unsigned port, uint64_t at, unsigned from, const uint8_t *bytes, size_t len) {
    uint64_t numbers[3];
    numbers[0] = port;
    numbers[1] = at;
    numbers[2] = from;
    return pmem_command(handle, "part", numbers, 3, bytes, len <= PMEM_LINE_BYTES ? len : PMEM_LINE_BYTES + 1);
}

/* Performs the port's oldest waiting write. */
static inline pmem_result pmem_drain(pmem *handle, unsigned port) { return pmem_numbers(handle, "drain", 1, port, 0); }

/* Performs all writes that wait at the port, the oldest first, until the queue is empty or a write fails. */
static inline pmem_result pmem_fence(pmem *handle, unsigned port) { return pmem_numbers(handle, "fence", 1, port, 0); }

/* Reads a data line as the port sees it: the memory's line, with the port's waiting bytes over it. */
static inline pmem_result pmem_read(pmem *handle, unsigned port, uint64_t at) { return pmem_numbers(handle, "read", 2, port, at); }

/* Re-encrypts one more line of the oldest page that is under re-encryption. */
static inline pmem_result pmem_turn(pmem *handle) { return pmem_numbers(handle, "turn", 0, 0, 0); }

/* Writes the oldest dirty metadata line to its place. */
static inline pmem_result pmem_flush(pmem *handle) { return pmem_numbers(handle, "flush", 0, 0, 0); }

/* Sets the stop-loss number: 1, 2, 4, 8 or 16. */
static inline pmem_result pmem_loss(pmem *handle, uint64_t number) { return pmem_numbers(handle, "loss", 1, number, 0); }

/* Lets power fail after `steps` more persist steps: 0 stops the next one. */
static inline pmem_result pmem_cut(pmem *handle, uint64_t steps) { return pmem_numbers(handle, "cut", 1, steps, 0); }

/* Turns power off; turns it on, with recovery. */
static inline pmem_result pmem_off(pmem *handle) { return pmem_numbers(handle, "off", 0, 0, 0); }
static inline pmem_result pmem_on(pmem *handle) { return pmem_numbers(handle, "on", 0, 0, 0); }

/* The attacker: overwrites a device line behind the controller's back; flips one of its bits, 0 to 511; copies it to another line. */
static inline pmem_result pmem_poke(pmem *handle, uint64_t device, const uint8_t line[PMEM_LINE_BYTES]) {
    return pmem_command(handle, "poke", &device, 1, line, PMEM_LINE_BYTES);
}
static inline pmem_result pmem_flip(pmem *handle, uint64_t device, unsigned bit) {
    return pmem_numbers(handle, "flip", 2, device, bit);
}
static inline pmem_result pmem_move(pmem *handle, uint64_t from, uint64_t to) { return pmem_numbers(handle, "move", 2, from, to); }

/* The attacker: keeps a copy of all device lines; puts a device line back as it was then. */
static inline pmem_result pmem_snap(pmem *handle) { return pmem_numbers(handle, "snap", 0, 0, 0); }
static inline pmem_result pmem_back(pmem *handle, uint64_t device) { return pmem_numbers(handle, "back", 1, device, 0); }

/* Shows a device line; shows the counts since formatting. */
static inline pmem_result pmem_peek(pmem *handle, uint64_t device) { return pmem_numbers(handle, "peek", 1, device, 0); }
static inline pmem_result pmem_stats(pmem *handle) { return pmem_numbers(handle, "stat", 0, 0, 0); }

#endif
