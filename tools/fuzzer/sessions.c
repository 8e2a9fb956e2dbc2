/* Three handles with sessions: lines, typed calls, copies, wrong use, and memory that is refused. The replies of a session must be what
 * pmem_answer prints for the same lines, and a copy must answer as its original. */
#include "refusing.h"
#include "spelling.h"

enum { HANDLES = 3, STEPS = 200, ROOM = 1200, FILL = 0xA5, LONGEST_PART = PMEM_LINE_BYTES + 5 };

typedef struct text {
    uint8_t *at;
    size_t len;
} text;

/* What a session was given and what it replied. */
typedef struct transcript {
    text words, lines, replies;
    bool is_known;     /* each command is in `lines`, and its reply in `replies` */
    bool is_small;     /* its memory may be less than it asks for */
    bool is_over, is_forgotten;
} transcript;

static void append(text *its, const void *bytes, size_t len) {
    its->at = (uint8_t *)realloc(its->at, its->len + len + 1);
    CHECK(its->at != NULL);
    if (len != 0) memcpy(its->at + its->len, bytes, len);
    its->len += len;
}

static void append_line(transcript *its, const uint8_t *line, size_t len) {
    append(&its->lines, line, len);
    append(&its->lines, "\n", 1);
}

static void drop(transcript *its) {
    free(its->words.at);
    free(its->lines.at);
    free(its->replies.at);
    memset(its, 0, sizeof *its);
}

/* The whole program must answer what the session did. */
static void check_transcript(const pmem *handle, const transcript *its) {
    if (!handle->is_open || !its->is_known) return;
    size_t whole = 0;
    uint8_t *out = filled_block(its->replies.len, FILL);
    uint8_t status = pmem_answer(its->words.at, its->words.len, its->lines.at, its->lines.len, out, its->replies.len, &whole);
    CHECK(status == (its->is_over ? PMEM_SHOWN : PMEM_OK));
    CHECK(whole == its->replies.len && (whole == 0 || memcmp(out, its->replies.at, whole) == 0));
    free(out);
}

static bool begins_with(const uint8_t *words, size_t len, const char *name) {
    size_t count = strlen(name);
    return len >= count && memcmp(words, name, count) == 0 && (len == count || words[count] == 0);
}

static bool names_session(const uint8_t *words, size_t len) {
    return begins_with(words, len, "run") || begins_with(words, len, "wear") || begins_with(words, len, "txn") || begins_with(words, len, "tree");
}

/* A handle opens exactly on the arguments that the program takes. */
static void open_one(input *given, pmem *handle, transcript *its) {
    static spelling spelled;
    bool was_open = handle->is_open, was_refused;
    size_t whole;
    spell_words(&spelled, given);
    uint8_t *words = block_of(spelled.text, spelled.len), status;
    refuse_some(given);
    status = pmem_open(handle, spelled.len != 0 ? words : NULL, spelled.len);
    was_refused = refuse_none();
    if (was_open) {
        CHECK(status == PMEM_IS_OPEN);
    } else {
        CHECK(status <= PMEM_BAD_WORDS && handle->is_open == (status == PMEM_OK));
        if (!names_session(words, spelled.len)) CHECK(status != PMEM_OK);
        else if (status != PMEM_NO_MEMORY)
            CHECK((status == PMEM_BAD_WORDS) == (pmem_answer(words, spelled.len, NULL, 0, NULL, 0, &whole) == PMEM_BAD_WORDS));
        if (status == PMEM_OK) {
            drop(its);
            append(&its->words, words, spelled.len);
            its->is_known = true;
            its->is_small = was_refused;
        }
    }
    free(words);
}

/* A reply is whole lines, and its log and marks are read up to its answer. */
static void check_reply(pmem *handle, const uint8_t *out, size_t room, size_t whole) {
    uint8_t *reply = block_of(NULL, whole);
    pmem_work work;
    pmem_mark mark;
    size_t count, taken, at;
    CHECK(pmem_reply(handle, 0, reply, whole) == whole && memcmp(reply, out, least(whole, room)) == 0);
    CHECK(reply[whole - 1] == '\n');
    at = pmem_read_log(reply, whole, NULL, 0, &count, &work);
    while ((taken = pmem_read_mark(reply + at, whole - at, &mark)) != 0) at += taken;
    CHECK(at < whole && memchr(reply + at, '\n', whole - at) == reply + whole - 1);
    free(reply);
}

/* Notes what a line came to. */
static void note_line(pmem *handle, transcript *its, const uint8_t *line, size_t len, uint8_t status, size_t whole) {
    if (whole != 0) {
        uint8_t *reply = block_of(NULL, whole);
        pmem_reply(handle, 0, reply, whole);
        append_line(its, line, len);
        append(&its->replies, reply, whole);
        free(reply);
    }
    if (status == PMEM_SHOWN) its->is_over = true;
    if (status != PMEM_REPLY_LOST) return;
    its->is_known = false;
    its->is_over = pmem_tell(handle, NULL, 0, NULL, 0, &whole) == PMEM_OVER;
}

static void tell_one(input *given, pmem *handle, transcript *its) {
    static spelling spelled;
    size_t whole = 77, room = next_byte(given);
    if (room < 200) room = ROOM;
    spell_line(&spelled, given);
    uint8_t *line = block_of(spelled.text, spelled.len), *out = filled_block(room, FILL), status;
    bool is_open = handle->is_open, was_refused;
    refuse_some(given);
    status = pmem_tell(handle, spelled.len != 0 ? line : NULL, spelled.len, out, room, &whole);
    was_refused = refuse_none();
    CHECK(is_filled(out, least(whole, room), room, FILL));
    if (!is_open) CHECK(status == PMEM_NOT_OPEN);
    else if (its->is_over) CHECK(status == PMEM_OVER);
    else if (status == PMEM_NO_MEMORY || status == PMEM_REPLY_LOST) CHECK(was_refused || its->is_small);
    else CHECK(status == PMEM_OK || status == PMEM_SHOWN || (status >= PMEM_LINE_WORD && status <= PMEM_LINE_LONG));
    if (status != PMEM_OK && status != PMEM_SHOWN) CHECK(whole == 0);
    if (whole != 0) check_reply(handle, out, room, whole);
    else CHECK(pmem_reply(handle, 0, NULL, 0) == 0);
    if (is_open) note_line(handle, its, line, spelled.len, status, whole);
    free(line);
    free(out);
}

/* A line over which its reply would be written: nothing is done, and neither is written. */
static void overlap_one(input *given, pmem *handle) {
    static spelling spelled;
    size_t whole = 77, from;
    spell_line(&spelled, given);
    if (spelled.len == 0) return;
    uint8_t *line = block_of(spelled.text, spelled.len);
    from = next_byte(given) % spelled.len;
    CHECK(pmem_tell(handle, line, spelled.len, line + from, spelled.len - from, &whole) == PMEM_OVERLAP && whole == 77);
    CHECK(memcmp(line, spelled.text, spelled.len) == 0);
    free(line);
}

/* Two sessions must have the same reply. */
static void check_same_reply(pmem *one, pmem *other) {
    size_t whole = pmem_reply(one, 0, NULL, 0);
    uint8_t *first = block_of(NULL, whole), *second = block_of(NULL, whole);
    CHECK(pmem_reply(one, 0, first, whole) == whole && pmem_reply(other, 0, second, whole) == whole);
    CHECK(whole == 0 || memcmp(first, second, whole) == 0);
    free(first);
    free(second);
}

static void copy_one(input *given, pmem *handle, pmem *other, transcript *its, transcript *others) {
    bool was_open = other->is_open, is_kept = pmem_build()[0] == 'p' || !its->is_forgotten, was_refused;
    uint8_t status;
    refuse_some(given);
    status = pmem_copy(handle, other);
    was_refused = refuse_none();
    if (!handle->is_open) CHECK(status == PMEM_NOT_OPEN);
    else if (was_open) CHECK(status == PMEM_IS_OPEN);
    else if (!is_kept) CHECK(status == PMEM_FORGOTTEN);
    else CHECK(status == PMEM_OK || (status == PMEM_NO_MEMORY && (was_refused || its->is_small)));
    if (status != PMEM_OK) {
        CHECK(other->is_open == was_open);
        return;
    }
    drop(others);
    append(&others->words, its->words.at, its->words.len);
    append(&others->lines, its->lines.at, its->lines.len);
    append(&others->replies, its->replies.at, its->replies.len);
    others->is_known = its->is_known;
    others->is_over = its->is_over;
    others->is_small = its->is_small || was_refused;
    check_same_reply(handle, other);
}

/* Reads a part of the reply: the bytes behind it stay. */
static void reply_one(input *given, pmem *handle) {
    size_t from = next_byte(given), room = next_byte(given);
    if (from & 1) from = SIZE_MAX - from;
    uint8_t *out = filled_block(room, FILL);
    size_t whole = pmem_reply(handle, from, room != 0 ? out : NULL, room), put = from < whole ? least(whole - from, room) : 0;
    CHECK(is_filled(out, put, room, FILL));
    free(out);
}

/* Typed calls, whose lines are not noted. */
static void typed_calls(input *given, pmem *handle, transcript *its) {
    uint8_t bytes[LONGEST_PART];
    size_t whole;
    pmem_result result;
    memset(bytes, next_byte(given), sizeof bytes);
    its->is_known = false;
    pmem_post(handle, next_byte(given) % 9, next_byte(given), bytes);
    pmem_part(handle, 0, next_byte(given), next_byte(given) % 70, bytes, next_below(given, LONGEST_PART + 1));
    pmem_drain(handle, next_byte(given) % 9);
    pmem_fence(handle, next_byte(given) % 9);
    pmem_on(handle);
    result = pmem_read(handle, next_byte(given) % 9, next_byte(given));
    CHECK(result.kind != PMEM_LINE || result.status == PMEM_OK);
    CHECK(result.kind == PMEM_NONE || result.status == PMEM_OK || result.status == PMEM_SHOWN);
    CHECK(result.log_len + result.marks_len <= result.reply_len);
    pmem_accesses(handle, NULL, 0, NULL);
    its->is_over = handle->is_open && pmem_tell(handle, NULL, 0, NULL, 0, &whole) == PMEM_OVER;
}

static void close_one(pmem *handle, transcript *its) {
    uint8_t due = handle->is_open ? PMEM_OK : PMEM_NOT_OPEN;
    check_transcript(handle, its);
    CHECK(pmem_close(handle) == due && !handle->is_open);
    CHECK(pmem_close(handle) == PMEM_NOT_OPEN);
    drop(its);
}

static void one_step(input *given, pmem *handles, transcript *transcripts) {
    uint8_t kind = next_byte(given) % 20;
    size_t one = next_below(given, HANDLES), other = next_below(given, HANDLES);
    pmem *handle = &handles[one];
    if (!handle->is_open && kind < 17) kind = 0;
    if (kind < 2) open_one(given, handle, &transcripts[one]);
    else if (kind < 13) tell_one(given, handle, &transcripts[one]);
    else if (kind == 13) overlap_one(given, handle);
    else if (kind == 14) reply_one(given, handle);
    else if (kind == 15) typed_calls(given, handle, &transcripts[one]);
    else if (kind == 16) check_transcript(handle, &transcripts[one]);
    else if (kind == 17) copy_one(given, handle, &handles[other], &transcripts[one], &transcripts[other]);
    else if (kind == 18) close_one(handle, &transcripts[one]);
    else if (pmem_forget(handle) == PMEM_OK) transcripts[one].is_forgotten = true;
}

int LLVMFuzzerTestOneInput(const uint8_t *data, size_t size);
int LLVMFuzzerTestOneInput(const uint8_t *data, size_t size) {
    input given = {data, size};
    pmem handles[HANDLES] = {PMEM_CLOSED, PMEM_CLOSED, PMEM_CLOSED};
    transcript transcripts[HANDLES];
    memset(transcripts, 0, sizeof transcripts);
    for (int step = 0; step < STEPS && given.left != 0; step++) one_step(&given, handles, transcripts);
    for (int i = 0; i < HANDLES; i++) close_one(&handles[i], &transcripts[i]);
    return 0;
}
