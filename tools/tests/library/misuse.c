/* Handles used wrongly, NULL as the header allows it and as it does not, short buffers, and two sessions side by side. */
#include "pmem.h"
#include <stdio.h>

static int failures;

#define IS(what)                                                        \
    do {                                                                \
        if (!(what)) {                                                  \
            failures++;                                                 \
            printf("line %d: %s\n", __LINE__, #what);                   \
        }                                                               \
    } while (0)

static const uint8_t *bytes(const char *text) { return (const uint8_t *)text; }

static uint8_t tell(pmem *handle, const char *line, size_t *whole) { return pmem_tell(handle, bytes(line), strlen(line), NULL, 0, whole); }

static void closed(void) {
    pmem handle = PMEM_CLOSED;
    uint8_t out[4] = {1, 2, 3, 4};
    size_t whole = 77;
    IS(pmem_tell(&handle, bytes("stat"), 4, out, sizeof out, &whole) == PMEM_NOT_OPEN && whole == 0);
    IS(pmem_reply(&handle, 0, out, sizeof out) == 0 && pmem_reply(&handle, SIZE_MAX, NULL, 0) == 0);
    IS(out[0] == 1 && out[3] == 4);
    IS(pmem_close(&handle) == PMEM_NOT_OPEN && pmem_close(&handle) == PMEM_NOT_OPEN);
    IS(!handle.is_open && handle.session == NULL);
}

static void words(void) {
    pmem handle = PMEM_CLOSED;
    IS(pmem_open(&handle, NULL, 0) == PMEM_BAD_WORDS);
    IS(pmem_open_text(&handle, "make 7 5") == PMEM_BAD_WORDS && pmem_open_text(&handle, "check") == PMEM_BAD_WORDS);
    IS(pmem_open_text(&handle, "run --levels 7") == PMEM_BAD_WORDS && pmem_open_text(&handle, "RUN") == PMEM_BAD_WORDS);
    IS(pmem_open(&handle, bytes("run\xff"), 4) == PMEM_BAD_WORDS && pmem_open(&handle, bytes("\0run"), 4) == PMEM_BAD_WORDS);
    IS(!handle.is_open && pmem_close(&handle) == PMEM_NOT_OPEN);
    IS(pmem_open(&handle, bytes("run\0--levels=1\0"), 15) == PMEM_OK && handle.is_open);
    IS(pmem_close(&handle) == PMEM_OK && pmem_open(&handle, bytes("run\0--levels=1"), 14) == PMEM_OK && pmem_close(&handle) == PMEM_OK);
}

static void lines(void) {
    pmem handle = PMEM_CLOSED;
    uint8_t long_line[1025];
    size_t whole = 77;
    IS(pmem_open_text(&handle, "run --suite weak") == PMEM_OK);
    IS(pmem_open_text(&handle, "wear") == PMEM_IS_OPEN && pmem_open(&handle, NULL, 0) == PMEM_IS_OPEN);
    IS(pmem_tell(&handle, NULL, 0, NULL, 0, &whole) == PMEM_OK && whole == 0);
    IS(tell(&handle, "# a comment", &whole) == PMEM_OK && whole == 0 && pmem_ask_text(&handle, " \t\r").kind == PMEM_NONE);
    IS(tell(&handle, "stat", &whole) == PMEM_OK && whole > 0);
    IS(tell(&handle, "stat\r", &whole) == PMEM_OK && whole > 0);
    IS(tell(&handle, "STAT", &whole) == PMEM_LINE_WORD && whole == 0 && pmem_reply(&handle, 0, NULL, 0) == 0);
    IS(tell(&handle, "stat\n", &whole) == PMEM_LINE_WORD && tell(&handle, "read 0", &whole) == PMEM_LINE_COUNT);
    IS(tell(&handle, "read x 0", &whole) == PMEM_LINE_NUMBER && tell(&handle, "read 9 0", &whole) == PMEM_LINE_PORT);
    IS(tell(&handle, "poke 0 0", &whole) == PMEM_LINE_HEX);
    memset(long_line, ' ', sizeof long_line);
    IS(pmem_tell(&handle, long_line, 1024, NULL, 0, &whole) == PMEM_OK && pmem_tell(&handle, long_line, 1025, NULL, 0, &whole) == PMEM_LINE_LONG);
    IS(tell(&handle, "stat", &whole) == PMEM_OK && whole > 0);
    IS(pmem_close(&handle) == PMEM_OK && tell(&handle, "stat", &whole) == PMEM_NOT_OPEN);
    for (int i = 0; i < 3; i++) {
        static const char *const words[] = {"wear --suite weak", "txn --suite weak", "tree --suite weak"};
        IS(pmem_open_text(&handle, words[i]) == PMEM_OK && pmem_tell(&handle, long_line, 1024, NULL, 0, &whole) == PMEM_OK);
        IS(pmem_tell(&handle, long_line, 1025, NULL, 0, &whole) == PMEM_LINE_LONG && pmem_close(&handle) == PMEM_OK);
    }
}

/* `line 00..00 0` and its LF: each front of it, and each end. */
static void buffers(void) {
    pmem handle = PMEM_CLOSED;
    uint8_t all[256], some[256];
    size_t whole = 0, again = 0;
    IS(pmem_open_text(&handle, "run --suite weak") == PMEM_OK);
    IS(pmem_tell(&handle, bytes("read 0 3"), 8, all, sizeof all, &whole) == PMEM_OK && whole == 5 + 128 + 3);
    for (size_t room = 0; room <= whole + 1; room++) {
        memset(some, 0xee, sizeof some);
        IS(pmem_tell(&handle, bytes("read 0 3"), 8, some, room, &again) == PMEM_OK && again == whole);
        size_t put = room < whole ? room : whole;
        IS(memcmp(some, all, put) == 0 && some[put] == 0xee);
        memset(some, 0xee, sizeof some);
        IS(pmem_reply(&handle, room, some, 40) == whole);
        size_t left = room < whole ? whole - room : 0;
        put = left < 40 ? left : 40;
        IS((put == 0 || memcmp(some, all + room, put) == 0) && some[put] == 0xee);
    }
    IS(pmem_reply(&handle, SIZE_MAX, some, sizeof some) == whole);
    IS(pmem_close(&handle) == PMEM_OK);
}

/* What one session is given, the other doesn't know; and a handle that was moved goes on. */
static void two(void) {
    pmem first = PMEM_CLOSED, second = PMEM_CLOSED, moved;
    uint8_t line[PMEM_LINE_BYTES] = {1};
    IS(pmem_open_text(&first, "run") == PMEM_OK && pmem_open_text(&second, "run") == PMEM_OK);
    IS(pmem_post(&first, 0, 0, line).kind == PMEM_DONE && pmem_drain(&second, 0).kind == PMEM_EMPTY && pmem_drain(&first, 0).kind == PMEM_DONE);
    IS(pmem_read(&first, 0, 0).line[0] == 1 && pmem_read(&second, 0, 0).line[0] == 0);
    moved = first;
    IS(pmem_close(&second) == PMEM_OK && pmem_read(&moved, 0, 0).line[0] == 1 && pmem_close(&moved) == PMEM_OK);
}

/* A copy has the session's state, and the two go on by themselves. */
static void copies(void) {
    pmem first = PMEM_CLOSED, second = PMEM_CLOSED;
    uint8_t line[PMEM_LINE_BYTES] = {2};
    size_t whole;
    IS(pmem_copy(&first, &second) == PMEM_NOT_OPEN && !second.is_open);
    IS(pmem_open_text(&first, "run") == PMEM_OK && pmem_copy(&first, &first) == PMEM_IS_OPEN);
    IS(pmem_post(&first, 0, 0, line).kind == PMEM_DONE && pmem_copy(&first, &second) == PMEM_OK && pmem_copy(&first, &second) == PMEM_IS_OPEN);
    IS(pmem_reply(&second, 0, NULL, 0) == 3 && pmem_cut(&second, 0).kind == PMEM_DONE && pmem_drain(&second, 0).kind == PMEM_CUT_LOST);
    IS(pmem_drain(&first, 0).kind == PMEM_DONE && pmem_close(&first) == PMEM_OK && tell(&second, "on", &whole) == PMEM_OK);
    IS(pmem_read(&second, 0, 0).line[0] == 0 && pmem_close(&second) == PMEM_OK);
}

/* After pmem_forget the session goes on. The native build cannot copy it any more; the portable one can. */
static void forgotten(void) {
    pmem first = PMEM_CLOSED, second = PMEM_CLOSED;
    uint8_t line[PMEM_LINE_BYTES] = {3};
    bool is_native = strcmp(pmem_build(), "native") == 0;
    IS(is_native || strcmp(pmem_build(), "portable") == 0);
    IS(pmem_forget(&first) == PMEM_NOT_OPEN && pmem_open_text(&first, "run --suite weak") == PMEM_OK);
    IS(pmem_post(&first, 0, 9, line).kind == PMEM_DONE && pmem_forget(&first) == PMEM_OK && pmem_forget(&first) == PMEM_OK);
    IS(pmem_copy(&first, &second) == (is_native ? PMEM_FORGOTTEN : PMEM_OK) && second.is_open == !is_native);
    IS(second.is_open || second.session == NULL);
    IS(is_native || (pmem_drain(&second, 0).kind == PMEM_DONE && pmem_read(&second, 1, 9).line[0] == 3 && pmem_close(&second) == PMEM_OK));
    IS(pmem_drain(&first, 0).kind == PMEM_DONE && pmem_read(&first, 1, 9).line[0] == 3 && pmem_close(&first) == PMEM_OK);
}

/* NULL for a handle or for `whole`. */
static void null(void) {
    pmem handle = PMEM_CLOSED;
    uint8_t line[PMEM_LINE_BYTES] = {4}, out[2] = {7, 7};
    size_t whole = 77;
    IS(pmem_open(NULL, bytes("run"), 3) == PMEM_NULL && pmem_open_text(NULL, "run") == PMEM_NULL);
    IS(pmem_tell(NULL, bytes("stat"), 4, out, sizeof out, &whole) == PMEM_NULL && whole == 77 && out[0] == 7);
    IS(pmem_reply(NULL, 0, out, sizeof out) == 0 && out[0] == 7);
    IS(pmem_forget(NULL) == PMEM_NULL && pmem_close(NULL) == PMEM_NULL);
    IS(pmem_copy(NULL, &handle) == PMEM_NULL && pmem_copy(&handle, NULL) == PMEM_NULL && pmem_copy(NULL, NULL) == PMEM_NULL);
    IS(pmem_stats(NULL).status == PMEM_NULL && pmem_stats(NULL).kind == PMEM_NONE && pmem_accesses(NULL, NULL, 0, NULL) == 0);
    IS(pmem_answer(bytes("run"), 3, NULL, 0, out, sizeof out, NULL) == PMEM_NULL && out[0] == 7);
    IS(pmem_open_text(&handle, "run --suite weak") == PMEM_OK && pmem_tell(&handle, bytes("snap"), 4, out, sizeof out, NULL) == PMEM_NULL);
    IS(out[0] == 7 && pmem_back(&handle, 0).kind == PMEM_NO_SNAPSHOT);
    IS(pmem_post(&handle, 0, 0, NULL).status == PMEM_LINE_COUNT && pmem_part(&handle, 0, 0, 0, NULL, 0).status == PMEM_LINE_COUNT);
    IS(pmem_part(&handle, 0, 0, 0, line, 0).status == PMEM_LINE_COUNT && pmem_close(&handle) == PMEM_OK);
}

/* A log is there if it is asked for, and only then. */
static void logs(void) {
    pmem handle = PMEM_CLOSED, copy = PMEM_CLOSED;
    pmem_access accesses[4];
    pmem_work work = {7, 7};
    IS(pmem_accesses(&handle, accesses, 4, &work) == 0 && work.tags == 0 && work.digests == 0);
    IS(pmem_open_text(&handle, "run --suite weak") == PMEM_OK && pmem_accesses(&handle, accesses, 4, NULL) == 0);
    IS(pmem_read(&handle, 0, 0).log_len == 0 && pmem_accesses(&handle, accesses, 4, &work) == 0 && work.tags == 0);
    IS(pmem_close(&handle) == PMEM_OK && pmem_open_text(&handle, "run --suite weak --log") == PMEM_OK);
    IS(pmem_read(&handle, 0, 0).kind == PMEM_LINE && pmem_copy(&handle, &copy) == PMEM_OK);
    /* docs/FORMATS.md has the log of this read: it looks at 1280, 1281, 1285, 0 and 1024, and makes one tag and three digests. */
    IS(pmem_accesses(&handle, accesses, 4, &work) == 5 && work.tags == 1 && work.digests == 3);
    IS(accesses[0].kind == PMEM_ACCESS_READ && accesses[0].line == 1280 && accesses[3].line == 0);
    IS(pmem_accesses(&copy, NULL, 0, &work) == 5 && work.digests == 3 && pmem_close(&copy) == PMEM_OK);
    IS(pmem_ask_text(&handle, "# nothing").kind == PMEM_NONE && pmem_accesses(&handle, accesses, 4, NULL) == 0);
    IS(pmem_close(&handle) == PMEM_OK);
}

/* An exhibit ends a session. It can be copied: the copy is over too, and has the same reply. */
static void over(void) {
    pmem first = PMEM_CLOSED, second = PMEM_CLOSED;
    uint8_t shown[PMEM_TEXT_BYTES], copied[PMEM_TEXT_BYTES], long_line[1025] = {0};
    size_t whole = 0, len;
    IS(pmem_open_text(&first, "run --suite weak") == PMEM_OK);
    IS(pmem_flip(&first, 5, 0).kind == PMEM_DONE && pmem_flip(&first, 5, 8).kind == PMEM_DONE);
    pmem_result result = pmem_read(&first, 0, 5);
    IS(result.status == PMEM_SHOWN && result.kind == PMEM_EXHIBIT && result.reply_len > 7);
    len = pmem_reply(&first, 0, shown, sizeof shown);
    IS(len == result.reply_len && memcmp(shown, "forged ", 7) == 0 && pmem_copy(&first, &second) == PMEM_OK);
    IS(pmem_reply(&second, 0, copied, sizeof copied) == len && memcmp(shown, copied, len) == 0);
    IS(tell(&second, "stat", &whole) == PMEM_OVER && whole == 0 && pmem_reply(&second, 0, NULL, 0) == 0 && pmem_close(&second) == PMEM_OK);
    IS(tell(&first, "", &whole) == PMEM_OVER && tell(&first, "a\n", &whole) == PMEM_OVER && tell(&first, "nonsense", &whole) == PMEM_OVER);
    IS(pmem_tell(&first, long_line, sizeof long_line, NULL, 0, &whole) == PMEM_OVER && whole == 0);
    IS(pmem_copy(&first, &second) == PMEM_OK && pmem_reply(&second, 0, NULL, 0) == 0 && tell(&second, "on", &whole) == PMEM_OVER);
    IS(pmem_close(&second) == PMEM_OK && pmem_close(&first) == PMEM_OK);
}

static void answers(void) {
    size_t whole = 77;
    uint8_t out[16];
    IS(pmem_answer(NULL, 0, NULL, 0, NULL, 0, &whole) == PMEM_BAD_WORDS && whole == 11);
    IS(pmem_answer(bytes("run"), 3, NULL, 0, NULL, 0, &whole) == PMEM_OK && whole == 0);
    IS(pmem_answer(bytes("run"), 3, bytes("drain 0\n"), 8, out, sizeof out, &whole) == PMEM_OK && whole == 6 && memcmp(out, "empty\n", 6) == 0);
}

/* An argument that is not UTF-8 is refused with the line of all invalid arguments, as far as there is room. */
static void not_text(void) {
    static const char *const words[] = {"\xc3\0run", "run\0\xff", "run\0--suite\0\xed\xa0\x80", "run\0\xc0\xaf"};
    static const size_t lens[] = {5, 5, 15, 6};
    size_t whole = 77;
    for (int i = 0; i < 4; i++)
        for (size_t room = 0; room <= 12; room++) {
            uint8_t out[12];
            memset(out, 0xee, sizeof out);
            IS(pmem_answer(bytes(words[i]), lens[i], bytes("stat\n"), 5, out, room, &whole) == PMEM_BAD_WORDS && whole == 11);
            size_t put = room < whole ? room : whole;
            IS(memcmp(out, "stop words\n", put) == 0 && (put == sizeof out || out[put] == 0xee));
        }
}

/* Blocks that overlap: the call does nothing, and nothing of it is written. Blocks side by side are fine. */
static void overlapping(void) {
    union {
        uint8_t bytes[64];
        size_t numbers[8];
    } it;
    pmem handle = PMEM_CLOSED, copy = PMEM_CLOSED;
    size_t whole = 77;
    IS(pmem_open_text(&handle, "run --suite weak") == PMEM_OK);
    for (size_t from = 0; from <= 40; from++) {
        bool is_apart = from + 8 <= 16 || from >= 16 + 8;
        memset(&it, 0xee, sizeof it);
        memcpy(it.bytes + 16, "read 0 3", 8);
        IS(pmem_tell(&handle, it.bytes + 16, 8, it.bytes + from, 8, &whole) == (is_apart ? PMEM_OK : PMEM_OVERLAP));
        IS(whole == (is_apart ? 136 : 77) && memcmp(it.bytes + 16, "read 0 3", 8) == 0);
        IS(it.bytes[from] == (is_apart ? 'l' : from < 16 ? 0xee : "read 0 3"[from - 16]));
        whole = 77;
        IS(pmem_answer(bytes("check"), 5, it.bytes + 16, 8, it.bytes + from, 8, &whole) == (is_apart ? PMEM_BAD_LINE : PMEM_OVERLAP));
        IS(whole == (is_apart ? 14 : 77));
        whole = 77;
        memcpy(it.bytes + 16, "run\0run\0", 8);
        IS(pmem_answer(it.bytes + 16, 8, NULL, 0, it.bytes + from, 8, &whole) == (is_apart ? PMEM_BAD_WORDS : PMEM_OVERLAP));
        whole = 77;
    }
    it.numbers[2] = 7;
    IS(pmem_tell(&handle, bytes("stat"), 4, it.bytes, 17, &it.numbers[2]) == PMEM_OVERLAP && it.numbers[2] == 7);
    IS(pmem_tell(&handle, it.bytes + 20, 4, NULL, 0, &it.numbers[2]) == PMEM_OVERLAP && it.numbers[2] == 7);
    IS(pmem_answer(bytes("run"), 3, bytes("stat"), 4, it.bytes, 17, &it.numbers[2]) == PMEM_OVERLAP && it.numbers[2] == 7);
    IS(pmem_answer(bytes("run"), 3, it.bytes, 17, NULL, 0, &it.numbers[2]) == PMEM_OVERLAP && it.numbers[2] == 7);
    IS(pmem_answer(it.bytes, 17, NULL, 0, NULL, 0, &it.numbers[2]) == PMEM_OVERLAP && it.numbers[2] == 7);
    IS(pmem_tell(&handle, bytes("stat"), 4, it.bytes, 16, &it.numbers[2]) == PMEM_OK && it.numbers[2] > 8);
    IS(pmem_tell(&handle, it.bytes, 0, it.bytes, 16, &whole) == PMEM_OK && pmem_copy(&handle, &copy) == PMEM_OK);
    IS(pmem_close(&copy) == PMEM_OK && pmem_close(&handle) == PMEM_OK);
}

int main(void) {
    closed();
    words();
    lines();
    buffers();
    two();
    copies();
    forgotten();
    null();
    logs();
    over();
    answers();
    not_text();
    overlapping();
    return failures != 0;
}
