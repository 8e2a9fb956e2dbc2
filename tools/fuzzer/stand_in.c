/* The exports of crates/pmem_c as library/session.h names them, with answers that are the fuzzer's: words of the grammar and anything
 * else. It reads all bytes that it is given, so that a wrong length shows. */
#include "stand_in.h"
#include "session.h"

typedef struct stand_in {
    uint8_t *reply;
    size_t len;
    bool is_over;
} stand_in;

enum { LONGEST_REPLY = 8000, MOST_PARTS = 40 };

static input *answers;
static int open_sessions;
static volatile uint8_t seen;

void stand_in_answers(input *given) { answers = given; }

int stand_in_open(void) { return open_sessions; }

static void look_at(const uint8_t *bytes, size_t len) {
    for (size_t i = 0; i < len; i++) seen ^= bytes[i];
}

uint8_t pmem_proved_answer(const uint8_t *words, size_t words_len, const uint8_t *trace, size_t trace_len, uint8_t *out, size_t room,
                           size_t *whole) {
    look_at(words, words_len);
    look_at(trace, trace_len);
    if (room != 0) memset(out, 'x', room);
    *whole = room + next_byte(answers);
    return next_byte(answers) % 9;
}

uint8_t pmem_session_open(proved *handle, const uint8_t *words, size_t words_len) {
    uint8_t kind = next_byte(answers);
    CHECK(!handle->is_open);
    look_at(words, words_len);
    if (kind % 16 == 1) return PMEM_NO_MEMORY;
    if (kind % 16 == 2) return PMEM_BAD_WORDS;
    handle->at = calloc(1, sizeof(stand_in));
    CHECK(handle->at != NULL);
    handle->is_open = true;
    open_sessions++;
    return PMEM_OK;
}

/* Appends a word of the grammar, or digits. Answers the new length. */
static size_t append_part(char *text, size_t len) {
    static const char *const words[] = {
        "ok", "line", "raw", "on", "stat", "cut", "kept", "lost", "refused", "data", "meta", "counter", "root", "spent", "full", "clash",
        "seal 5 0.2", "seal 7 18446744073709551615.127", "begin 3", "18446744073709551616999999", "0", "7", ".", "-", "\n", "a5",
        "aabbccddeeff00112233445566778899", "", "look 5", "line 7", "latch 3", "work 4 5", "seal", "seal 5", "seal 5 ", "begin"};
    uint8_t kind = next_byte(answers);
    if (kind >= 200) {
        for (size_t i = 0, count = next_byte(answers); i < count; i++) text[len++] = "0123456789abcdef"[(kind + i) & 15];
        return len;
    }
    const char *word = words[kind % (sizeof words / sizeof *words)];
    memcpy(text + len, word, strlen(word));
    len += strlen(word);
    text[len++] = kind & 64 ? '\n' : ' ';
    return len;
}

static void keep_reply(stand_in *its) {
    char text[LONGEST_REPLY];
    size_t len = 0;
    for (size_t parts = next_below(answers, MOST_PARTS); parts != 0 && len < LONGEST_REPLY - 300; parts--) len = append_part(text, len);
    text[len++] = '\n';
    its->reply = block_of(text, len);
    its->len = len;
}

uint8_t pmem_session_tell(proved *handle, const uint8_t *line, size_t line_len, uint8_t *out, size_t room, size_t *whole) {
    stand_in *its = (stand_in *)handle->at;
    uint8_t kind;
    *whole = 0;
    if (!handle->is_open) return PMEM_NOT_OPEN;
    look_at(line, line_len);
    free(its->reply);
    its->reply = NULL;
    its->len = 0;
    if (its->is_over) return PMEM_OVER;
    if (line_len == 0 || line[0] == '#') return PMEM_OK;
    kind = next_byte(answers);
    if (kind < 8) return PMEM_NO_MEMORY;
    if (kind < 32) return (uint8_t)(PMEM_LINE_WORD + kind % 6);
    if (kind < 36) return PMEM_REPLY_LOST;
    keep_reply(its);
    if (room != 0) memcpy(out, its->reply, least(its->len, room));
    *whole = its->len;
    its->is_over = kind > 250;
    return its->is_over ? PMEM_SHOWN : PMEM_OK;
}

size_t pmem_session_reply(proved *handle, size_t from, uint8_t *out, size_t room) {
    const stand_in *its = (const stand_in *)handle->at;
    if (!handle->is_open) return 0;
    if (from < its->len && room != 0) memcpy(out, its->reply + from, least(its->len - from, room));
    return its->len;
}

uint8_t pmem_session_close(proved *handle) {
    stand_in *its = (stand_in *)handle->at;
    if (!handle->is_open) return PMEM_NOT_OPEN;
    free(its->reply);
    free(its);
    handle->is_open = false;
    handle->at = NULL;
    open_sessions--;
    return PMEM_OK;
}
