/* pmem_answer on any arguments and any trace. It is asked three times, with no room, with exactly the room or one byte less, and with more:
 * each time it must answer the same, put printable lines only, and leave the bytes behind them alone. */
#include "input.h"

enum { ROOM_BEHIND = 40, FILL = 0xA5, OF_TABLE = 200 };

/* Arguments that most runs take, so that their traces are read. */
static const struct {
    const char *words;
    size_t len;
} table[] = {
    {"run\0--suite\0weak\0--levels=1", 27},
    {"wear\0--suite\0weak\0--levels=1\0--every=1", 38},
    {"txn\0--suite\0weak\0--levels=1", 27},
    {"tree\0--suite\0weak\0--levels=1", 28},
    {"run\0--suite\0blur\0--levels=1\0--log", 33},
    {"check\0--suite\0weak", 18},
    {"check", 5},
    {"run\0--suite=weak\0--levels=1\0--sets=1\0--ways=1\0--loss=1\0--major=18446744073709551615", 83},
    {"run\0--suite=weak\0--levels=1\0--persist=2\0--shadow=off\0--queue=durable\0--combine=on", 81},
    {"wear\0--suite=weak\0--levels=1\0--every=1\0--shadow=off", 51},
    {"txn\0--suite=weak\0--levels=1\0--persist=1", 39},
};

/* `make` and `sample` may print a million lines, and read no trace. */
static bool has_long_output(const uint8_t *words, size_t len) {
    for (size_t i = 0; i + 4 <= len; i++)
        if (memcmp(words + i, "make", 4) == 0 || memcmp(words + i, "samp", 4) == 0) return true;
    return false;
}

/* Asks for the output with this much room. */
static void check_again(const uint8_t *words, size_t words_len, const uint8_t *trace, size_t trace_len, size_t room, uint8_t status,
                        size_t whole) {
    size_t again = whole + 1, put = least(room, whole);
    uint8_t *out = filled_block(room, FILL);
    CHECK(pmem_answer(words, words_len, trace, trace_len, room != 0 ? out : NULL, room, &again) == status);
    CHECK(again == whole);
    CHECK(is_filled(out, put, room, FILL));
    for (size_t i = 0; i < put; i++) CHECK(out[i] == '\n' || (out[i] >= ' ' && out[i] <= '~'));
    if (put == whole && whole != 0) CHECK(out[whole - 1] == '\n');
    if (status == PMEM_BAD_WORDS) CHECK(whole == 11 && memcmp(out, "stop words\n", put) == 0);
    free(out);
}

/* Runs the program; `is_short` takes one byte of the room away. */
static void check_answer(const uint8_t *words, size_t words_len, const uint8_t *trace, size_t trace_len, bool is_short) {
    size_t whole = 0;
    uint8_t status = pmem_answer(words, words_len, trace, trace_len, NULL, 0, &whole);
    CHECK(status <= PMEM_HOLDS_NOT && status != 3 && status != PMEM_REPLY_LOST);
    check_again(words, words_len, trace, trace_len, whole != 0 && is_short ? whole - 1 : whole, status, whole);
    check_again(words, words_len, trace, trace_len, whole + ROOM_BEHIND, status, whole);
}

int LLVMFuzzerTestOneInput(const uint8_t *data, size_t size);
int LLVMFuzzerTestOneInput(const uint8_t *data, size_t size) {
    const uint8_t *given_words, *given_trace;
    size_t words_len;
    if (size < 2) return 0;
    if (data[0] < OF_TABLE) {
        size_t row = data[0] % (sizeof table / sizeof *table);
        given_words = (const uint8_t *)table[row].words;
        words_len = table[row].len;
        given_trace = data + 1;
    } else {
        given_words = data + 2;
        words_len = least(data[1], size - 2);
        given_trace = given_words + words_len;
        if (has_long_output(given_words, words_len)) return 0;
    }
    size_t trace_len = (size_t)(data + size - given_trace);
    uint8_t *words = block_of(given_words, words_len), *trace = block_of(given_trace, trace_len);
    check_answer(words, words_len, trace, trace_len, data[0] & 8);
    free(words);
    free(trace);
    return 0;
}
