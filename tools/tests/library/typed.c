/* Each typed call, and each kind of answer that `run` has: the fields against what the commands' own rules say, and the text of each reply. */
#include "pmem.h"
#include <stdio.h>

static int failures;

#define IS(what)                                                        \
    do {                                                                \
        if (!(what)) {                                                  \
            failures++;                                                 \
            printf("line %d: %s\n", __LINE__, #what);                   \
        }                                                               \
    } while (0)

static bool says(pmem *handle, const char *text) {
    uint8_t said[4096];
    size_t len = strlen(text);
    return pmem_reply(handle, 0, said, sizeof said) == len && memcmp(said, text, len) == 0;
}

static void fill(uint8_t line[PMEM_LINE_BYTES], uint8_t byte) { memset(line, byte, PMEM_LINE_BYTES); }

static bool is_filled(const uint8_t line[PMEM_LINE_BYTES], uint8_t byte) {
    for (size_t i = 0; i < PMEM_LINE_BYTES; i++)
        if (line[i] != byte) return false;
    return true;
}

/* A write that is cut before and after it is armed, with recovery. The numbers are those of docs/MACHINE.md. */
static void cuts(void) {
    pmem memory = PMEM_CLOSED;
    uint8_t ones[PMEM_LINE_BYTES];
    pmem_result result;
    pmem_mark mark;
    uint8_t text[512];
    fill(ones, 0x11);
    IS(pmem_open_text(&memory, "run") == PMEM_OK);
    result = pmem_post(&memory, 0, 0, ones);
    IS(result.status == PMEM_OK && result.kind == PMEM_DONE && result.steps == 0 && says(&memory, "ok\n"));
    IS(pmem_cut(&memory, 3).kind == PMEM_DONE);
    result = pmem_drain(&memory, 0);
    IS(result.kind == PMEM_CUT_LOST && result.steps == 3 && result.marks_len == 0 && says(&memory, "cut lost 3\n"));
    IS(pmem_read(&memory, 0, 0).kind == PMEM_OFF);
    result = pmem_on(&memory);
    IS(result.kind == PMEM_RECOVERED && result.trials == 256 && result.digests == 9 && result.steps == 2);
    IS(pmem_on(&memory).kind == PMEM_ALREADY);
    result = pmem_read(&memory, 0, 0);
    IS(result.kind == PMEM_LINE && is_filled(result.line, 0));
    IS(pmem_post(&memory, 0, 0, ones).kind == PMEM_DONE && pmem_cut(&memory, 4).kind == PMEM_DONE);
    result = pmem_drain(&memory, 0);
    IS(result.kind == PMEM_CUT_KEPT && result.steps == 4 && result.marks_len > 0 && result.reply_len == result.marks_len + 11);
    IS(pmem_reply(&memory, 0, text, sizeof text) == result.reply_len);
    IS(pmem_read_mark(text, result.marks_len, &mark) == result.marks_len);
    IS(!mark.is_begin && mark.at == 0 && mark.major == 0 && mark.minor == 1);
    IS(pmem_on(&memory).kind == PMEM_RECOVERED);
    result = pmem_read(&memory, 0, 0);
    IS(result.kind == PMEM_LINE && is_filled(result.line, 0x11));
    IS(pmem_close(&memory) == PMEM_OK);
}

/* Queues, places, counts, and power. */
static void machine(void) {
    pmem memory = PMEM_CLOSED;
    uint8_t twos[PMEM_LINE_BYTES], bytes[3] = {0xaa, 0xbb, 0xcc};
    pmem_result result;
    fill(twos, 0x22);
    IS(pmem_open_text(&memory, "run --suite weak") == PMEM_OK);
    IS(pmem_drain(&memory, 7).kind == PMEM_EMPTY && pmem_turn(&memory).kind == PMEM_IDLE && pmem_flush(&memory).kind == PMEM_CLEAN);
    IS(pmem_read(&memory, 0, 1024).kind == PMEM_RANGE && pmem_post(&memory, 0, UINT64_MAX, twos).kind == PMEM_RANGE);
    IS(pmem_drain(&memory, 8).status == PMEM_LINE_PORT && pmem_drain(&memory, 8).kind == PMEM_NONE);
    for (int i = 0; i < 16; i++) IS(pmem_post(&memory, 1, (uint64_t)i, twos).kind == PMEM_DONE);
    IS(pmem_post(&memory, 1, 16, twos).kind == PMEM_FULL);
    result = pmem_fence(&memory, 1);
    IS(result.kind == PMEM_DONE && result.count == 16 && result.steps > 0);
    IS(pmem_part(&memory, 2, 3, 61, bytes, 3).kind == PMEM_DONE && pmem_part(&memory, 2, 3, 62, bytes, 3).kind == PMEM_RANGE);
    IS(pmem_part(&memory, 2, 3, 0, bytes, 0).status == PMEM_LINE_COUNT);
    result = pmem_read(&memory, 2, 3);
    IS(result.kind == PMEM_LINE && result.line[60] == 0x22 && memcmp(result.line + 61, bytes, 3) == 0);
    result = pmem_read(&memory, 0, 3);
    IS(result.kind == PMEM_LINE && is_filled(result.line, 0x22));
    IS(pmem_drain(&memory, 2).kind == PMEM_DONE);
    result = pmem_flush(&memory);
    IS(result.kind == PMEM_DONE && result.steps > 0);
    result = pmem_stats(&memory);
    IS(result.kind == PMEM_COUNTS && result.stat.writes > 0 && result.stat.latches >= 2 * 17 && result.stat.tags >= 17 && result.stat.digests > 0);
    IS(pmem_loss(&memory, 8).kind == PMEM_DONE && pmem_loss(&memory, 3).kind == PMEM_RANGE);
    IS(pmem_off(&memory).kind == PMEM_DONE && pmem_off(&memory).kind == PMEM_OFF && pmem_stats(&memory).kind == PMEM_COUNTS);
    IS(pmem_close(&memory) == PMEM_OK);
}

/* Page re-encryption: marks of both kinds, and turns. */
static void turns(void) {
    pmem memory = PMEM_CLOSED;
    uint8_t line[PMEM_LINE_BYTES], text[1024];
    pmem_result result;
    pmem_mark mark;
    memset(&result, 0, sizeof result);
    fill(line, 0x33);
    IS(pmem_open_text(&memory, "run --suite weak --levels 1 --major 5") == PMEM_OK);
    for (int i = 0; i < 128; i++) {
        IS(pmem_post(&memory, 0, 64, line).kind == PMEM_DONE);
        result = pmem_drain(&memory, 0);
        IS(result.kind == PMEM_DONE);
    }
    IS(pmem_reply(&memory, 0, text, sizeof text) == result.reply_len);
    size_t begin = pmem_read_mark(text, result.marks_len, &mark);
    IS(begin > 0 && mark.is_begin && mark.at == 1);
    IS(pmem_read_mark(text + begin, result.marks_len - begin, &mark) == result.marks_len - begin);
    IS(!mark.is_begin && mark.at == 64 && mark.major == 6 && mark.minor == 1);
    result = pmem_turn(&memory);
    IS(result.kind == PMEM_DONE && result.count == 62 && result.steps > 0);
    IS(pmem_close(&memory) == PMEM_OK);
}

/* What the attacker does, what is refused, and what is shown. */
static void attacks(void) {
    pmem memory = PMEM_CLOSED;
    uint8_t line[PMEM_LINE_BYTES];
    pmem_result result;
    fill(line, 0x44);
    IS(pmem_open_text(&memory, "run") == PMEM_OK);
    IS(pmem_back(&memory, 0).kind == PMEM_NO_SNAPSHOT && pmem_snap(&memory).kind == PMEM_DONE && pmem_back(&memory, 0).kind == PMEM_DONE);
    IS(pmem_poke(&memory, 5, line).kind == PMEM_DONE);
    result = pmem_peek(&memory, 5);
    IS(result.kind == PMEM_RAW && is_filled(result.line, 0x44));
    result = pmem_read(&memory, 0, 5);
    IS(result.kind == PMEM_REFUSED_DATA && result.place == 5);
    IS(pmem_move(&memory, 6, 7).kind == PMEM_DONE && pmem_read(&memory, 0, 7).kind == PMEM_REFUSED_DATA);
    IS(pmem_flip(&memory, 8, 511).kind == PMEM_DONE && pmem_flip(&memory, 8, 512).kind == PMEM_RANGE);
    IS(pmem_back(&memory, 8).kind == PMEM_DONE && pmem_read(&memory, 0, 8).kind == PMEM_LINE);
    IS(pmem_close(&memory) == PMEM_OK);

    IS(pmem_open_text(&memory, "run --suite weak") == PMEM_OK);
    IS(pmem_flip(&memory, 5, 0).kind == PMEM_DONE && pmem_flip(&memory, 5, 8).kind == PMEM_DONE);
    result = pmem_read(&memory, 0, 5);
    IS(result.status == PMEM_SHOWN && result.kind == PMEM_EXHIBIT && result.reply_len > 0);
    IS(pmem_read(&memory, 0, 5).status == PMEM_OVER && pmem_stats(&memory).kind == PMEM_NONE);
    IS(pmem_close(&memory) == PMEM_OK);
}

/* What recovery refuses: a line whose counter can't be found, an old shadow table, and with power on a counter block. */
static void recoveries(void) {
    pmem memory = PMEM_CLOSED;
    uint8_t zeros[PMEM_LINE_BYTES] = {0}, line[PMEM_LINE_BYTES];
    pmem_result result;
    fill(line, 0x55);
    IS(pmem_open_text(&memory, "run") == PMEM_OK && pmem_post(&memory, 0, 0, line).kind == PMEM_DONE);
    IS(pmem_drain(&memory, 0).kind == PMEM_DONE && pmem_off(&memory).kind == PMEM_DONE && pmem_snap(&memory).kind == PMEM_DONE);
    IS(pmem_poke(&memory, 1301, zeros).kind == PMEM_DONE && pmem_poke(&memory, 1302, zeros).kind == PMEM_DONE);
    result = pmem_on(&memory);
    IS(result.kind == PMEM_REFUSED_ROOT && memcmp(result.kept, result.found, 16) != 0);
    IS(pmem_back(&memory, 1301).kind == PMEM_DONE && pmem_back(&memory, 1302).kind == PMEM_DONE);
    IS(pmem_on(&memory).kind == PMEM_RECOVERED && pmem_flip(&memory, 1280, 0).kind == PMEM_DONE);
    result = pmem_read(&memory, 0, 64);
    IS(result.kind == PMEM_REFUSED_META && result.place == 0);
    IS(pmem_close(&memory) == PMEM_OK);

    IS(pmem_open_text(&memory, "run") == PMEM_OK && pmem_post(&memory, 0, 3, line).kind == PMEM_DONE && pmem_fence(&memory, 0).count == 1);
    IS(pmem_flip(&memory, 3, 0).kind == PMEM_DONE && pmem_off(&memory).kind == PMEM_DONE);
    result = pmem_on(&memory);
    IS(result.kind == PMEM_REFUSED_COUNTER && result.place == 3);
    IS(pmem_close(&memory) == PMEM_OK);
}

/* The other sessions answer texts of their own. */
static void sessions(void) {
    pmem memory = PMEM_CLOSED;
    IS(pmem_open_text(&memory, "wear --every 1") == PMEM_OK && pmem_ask_text(&memory, "place 0").reply_len > 0);
    IS(pmem_close(&memory) == PMEM_OK && pmem_open_text(&memory, "txn") == PMEM_OK && pmem_ask_text(&memory, "begin").status == PMEM_OK);
    IS(pmem_close(&memory) == PMEM_OK && pmem_open_text(&memory, "tree --suite blur") == PMEM_OK);
    IS(pmem_ask_text(&memory, "read 0").kind == PMEM_LINE && pmem_close(&memory) == PMEM_OK);
}

int main(void) {
    cuts();
    machine();
    turns();
    attacks();
    recoveries();
    sessions();
    return failures != 0;
}
