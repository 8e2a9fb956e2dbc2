/* The library's C and the typed calls of pmem.h over a stand-in for the proved code, which answers anything: no call may read or write
 * outside its blocks, whatever a reply says, and none may lose memory. */
#include "stand_in.h"

enum { HANDLES = 3, STEPS = 60, MARKS = 40 };

/* Opens a handle with the fuzzer's bytes or with one of these texts. */
static void open_one(input *given, pmem *handle, const uint8_t *line, size_t len) {
    static const char *const words[] = {"run", "wear --every 1", "txn --levels 1", "tree --suite weak --log",
                                        "run --tag-key=aa --major=18446744073709551615", "",
                                        "run --persist 1 --shadow off --queue durable --combine on"};
    bool was_open = handle->is_open;
    uint8_t kind = next_byte(given), status;
    if (kind & 1) status = pmem_open(handle, len != 0 ? line : NULL, len);
    else status = (uint8_t)pmem_open_text(handle, words[kind / 2 % (sizeof words / sizeof *words)]);
    CHECK(!was_open || status == PMEM_IS_OPEN);
    CHECK(was_open || handle->is_open == (status == PMEM_OK));
}

static void tell_one(input *given, pmem *handle, const uint8_t *line, size_t len) {
    bool was_open = handle->is_open;
    size_t room = next_byte(given), whole = 99;
    uint8_t *out = filled_block(room, 0xA5);
    uint8_t status = pmem_tell(handle, len != 0 ? line : NULL, len, room != 0 ? out : NULL, room, &whole);
    CHECK(was_open || status == PMEM_NOT_OPEN);
    CHECK(status == PMEM_OK || status == PMEM_SHOWN || whole == 0);
    CHECK(is_filled(out, least(whole, room), room, 0xA5));
    free(out);
}

/* Reads the log and the marks of a reply in a separate block. */
static void read_marks(const uint8_t *reply, size_t len) {
    pmem_access accesses[4];
    pmem_work work;
    pmem_mark mark;
    size_t count, at = pmem_read_log(reply, len, accesses, 4, &count, &work);
    CHECK(at <= len && (at != 0 || count == 0));
    for (int i = 0; i < MARKS && at < len; i++) {
        size_t taken = pmem_read_mark(reply + at, len - at, &mark);
        CHECK(taken <= len - at);
        if (taken == 0) break;
        CHECK(reply[at + taken - 1] == '\n');
        at += taken;
    }
}

static void ask_one(pmem *handle, const uint8_t *line, size_t len) {
    pmem_access accesses[3];
    pmem_work work;
    pmem_result result = pmem_ask(handle, line, len);
    uint8_t *reply = block_of(NULL, result.reply_len);
    CHECK(result.log_len + result.marks_len <= result.reply_len);
    CHECK(result.status == PMEM_OK || result.status == PMEM_SHOWN || result.kind == PMEM_NONE);
    CHECK(pmem_reply(handle, 0, reply, result.reply_len) == result.reply_len);
    read_marks(reply, result.reply_len);
    pmem_accesses(handle, accesses, 3, &work);
    CHECK(pmem_accesses(handle, NULL, 0, NULL) == pmem_accesses(handle, accesses, 3, &work));
    free(reply);
}

static void typed_calls(input *given, pmem *handle) {
    uint8_t bytes[PMEM_LINE_BYTES] = {0}, at = next_byte(given);
    uint64_t place = (uint64_t)next_byte(given) << 56 | at;
    switch (next_byte(given) % 3) {
    case 0:
        pmem_post(handle, at, place, bytes);
        pmem_post(handle, at, place, NULL);
        pmem_part(handle, UINT32_MAX, UINT64_MAX, UINT32_MAX, bytes, at % (PMEM_LINE_BYTES + 1));
        pmem_part(handle, 0, place, 0, bytes, 0);
        pmem_flip(handle, UINT64_MAX, UINT32_MAX);
        pmem_poke(handle, place, bytes);
        break;
    case 1:
        pmem_read(handle, at, place);
        pmem_on(handle);
        pmem_off(handle);
        pmem_stats(handle);
        pmem_fence(handle, at);
        pmem_drain(handle, at);
        break;
    default:
        pmem_cut(handle, UINT64_MAX);
        pmem_turn(handle);
        pmem_flush(handle);
        pmem_loss(handle, place);
        pmem_move(handle, place, at);
        pmem_snap(handle);
        pmem_back(handle, place);
        pmem_peek(handle, at);
    }
}

static void close_one(pmem *handle) {
    uint8_t due = handle->is_open ? PMEM_OK : PMEM_NOT_OPEN;
    CHECK(pmem_close(handle) == due);
    CHECK(pmem_close(handle) == PMEM_NOT_OPEN);
}

static void one_step(input *given, pmem *handles) {
    uint8_t kind = next_byte(given);
    pmem *handle = &handles[next_below(given, HANDLES)], *other = &handles[next_below(given, HANDLES)];
    size_t len = next_byte(given) * (size_t)(kind & 128 ? 5 : 1);
    uint8_t *line = block_of(NULL, len);
    for (size_t i = 0; i < len; i++) line[i] = i & 15 ? (uint8_t)(kind + i) : next_byte(given);
    switch (kind % 12) {
    case 0: case 1: open_one(given, handle, line, len); break;
    case 2: case 3: case 4: tell_one(given, handle, line, len); break;
    case 5: case 6: case 7: ask_one(handle, line, len); break;
    case 8: typed_calls(given, handle); break;
    case 9:
        if (pmem_copy(handle, other) == PMEM_OK) CHECK(handle != other && other->is_open);
        break;
    case 10: pmem_forget(handle); break;
    default: close_one(handle);
    }
    free(line);
}

int LLVMFuzzerTestOneInput(const uint8_t *data, size_t size);
int LLVMFuzzerTestOneInput(const uint8_t *data, size_t size) {
    input given = {data, size};
    pmem handles[HANDLES] = {PMEM_CLOSED, PMEM_CLOSED, PMEM_CLOSED};
    stand_in_answers(&given);
    for (int step = 0; step < STEPS && given.left != 0; step++) one_step(&given, handles);
    for (int i = 0; i < HANDLES; i++) pmem_close(&handles[i]);
    CHECK(stand_in_open() == 0);
    return 0;
}
