/* A key-value store in the memory, and power cut at each step of an update.
 *
 * A record is one data line: a sequence number, a key and a value. Each key has two lines, written in turn, so that the older value is there
 * until the newer one is. An update is one write of one line, and the controller promises that such a write is kept whole or lost whole, at
 * whichever persist step power fails. So after recovery a key has its old value or its new one, and nothing else.
 *
 * For each number of steps the example makes a new memory, fills the store, sets the fuse, updates a key, comes back by recovery, and looks. */
#include "pmem.h"
#include <stdio.h>
#include <stdlib.h>
#include <string.h>

enum { KEYS = 8, PORT = 0, VALUE_BYTES = 48 };

typedef struct record {
    uint64_t sequence; /* 0: never written */
    uint64_t key;
    char value[VALUE_BYTES];
} record;

static int fail(const char *what, pmem_result result) {
    fprintf(stderr, "store: %s: status %d, kind %d\n", what, (int)result.status, (int)result.kind);
    return 1;
}

/* Reads one of a key's two lines. */
static bool read_record(pmem *memory, uint64_t key, unsigned which, record *found) {
    pmem_result result = pmem_read(memory, PORT, 2 * key + which);
    if (result.kind != PMEM_LINE) return fail("read", result), false;
    memcpy(found, result.line, sizeof *found);
    return found->sequence == 0 || found->key == key;
}

/* The newer of a key's two records, and which line the next one goes to. */
static bool look_up(pmem *memory, uint64_t key, record *newest, unsigned *next) {
    record both[2];
    if (!read_record(memory, key, 0, &both[0]) || !read_record(memory, key, 1, &both[1])) return false;
    unsigned newer = both[1].sequence > both[0].sequence;
    *newest = both[newer];
    *next = both[newer].sequence == 0 ? 0 : 1 - newer;
    return true;
}

/* Gives a key a value. Where `fuse` isn't NULL, power is cut after so many steps of the write. The answer is that of the drain. */
static pmem_result update(pmem *memory, uint64_t key, const char *value, const uint64_t *fuse) {
    record newest, fresh;
    unsigned next = 0;
    uint8_t line[PMEM_LINE_BYTES];
    memset(&fresh, 0, sizeof fresh);
    if (!look_up(memory, key, &newest, &next)) exit(1);
    fresh.sequence = newest.sequence + 1;
    fresh.key = key;
    strncpy(fresh.value, value, VALUE_BYTES - 1);
    memcpy(line, &fresh, sizeof fresh);
    pmem_post(memory, PORT, 2 * key + next, line);
    if (fuse != NULL) pmem_cut(memory, *fuse);
    return pmem_drain(memory, PORT);
}

/* A new memory with a value for each key. */
static bool open_store(pmem *memory) {
    if (pmem_open_text(memory, "run") != PMEM_OK) return false;
    for (uint64_t key = 0; key < KEYS; key++) {
        pmem_result result = update(memory, key, "old", NULL);
        if (result.kind != PMEM_DONE) return fail("update", result), false;
    }
    return true;
}

/* All keys have the old value, but for one that has this. */
static bool all_hold(pmem *memory, uint64_t updated, const char *value) {
    for (uint64_t key = 0; key < KEYS; key++) {
        record newest;
        unsigned next;
        if (!look_up(memory, key, &newest, &next)) return false;
        if (strcmp(newest.value, key == updated ? value : "old") != 0) return false;
    }
    return true;
}

/* Cuts power after so many steps of an update. Tells whether it came to the cut, and counts what was lost and kept. */
static bool cut_after(uint64_t steps, bool *was_cut, unsigned *lost, unsigned *kept) {
    pmem memory = PMEM_CLOSED;
    bool good = open_store(&memory);
    if (good) {
        pmem_result result = update(&memory, 3, "new", &steps);
        *was_cut = result.kind == PMEM_CUT_LOST || result.kind == PMEM_CUT_KEPT;
        if (*was_cut) {
            bool is_kept = result.kind == PMEM_CUT_KEPT;
            pmem_result on = pmem_on(&memory);
            *(is_kept ? kept : lost) += 1;
            good = on.kind == PMEM_RECOVERED && all_hold(&memory, 3, is_kept ? "new" : "old");
            printf("a cut after %2llu steps: %s, recovered in %llu steps, %s\n", (unsigned long long)steps, is_kept ? "new" : "old",
                   (unsigned long long)on.steps, good ? "all keys as they should be" : "WRONG");
        } else {
            good = result.kind == PMEM_DONE && all_hold(&memory, 3, "new");
        }
    }
    pmem_close(&memory);
    return good;
}

int main(void) {
    unsigned lost = 0, kept = 0;
    bool was_cut = true;
    uint64_t steps = 0;
    for (; was_cut; steps++)
        if (!cut_after(steps, &was_cut, &lost, &kept)) return 1;
    printf("an update takes %llu steps; of the cuts within, %u lost it and %u kept it\n", (unsigned long long)steps - 1, lost, kept);
    return lost + kept == steps - 1 && lost > 0 && kept > 0 ? 0 : 1;
}
