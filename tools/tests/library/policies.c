/* Memories with a persistence policy, with durable queues and with combining, by their arguments. The numbers are those of docs/DESIGNS.md and
 * docs/MACHINE.md. */
#include "pmem.h"
#include <stdio.h>

static int failures;

#define IS(what)                                                        \
    do {                                                                \
        if (!(what)) {                                                  \
            failures++;                                                 \
            printf("line %d: %s\n", __LINE__, #what);                   \
        }                                                               \
    } while (0)

static const uint8_t ones[PMEM_LINE_BYTES] = {0x11}, twos[PMEM_LINE_BYTES] = {0x22};

/* A first write, and a recovery after it. */
static void policy(const char *words, uint64_t steps, uint64_t trials, uint64_t digests, uint64_t mended) {
    pmem memory = PMEM_CLOSED;
    pmem_result result;
    IS(pmem_open_text(&memory, words) == PMEM_OK);
    IS(pmem_post(&memory, 0, 0, ones).kind == PMEM_DONE);
    result = pmem_drain(&memory, 0);
    IS(result.kind == PMEM_DONE && result.steps == steps);
    IS(pmem_off(&memory).kind == PMEM_DONE);
    result = pmem_on(&memory);
    IS(result.kind == PMEM_RECOVERED && result.trials == trials && result.digests == digests && result.steps == mended);
    result = pmem_read(&memory, 0, 0);
    IS(result.kind == PMEM_LINE && memcmp(result.line, ones, sizeof ones) == 0);
    IS(pmem_close(&memory) == PMEM_OK);
}

/* Two writes of a line become one, which outlives power. */
static void queues(void) {
    pmem memory = PMEM_CLOSED;
    pmem_result result;
    IS(pmem_open_text(&memory, "run --queue durable --combine on") == PMEM_OK);
    IS(pmem_post(&memory, 0, 0, ones).kind == PMEM_DONE && pmem_post(&memory, 0, 0, twos).kind == PMEM_DONE);
    IS(pmem_off(&memory).kind == PMEM_DONE && pmem_on(&memory).kind == PMEM_RECOVERED);
    result = pmem_read(&memory, 0, 0);
    IS(result.kind == PMEM_LINE && memcmp(result.line, twos, sizeof twos) == 0);
    IS(pmem_drain(&memory, 0).kind == PMEM_DONE);
    IS(pmem_drain(&memory, 0).kind == PMEM_EMPTY);
    IS(pmem_close(&memory) == PMEM_OK);
}

/* What a memory doesn't take. */
static void refused(void) {
    static const char *const words[] = {"run --persist 4", "run --shadow yes", "wear --queue durable", "txn --combine on", "tree --persist 1",
                                        "run --levels 1 --persist 3", "run --queue", "run --persist 1 --persist 1"};
    for (size_t i = 0; i < sizeof words / sizeof *words; i++) {
        pmem memory = PMEM_CLOSED;
        IS(pmem_open_text(&memory, words[i]) == PMEM_BAD_WORDS);
        IS(!memory.is_open);
    }
}

int main(void) {
    policy("run", 7, 256, 9, 5);
    policy("run --shadow off", 4, 4096, 21, 3);
    policy("run --persist 1", 7, 0, 9, 3);
    policy("run --persist 2 --shadow off", 6, 0, 5, 1);
    policy("run --persist 3 --shadow off", 7, 0, 1, 0);
    queues();
    refused();
    return failures != 0;
}
