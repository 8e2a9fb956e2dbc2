/* The accesses of the device, for a simulator of memory timing: the trace on standard input is run with `--log`, and each device line that is
 * read or written is written to standard output as the trace of Ramulator's DRAM mode has it: the address, and R or W.
 *
 *     accesses < examples/power_cut.trace > accesses.txt
 *
 * Latches, which change the registers on the chip, and the tags and digests that the controller computes are counted: they take time too. */
#include "pmem.h"
#include <inttypes.h>
#include <stdio.h>
#include <stdlib.h>

enum { MOST = 4096 };

typedef struct totals {
    uint64_t reads, writes, latches, tags, digests;
} totals;

typedef struct text {
    uint8_t *at;
    size_t len;
} text;

static void *must(void *block) {
    if (block != NULL) return block;
    fprintf(stderr, "accesses: out of memory\n");
    exit(1);
}

static text read_all(FILE *file) {
    text all = {NULL, 0};
    for (size_t count = 1; count != 0; all.len += count) {
        all.at = (uint8_t *)must(realloc(all.at, all.len + 4096));
        count = fread(all.at + all.len, 1, 4096, file);
    }
    return all;
}

/* Everything that the program prints for a trace: once to learn the length, and once for the text. */
static text answered(text trace) {
    static const uint8_t words[] = "run\0--log";
    text all = {NULL, 0};
    pmem_answer(words, sizeof words - 1, trace.at, trace.len, NULL, 0, &all.len);
    all.at = (uint8_t *)must(malloc(all.len + 1));
    pmem_answer(words, sizeof words - 1, trace.at, trace.len, all.at, all.len, &all.len);
    return all;
}

static void write_accesses(const pmem_access *accesses, size_t count, totals *all) {
    for (size_t i = 0; i < count; i++) {
        bool is_write = accesses[i].kind == PMEM_ACCESS_WRITE;
        if (accesses[i].kind == PMEM_ACCESS_LATCH) {
            all->latches++;
            continue;
        }
        *(is_write ? &all->writes : &all->reads) += 1;
        printf("0x%" PRIx64 " %c\n", PMEM_LINE_BYTES * accesses[i].line, is_write ? 'W' : 'R');
    }
}

int main(void) {
    text trace = read_all(stdin), output = answered(trace);
    totals all = {0, 0, 0, 0, 0};
    pmem_access *accesses = (pmem_access *)must(malloc(MOST * sizeof *accesses));
    size_t room = MOST, count = 0;
    for (size_t at = 0; at < output.len;) {
        pmem_work work;
        size_t log = pmem_read_log(output.at + at, output.len - at, accesses, room, &count, &work);
        if (count > room) {
            room = count;
            accesses = (pmem_access *)must(realloc(accesses, room * sizeof *accesses));
            continue;
        }
        write_accesses(accesses, count, &all);
        all.tags += work.tags;
        all.digests += work.digests;
        /* A log, or a line that is a mark, an answer or the last line of a run that stopped. */
        const uint8_t *lf = (const uint8_t *)memchr(output.at + at, '\n', output.len - at);
        at = log != 0 ? at + log : lf == NULL ? output.len : (size_t)(lf - output.at) + 1;
    }
    fprintf(stderr, "%" PRIu64 " reads, %" PRIu64 " writes, %" PRIu64 " latches, %" PRIu64 " tags, %" PRIu64 " digests\n", all.reads, all.writes,
            all.latches, all.tags, all.digests);
    free(accesses);
    free(trace.at);
    free(output.at);
    return 0;
}
