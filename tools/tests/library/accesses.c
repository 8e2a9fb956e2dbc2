/* The log of a session that is opened with `--log`, as pmem_accesses reads it. `accesses WORD ..` reads a trace from standard input. For each
 * command it prints the accesses, the work, and the lengths of log, marks and answer, each read once whole and once with too little room. */
#include "pmem.h"
#include <stdio.h>
#include <stdlib.h>

static void fail(const char *what) {
    fprintf(stderr, "accesses: %s\n", what);
    exit(1);
}

int main(int argc, char **argv) {
    static const char *const kinds[] = {"look", "line", "latch"};
    static pmem_access all[100000], few[3];
    pmem memory = PMEM_CLOSED;
    char words[1024] = "", line[1100];
    for (int i = 1; i < argc; i++) {
        strcat(words, argv[i]);
        if (i + 1 < argc) strcat(words, " ");
    }
    if (pmem_open_text(&memory, words) != PMEM_OK) fail("the session is not opened");
    while (fgets(line, sizeof line, stdin) != NULL) {
        pmem_work work = {9, 9}, again = {9, 9};
        line[strcspn(line, "\n")] = 0;
        pmem_result result = pmem_ask_text(&memory, line);
        if (result.status != PMEM_OK && result.status != PMEM_SHOWN) fail(line);
        size_t count = pmem_accesses(&memory, all, sizeof all / sizeof all[0], &work);
        if (pmem_accesses(&memory, few, 3, &again) != count || again.tags != work.tags || again.digests != work.digests) fail("little room");
        if (pmem_accesses(&memory, NULL, 0, NULL) != count) fail("no room");
        for (size_t i = 0; i < count; i++) {
            printf("%s %llu\n", kinds[all[i].kind], (unsigned long long)all[i].line);
            if (i < 3 && (few[i].kind != all[i].kind || few[i].line != all[i].line)) fail("the first ones");
        }
        printf("work %llu %llu\n", (unsigned long long)work.tags, (unsigned long long)work.digests);
        printf("lengths %zu %zu %zu\n", result.log_len, result.marks_len, result.reply_len - result.log_len - result.marks_len);
    }
    return pmem_close(&memory) == PMEM_OK ? 0 : 1;
}
