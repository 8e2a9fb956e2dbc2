/* A step back: power is cut at each persist step of each write, on a copy of the session as it stands before the write.
 *
 * There are two ways to a copy. pmem_copy makes a second session in this process. fork makes a second process, with all that this one has,
 * which a model of a whole machine may want. The example tries each cut in both: the copy cuts power, comes back by recovery, and looks
 * at all lines. The session itself knows nothing of that, and goes on. So n cuts in a run of m writes take n + m writes, and not n times m. */
#define _DEFAULT_SOURCE
#include "pmem.h"
#include <stdio.h>
#include <stdlib.h>
#include <sys/wait.h>
#include <unistd.h>

enum { PORT = 0, LINES = 16, WRITES = 8 };
enum { LOST, KEPT, UNCUT, WRONG };

/* All lines are as they should be, but that this one has another byte. */
static bool is_memory(pmem *memory, const uint8_t plain[LINES], uint64_t at, uint8_t byte) {
    for (uint64_t i = 0; i < LINES; i++) {
        pmem_result result = pmem_read(memory, PORT, i);
        uint8_t due = i == at ? byte : plain[i];
        if (result.kind != PMEM_LINE || result.line[0] != due || result.line[PMEM_LINE_BYTES - 1] != due) return false;
    }
    return true;
}

/* Drains the write that waits, with power cut after so many steps, and comes back. */
static int try_cut(pmem *memory, const uint8_t plain[LINES], uint64_t at, uint8_t byte, uint64_t steps) {
    pmem_cut(memory, steps);
    pmem_result result = pmem_drain(memory, PORT);
    if (result.kind == PMEM_DONE) return UNCUT;
    if (result.kind != PMEM_CUT_LOST && result.kind != PMEM_CUT_KEPT) return WRONG;
    bool is_kept = result.kind == PMEM_CUT_KEPT;
    if (pmem_on(memory).kind != PMEM_RECOVERED) return WRONG;
    return is_memory(memory, plain, at, is_kept ? byte : plain[at]) ? (is_kept ? KEPT : LOST) : WRONG;
}

/* The same in a copy of this process, which ends with what came of it. */
static int try_cut_in_child(pmem *memory, const uint8_t plain[LINES], uint64_t at, uint8_t byte, uint64_t steps) {
    int status = 0;
    pid_t child = fork();
    if (child == 0) _exit(try_cut(memory, plain, at, byte, steps));
    if (child < 0 || waitpid(child, &status, 0) != child || !WIFEXITED(status)) return WRONG;
    return WEXITSTATUS(status);
}

/* The same on a copy in this process. */
static int try_cut_on_copy(const pmem *memory, const uint8_t plain[LINES], uint64_t at, uint8_t byte, uint64_t steps) {
    pmem copy = PMEM_CLOSED;
    int came = WRONG;
    if (pmem_copy(memory, &copy) == PMEM_OK) came = try_cut(&copy, plain, at, byte, steps);
    pmem_close(&copy);
    return came;
}

int main(void) {
    pmem memory = PMEM_CLOSED;
    uint8_t plain[LINES] = {0};
    unsigned counts[4] = {0};
    uint64_t steps_of_all = 0;
    if (pmem_open_text(&memory, "run") != PMEM_OK) return 1;
    for (unsigned i = 0; i < WRITES; i++) {
        uint64_t at = i * 5 % LINES;
        uint8_t byte = (uint8_t)(i + 1), line[PMEM_LINE_BYTES];
        memset(line, byte, sizeof line);
        if (pmem_post(&memory, PORT, at, line).kind != PMEM_DONE) return 1;
        uint64_t steps = 0;
        for (int came = LOST; came != UNCUT; steps++) {
            came = try_cut_on_copy(&memory, plain, at, byte, steps);
            if (try_cut_in_child(&memory, plain, at, byte, steps) != came) came = WRONG;
            counts[came]++;
            if (came == WRONG) {
                fprintf(stderr, "cuts: write %u, cut after %llu steps\n", i, (unsigned long long)steps);
                return 1;
            }
        }
        pmem_result result = pmem_drain(&memory, PORT);
        if (result.kind != PMEM_DONE || result.steps != steps - 1) return 1;
        steps_of_all += result.steps;
        plain[at] = byte;
    }
    if (!is_memory(&memory, plain, 0, plain[0])) return 1;
    pmem_close(&memory);
    printf("%u writes of %llu steps, each cut at each step: %u lost, %u kept, all lines as they should be\n", (unsigned)WRITES,
           (unsigned long long)steps_of_all, counts[LOST], counts[KEPT]);
    return counts[LOST] + counts[KEPT] == steps_of_all ? 0 : 1;
}
