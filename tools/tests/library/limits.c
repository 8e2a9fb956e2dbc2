/* Sessions opened and copied until memory runs out, under a limit of the process. Each refusal is PMEM_NO_MEMORY and changes nothing, the
 * sessions that are open go on, and memory that was given back can be allocated again. */
#define _DEFAULT_SOURCE
#include "pmem.h"
#include <stdio.h>
#include <stdlib.h>
#include <sys/resource.h>

enum { MOST = 20000 };

static pmem handles[MOST];

/* Opens the first session and copies it until that is refused. Gives how many there are. */
static size_t filled(void) {
    size_t count = 0;
    pmem_status status = pmem_open_text(&handles[0], "run --levels 4 --suite weak");
    while (status == PMEM_OK && ++count < MOST) status = (pmem_status)pmem_copy(&handles[0], &handles[count]);
    if (count == MOST || status != PMEM_NO_MEMORY || handles[count].is_open || handles[count].session != NULL) exit(2);
    return count;
}

static void empty(size_t count) {
    for (size_t i = 0; i < count; i++) {
        uint8_t line[PMEM_LINE_BYTES] = {(uint8_t)(i + 1)};
        pmem_result posted = pmem_post(&handles[i], 0, i, line);
        if (posted.status != PMEM_OK && posted.status != PMEM_NO_MEMORY) exit(3);
        if (pmem_close(&handles[i]) != PMEM_OK) exit(4);
    }
}

int main(void) {
    struct rlimit limit = {(rlim_t)1 << 30, (rlim_t)1 << 30};
    size_t first, second;
    if (setrlimit(RLIMIT_AS, &limit) != 0) return 99;
    first = filled();
    empty(first);
    second = filled();
    empty(second);
    printf("%zu sessions, and again %zu\n", first, second);
    return first == 0 || second + 1 < first;
}
