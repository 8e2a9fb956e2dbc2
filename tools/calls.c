/* What COUNT calls of the library cost, under --suite weak. `calls answer COUNT` runs `read 0 0` on a new memory each time, `calls tell COUNT`
 * sends one session `read 0 0` each time, and `calls typed COUNT` reads line 0 by pmem_read. */
#include "pmem.h"
#include <stdlib.h>

static int answer(long count) {
    static const uint8_t words[] = "run\0--suite\0weak", trace[] = "read 0 0\n";
    uint8_t out[256];
    size_t whole = 0;
    for (long i = 0; i < count; i++)
        if (pmem_answer(words, sizeof words, trace, sizeof trace - 1, out, sizeof out, &whole) != PMEM_OK || whole != 136) return 1;
    return 0;
}

static int session(long count, bool is_typed) {
    pmem memory = PMEM_CLOSED;
    uint8_t out[256];
    size_t whole = 0;
    if (pmem_open_text(&memory, "run --suite weak") != PMEM_OK) return 1;
    for (long i = 0; i < count; i++) {
        if (is_typed && pmem_read(&memory, 0, 0).kind != PMEM_LINE) return 1;
        if (!is_typed && (pmem_tell(&memory, (const uint8_t *)"read 0 0", 8, out, sizeof out, &whole) != PMEM_OK || whole != 136)) return 1;
    }
    return pmem_close(&memory) != PMEM_OK;
}

int main(int argc, char **argv) {
    long count = argc > 2 ? atol(argv[2]) : 0;
    if (argc > 1 && strcmp(argv[1], "answer") == 0) return answer(count);
    return session(count, argc > 1 && strcmp(argv[1], "typed") == 0);
}
