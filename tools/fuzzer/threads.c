/* Eight threads with sessions of their own, and pmem_answer, at the same time. ThreadSanitizer sees any state that they share; each thread
 * checks that its memory has its own bytes. Arguments: how many seconds. */
#include "input.h"
#include <pthread.h>
#include <time.h>

enum { THREADS = 8, WRITES = 12 };

typedef struct worker {
    pthread_t thread;
    unsigned number;
    unsigned long rounds;
    time_t end;
} worker;

/* Writes a line as the machine of this kind does it: by a port, by a transaction, or by `write`. */
static void write_line(pmem *memory, size_t kind, uint64_t line, const uint8_t *bytes) {
    if (kind == 0) {
        CHECK(pmem_post(memory, 0, line, bytes).kind == PMEM_DONE);
        CHECK(pmem_drain(memory, 0).kind == PMEM_DONE);
    } else if (kind == 2) {
        CHECK(pmem_ask_text(memory, "begin").kind == PMEM_DONE);
        CHECK(pmem_command(memory, "put", &line, 1, bytes, PMEM_LINE_BYTES).kind == PMEM_DONE);
        CHECK(pmem_ask_text(memory, "commit").kind == PMEM_DONE);
    } else {
        CHECK(pmem_command(memory, "write", &line, 1, bytes, PMEM_LINE_BYTES).kind == PMEM_DONE);
    }
}

static void run_session(const worker *its) {
    static const char *const words[] = {"run --suite weak --levels 1", "wear --suite weak --levels 1 --every 1", "txn --suite weak --levels 1",
                                        "tree --suite weak --levels 1"};
    size_t kind = (its->number + its->rounds) % 4;
    uint64_t line = its->number;
    pmem memory = PMEM_CLOSED, copy = PMEM_CLOSED;
    uint8_t bytes[PMEM_LINE_BYTES];
    pmem_result result;
    memset(bytes, (int)(its->number + 1), sizeof bytes);
    CHECK(pmem_open_text(&memory, words[kind]) == PMEM_OK);
    for (int i = 0; i < WRITES; i++) write_line(&memory, kind, line, bytes);
    CHECK(pmem_copy(&memory, &copy) == PMEM_OK);
    result = kind == 0 ? pmem_read(&copy, 0, line) : pmem_numbers(&copy, "read", 1, line, 0);
    CHECK(result.kind == PMEM_LINE && memcmp(result.line, bytes, sizeof bytes) == 0);
    CHECK(pmem_close(&copy) == PMEM_OK && pmem_close(&memory) == PMEM_OK);
}

static void *work(void *given) {
    static const char words[] = "run\0--suite=weak\0--levels=1", trace[] = "off\non\nstat\n";
    worker *its = (worker *)given;
    uint8_t out[200];
    size_t whole;
    do {
        run_session(its);
        CHECK(pmem_answer((const uint8_t *)words, sizeof words - 1, (const uint8_t *)trace, sizeof trace - 1, out, sizeof out, &whole) == PMEM_OK);
        CHECK(whole > 10 && whole <= sizeof out && out[whole - 1] == '\n');
        its->rounds++;
    } while (time(NULL) < its->end);
    return NULL;
}

int main(int count, char **words) {
    worker workers[THREADS];
    unsigned long rounds = 0;
    long seconds = count > 1 ? strtol(words[1], NULL, 10) : 1;
    for (unsigned i = 0; i < THREADS; i++) {
        workers[i].number = i;
        workers[i].rounds = 0;
        workers[i].end = time(NULL) + seconds;
        CHECK(pthread_create(&workers[i].thread, NULL, work, &workers[i]) == 0);
    }
    for (unsigned i = 0; i < THREADS; i++) {
        CHECK(pthread_join(workers[i].thread, NULL) == 0);
        rounds += workers[i].rounds;
    }
    printf("%lu rounds\n", rounds);
    return 0;
}
