/* Refuses the first growth of the proved code's memory, then the second, and so on. Each call reports this by its status. A session that was
 * refused goes on as if nothing had happened. In the end all memory is given back. */
#include "pmem.h"
#include <stdio.h>
#include <stdlib.h>

/* The heap of the proved code (instead of the toolchain's three functions). */
typedef struct tried {
    unsigned char is_there;
    void *at;
} tried;

tried rattle_alloc(size_t size, size_t alignment);
tried rattle_realloc(void *at, size_t kept, size_t size, size_t alignment);
void rattle_dealloc(void *at);

static long left = -1, made, freed;
static char nothing;

static bool is_refused(void) { return left >= 0 && left-- == 0; }

tried rattle_alloc(size_t size, size_t alignment) {
    tried result = {0, &nothing};
    void *at = is_refused() ? NULL : malloc(size != 0 ? size : alignment);
    if (at == NULL) return result;
    made++;
    result.is_there = 1;
    result.at = at;
    return result;
}

tried rattle_realloc(void *at, size_t kept, size_t size, size_t alignment) {
    tried result = {0, &nothing};
    (void)kept;
    void *grown = is_refused() ? NULL : realloc(at, size != 0 ? size : alignment);
    if (grown == NULL) return result;
    result.is_there = 1;
    result.at = grown;
    return result;
}

void rattle_dealloc(void *at) {
    freed++;
    free(at);
}

static const char *const lines[] = {"post 0 0 11", "snap", "cut 4", "drain 0", "on", "fence 0", "read 0 0", "stat"};
static const char *const stores[] = {"begin", "put 0 11", "commit", "read 0"};

enum { LINES = 8, REPLY_BYTES = 1024 };

typedef struct replies {
    size_t lens[LINES]; /* 0 if the reply was lost */
    uint8_t texts[LINES][REPLY_BYTES];
    unsigned refused, lost;
} replies;

static size_t spelled(uint8_t *line, const char *text) {
    size_t len = strlen(text), end = len + 126;
    memcpy(line, text, len);
    if (len > 2 && memcmp(line + len - 2, "11", 2) == 0)
        for (; len < end; len++) line[len] = '1';
    return len;
}

/* Sends each line; one that is refused is sent again, with memory. */
static bool told(pmem *memory, const char *const *script, size_t count, replies *all) {
    memset(all, 0, sizeof *all);
    for (size_t i = 0; i < count; i++) {
        uint8_t line[PMEM_TEXT_BYTES];
        size_t len = spelled(line, script[i]);
        uint8_t status = pmem_tell(memory, line, len, all->texts[i], REPLY_BYTES, &all->lens[i]);
        if (status == PMEM_NO_MEMORY) {
            all->refused++;
            status = pmem_tell(memory, line, len, all->texts[i], REPLY_BYTES, &all->lens[i]);
        }
        if (status == PMEM_REPLY_LOST && all->lens[i] == 0) all->lost++;
        else if (status != PMEM_OK || all->lens[i] == 0) return false;
    }
    return true;
}

/* All replies that weren't lost are those that are due. */
static bool are_due(const replies *all, const replies *due) {
    for (size_t i = 0; i < LINES; i++) {
        bool is_lost = all->lost != 0 && all->lens[i] == 0;
        if (!is_lost && (all->lens[i] != due->lens[i] || memcmp(all->texts[i], due->texts[i], due->lens[i]) != 0)) return false;
    }
    return true;
}

static int tried_session(const char *words, const char *const *script, size_t count) {
    static replies due, all;
    int failures = 0;
    unsigned refused = 0, lost = 0, closed = 0;
    for (long at = -1;; at++) {
        pmem memory = PMEM_CLOSED;
        made = freed = 0;
        left = at;
        pmem_status status = pmem_open_text(&memory, words);
        bool went = status == PMEM_OK && told(&memory, script, count, &all), was_refused = at >= 0 && left < 0;
        left = -1;
        if (status == PMEM_OK) pmem_close(&memory);
        if (made != freed || memory.is_open) failures++;
        if (at == -1) {
            due = all;
            if (!went || all.lost != 0) return 1;
            continue;
        }
        if (!was_refused) break;
        if (status == PMEM_NO_MEMORY) closed++;
        else if (!went || all.refused + all.lost != 1 || !are_due(&all, &due)) failures++;
        refused += status == PMEM_OK ? all.refused : 0;
        lost += status == PMEM_OK ? all.lost : 0;
    }
    printf("%s: of the refused growths %u were of an open, %u of a line, and %u of a reply\n", words, closed, refused, lost);
    return failures != 0 || closed == 0 || refused == 0 || lost == 0;
}

/* The same of pmem_answer: status 1 with `stop memory` or nothing, or 4 with a prefix of what is due. */
static int tried_answer(void) {
    static const char trace[] = "stat\nturn\nsnap\noff\non\nstat\n";
    uint8_t due[4096], text[4096];
    size_t whole = 0, due_len = 0;
    int failures = 0;
    for (long at = -1;; at++) {
        made = freed = 0;
        left = at;
        uint8_t status = pmem_answer((const uint8_t *)"run", 3, (const uint8_t *)trace, sizeof trace - 1, text, sizeof text, &whole);
        bool was_refused = at >= 0 && left < 0;
        left = -1;
        if (made != freed) failures++;
        if (at == -1) {
            if (status != PMEM_OK) return 1;
            due_len = whole;
            memcpy(due, text, sizeof due);
            continue;
        }
        if (!was_refused) return failures != 0 || status != PMEM_OK;
        size_t front = status == PMEM_NO_MEMORY && whole != 0 ? whole - strlen("stop memory\n") : whole;
        if (status != PMEM_NO_MEMORY && status != PMEM_REPLY_LOST) failures++;
        else if (front > due_len || memcmp(text, due, front) != 0) failures++;
        else if (front != whole && memcmp(text + front, "stop memory\n", whole - front) != 0) failures++;
    }
}

int main(void) {
    return tried_session("run --suite weak", lines, sizeof lines / sizeof lines[0]) +
           tried_session("txn --suite weak", stores, sizeof stores / sizeof stores[0]) + tried_answer();
}
