/* A store in persistent memory, over libpmem: a length, and entries behind it. Compiled with -DBUG it stores the length before the
 * entry is persisted; a power failure in between then leaves a length without its entry.
 *
 *     gcc -g examples/record/store.c -o store -lpmem
 *     tools/record --files pool -o store.csv ./store pool */
#include <libpmem.h>
#include <stdint.h>
#include <stdio.h>

enum { ENTRIES = 4, BYTES = 1 << 16, LINE = 64 };

struct line {
    uint64_t value;
    char rest[LINE - sizeof(uint64_t)];
};

struct store {
    struct line length;
    struct line entry[ENTRIES];
    char note[LINE];
};

int main(int count, char **words) {
    size_t size;
    int is_pmem;
    struct store *store = count < 2 ? NULL : pmem_map_file(words[1], BYTES, PMEM_FILE_CREATE, 0600, &size, &is_pmem);
    if (!store) {
        fprintf(stderr, "usage: store FILE: %s\n", count < 2 ? "a file is missing" : pmem_errormsg());
        return 1;
    }
    for (uint64_t i = 0; i < ENTRIES; i++) {
        store->entry[i].value = 100 + i;
#ifdef BUG
        store->length.value = i + 1;
#endif
        pmem_persist(&store->entry[i], sizeof store->entry[i]);
        store->length.value = i + 1;
        pmem_persist(&store->length, sizeof store->length);
    }
    pmem_memcpy_nodrain(store->note, "written", 8);
    pmem_drain();
    pmem_unmap(store, size);
    return 0;
}
