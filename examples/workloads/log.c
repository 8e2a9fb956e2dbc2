/* A log in persistent memory: entries of 16 to 207 bytes, one behind the other, and the log's length in the first line. An entry is
 * copied and flushed before the length that covers it is stored. When the log is full it begins again.
 *
 *   log POOL ENTRIES
 */
#include <libpmem.h>
#include <stdint.h>
#include <stdio.h>
#include <stdlib.h>
#include <string.h>

enum { SIZE = 1 << 16, FIRST = 64, LEAST = 16, RANGE = 192 };

static uint32_t state = 7;

/* A number that the next call doesn't repeat: Knuth's generator of 32 bits. */
static uint32_t next_number(void) { return (state = state * 1664525u + 1013904223u) >> 8; }

static void append(char *pool, const char *entry, uint64_t size) {
  uint64_t *length = (uint64_t *)pool;
  if (FIRST + *length + size > SIZE) *length = 0;
  pmem_memcpy_persist(pool + FIRST + *length, entry, size);
  *length += size;
  pmem_persist(length, sizeof *length);
}

int main(int count, char **words) {
  if (count != 3) return 2;
  char *pool = pmem_map_file(words[1], SIZE, PMEM_FILE_CREATE, 0600, NULL, NULL);
  if (pool == NULL) {
    fprintf(stderr, "log: %s\n", pmem_errormsg());
    return 1;
  }
  for (int number = 0; number < atoi(words[2]); number++) {
    char entry[LEAST + RANGE];
    uint64_t size = LEAST + next_number() % RANGE;
    for (uint64_t place = 0; place < size; place++) entry[place] = (char)next_number();
    memcpy(entry, &size, sizeof size);
    append(pool, entry, size);
  }
  return 0;
}
