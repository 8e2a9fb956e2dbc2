/* Records what a program stores to persistent memory, as rows of the CSV that `tools/explore import csv` reads. For firmware and other
 * programs without an operating system: it needs no library and allocates nothing. For a program on Linux that uses libpmem, mappings or
 * files, `tools/record` needs no change of the program.
 *
 * Store to persistent memory through these macros. Each does what it says, and if PMEM_RECORD is defined it also writes a row with the
 * bytes and the line of the source:
 *
 *     PMEM_STORE(&root->length, 2);           one store; the value is converted to the type of what is stored to
 *     PMEM_NTSTORE(&root->length, 2);         the same past the cache
 *     PMEM_COPY(root->name, name, 32);        memcpy: nobody knows in which order it stores
 *     PMEM_SET(root->name, 0, 32);            memset, likewise
 *     PMEM_LOAD(&root->length, 8);            a load, if loads matter (what a trace costs)
 *     PMEM_CLWB(&root->length);  PMEM_CLFLUSHOPT(..);  PMEM_CLFLUSH(..);    the flush of one line
 *     PMEM_FLUSH(root, sizeof *root);         clwb of each line of a range
 *     PMEM_SFENCE();  PMEM_MFENCE();          fences
 *     PMEM_MARK("insert");                    begins a section, which is named where something is found
 *     PMEM_RECORD_HEAD();                     the CSV's first row
 *
 * Define before the first #include:
 *
 *     PMEM_RECORD                   to record
 *     PMEM_RECORD_PUT(letter)       writes one character: to a serial line, a buffer, semihosting; default: putc to PMEM_RECORD_FILE,
 *                                   or to standard error, of <stdio.h>
 *     PMEM_RECORD_ADDRESS(pointer)  the address that is recorded; default: the pointer. Firmware whose memory moves takes off its base
 *     PMEM_HARDWARE_CLWB(pointer), PMEM_HARDWARE_CLFLUSHOPT, PMEM_HARDWARE_CLFLUSH, PMEM_HARDWARE_SFENCE(), PMEM_HARDWARE_MFENCE()
 *                                   what the flushes and fences do on the machine; default: nothing
 *
 * It takes C99 or later with __typeof__ (GCC, clang), or C++11, and is not for several threads at once. Cost of a row: some 20 to 200
 * calls of PMEM_RECORD_PUT. */
#ifndef PMEM_RECORD_H
#define PMEM_RECORD_H

#include <stddef.h>
#include <stdint.h>
#include <string.h>

#ifndef PMEM_HARDWARE_CLWB
#define PMEM_HARDWARE_CLWB(pointer) ((void)(pointer))
#endif
#ifndef PMEM_HARDWARE_CLFLUSHOPT
#define PMEM_HARDWARE_CLFLUSHOPT(pointer) ((void)(pointer))
#endif
#ifndef PMEM_HARDWARE_CLFLUSH
#define PMEM_HARDWARE_CLFLUSH(pointer) ((void)(pointer))
#endif
#ifndef PMEM_HARDWARE_SFENCE
#define PMEM_HARDWARE_SFENCE() ((void)0)
#endif
#ifndef PMEM_HARDWARE_MFENCE
#define PMEM_HARDWARE_MFENCE() ((void)0)
#endif

#define PMEM_RECORD_LINE 64u
/* The largest access that the importer takes as one row. */
#define PMEM_RECORD_LARGEST 4096u

#ifdef PMEM_RECORD

#ifndef PMEM_RECORD_PUT
#include <stdio.h>
#ifndef PMEM_RECORD_FILE
#define PMEM_RECORD_FILE stderr
#endif
#define PMEM_RECORD_PUT(letter) ((void)putc((letter), PMEM_RECORD_FILE))
#endif
#ifndef PMEM_RECORD_ADDRESS
#define PMEM_RECORD_ADDRESS(pointer) ((uintptr_t)(pointer))
#endif

static inline void pmem_record_text(const char *text) {
  while (*text) PMEM_RECORD_PUT(*text++);
}

/* A field with text of the user's: what would end it becomes a space. */
static inline void pmem_record_field(const char *text) {
  for (; *text; text++) PMEM_RECORD_PUT(*text == ',' || *text == '"' || (unsigned char)*text < 32 ? ' ' : *text);
}

static inline void pmem_record_number(uint64_t number, unsigned base) {
  char digits[24];
  unsigned count = 0;
  do {
    digits[count++] = "0123456789abcdef"[number % base];
    number /= base;
  } while (number);
  while (count) PMEM_RECORD_PUT(digits[--count]);
}

/* The place in the source, which ends each row. */
static inline void pmem_record_place(const char *file, unsigned line) {
  const char *last = file;
  for (; *file; file++)
    if (*file == '/' || *file == '\\') last = file + 1;
  PMEM_RECORD_PUT(',');
  pmem_record_field(last);
  PMEM_RECORD_PUT(':');
  pmem_record_number(line, 10);
  PMEM_RECORD_PUT('\n');
}

/* A row with an address: of a store with its bytes, which are read from there. */
static inline void pmem_record_row(const char *word, const void *pointer, size_t size, int has_bytes, const char *file, unsigned line) {
  const unsigned char *at = (const unsigned char *)pointer;
  do {
    size_t count = has_bytes && size > PMEM_RECORD_LARGEST ? PMEM_RECORD_LARGEST : size;
    pmem_record_text(word);
    pmem_record_text(",0x");
    pmem_record_number((uint64_t)PMEM_RECORD_ADDRESS(at), 16);
    PMEM_RECORD_PUT(',');
    pmem_record_number(count, 10);
    PMEM_RECORD_PUT(',');
    for (size_t i = 0; has_bytes && i < count; i++) {
      PMEM_RECORD_PUT("0123456789abcdef"[at[i] >> 4]);
      PMEM_RECORD_PUT("0123456789abcdef"[at[i] & 15]);
    }
    pmem_record_place(file, line);
    at += count;
    size -= count;
  } while (size);
}

/* A row without one. */
static inline void pmem_record_event(const char *word, const char *name, const char *file, unsigned line) {
  pmem_record_text(word);
  pmem_record_text(",,,");
  pmem_record_field(name);
  pmem_record_place(file, line);
}

#define PMEM_RECORD_HEAD() pmem_record_text("op,address,size,data,source\n")
#define PMEM_RECORD_ROW(word, pointer, size, has_bytes) \
  pmem_record_row((word), (const void *)(pointer), (size), (has_bytes), __FILE__, (unsigned)__LINE__)
#define PMEM_RECORD_EVENT(word, name) pmem_record_event((word), (name), __FILE__, (unsigned)__LINE__)

#else

#define PMEM_RECORD_HEAD() ((void)0)
#define PMEM_RECORD_ROW(word, pointer, size, has_bytes) ((void)(pointer))
#define PMEM_RECORD_EVENT(word, name) ((void)0)

#endif

#define PMEM_RECORD_STORED(word, pointer, value)                              \
  do {                                                                        \
    __typeof__(pointer) pmem_record_to = (pointer);                           \
    *pmem_record_to = (value);                                                \
    if (sizeof *pmem_record_to)                                               \
      PMEM_RECORD_ROW((word), pmem_record_to, sizeof *pmem_record_to, 1);     \
  } while (0)
#define PMEM_STORE(pointer, value) PMEM_RECORD_STORED("store", pointer, value)
#define PMEM_NTSTORE(pointer, value) PMEM_RECORD_STORED("ntstore", pointer, value)

#define PMEM_RECORD_MANY(pointer, size, done)                                 \
  do {                                                                        \
    void *pmem_record_to = (void *)(pointer);                                 \
    size_t pmem_record_size = (size);                                         \
    done;                                                                     \
    if (pmem_record_size) PMEM_RECORD_ROW("changed", pmem_record_to, pmem_record_size, 1); \
  } while (0)
#define PMEM_COPY(pointer, from, size) PMEM_RECORD_MANY(pointer, size, memcpy(pmem_record_to, (from), pmem_record_size))
#define PMEM_SET(pointer, byte, size) PMEM_RECORD_MANY(pointer, size, memset(pmem_record_to, (byte), pmem_record_size))

#define PMEM_LOAD(pointer, size) PMEM_RECORD_ROW("load", pointer, size, 0)

#define PMEM_CLWB(pointer) (PMEM_RECORD_ROW("clwb", pointer, 1, 0), PMEM_HARDWARE_CLWB(pointer))
#define PMEM_CLFLUSHOPT(pointer) (PMEM_RECORD_ROW("clflushopt", pointer, 1, 0), PMEM_HARDWARE_CLFLUSHOPT(pointer))
#define PMEM_CLFLUSH(pointer) (PMEM_RECORD_ROW("clflush", pointer, 1, 0), PMEM_HARDWARE_CLFLUSH(pointer))
#define PMEM_FLUSH(pointer, size)                                                                          \
  do {                                                                                                     \
    const char *pmem_record_at = (const char *)(pointer), *pmem_record_end = pmem_record_at + (size);      \
    if (pmem_record_at < pmem_record_end) PMEM_RECORD_ROW("clwb", pmem_record_at, (size_t)(pmem_record_end - pmem_record_at), 0); \
    for (pmem_record_at -= (uintptr_t)pmem_record_at % PMEM_RECORD_LINE; pmem_record_at < pmem_record_end; \
         pmem_record_at += PMEM_RECORD_LINE)                                                               \
      PMEM_HARDWARE_CLWB(pmem_record_at);                                                                  \
  } while (0)
#define PMEM_SFENCE() (PMEM_RECORD_EVENT("sfence", ""), PMEM_HARDWARE_SFENCE())
#define PMEM_MFENCE() (PMEM_RECORD_EVENT("mfence", ""), PMEM_HARDWARE_MFENCE())
#define PMEM_MARK(name) PMEM_RECORD_EVENT("mark", (name))

#endif
