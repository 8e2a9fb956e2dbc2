/* Records what a program stores to files that stand for persistent memory, as rows of the CSV that `tools/explore import csv` reads.
 * tools/record loads it before the program (LD_PRELOAD).
 *
 * Stores into a mapping can't be seen. Each call that flushes or fences compares all mappings with what was recorded last, and bytes
 * that differ are rows `changed`: nobody knows in which order they were stored. What goes through write() or libpmem's copies is known.
 * Each row ends with the place in the program that called, as MODULE+OFFSET.
 *
 * It calls the kernel itself and allocates nothing by malloc, so that it can be called from anywhere. */
#define _GNU_SOURCE
#include <dlfcn.h>
#include <errno.h>
#include <execinfo.h>
#include <fcntl.h>
#include <link.h>
#include <pthread.h>
#include <stdarg.h>
#include <stddef.h>
#include <stdint.h>
#include <stdio.h>
#include <stdlib.h>
#include <string.h>
#include <sys/mman.h>
#include <sys/stat.h>
#include <sys/syscall.h>
#include <sys/uio.h>
#include <unistd.h>

#define EXPORT __attribute__((visibility("default")))
enum { LINE = 64, WORD = 8, FILES = 64, REGIONS = 512, PREFIXES = 64, FRAMES = 32, ROW_BYTES = 256 };
/* The first recorded address of file k. */
#define BASE(file) (((uint64_t)(file) + 1) << 36)
#define MOST_BYTES ((uint64_t)1 << 36)

struct file {
  dev_t device;
  ino_t inode;
  int reader;       /* open for reading */
  uint8_t *seen;    /* its bytes as they were recorded last */
  uint64_t size;    /* how many of them there are */
  uint64_t room;    /* how many there is room for */
  uint64_t low, high; /* what was written and not synced lies between */
};

struct region {
  uint8_t *start;
  uint64_t size;
  int file;
  uint64_t offset;
};

static struct file files[FILES];
static struct region regions[REGIONS];
static int file_count, region_count, prefix_count, out = -1;
static const char *prefixes[PREFIXES];
static uint64_t outside;
static pid_t owner;
static uintptr_t program_base, program_low, program_high;
static pthread_mutex_t lock = PTHREAD_RECURSIVE_MUTEX_INITIALIZER_NP;
static __thread int busy;

/* ---- what was called from where ---- */

static int find_program(struct dl_phdr_info *info, size_t size, void *unused) {
  (void)size, (void)unused;
  program_base = info->dlpi_addr;
  program_low = UINTPTR_MAX;
  for (int i = 0; i < info->dlpi_phnum; i++) {
    const ElfW(Phdr) *part = &info->dlpi_phdr[i];
    if (part->p_type != PT_LOAD) continue;
    uintptr_t low = info->dlpi_addr + part->p_vaddr, high = low + part->p_memsz;
    if (low < program_low) program_low = low;
    if (high > program_high) program_high = high;
  }
  return 1; /* the first one is the program */
}

/* The innermost call in the program's own code, else the innermost one outside this library. */
static void caller(char *text, size_t room) {
  void *frames[FRAMES];
  int count = backtrace(frames, FRAMES);
  text[0] = 0;
  for (int i = 1; i < count; i++) {
    uintptr_t place = (uintptr_t)frames[i];
    if (place >= program_low && place < program_high) {
      snprintf(text, room, "+0x%lx", (unsigned long)(place - program_base - 1));
      return;
    }
  }
  Dl_info own, info;
  if (!dladdr((void *)(uintptr_t)find_program, &own)) return;
  for (int i = 1; i < count; i++)
    if (dladdr(frames[i], &info) && info.dli_fname && info.dli_fbase != own.dli_fbase) {
      snprintf(text, room, "%s+0x%lx", info.dli_fname, (unsigned long)((uintptr_t)frames[i] - (uintptr_t)info.dli_fbase - 1));
      return;
    }
}

/* ---- the log ---- */

static void put(const char *text, size_t size) {
  while (size) {
    ssize_t done = syscall(SYS_write, out, text, size);
    if (done < 0 && errno == EINTR) continue;
    if (done <= 0) {
      static const char told[] = "record: the log cannot be written\n";
      syscall(SYS_write, 2, told, sizeof told - 1);
      out = -1;
      return;
    }
    text += done;
    size -= (size_t)done;
  }
}

static void row(const char *word, uint64_t address, uint64_t size, const uint8_t *data, const char *place) {
  char text[ROW_BYTES + 2 * LINE + 4096 + 64];
  int at = snprintf(text, sizeof text, size ? "%s,0x%llx,%llu," : "%s,,,", word, (unsigned long long)address, (unsigned long long)size);
  for (uint64_t i = 0; data && i < size; i++) at += snprintf(text + at, 3, "%02x", data[i]);
  at += snprintf(text + at, sizeof text - (size_t)at - 2, ",%.4000s", place);
  text[at++] = '\n';
  if (out >= 0) put(text, (size_t)at);
}

/* ---- files ---- */

static int own_open(const char *path, int flags, mode_t mode) { return (int)syscall(SYS_openat, AT_FDCWD, path, flags, mode); }

static void *pages(uint64_t size) {
  void *found = (void *)syscall(SYS_mmap, NULL, size, PROT_READ | PROT_WRITE, MAP_PRIVATE | MAP_ANONYMOUS | MAP_NORESERVE, -1, 0);
  return found == MAP_FAILED ? NULL : found;
}

static int grow(struct file *file, uint64_t size) {
  if (size > MOST_BYTES) return 0;
  if (size > file->room) {
    uint64_t room = file->room ? file->room : 1 << 20;
    while (room < size) room *= 2;
    uint8_t *more = pages(room);
    if (!more) return 0;
    if (file->size) memcpy(more, file->seen, file->size);
    if (file->room) syscall(SYS_munmap, file->seen, file->room);
    file->seen = more;
    file->room = room;
  }
  if (size > file->size) file->size = size;
  return 1;
}

static int is_recorded(const char *path) {
  for (int i = 0; i < prefix_count; i++) {
    size_t length = strlen(prefixes[i]);
    if (!strncmp(path, prefixes[i], length) && (path[length] == 0 || path[length] == '/')) return 1;
  }
  return 0;
}

/* The first process that touches a file is recorded; others are named. */
static int claim(const char *path) {
  if (out >= 0) return 1;
  const char *name = getenv("PMEM_RECORD_OUT");
  if (!name) return 0;
  out = own_open(name, O_WRONLY | O_CREAT | O_EXCL | O_APPEND | O_CLOEXEC, 0600);
  if (out >= 0) return 1;
  char other[4096], text[4200];
  snprintf(other, sizeof other, "%s.others", name);
  int file = own_open(other, O_WRONLY | O_CREAT | O_APPEND | O_CLOEXEC, 0600);
  if (file >= 0) {
    int size = snprintf(text, sizeof text, "process %d touches %.4000s\n", (int)getpid(), path);
    if (size > 0) syscall(SYS_write, file, text, (size_t)size);
    close(file);
  }
  prefix_count = 0;
  return 0;
}

/* Keeps the bytes that a file has before the program stores to it. */
static void keep_image(int number) {
  const char *name = getenv("PMEM_RECORD_OUT");
  char path[4200];
  snprintf(path, sizeof path, "%s.image%d", name, number);
  int image = own_open(path, O_WRONLY | O_CREAT | O_TRUNC | O_CLOEXEC, 0600);
  if (image < 0) return;
  for (uint64_t at = 0; at < files[number].size;) {
    ssize_t done = syscall(SYS_write, image, files[number].seen + at, files[number].size - at);
    if (done <= 0) break;
    at += (uint64_t)done;
  }
  close(image);
}

static int add_file(const char *path, const struct stat *found) {
  if (file_count == FILES || !claim(path)) return -1;
  struct file *file = &files[file_count];
  memset(file, 0, sizeof *file);
  file->device = found->st_dev;
  file->inode = found->st_ino;
  file->low = UINT64_MAX;
  file->reader = own_open(path, O_RDONLY | O_CLOEXEC, 0);
  if (!grow(file, (uint64_t)found->st_size)) return -1;
  int is_zero = 1;
  for (uint64_t at = 0; file->reader >= 0 && at < file->size;) {
    ssize_t got = syscall(SYS_pread64, file->reader, file->seen + at, file->size - at, at);
    if (got <= 0) break;
    for (ssize_t i = 0; i < got && is_zero; i++) is_zero = !file->seen[at + (uint64_t)i];
    at += (uint64_t)got;
  }
  char text[4300];
  int size = snprintf(text, sizeof text, "# file %d at 0x%llx: %.4000s\n", file_count, (unsigned long long)BASE(file_count), path);
  put(text, (size_t)size);
  if (!is_zero) keep_image(file_count);
  return file_count++;
}

static int file_of(int fd) {
  struct stat found;
  if (!prefix_count || fd < 0 || fd == out || fstat(fd, &found)) return -1;
  if (!S_ISREG(found.st_mode) && !S_ISCHR(found.st_mode)) return -1;
  for (int i = 0; i < file_count; i++)
    if (files[i].device == found.st_dev && files[i].inode == found.st_ino) return i;
  char link[64], path[4096];
  snprintf(link, sizeof link, "/proc/self/fd/%d", fd);
  ssize_t size = readlink(link, path, sizeof path - 1);
  if (size <= 0) return -1;
  path[size] = 0;
  return is_recorded(path) ? add_file(path, &found) : -1;
}

/* ---- stores ---- */

static void wrote(int number, uint64_t low, uint64_t high) {
  if (low < files[number].low) files[number].low = low;
  if (high > files[number].high) files[number].high = high;
}

/* Bytes of a file that are known to be stored, by lines. */
static void stored(int number, const char *word, const uint8_t *data, uint64_t offset, uint64_t size, const char *place) {
  if (!grow(&files[number], offset + size)) return;
  memcpy(files[number].seen + offset, data, size);
  wrote(number, offset, offset + size);
  while (size) {
    uint64_t count = LINE - offset % LINE;
    if (count > size) count = size;
    row(word, BASE(number) + offset, count, data, place);
    data += count, offset += count, size -= count;
  }
}

/* Compares bytes of a file with those that were recorded last, line by line. */
static void compare(int number, const uint8_t *now, uint64_t offset, uint64_t size, const char *place) {
  if (!grow(&files[number], offset + size)) return;
  uint8_t *seen = files[number].seen;
  while (size) {
    uint64_t count = 4096 - offset % 4096;
    if (count > size) count = size;
    if (memcmp(now, seen + offset, count))
      for (uint64_t at = 0; at < count;) {
        uint64_t part = LINE - (offset + at) % LINE;
        if (part > count - at) part = count - at;
        uint64_t low = 0, high = part;
        while (low < part && now[at + low] == seen[offset + at + low]) low++;
        while (high > low && now[at + high - 1] == seen[offset + at + high - 1]) high--;
        if (low < high) {
          memcpy(seen + offset + at + low, now + at + low, high - low);
          wrote(number, offset + at + low, offset + at + high);
          row("changed", BASE(number) + offset + at + low, high - low, now + at + low, place);
        }
        at += part;
      }
    now += count, offset += count, size -= count;
  }
}

/* What the mapping still has of its file: a file that became shorter can't be read past its end. */
static uint64_t readable(const struct region *region) {
  struct stat found;
  if (files[region->file].reader < 0 || fstat(files[region->file].reader, &found) || S_ISCHR(found.st_mode)) return region->size;
  uint64_t end = ((uint64_t)found.st_size + 4095) & ~(uint64_t)4095;
  if (end <= region->offset) return 0;
  return region->size < end - region->offset ? region->size : end - region->offset;
}

static void compare_regions(const char *place) {
  for (int i = 0; i < region_count; i++) compare(regions[i].file, regions[i].start, regions[i].offset, readable(&regions[i]), place);
}

/* Compares a whole file: what went past the calls that are seen, as that of stdio. */
static void compare_file(int number, const char *place) {
  static uint8_t block[1 << 16];
  struct file *file = &files[number];
  uint64_t at = 0;
  while (file->reader >= 0) {
    ssize_t got = syscall(SYS_pread64, file->reader, block, sizeof block, at);
    if (got <= 0) break;
    compare(number, block, at, (uint64_t)got, place);
    at += (uint64_t)got;
  }
  memset(block, 0, sizeof block);
  while (file->reader >= 0 && at < file->size) { /* it became shorter */
    uint64_t count = file->size - at < sizeof block ? file->size - at : sizeof block;
    compare(number, block, at, count, place);
    at += count;
  }
}

static struct region *region_of(const void *address) {
  for (int i = region_count - 1; i >= 0; i--)
    if ((const uint8_t *)address >= regions[i].start && (const uint8_t *)address < regions[i].start + regions[i].size) return &regions[i];
  return NULL;
}

static void flushed(const void *address, size_t size, const char *place) {
  struct region *region = region_of(address);
  if (!region) {
    outside++;
    return;
  }
  uint64_t offset = region->offset + (uint64_t)((const uint8_t *)address - region->start);
  if (size) row("clwb", BASE(region->file) + offset, size, NULL, place);
}

static void synced(int number, const char *place) {
  struct file *file = &files[number];
  if (file->low < file->high) row("clwb", BASE(number) + file->low, file->high - file->low, NULL, place);
  file->low = UINT64_MAX, file->high = 0;
  row("sfence", 0, 0, NULL, place);
}

/* ---- beginning and end ---- */

/* A child process: it is recorded only if no other process is. */
static void in_child(void) {
  region_count = file_count = 0, out = -1;
  owner = getpid();
}

__attribute__((constructor)) static void begin(void) {
  static char words[1 << 16];
  const char *given = getenv("PMEM_RECORD_FILES");
  void *frames[2];
  backtrace(frames, 2); /* which loads what it needs */
  dl_iterate_phdr(find_program, NULL);
  owner = getpid();
  pthread_atfork(NULL, NULL, in_child);
  if (!given || !getenv("PMEM_RECORD_OUT")) return;
  snprintf(words, sizeof words, "%s", given);
  for (char *at = words; *at && prefix_count < PREFIXES;) {
    char *end = strchr(at, '\n');
    if (end) *end = 0;
    if (*at) prefixes[prefix_count++] = at;
    if (!end) break;
    at = end + 1;
  }
}

__attribute__((destructor)) static void finish(void) {
  if (out < 0 || getpid() != owner) return;
  busy = 1;
  compare_regions("");
  for (int i = 0; i < file_count; i++) compare_file(i, ""); /* what was never synced */
  if (outside) {
    char text[128];
    put(text, (size_t)snprintf(text, sizeof text, "# outside: %llu\n", (unsigned long long)outside));
  }
}

/* Enters a call that is recorded, with the place that it is called from; answers whether it is. */
static int enter(char *place, size_t room, int is_wanted) {
  if (busy || !prefix_count || !is_wanted) return 0;
  busy = 1;
  pthread_mutex_lock(&lock);
  caller(place, room);
  return 1;
}

static void leave(void) {
  pthread_mutex_unlock(&lock);
  busy = 0;
}

#define PLACE_BYTES 1024

/* ---- mappings ---- */

static void mapped(void *start, size_t size, int protection, int flags, int fd, off_t offset) {
  char place[PLACE_BYTES];
  int is_shared = (flags & 0xf) == MAP_SHARED || (flags & 0xf) == 0x3; /* MAP_SHARED_VALIDATE */
  if (start == MAP_FAILED || !is_shared || !(protection & PROT_WRITE) || !enter(place, sizeof place, fd >= 0)) return;
  int saved = errno, file = file_of(fd);
  if (file >= 0 && region_count < REGIONS) {
    regions[region_count++] = (struct region){start, size, file, (uint64_t)offset};
    grow(&files[file], (uint64_t)offset + size);
  }
  errno = saved;
  leave();
}

EXPORT void *mmap(void *address, size_t size, int protection, int flags, int fd, off_t offset) {
  void *found = (void *)syscall(SYS_mmap, address, size, protection, flags, fd, offset);
  mapped(found, size, protection, flags, fd, offset);
  return found;
}
EXPORT void *mmap64(void *address, size_t size, int protection, int flags, int fd, off_t offset) {
  return mmap(address, size, protection, flags, fd, offset);
}

EXPORT int munmap(void *address, size_t size) {
  char place[PLACE_BYTES];
  if (enter(place, sizeof place, region_count > 0)) {
    for (int i = 0; i < region_count;) {
      uint8_t *low = regions[i].start, *high = low + regions[i].size, *from = address, *to = from + size;
      if (from < high && low < to) {
        compare(regions[i].file, low, regions[i].offset, readable(&regions[i]), place);
        if (from > low && region_count < REGIONS) /* the part in front stays */
          regions[region_count++] = (struct region){low, (uint64_t)(from - low), regions[i].file, regions[i].offset};
        if (to < high && region_count < REGIONS)
          regions[region_count++] =
              (struct region){to, (uint64_t)(high - to), regions[i].file, regions[i].offset + (uint64_t)(to - low)};
        regions[i] = regions[--region_count];
        if (from > low || to < high) break;
      } else {
        i++;
      }
    }
    leave();
  }
  return (int)syscall(SYS_munmap, address, size);
}

EXPORT int msync(void *address, size_t size, int flags) {
  char place[PLACE_BYTES];
  if ((flags & MS_SYNC) && enter(place, sizeof place, region_count > 0)) {
    compare_regions(place);
    if (region_of(address)) {
      flushed(address, size, place);
      row("sfence", 0, 0, NULL, place);
    }
    leave();
  }
  return (int)syscall(SYS_msync, address, size, flags);
}

/* ---- files that are opened: their bytes before the program stores to them ---- */

static void opened(int fd, int flags) {
  char place[PLACE_BYTES];
  if ((flags & O_ACCMODE) == O_RDONLY || !enter(place, sizeof place, fd >= 0)) return;
  int saved = errno;
  file_of(fd);
  errno = saved;
  leave();
}

static int open_at(int folder, const char *path, int flags, mode_t mode) {
  int fd = (int)syscall(SYS_openat, folder, path, flags, mode);
  opened(fd, flags);
  return fd;
}

static mode_t mode_of(int flags, va_list more) { return flags & (O_CREAT | O_TMPFILE) ? (mode_t)va_arg(more, int) : 0; }

#define OPEN(name, folder, ...)                                \
  EXPORT int name(__VA_ARGS__ const char *path, int flags, ...) { \
    va_list more;                                              \
    va_start(more, flags);                                     \
    mode_t mode = mode_of(flags, more);                        \
    va_end(more);                                              \
    return open_at(folder, path, flags, mode);                 \
  }
#define COMMA ,
OPEN(open, AT_FDCWD, )
OPEN(open64, AT_FDCWD, )
OPEN(openat, folder, int folder COMMA)
OPEN(openat64, folder, int folder COMMA)
EXPORT int creat(const char *path, mode_t mode) { return open_at(AT_FDCWD, path, O_WRONLY | O_CREAT | O_TRUNC, mode); }
EXPORT int creat64(const char *path, mode_t mode) { return creat(path, mode); }

static FILE *opened_stream(const char *name, const char *path, const char *kind) {
  FILE *(*real)(const char *, const char *);
  void *found = dlsym(RTLD_NEXT, name);
  memcpy(&real, &found, sizeof real);
  FILE *stream = real(path, kind);
  if (stream) opened(fileno(stream), strpbrk(kind, "wa+") ? O_RDWR : O_RDONLY);
  return stream;
}
EXPORT FILE *fopen(const char *path, const char *kind) { return opened_stream("fopen", path, kind); }
EXPORT FILE *fopen64(const char *path, const char *kind) { return opened_stream("fopen64", path, kind); }

/* ---- files that are written ---- */

static void after_write(int file, int fd, const char *place) {
  int flags = fcntl(fd, F_GETFL);
  if (flags >= 0 && (flags & (O_SYNC | O_DSYNC))) synced(file, place);
}

static ssize_t vector(int fd, const struct iovec *parts, int count, off_t offset, int is_at) {
  char place[PLACE_BYTES];
  int file = -1, is_entered = enter(place, sizeof place, 1);
  if (is_entered) file = file_of(fd);
  ssize_t done = is_at ? (ssize_t)syscall(SYS_pwritev, fd, parts, count, (long)offset, (long)0) : (ssize_t)syscall(SYS_writev, fd, parts, count);
  int saved = errno;
  if (file >= 0 && done > 0) {
    uint64_t at = (uint64_t)(is_at ? offset : lseek(fd, 0, SEEK_CUR) - done), left = (uint64_t)done;
    for (int i = 0; i < count && left; i++) {
      uint64_t size = parts[i].iov_len < left ? parts[i].iov_len : left;
      stored(file, "store", parts[i].iov_base, at, size, place);
      at += size, left -= size;
    }
    after_write(file, fd, place);
  }
  if (is_entered) leave();
  errno = saved;
  return done;
}

EXPORT ssize_t write(int fd, const void *data, size_t size) {
  struct iovec part = {(void *)(uintptr_t)data, size};
  return busy || !prefix_count ? (ssize_t)syscall(SYS_write, fd, data, size) : vector(fd, &part, 1, 0, 0);
}
EXPORT ssize_t pwrite(int fd, const void *data, size_t size, off_t offset) {
  struct iovec part = {(void *)(uintptr_t)data, size};
  return busy || !prefix_count ? (ssize_t)syscall(SYS_pwrite64, fd, data, size, offset) : vector(fd, &part, 1, offset, 1);
}
EXPORT ssize_t pwrite64(int fd, const void *data, size_t size, off_t offset) { return pwrite(fd, data, size, offset); }
EXPORT ssize_t writev(int fd, const struct iovec *parts, int count) { return vector(fd, parts, count, 0, 0); }
EXPORT ssize_t pwritev(int fd, const struct iovec *parts, int count, off_t offset) { return vector(fd, parts, count, offset, 1); }
EXPORT ssize_t pwritev64(int fd, const struct iovec *parts, int count, off_t offset) { return vector(fd, parts, count, offset, 1); }

static int sync_file(int fd, long number) {
  char place[PLACE_BYTES];
  if (enter(place, sizeof place, 1)) {
    int saved = errno, file = file_of(fd);
    if (file >= 0) {
      compare_regions(place);
      compare_file(file, place);
      synced(file, place);
    }
    errno = saved;
    leave();
  }
  return (int)syscall(number, fd);
}
EXPORT int fsync(int fd) { return sync_file(fd, SYS_fsync); }
EXPORT int fdatasync(int fd) { return sync_file(fd, SYS_fdatasync); }

EXPORT int ftruncate(int fd, off_t size) {
  char place[PLACE_BYTES];
  int file = -1, is_entered = enter(place, sizeof place, 1);
  if (is_entered) file = file_of(fd);
  int found = (int)syscall(SYS_ftruncate, fd, size), saved = errno;
  if (file >= 0 && !found) compare_file(file, place);
  if (is_entered) leave();
  errno = saved;
  return found;
}
EXPORT int ftruncate64(int fd, off_t size) { return ftruncate(fd, size); }

/* ---- libpmem ---- */

enum { NODRAIN = 1, NONTEMPORAL = 2, NOFLUSH = 32, LARGE = 256 };

static void persist(const void *address, size_t size, int is_flushed, int is_fenced) {
  char place[PLACE_BYTES];
  if (!enter(place, sizeof place, region_count > 0 || is_flushed)) return;
  compare_regions(place);
  if (is_flushed) flushed(address, size, place);
  if (is_fenced) row("sfence", 0, 0, NULL, place);
  leave();
}

/* A copy of libpmem's that has been made: past the cache if it is large or was asked to, else through it with a flush. */
static void copied(void *to, size_t size, unsigned flags) {
  char place[PLACE_BYTES];
  if (!size || !enter(place, sizeof place, 1)) return;
  struct region *region = region_of(to);
  if (!region) {
    outside++;
  } else {
    int is_past = !(flags & NOFLUSH) && ((flags & NONTEMPORAL) || size >= LARGE);
    uint64_t offset = region->offset + (uint64_t)((uint8_t *)to - region->start);
    stored(region->file, is_past ? "ntstore" : "changed", to, offset, size, place);
    compare_regions(place); /* stores before the copy; these come behind it, as they may */
    if (!is_past && !(flags & NOFLUSH)) flushed(to, size, place);
    if (!(flags & (NODRAIN | NOFLUSH))) row("sfence", 0, 0, NULL, place);
  }
  leave();
}

/* Records the stores before a copy, so that they come before it. */
static void before_copy(void) { persist(NULL, 0, 0, 0); }

EXPORT int pmem_is_pmem(const void *address, size_t size) { return (void)address, (void)size, 1; }
EXPORT int pmem_has_auto_flush(void) { return 0; }
EXPORT void pmem_flush(const void *address, size_t size) { persist(address, size, 1, 0); }
EXPORT void pmem_deep_flush(const void *address, size_t size) { persist(address, size, 1, 0); }
EXPORT void pmem_drain(void) { persist(NULL, 0, 0, 1); }
EXPORT int pmem_deep_drain(const void *address, size_t size) { return (void)address, (void)size, persist(NULL, 0, 0, 1), 0; }
EXPORT void pmem_persist(const void *address, size_t size) { persist(address, size, 1, 1); }
EXPORT int pmem_deep_persist(const void *address, size_t size) { return persist(address, size, 1, 1), 0; }
EXPORT int pmem_msync(const void *address, size_t size) { return persist(address, size, 1, 1), 0; }

EXPORT void *pmem_memmove(void *to, const void *from, size_t size, unsigned flags) {
  before_copy();
  memmove(to, from, size);
  copied(to, size, flags);
  return to;
}
EXPORT void *pmem_memcpy(void *to, const void *from, size_t size, unsigned flags) { return pmem_memmove(to, from, size, flags); }
EXPORT void *pmem_memset(void *to, int byte, size_t size, unsigned flags) {
  before_copy();
  memset(to, byte, size);
  copied(to, size, flags);
  return to;
}
EXPORT void *pmem_memmove_persist(void *to, const void *from, size_t size) { return pmem_memmove(to, from, size, 0); }
EXPORT void *pmem_memcpy_persist(void *to, const void *from, size_t size) { return pmem_memmove(to, from, size, 0); }
EXPORT void *pmem_memset_persist(void *to, int byte, size_t size) { return pmem_memset(to, byte, size, 0); }
EXPORT void *pmem_memmove_nodrain(void *to, const void *from, size_t size) { return pmem_memmove(to, from, size, NODRAIN); }
EXPORT void *pmem_memcpy_nodrain(void *to, const void *from, size_t size) { return pmem_memmove(to, from, size, NODRAIN); }
EXPORT void *pmem_memset_nodrain(void *to, int byte, size_t size) { return pmem_memset(to, byte, size, NODRAIN); }

/* Begins a section with a name; include/pmem_record.h calls it if it is there. */
EXPORT void pmem_record_mark(const char *name) {
  char place[PLACE_BYTES], text[256];
  if (!enter(place, sizeof place, out >= 0)) return;
  compare_regions(place);
  int at = 0;
  for (; name[at] && at < 200; at++) text[at] = name[at] == ',' || name[at] == '"' || (unsigned char)name[at] < 32 ? ' ' : name[at];
  text[at] = 0;
  put("mark,,,", 7);
  put(text, (size_t)at);
  put(",", 1);
  put(place, strlen(place));
  put("\n", 1);
  leave();
}
