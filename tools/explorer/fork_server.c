/* Loaded before a program that reads commands on standard input and answers them on standard output (LD_PRELOAD), this
   makes it a server of its states. It can be asked what it would answer in its present state, and then goes on from there.
   Nothing of the program changes except what its reads of standard input give, and when its output is handed on. That input
   holds frames. A frame is a letter, a number, a line end, and as many bytes as the number says:
     L  the program gets the bytes;
     F  the program gets the bytes, and when it has answered them its state is again what it was before; the first has some.
   The program answers what it got before it reads again. So its output is in order, and a program that reads on behind the
   bytes of F has answered all of them. To the output are added, each on a line that begins with the byte 1: H before the
   first read, F before such an answer, E and the wait status after it (0 if it read on).

   How the state is put back: before F a snapshot of the memory is taken, and after it the snapshot is restored. All pages
   that can be written are write-protected. The first write to a page faults, and from then on the page belongs to the
   snapshots. (From time to time all are protected again, so that a snapshot has what was written lately.) For that the
   program must have one thread, and map no memory while it answers; an option makes malloc use only the heap.
   Otherwise a fork of the program answers, and this one waits for it. A fork also answers with another C library than
   glibc, and if FORK_SERVER_FORKS is in the environment. A program that was found to map memory while it answered is
   ended with status 98: it must be asked again, by forks. */
#define _GNU_SOURCE
#include <dlfcn.h>
#include <errno.h>
#include <fcntl.h>
#include <stdint.h>
#include <stdio.h>
#include <stdlib.h>
#include <string.h>
#include <sys/mman.h>
#include <sys/types.h>
#include <sys/wait.h>
#include <time.h>
#include <unistd.h>
#ifdef __linux__
#include <signal.h>
#include <sys/prctl.h>
#include <sys/stat.h>
#endif
#if defined __linux__ && defined __GLIBC__
#include <malloc.h>
#include <stdarg.h>
#include <sys/syscall.h>
#include <sys/resource.h>
#include <ucontext.h>
#define CAN_RESTORE 1
#else
#define CAN_RESTORE 0
#endif

/* Statuses with which the program is ended. */
enum { MAPPED = 98, BROKEN = 99 };
/* OF_THREAD: pages before and after those of the thread's own variables. MOST_COPIED: pages that are copied before all are
   protected again. LATENCY: nanoseconds after which an answer is written. */
enum { OWN = 3, MOST_AREAS = 256, MOST_PAGES = 1 << 15, OF_THREAD = 32, MOST_COPIED = 1 << 14, STACK_PAGES = 256,
    LATENCY = 10000000 };
/* How it answers. */
enum { BY_FORKS, IN_PLACE, UNKNOWN };

struct area {
    char *from, *to;
};

/* All that is the library's own: it is in separate memory, which no snapshot has. */
static struct server {
    char input[1 << 16];
    size_t have, at, left; /* bytes of the input that were read and taken, and those of a frame L that are left */
    char output[1 << 16];
    size_t telling;        /* bytes of the output that aren't written yet */
    size_t length, taken;  /* while F is answered: its bytes, and how many were taken */
    int is_asked, is_fork, has_snapshot, is_changed, way, status;
    char *to;              /* what the program asked for */
    size_t room;
    ssize_t count;
    size_t page;           /* bytes of a page */
    struct timespec flushed;
    struct area own[OWN];  /* this, the snapshot, and the bytes of F */
#if CAN_RESTORE
    ucontext_t program, server, snapshot_program;
    char *snapshot_to;
    size_t snapshot_room;
    char *end;             /* that of the heap */
    long size;             /* pages of all memory */
    int file;
    size_t copied;
    struct area areas[MOST_AREAS];
    char *pages[MOST_PAGES]; /* those of the snapshot */
    size_t area_count, page_count;
    char maps[1 << 16];
    char stack[1 << 16], faults[1 << 16];
#endif
} *s;

static ssize_t (*read_from)(int, void *, size_t);
static ssize_t (*write_to)(int, const void *, size_t);
static void *(*next_mmap)(void *, size_t, int, int, int, off_t);
static int (*next_munmap)(void *, size_t);
static int (*next_mprotect)(void *, size_t, int);

static void end(int status)
{
    _exit(status);
}

static void write_all(const char *text, size_t size)
{
    while (size) {
        ssize_t count = write_to(1, text, size);
        if (count < 0 && errno == EINTR)
            continue;
        if (count <= 0)
            end(BROKEN);
        text += count;
        size -= (size_t)count;
    }
}

static void flush(void)
{
    size_t size = s->telling;
    s->telling = 0;
    write_all(s->output, size);
}

static void put(const char *text, size_t size)
{
    if (size > sizeof s->output - s->telling)
        flush();
    if (size > sizeof s->output) {
        write_all(text, size);
        return;
    }
    memcpy(s->output + s->telling, text, size);
    s->telling += size;
}

static int fill(void)
{
    ssize_t count;
    flush();
    do
        count = read_from(0, s->input, sizeof s->input);
    while (count < 0 && errno == EINTR);
    s->have = count > 0 ? (size_t)count : 0;
    s->at = 0;
    return s->have > 0;
}

static int letter(void)
{
    return s->at < s->have || fill() ? (unsigned char)s->input[s->at++] : -1;
}

static size_t number(void)
{
    size_t value = 0;
    int c;
    while ((c = letter()) >= '0' && c <= '9' && value < SIZE_MAX / 16)
        value = value * 10 + (size_t)(c - '0');
    if (c != '\n')
        end(BROKEN);
    return value;
}

/* Separate memory, which no snapshot has: `own` says which. */
static char *map(int own, size_t size)
{
    void *at = next_mmap(NULL, size, PROT_READ | PROT_WRITE, MAP_PRIVATE | MAP_ANONYMOUS | MAP_NORESERVE, -1, 0);
    if (at == MAP_FAILED)
        end(BROKEN);
    if (own) {
        s->own[own].from = at;
        s->own[own].to = (char *)at + size;
    }
    return at;
}

static void read_script(size_t size)
{
    struct area *script = &s->own[2];
    if (!script->from || (size_t)(script->to - script->from) < size) {
        if (script->from)
            next_munmap(script->from, (size_t)(script->to - script->from));
        map(2, (size / s->page + 16) * s->page);
        s->has_snapshot = 0;
    }
    for (s->length = 0; s->length < size;) {
        if (s->at == s->have && !fill())
            end(BROKEN);
        size_t some = s->have - s->at < size - s->length ? s->have - s->at : size - s->length;
        memcpy(script->from + s->length, s->input + s->at, some);
        s->at += some;
        s->length += some;
    }
    s->taken = 0;
}

#if CAN_RESTORE
/* The first write to a protected page. */
static void faulted(int signal_number, siginfo_t *info, void *context)
{
    char *page = (char *)((uintptr_t)info->si_addr & ~(uintptr_t)(s->page - 1));
    (void)context;
    for (size_t i = 0; i < s->area_count && s->page_count < MOST_PAGES; i++)
        if (info->si_code == SEGV_ACCERR && s->areas[i].from <= page && page < s->areas[i].to) {
            memcpy(s->own[1].from + s->page_count * s->page, page, s->page);
            s->pages[s->page_count++] = page;
            if (next_mprotect(page, s->page, PROT_READ | PROT_WRITE) == 0)
                return;
        }
    signal(signal_number, SIG_DFL);
}

/* The pages of all memory of the program. */
static long memory(void)
{
    char text[64];
    ssize_t count = pread(s->file, text, sizeof text - 1, 0);
    text[count > 0 ? count : 0] = 0;
    return atol(text);
}

/* A stretch of memory that can be written, without what is the library's own from there on. */
static int add(char *from, char *to, int own)
{
    for (; own < OWN; own++)
        if (s->own[own].from < to && from < s->own[own].to)
            return (from >= s->own[own].from || add(from, s->own[own].from, own + 1))
                && (s->own[own].to >= to || add(s->own[own].to, to, own + 1));
    if (s->area_count == MOST_AREAS)
        return 0;
    s->areas[s->area_count].from = from;
    s->areas[s->area_count++].to = to;
    return 1;
}

/* Finds the memory that can be written; 0 if it can't be known. */
static int find_areas(void)
{
    size_t have = 0;
    ssize_t count;
    int file = open("/proc/self/maps", O_RDONLY | O_CLOEXEC);
    if (file < 0)
        return 0;
    for (size_t i = 0; i < s->area_count; i++)
        if (next_mprotect(s->areas[i].from, (size_t)(s->areas[i].to - s->areas[i].from), PROT_READ | PROT_WRITE))
            return 0;
    while ((count = read_from(file, s->maps + have, sizeof s->maps - 1 - have)) > 0)
        have += (size_t)count;
    close(file);
    s->maps[have] = 0;
    s->area_count = 0;
    if (count < 0 || have == sizeof s->maps - 1)
        return 0;
    for (char *line = s->maps; *line; line = strchr(line, '\n') + 1) {
        char *rest;
        uintptr_t from = strtoull(line, &rest, 16), to = strtoull(rest + 1, &rest, 16);
        if (rest[1] && rest[2] == 'w' && (strncmp(rest, " rw-p ", 6) || !add((char *)from, (char *)to, 0)))
            return 0;
        if (!strchr(line, '\n'))
            return 0;
    }
    return 1;
}

/* Protects a stretch of memory; 0 if that can't be done. */
static int close_area(char *from, char *to)
{
    return from >= to || next_mprotect(from, (size_t)(to - from), PROT_READ) == 0;
}

/* Protects all pages except those around the thread's own variables, in which the system writes; 0 if that can't be done. */
static int protect(void)
{
    char *thread = (char *)((uintptr_t)&errno & ~(uintptr_t)(s->page - 1)), *first = thread - OF_THREAD * s->page;
    char *last = thread + OF_THREAD * s->page;
    s->copied = 0;
    s->page_count = 0;
    s->end = sbrk(0);
    for (size_t i = 0; i < s->area_count; i++) {
        struct area each = s->areas[i];
        char *from = each.from > first ? each.from : first, *to = each.to < last ? each.to : last;
        if (each.from <= thread && thread < each.to) {
            for (char *page = from; page < to; page += s->page)
                s->pages[s->page_count++] = page;
            if (!close_area(each.from, from) || !close_area(to, each.to))
                return 0;
        } else if (!close_area(each.from, each.to))
            return 0;
    }
    s->size = memory();
    return s->page_count > 0 && s->size > 0;
}

/* Which way it answers: in place if snapshots are possible. */
static int begin_snapshots(void)
{
    struct sigaction action = {0}, before;
    stack_t stack = {0}, stack_before;
    struct stat threads;
    if (getenv("FORK_SERVER_FORKS") || stat("/proc/self/task", &threads) || threads.st_nlink != 3)
        return BY_FORKS;
    if (sigaction(SIGSEGV, NULL, &before) || before.sa_handler != SIG_DFL || sigaltstack(NULL, &stack_before)
        || !(stack_before.ss_flags & SS_DISABLE))
        return BY_FORKS;
    s->file = open("/proc/self/statm", O_RDONLY | O_CLOEXEC);
    if (s->file < 0)
        return BY_FORKS;
    map(1, (size_t)MOST_PAGES * s->page);
    stack.ss_sp = s->faults;
    stack.ss_size = sizeof s->faults;
    action.sa_sigaction = faulted;
    action.sa_flags = SA_SIGINFO | SA_ONSTACK;
    if (sigaltstack(&stack, NULL) || sigaction(SIGSEGV, &action, NULL) || !find_areas())
        return BY_FORKS;
    if (!protect())
        end(MAPPED);
    return IN_PLACE;
}

/* Takes a snapshot, unless the last one still stands. */
static void take_snapshot(void)
{
    if (s->has_snapshot)
        return;
    if (s->copied > MOST_COPIED || s->is_changed || s->end != (char *)sbrk(0) || s->size != memory())
        if (!find_areas() || !protect())
            end(MAPPED);
    s->is_changed = 0;
    for (size_t i = 0; i < s->page_count; i++)
        memcpy(s->own[1].from + i * s->page, s->pages[i], s->page);
    s->copied += s->page_count;
    s->snapshot_program = s->program;
    s->snapshot_to = s->to;
    s->snapshot_room = s->room;
    s->has_snapshot = 1;
}

static void restore(void)
{
    char *now = sbrk(0);
    if (now != s->end && sbrk(s->end - now) == (void *)-1)
        end(MAPPED);
    for (size_t i = 0; i < s->page_count; i++)
        memcpy(s->pages[i], s->own[1].from + i * s->page, s->page);
    s->copied += s->page_count;
    if (s->is_changed || memory() != s->size)
        end(MAPPED);
    s->program = s->snapshot_program;
    s->to = s->snapshot_to;
    s->room = s->snapshot_room;
}
#else
static int begin_snapshots(void) { return BY_FORKS; }
static void take_snapshot(void) { }
static void restore(void) { }
#endif

/* The answer of F has ended, with this wait status. */
static void ended(int status)
{
    char text[40];
    struct timespec now;
    put(text, (size_t)snprintf(text, sizeof text, "\1E%d\n", status));
    if (clock_gettime(CLOCK_MONOTONIC, &now) || now.tv_sec != s->flushed.tv_sec
        || now.tv_nsec - s->flushed.tv_nsec > LATENCY) {
        flush();
        s->flushed = now;
    }
}

static void answer_by_fork(void)
{
    int status = 0;
    flush();
    pid_t child = fork();
    if (child < 0)
        end(BROKEN);
    if (child == 0) {
#ifdef __linux__
        prctl(PR_SET_PDEATHSIG, SIGKILL);
#endif
        s->is_fork = s->is_asked = 1;
        return;
    }
    while (waitpid(child, &status, 0) < 0)
        if (errno != EINTR)
            end(BROKEN);
    ended(status);
}

static void answer(size_t size)
{
    read_script(size);
    put("\1F\n", 3);
    if (s->way == UNKNOWN)
        s->way = begin_snapshots();
    if (s->way == BY_FORKS) {
        answer_by_fork();
        return;
    }
    take_snapshot();
    s->is_asked = 1;
    s->status = 0;
}

static void end_answer(void)
{
    if (s->is_fork) {
        flush();
        end(0);
    }
    restore();
    s->is_asked = 0;
    ended(s->status);
}

/* Gives the program some of these bytes. */
static ssize_t give(const char *from, size_t size)
{
    size_t some = size < s->room ? size : s->room;
    memcpy(s->to, from, some);
    return (ssize_t)some;
}

/* What the program's read of standard input gives. */
static ssize_t next(void)
{
    ssize_t count;
    for (;;) {
        if (s->is_asked && s->taken < s->length && !s->status) {
            count = give(s->own[2].from + s->taken, s->length - s->taken);
            s->taken += (size_t)count;
            return count;
        }
        if (s->is_asked)
            end_answer();
        else if (s->left) {
            if (s->at == s->have && !fill())
                return 0;
            count = give(s->input + s->at, s->have - s->at < s->left ? s->have - s->at : s->left);
            s->at += (size_t)count;
            s->left -= (size_t)count;
            s->has_snapshot = 0;
            return count;
        } else {
            int kind = letter();
            if (kind < 0)
                return 0;
            size_t size = number();
            if (kind == 'L')
                s->left = size;
            else if (kind == 'F' && (size || s->way != UNKNOWN))
                answer(size);
            else
                end(BROKEN);
        }
    }
}

#if CAN_RESTORE
/* As swapcontext, which a program compiled with AddressSanitizer warns of on standard error. */
static void change(ucontext_t *from, const ucontext_t *to)
{
    volatile int is_back = 0;
    getcontext(from);
    if (!is_back) {
        is_back = 1;
        setcontext(to);
    }
}

/* The server's thread of control, with its own stack: the program stands still while a snapshot is taken or restored. */
static void serve(void)
{
    for (;;) {
        s->count = next();
        change(&s->server, &s->program);
    }
}

/* The program ends: while F is answered in place that is the answer's end. */
static void exits(int status, void *unused)
{
    (void)unused;
    if (s->is_asked && !s->is_fork) {
        s->status = (status & 255) << 8;
        if (s->status == 0)
            s->taken = s->length;
        change(&s->program, &s->server);
    }
    flush();
}

/* The stack has room before the first answer, so that it needn't grow in one. */
static void make_room(size_t size)
{
    struct rlimit limit;
    if (getrlimit(RLIMIT_STACK, &limit))
        return;
    volatile char room[limit.rlim_cur / 4 < size ? limit.rlim_cur / 4 : size];
    room[0] = 0;
    (void)room[0];
}
#endif

static void find_calls(void)
{
    read_from = (ssize_t (*)(int, void *, size_t))dlsym(RTLD_NEXT, "read");
    write_to = (ssize_t (*)(int, const void *, size_t))dlsym(RTLD_NEXT, "write");
    next_mmap = (void *(*)(void *, size_t, int, int, int, off_t))dlsym(RTLD_NEXT, "mmap");
    next_munmap = (int (*)(void *, size_t))dlsym(RTLD_NEXT, "munmap");
    next_mprotect = (int (*)(void *, size_t, int))dlsym(RTLD_NEXT, "mprotect");
}

static void begin(void)
{
    size_t page = (size_t)sysconf(_SC_PAGESIZE), size = (sizeof *s + page - 1) / page * page;
    s = (struct server *)map(0, size);
    s->page = page;
    s->own[0].from = (char *)s;
    s->own[0].to = (char *)s + size;
    s->way = CAN_RESTORE ? UNKNOWN : BY_FORKS;
    put("\1H\n", 3);
#if CAN_RESTORE
    mallopt(M_MMAP_MAX, 0);
    mallopt(M_TRIM_THRESHOLD, -1);
    make_room(page * STACK_PAGES);
    on_exit(exits, NULL);
    getcontext(&s->server);
    s->server.uc_stack.ss_sp = s->stack;
    s->server.uc_stack.ss_size = sizeof s->stack;
    makecontext(&s->server, serve, 0);
#endif
}

ssize_t read(int file, void *to, size_t room)
{
    if (!read_from)
        find_calls();
    if (file != 0)
        return read_from(file, to, room);
    if (!s)
        begin();
    s->to = to;
    s->room = room;
#if CAN_RESTORE
    change(&s->program, &s->server);
    return s->count;
#else
    return next();
#endif
}

/* Until a fork answers the output is handed on when there is no more input to take. */
ssize_t write(int file, const void *from, size_t size)
{
    if (!write_to)
        find_calls();
    if (file != 1 || !s)
        return write_to(file, from, size);
    if (s->way == BY_FORKS) {
        flush();
        write_all(from, size);
    } else
        put(from, size);
    return (ssize_t)size;
}

#if CAN_RESTORE
/* The program's own calls that map memory, or change what may be done with it. What such memory held isn't known to a snapshot. */
static void change_memory(void)
{
    if (!next_mmap)
        find_calls();
    if (s)
        s->is_changed = 1;
}

void *mmap(void *at, size_t size, int access, int flags, int file, off_t from)
{
    change_memory();
    return next_mmap(at, size, access, flags, file, from);
}

void *mmap64(void *at, size_t size, int access, int flags, int file, off64_t from)
{
    change_memory();
    return next_mmap(at, size, access, flags, file, (off_t)from);
}

int munmap(void *at, size_t size)
{
    change_memory();
    return next_munmap(at, size);
}

int mprotect(void *at, size_t size, int access)
{
    change_memory();
    return next_mprotect(at, size, access);
}

int madvise(void *at, size_t size, int advice)
{
    change_memory();
    return (int)syscall(SYS_madvise, at, size, advice);
}

void *mremap(void *at, size_t size, size_t room, int flags, ...)
{
    va_list more;
    va_start(more, flags);
    void *to = flags & MREMAP_FIXED ? va_arg(more, void *) : NULL;
    va_end(more);
    change_memory();
    return (void *)syscall(SYS_mremap, at, size, room, flags, to);
}
#endif
