/* ---- The program: standard input, standard output and the arguments. */
#if defined __unix__ || defined __APPLE__
#include <errno.h>
#include <signal.h>
#include <unistd.h>

OF_MODULE u64 host_read(u8 *m, u32 file, u64 to, u64 room) {
    ssize_t count;
    check(m, to, room);
    do count = read((int)file, m + to, room); while (count < 0 && errno == EINTR);
    return (u64)(i64)count;
}

OF_MODULE u64 host_write(u8 *m, u32 file, u64 from, u64 len) {
    ssize_t count;
    check(m, from, len);
    do count = write((int)file, m + from, len); while (count < 0 && errno == EINTR);
    return (u64)(i64)count;
}

/* A pipe that nobody reads is a write that fails: status 4, as in the native program. */
static void begin_streams(void) { signal(SIGPIPE, SIG_IGN); }
#else
#ifdef _WIN32
#include <fcntl.h>
#include <io.h>
static void begin_streams(void) { _setmode(_fileno(stdin), _O_BINARY); _setmode(_fileno(stdout), _O_BINARY); }
#else
static void begin_streams(void) {}
#endif

/* Up to the end of a line, so that input line by line gets its answers line by line. */
OF_MODULE u64 host_read(u8 *m, u32 file, u64 to, u64 room) {
    u64 count = 0;
    int byte = 0;
    (void)file;
    check(m, to, room);
    while (count < room && byte != '\n' && (byte = getc(stdin)) != EOF) m[to + count++] = (u8)byte;
    return count == 0 && ferror(stdin) ? ~(u64)0 : count;
}

OF_MODULE u64 host_write(u8 *m, u32 file, u64 from, u64 len) {
    (void)file;
    check(m, from, len);
    return fwrite(m + from, 1, len, stdout) == len && fflush(stdout) == 0 ? len : ~(u64)0;
}
#endif

static int argument_count;
static char **arguments;

/* The number of arguments, if the place is -1; else the argument there: its length, -1 if there is none, -2 if there is too little room. */
OF_MODULE u64 host_arg(u8 *m, u64 place, u64 to, u64 room) {
    size_t len;
    if (place == ~(u64)0) return (u64)argument_count;
    if (place >= (u64)argument_count) return ~(u64)0;
    len = strlen(arguments[place]);
    if (len > room) return ~(u64)1;
    put_bytes(m, to, arguments[place], len);
    return len;
}

/* Ends the output with the line of a stop. As in the program, a line that could not be written is status 4, unless the arguments are invalid. */
static int stopped(const char *line, int status) {
    int is_written = fputs(line, stdout) >= 0 && fflush(stdout) == 0;
    return is_written || status == 2 ? status : 4;
}

/* Whether an argument is not ASCII. The program refuses every such argument. One that is not UTF-8 would not reach it: the module's start ends
 * with status 1 and prints nothing, as the native program does. */
static int is_foreign(const char *word) {
    while (*word != '\0' && ((unsigned)*word & 128u) == 0) word++;
    return *word != '\0';
}

int main(int count, char **words) {
    static char name[] = "pmem"; /* its file's name may be anything */
    u8 *m;
    begin_streams();
    for (int i = 1; i < count; i++)
        if (is_foreign(words[i])) return stopped("stop words\n", 2);
    m = new_instance(PMEM_INSTANCE_BYTES);
    if (m == NULL) return stopped("stop memory\n", 1);
    if (count > 0) words[0] = name;
    argument_count = count;
    arguments = words;
    return (int)in_run_main(m);
}
