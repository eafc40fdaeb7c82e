/*
 * Preloaded into a program, this library runs it on each variant of its input: cut off before each
 * byte, and with each other byte in place of each. A run is a copy of the process, which reads the
 * variant from memory; what it writes is counted and goes nowhere.
 *
 * A run ends well with status 0, one line on standard output and nothing on standard error, or with
 * status 1 or 2, nothing on standard output and a text on standard error (a path in it may hold line
 * feeds). A line for each run that ended in another way goes to standard output, and at last one with
 * the number of the others.
 */
#define _GNU_SOURCE
#include <stdio.h>
#include <string.h>
#include <sys/mman.h>
#include <sys/syscall.h>
#include <sys/wait.h>
#include <unistd.h>

enum { ROOM = 65536, SECONDS = 20, CUT = -1 };

struct stream {
    unsigned long bytes, feeds;
    int ends_line;
};

static unsigned char input[ROOM];
static size_t size, at;
static int is_run;
static struct stream *streams; /* by descriptor, shared with the run */
static unsigned long answered, refused;

static int is_text(const struct stream *stream) {
    return stream->bytes > 1 && stream->ends_line;
}

static void judge(size_t place, int byte, int status) {
    const struct stream *out = &streams[STDOUT_FILENO], *told = &streams[STDERR_FILENO];
    int number = WIFEXITED(status) ? WEXITSTATUS(status) : -1;
    if (number == 0 && is_text(out) && out->feeds == 1 && told->bytes == 0)
        answered++;
    else if ((number == 1 || number == 2) && out->bytes == 0 && is_text(told))
        refused++;
    else
        dprintf(STDOUT_FILENO, "at %zu, byte %d: wait status %d, %lu bytes written, %lu told\n", place,
                byte, status, out->bytes, told->bytes);
}

/* Makes a run and judges it; the copy that is the run goes on to the program. */
static void try_variant(size_t place, int byte) {
    memset(streams, 0, 3 * sizeof *streams);
    pid_t run = fork();
    int status;
    if (run == 0) {
        is_run = 1;
        alarm(SECONDS);
    } else if (run < 0 || waitpid(run, &status, 0) != run) {
        _exit(1);
    } else {
        judge(place, byte, status);
    }
}

static void try_place(size_t place, size_t whole) {
    size = place;
    try_variant(place, CUT);
    unsigned char was = input[place];
    for (int byte = 0; byte < 256 && !is_run; byte++) {
        size = whole;
        input[place] = (unsigned char)byte;
        if (byte != was)
            try_variant(place, byte);
    }
    if (!is_run)
        input[place] = was;
}

__attribute__((constructor)) static void begin(void) {
    size_t whole = 0;
    for (long n; (n = syscall(SYS_read, STDIN_FILENO, input + whole, ROOM - whole)) > 0;)
        whole += (size_t)n;
    streams = mmap(NULL, 3 * sizeof *streams, PROT_READ | PROT_WRITE, MAP_SHARED | MAP_ANONYMOUS, -1, 0);
    if (whole == ROOM || streams == MAP_FAILED)
        _exit(1);
    for (size_t place = 0; place < whole && !is_run; place++)
        try_place(place, whole);
    if (!is_run) {
        dprintf(STDOUT_FILENO, "answered %lu refused %lu\n", answered, refused);
        _exit(0);
    }
}

ssize_t read(int descriptor, void *into, size_t wanted) {
    if (!is_run || descriptor != STDIN_FILENO)
        return syscall(SYS_read, descriptor, into, wanted);
    size_t n = wanted < size - at ? wanted : size - at;
    memcpy(into, input + at, n);
    at += n;
    return (ssize_t)n;
}

ssize_t write(int descriptor, const void *from, size_t wanted) {
    if (!is_run || (descriptor != STDOUT_FILENO && descriptor != STDERR_FILENO))
        return syscall(SYS_write, descriptor, from, wanted);
    struct stream *stream = &streams[descriptor];
    const unsigned char *bytes = from;
    for (size_t i = 0; i < wanted; i++)
        stream->feeds += bytes[i] == '\n';
    stream->ends_line = wanted ? bytes[wanted - 1] == '\n' : stream->ends_line;
    stream->bytes += wanted;
    return (ssize_t)wanted;
}

ssize_t __write(int descriptor, const void *from, size_t wanted) {
    return write(descriptor, from, wanted);
}
