/*
 * Preloaded into a program, this library runs it many times from one start: first with every request
 * for memory granted, and then with each request refused in turn, alone and with all after it.
 *
 * Requests are counted from the program's first read of standard input, where the process is copied
 * for each run, to its first write to standard error. For each run the library writes to standard
 * output a line of seven numbers, and then what the run wrote to standard output and to standard
 * error:
 *
 *     NUMBER REST REQUESTS REFUSED STATUS OUT ERR
 *
 * NUMBER is that of the request to be refused, counted from 1 (0 for none), and REST is 1 where each
 * later one is refused too. REQUESTS and REFUSED are how many there were: this library counts them
 * where it answers, in memory that it shares with the run, so they don't depend on what the run says.
 * STATUS is the run's status, or 128 and the signal that ended it; OUT and ERR are lengths in bytes.
 *
 * A request is a call of malloc, calloc, realloc, aligned_alloc, posix_memalign or memalign for at
 * least one byte, by a program of one thread. What stands on standard input has to be a file.
 */
#define _GNU_SOURCE
#include <errno.h>
#include <stdio.h>
#include <stdlib.h>
#include <sys/mman.h>
#include <sys/sendfile.h>
#include <sys/syscall.h>
#include <sys/wait.h>
#include <unistd.h>

extern void *__libc_malloc(size_t size);
extern void *__libc_calloc(size_t count, size_t size);
extern void *__libc_realloc(void *old, size_t size);
extern void *__libc_memalign(size_t alignment, size_t size);

enum { SECONDS = 60, FAILED = 70 };

static enum { BEFORE, WITHIN, AFTER } phase = BEFORE;

/* What a run refuses, and what it shares with the process that starts it. */
static unsigned long refuse_at;
static int refuses_rest;
static struct { unsigned long requests, refused; } *counts;

/* What a run writes to standard output and to standard error. */
static int outputs[2];

/* ---- the runs */

static void fail(void) {
    _exit(FAILED);
}

/* Begins a run, in a process of its own. */
static void begin(unsigned long number, int rest) {
    if (dup2(outputs[0], STDOUT_FILENO) < 0 || dup2(outputs[1], STDERR_FILENO) < 0)
        fail();
    alarm(SECONDS);
    refuse_at = number;
    refuses_rest = rest;
    phase = WITHIN;
}

/* Empties what the last run wrote, and goes back to the start of standard input. */
static void clear(void) {
    counts->requests = counts->refused = 0;
    for (int i = 0; i < 2; i++)
        if (ftruncate(outputs[i], 0) < 0 || lseek(outputs[i], 0, SEEK_SET) < 0)
            fail();
    lseek(STDIN_FILENO, 0, SEEK_SET);
}

static void send(int file, off_t length) {
    off_t sent = 0;
    while (sent < length)
        if (sendfile(STDOUT_FILENO, file, &sent, (size_t)(length - sent)) <= 0)
            fail();
}

/* Tells how a run ended. */
static void tell(unsigned long number, int rest, int ended) {
    int status = WIFSIGNALED(ended) ? 128 + WTERMSIG(ended) : WEXITSTATUS(ended);
    off_t out = lseek(outputs[0], 0, SEEK_END), err = lseek(outputs[1], 0, SEEK_END);
    dprintf(STDOUT_FILENO, "%lu %d %lu %lu %d %ld %ld\n", number, rest, counts->requests,
            counts->refused, status, (long)out, (long)err);
    send(outputs[0], out);
    send(outputs[1], err);
}

/* Makes a run, and tells whether this process is the run's. */
static int is_run(unsigned long number, int rest) {
    int ended;
    clear();
    pid_t run = fork();
    if (run == 0) {
        begin(number, rest);
        return 1;
    }
    if (run < 0 || waitpid(run, &ended, 0) != run)
        fail();
    tell(number, rest, ended);
    return 0;
}

/* Comes back in each run, and not in the process that starts them. */
static void run_each(void) {
    outputs[0] = memfd_create("standard output", 0);
    outputs[1] = memfd_create("standard error", 0);
    counts = mmap(NULL, sizeof *counts, PROT_READ | PROT_WRITE, MAP_SHARED | MAP_ANONYMOUS, -1, 0);
    if (outputs[0] < 0 || outputs[1] < 0 || counts == MAP_FAILED)
        fail();
    if (is_run(0, 0))
        return;
    unsigned long requests = counts->requests;
    for (unsigned long number = 1; number <= requests; number++)
        if (is_run(number, 0) || is_run(number, 1))
            return;
    _exit(0);
}

/* ---- the marks */

ssize_t read(int descriptor, void *into, size_t size) {
    if (descriptor == STDIN_FILENO && phase == BEFORE)
        run_each();
    return syscall(SYS_read, descriptor, into, size);
}

ssize_t write(int descriptor, const void *from, size_t size) {
    if (descriptor == STDERR_FILENO && phase == WITHIN)
        phase = AFTER;
    return syscall(SYS_write, descriptor, from, size);
}

ssize_t __write(int descriptor, const void *from, size_t size) {
    return write(descriptor, from, size);
}

/* ---- the requests */

/* Counts a request, and tells whether it is refused. */
static int is_refused(size_t size) {
    if (phase != WITHIN || size == 0)
        return 0;
    unsigned long number = ++counts->requests;
    if (refuse_at == 0 || number < refuse_at || (number > refuse_at && !refuses_rest))
        return 0;
    counts->refused++;
    errno = ENOMEM;
    return 1;
}

void *malloc(size_t size) {
    return is_refused(size) ? NULL : __libc_malloc(size);
}

void *calloc(size_t count, size_t size) {
    return is_refused(count && size) ? NULL : __libc_calloc(count, size);
}

void *realloc(void *old, size_t size) {
    return is_refused(size) ? NULL : __libc_realloc(old, size);
}

void *memalign(size_t alignment, size_t size) {
    return is_refused(size) ? NULL : __libc_memalign(alignment, size);
}

void *aligned_alloc(size_t alignment, size_t size) {
    return memalign(alignment, size);
}

int posix_memalign(void **into, size_t alignment, size_t size) {
    *into = memalign(alignment, size);
    return size && !*into ? ENOMEM : 0;
}
