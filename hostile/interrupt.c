/*
 * Preloaded into a program, this library interrupts its reads of standard input: the first
 * INTERRUPTIONS of them answer EINTR. At the program's end a line with the number of reads goes to
 * standard error.
 */
#define _GNU_SOURCE
#include <errno.h>
#include <stdio.h>
#include <stdlib.h>
#include <sys/syscall.h>
#include <unistd.h>

static unsigned long interruptions, reads;

__attribute__((constructor)) static void begin(void) {
    const char *number = getenv("INTERRUPTIONS");
    interruptions = number ? strtoul(number, NULL, 10) : 0;
}

__attribute__((destructor)) static void report(void) {
    char line[32];
    int length = snprintf(line, sizeof line, "reads %lu\n", reads);
    syscall(SYS_write, STDERR_FILENO, line, (size_t)length);
}

ssize_t read(int descriptor, void *into, size_t size) {
    if (descriptor == STDIN_FILENO && ++reads <= interruptions) {
        errno = EINTR;
        return -1;
    }
    return syscall(SYS_read, descriptor, into, size);
}
