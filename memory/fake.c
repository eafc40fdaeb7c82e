/*
 * A program that answers as json_patch_memory does, and in most of its ways wrongly: memory/run asks
 * that its check passes the one that is right and finds each of the others.
 *
 *     fake WAY
 */
#include <stdio.h>
#include <stdlib.h>
#include <string.h>
#include <unistd.h>

static int is(const char *way, const char *name) {
    return strcmp(way, name) == 0;
}

/* Asks for memory three times, and tells whether it got it each time. */
static int has_memory(void) {
    int has = 1;
    for (size_t size = 8; size <= 32; size *= 2) {
        void *volatile block = malloc(size);
        has = has && block;
        free(block);
    }
    return has;
}

static const char *answer(const char *way, int has) {
    if (is(way, "is always out of memory"))
        return "out of memory leaves 1";
    if (has)
        return is(way, "answers another") ? "done leaves 3" : "done leaves 2";
    if (is(way, "swallows"))
        return "done leaves 2";
    if (is(way, "changes the document"))
        return "out of memory leaves 2";
    if (is(way, "answers another out of memory"))
        return "path is invalid leaves 1";
    return "out of memory leaves 1";
}

int main(int count, char **words) {
    char byte;
    if (count != 2 || read(STDIN_FILENO, &byte, 1) < 0)
        return 64;
    int has = has_memory();
    if (!has && is(words[1], "ends by a signal"))
        abort();
    if (write(STDERR_FILENO, "\n", 1) != 1)
        return 64;
    puts(answer(words[1], has));
    return 0;
}
