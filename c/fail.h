/* How a test ends that fails. */
#include "json_patch.h"

#include <stdarg.h>
#include <stdio.h>
#include <stdlib.h>
#include <string.h>

static void fail(const char *format, ...) {
    va_list parts;
    va_start(parts, format);
    fputs("c: ", stderr);
    vfprintf(stderr, format, parts);
    fputc('\n', stderr);
    va_end(parts);
    exit(1);
}
