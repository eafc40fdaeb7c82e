/* Texts that are made piece by piece. */
#include "fail.h"

typedef struct {
    char *bytes;
    size_t length, room;
} text;

/* Such a text's bytes and length, as a call takes them. */
#define OF(text) (text).bytes, (text).length

static void put(text *to, const char *format, ...) {
    va_list parts;
    va_start(parts, format);
    char piece[128];
    int length = vsnprintf(piece, sizeof piece, format, parts);
    va_end(parts);
    if (to->length + (size_t)length + 1 > to->room) {
        to->room = 2 * (to->room + (size_t)length + 1);
        to->bytes = realloc(to->bytes, to->room);
        if (!to->bytes)
            fail("no memory");
    }
    memcpy(to->bytes + to->length, piece, (size_t)length + 1);
    to->length += (size_t)length;
}
