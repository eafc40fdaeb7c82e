/* The rows of cases.json, as the tests read them. */
#include "fail.h"

typedef enum { APPLY, RECORD, MERGE, DIFF, MOVING_DIFF, GUARDED_DIFF, MERGE_DIFF, MERGE_JOIN, VALUE } call;

typedef struct {
    char *bytes;
    size_t length;
} text;

/* A row of cases.json: what comes of a call with a document and a patch, or with the other text that it takes.
   Of RECORD `written` is an array of the new text and of the inverse. */
typedef struct {
    call call;
    text document, patch;
    json_patch_status status;
    size_t operation;
    json_patch_kind kind;
    text written;
    const json_patch_limits *limits;
} row;

/* ---- reading them: they are JSON, with one row a line */

static char *at;

static void skip(char mark) {
    if (*at++ != mark)
        fail("cases.json: no %c before %.40s", mark, at);
}

static char read_character(void) {
    unsigned code;
    if (*at != '\\')
        return *at++;
    at += 2;
    switch (at[-1]) {
    case 'n':
        return '\n';
    case 't':
        return '\t';
    case 'r':
        return '\r';
    case 'b':
        return '\b';
    case 'f':
        return '\f';
    case 'u':
        if (sscanf(at, "%4x", &code) != 1 || code > 127)
            fail("cases.json: an escape before %.40s", at);
        at += 4;
        return (char)code;
    default:
        return at[-1];
    }
}

/* A text, with a zero after it that isn't counted. */
static text read_text(void) {
    text read = {NULL, 0};
    skip('"');
    read.bytes = malloc(strlen(at));
    if (!read.bytes)
        fail("no memory");
    while (*at != '"')
        read.bytes[read.length++] = read_character();
    read.bytes[read.length] = 0;
    skip('"');
    return read;
}

static size_t read_number(void) {
    size_t number = strtoul(at, &at, 10);
    skip(',');
    return number;
}

static call named(const char *name) {
    static const char *const names[] = {"apply",       "record",       "merge",      "diff",
                                        "moving_diff", "guarded_diff", "merge_diff", "merge_join"};
    for (size_t i = 0; i < sizeof names / sizeof *names; i++)
        if (strcmp(name, names[i]) == 0)
            return (call)i;
    fail("cases.json: there is no call %s", name);
    return APPLY;
}

static row read_row(void) {
    row read;
    text name;
    skip('[');
    name = read_text();
    read.call = named(name.bytes);
    free(name.bytes);
    skip(',');
    read.document = read_text();
    skip(',');
    read.patch = read_text();
    skip(',');
    read.status = (json_patch_status)read_number();
    read.operation = read_number();
    read.kind = (json_patch_kind)read_number();
    read.written = read_text();
    read.limits = NULL;
    skip(']');
    return read;
}

static char *whole_file(const char *name) {
    static char content[1 << 20];
    FILE *file = fopen(name, "rb");
    if (!file)
        fail("%s can't be read", name);
    content[fread(content, 1, sizeof content - 1, file)] = 0;
    fclose(file);
    return content;
}

/* Hands each row of a file to a test. */
static void for_each_row(const char *name, void test(const row *)) {
    at = whole_file(name);
    skip('[');
    do {
        skip('\n');
        row row = read_row();
        test(&row);
        free(row.document.bytes);
        free(row.patch.bytes);
        free(row.written.bytes);
    } while (*at++ == ',');
}
