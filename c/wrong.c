/*
 * Calls in place of the library's, of which json_patch_update asks for memory twice and breaks the rule
 * of one_call.c in one way, WAY: c/refuse asks that one_call passes the way that is right and finds each
 * of the others.
 */
#include "json_patch.h"

#include <stdlib.h>

enum { IS_RIGHT, SWALLOWS, IS_ALWAYS_SHORT, CHANGES, WRITES, TELLS, LEAKS, CLOSES };

static json_patch_status told(json_patch_report *report, json_patch_status status, size_t size) {
    *report = (json_patch_report){size, 0, 0, 0};
    return status;
}

/* A document that is kept is a block with one character. */
json_patch_status json_patch_open(json_patch_document *document, const char *text, size_t length,
                                  const json_patch_limits *limits, json_patch_report *report) {
    char *block = malloc(1);
    (void)limits;
    if (!block)
        return told(report, JSON_PATCH_NO_MEMORY, 0);
    *block = length ? *text : '-';
    free(document->at);
    document->at = block;
    return told(report, JSON_PATCH_OK, 0);
}

void json_patch_close(json_patch_document *document) {
    free(document->at);
    document->at = NULL;
}

json_patch_status json_patch_text(json_patch_document *document, char *out, size_t out_length,
                                  json_patch_report *report) {
    if (!document->at)
        return told(report, JSON_PATCH_CLOSED, 0);
    if (out_length == 0)
        return told(report, JSON_PATCH_NO_ROOM, 1);
    *out = *(char *)document->at;
    return told(report, JSON_PATCH_OK, 1);
}

/* Puts the first character of the patch in place of the document, and writes it. */
json_patch_status json_patch_update(json_patch_document *document, const char *patch,
                                    size_t patch_length, char *out, size_t out_length,
                                    json_patch_report *report) {
    void *first = malloc(1), *second = malloc(2);
    int is_short = !first || !second || WAY == IS_ALWAYS_SHORT;
    if (!is_short || WAY != LEAKS)
        free(first);
    free(second);
    if (is_short && WAY != SWALLOWS) {
        if (WAY == CHANGES)
            *(char *)document->at = '!';
        if (WAY == CLOSES)
            json_patch_close(document);
        if (WAY == WRITES)
            *out = '!';
        return told(report, JSON_PATCH_NO_MEMORY, WAY == TELLS);
    }
    if (patch_length && out_length)
        *out = *(char *)document->at = *patch;
    return told(report, JSON_PATCH_OK, 1);
}

#define UNUSED_TEXTS(name)                                                                          \
    json_patch_status name(const char *document, size_t document_length, const char *patch,         \
                           size_t patch_length, const json_patch_limits *limits, char *out,         \
                           size_t out_length, json_patch_report *report) {                          \
        (void)document, (void)document_length, (void)patch, (void)patch_length, (void)limits, (void)out; \
        return told(report, JSON_PATCH_CLOSED, out_length);                                         \
    }

UNUSED_TEXTS(json_patch_apply)
UNUSED_TEXTS(json_patch_merge)
UNUSED_TEXTS(json_patch_merge_diff)
UNUSED_TEXTS(json_patch_merge_join)
UNUSED_TEXTS(json_patch_value)

json_patch_status json_patch_record(const char *document, size_t document_length, const char *patch,
                                    size_t patch_length, const json_patch_limits *limits, char *out,
                                    size_t out_length, char *inverse, size_t inverse_length,
                                    json_patch_report *report) {
    (void)inverse, (void)inverse_length;
    return json_patch_apply(document, document_length, patch, patch_length, limits, out, out_length, report);
}

json_patch_status json_patch_diff(const char *from, size_t from_length, const char *to, size_t to_length,
                                  const json_patch_limits *limits, unsigned flags, char *out,
                                  size_t out_length, json_patch_report *report) {
    (void)flags;
    return json_patch_apply(from, from_length, to, to_length, limits, out, out_length, report);
}

json_patch_status json_patch_check(const char *patch, size_t patch_length,
                                   json_patch_report *report) {
    (void)patch;
    return told(report, JSON_PATCH_CLOSED, patch_length);
}

json_patch_status json_patch_update_recorded(json_patch_document *document, const char *patch,
                                             size_t patch_length, char *out, size_t out_length,
                                             json_patch_report *report) {
    return json_patch_update(document, patch, patch_length, out, out_length, report);
}

json_patch_status json_patch_update_merged(json_patch_document *document, const char *patch,
                                           size_t patch_length, json_patch_report *report) {
    char out[1];
    return json_patch_update(document, patch, patch_length, out, sizeof out, report);
}

json_patch_status json_patch_inverse(json_patch_document *document, char *out, size_t out_length,
                                     json_patch_report *report) {
    return json_patch_text(document, out, out_length, report);
}

json_patch_status json_patch_diff_to(json_patch_document *document, const char *text, size_t length,
                                     char *out, size_t out_length, json_patch_report *report) {
    return json_patch_update(document, text, length, out, out_length, report);
}

json_patch_status json_patch_value_at(json_patch_document *document, const char *pointer,
                                      size_t pointer_length, char *out, size_t out_length,
                                      json_patch_report *report) {
    return *pointer && pointer_length ? json_patch_text(document, out, out_length, report)
                                      : told(report, JSON_PATCH_NOTHING, 0);
}

json_patch_status json_patch_undo(json_patch_document *document, json_patch_report *report) {
    return told(report, document->at ? JSON_PATCH_NOTHING : JSON_PATCH_CLOSED, 0);
}
