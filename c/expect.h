/* A row's call, with outputs of every length from 0 to past what it needs: all that it tells and writes is
   compared. */
#include "rows.h"

enum { GUARD = 8, UNTOUCHED = 0xa5 };

static unsigned long calls, statuses[JSON_PATCH_BAD_FLAGS + 1];

/* An output with room for so many bytes, for free. */
static char *untouched(size_t room) {
    char *output = malloc(room + GUARD);
    if (!output)
        fail("no memory");
    return memset(output, UNTOUCHED, room + GUARD);
}

/* Whether an output with room for so many bytes begins with these, and is untouched behind them. */
static int holds(const char *output, size_t room, const char *bytes, size_t length) {
    for (size_t i = length; i < room + GUARD; i++)
        if ((unsigned char)output[i] != UNTOUCHED)
            return 0;
    return memcmp(output, bytes, length) == 0;
}

static json_patch_status plain_diff(const char *from, size_t from_length, const char *to, size_t to_length,
                                    const json_patch_limits *limits, char *out, size_t room,
                                    json_patch_report *report) {
    return json_patch_diff(from, from_length, to, to_length, limits, 0, out, room, report);
}

static json_patch_status moving_diff(const char *from, size_t from_length, const char *to, size_t to_length,
                                     const json_patch_limits *limits, char *out, size_t room,
                                     json_patch_report *report) {
    return json_patch_diff(from, from_length, to, to_length, limits, JSON_PATCH_DIFF_MOVES, out, room, report);
}

static json_patch_status guarded_diff(const char *from, size_t from_length, const char *to, size_t to_length,
                                      const json_patch_limits *limits, char *out, size_t room,
                                      json_patch_report *report) {
    return json_patch_diff(from, from_length, to, to_length, limits, JSON_PATCH_DIFF_GUARDED, out, room, report);
}

static json_patch_status made(const row *row, char *out, size_t room, char *inverse, size_t inverse_room,
                              json_patch_report *report) {
    static json_patch_status (*const others[])(const char *, size_t, const char *, size_t,
                                               const json_patch_limits *, char *, size_t,
                                               json_patch_report *) = {
        [APPLY] = json_patch_apply, [MERGE] = json_patch_merge, [DIFF] = plain_diff, [MOVING_DIFF] = moving_diff,
        [GUARDED_DIFF] = guarded_diff, [MERGE_DIFF] = json_patch_merge_diff, [MERGE_JOIN] = json_patch_merge_join, [VALUE] = json_patch_value};
    const text *document = &row->document, *patch = &row->patch;
    calls++;
    if (row->call == RECORD)
        return json_patch_record(document->bytes, document->length, patch->bytes, patch->length, row->limits, out,
                                 room, inverse, inverse_room, report);
    return others[row->call](document->bytes, document->length, patch->bytes, patch->length, row->limits, out, room,
                             report);
}

/* Whether the sizes are those of what the row has written, and marks stand where they do there. */
static int are_sizes(const row *row, const json_patch_report *report) {
    size_t size = report->size, all = size + report->inverse_size;
    const char *written = row->written.bytes;
    if (row->call != RECORD || row->status != JSON_PATCH_OK)
        return size == row->written.length && report->inverse_size == 0;
    return size < all && all + 3 == row->written.length && written[0] == '[' && written[1 + size] == ',' &&
           written[2 + all] == ']';
}

/* Makes the call with room for so many bytes, and compares all that it tells and writes. */
static json_patch_report expect(const row *row, size_t room, size_t inverse_room) {
    char *out = untouched(room), *inverse = untouched(inverse_room);
    json_patch_report report = {77, 77, 77, 77};
    json_patch_status status = made(row, out, room, inverse, inverse_room, &report);
    int is_recorded = row->call == RECORD && row->status == JSON_PATCH_OK;
    int is_short = row->status == JSON_PATCH_OK && (room < report.size || inverse_room < report.inverse_size);
    if (status != (is_short ? JSON_PATCH_NO_ROOM : row->status))
        fail("status %d for %.*s with %.*s", status, (int)row->document.length, row->document.bytes,
             (int)row->patch.length, row->patch.bytes);
    statuses[status]++;
    if (report.operation != row->operation || report.kind != row->kind)
        fail("operation %zu, kind %d for %s", report.operation, report.kind, row->patch.bytes);
    if (!are_sizes(row, &report))
        fail("sizes %zu and %zu for %s: %.*s", report.size, report.inverse_size, row->patch.bytes, (int)room, out);
    size_t fits = status <= JSON_PATCH_REFUSED && report.size <= room ? report.size : 0;
    if (!holds(out, room, row->written.bytes + is_recorded, fits))
        fail("%.*s is written for %s", (int)room, out, row->patch.bytes);
    if (!holds(inverse, inverse_room, row->written.bytes + report.size + 2 * is_recorded,
               status == JSON_PATCH_OK ? report.inverse_size : 0))
        fail("%.*s is the inverse of %s", (int)inverse_room, inverse, row->patch.bytes);
    free(out);
    free(inverse);
    return report;
}

/* Makes the call with room for each number of bytes, to some past those that it needs, where the other output
   has one too few, enough, or more. */
static void expect_at_each_length(const row *row) {
    json_patch_report needed = expect(row, row->written.length, row->written.length);
    size_t size = needed.size, inverse_size = needed.inverse_size;
    for (size_t room = 0; room <= size + 2; room++)
        for (size_t other = inverse_size - (inverse_size > 0); other <= inverse_size + (inverse_size > 0); other++)
            expect(row, room, other);
    for (size_t room = 0; inverse_size > 0 && room <= inverse_size + 2; room++)
        for (size_t other = size - 1; other <= size + 1; other++)
            expect(row, other, room);
}
