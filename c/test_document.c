/*
 * Tests of the documents that are kept: the rows of cases.json, each on a document that was opened,
 * and the statuses that these rows don't have.
 *
 *     test_document CASES
 */
#include "rows.h"

#include "values.h"

#include <malloc.h>

enum { ROOM = 1 << 16 };

static unsigned long updates;

/* The text that a call writes, with a zero after it. */
static const char *written(json_patch_status call(json_patch_document *, char *, size_t,
                                                  json_patch_report *),
                           json_patch_document *document) {
    enum { TEXTS = 8 };
    static char texts[TEXTS][ROOM];
    static int turn;
    char *out = texts[turn++ % TEXTS];
    json_patch_report report;
    if (call(document, out, ROOM - 1, &report) != JSON_PATCH_OK)
        fail("no text");
    out[report.size] = 0;
    return out;
}

static void expect_told(const json_patch_report *report, size_t size, size_t operation,
                        json_patch_kind kind) {
    if (report->size != size || report->operation != operation || report->kind != kind || report->inverse_size != 0)
        fail("size %zu, operation %zu and kind %d, not %zu, %zu and %d", report->size,
             report->operation, report->kind, size, operation, kind);
}

static json_patch_status updated(const row *row, json_patch_document *document, char *out,
                                 json_patch_report *report) {
    updates++;
    if (row->call == MERGE)
        return json_patch_update_merged(document, row->patch.bytes, row->patch.length, report);
    if (row->call == RECORD)
        return json_patch_update_recorded(document, row->patch.bytes, row->patch.length, out, ROOM,
                                          report);
    return json_patch_update(document, row->patch.bytes, row->patch.length, out, ROOM, report);
}

/* No operation leads from the document to what the text says. */
static void expect_said(json_patch_document *document, const char *text) {
    json_patch_report report;
    char out[ROOM];
    if (json_patch_diff_to(document, text, strlen(text), out, ROOM, &report) || report.size != 2)
        fail("%.*s leads to %s", (int)report.size, out, text);
}

/* The document is what the row tells, and the inverse too. Both ways lead back: the inverse to what the text
   before says, and json_patch_undo to its bytes. */
static void expect_changed(const row *row, json_patch_document *document, const char *before) {
    static char both[2 * ROOM];
    char out[ROOM];
    json_patch_report report;
    const char *now = written(json_patch_text, document);
    const char *inverse = written(json_patch_inverse, document);
    int is_recorded = row->call == RECORD;
    snprintf(both, sizeof both, is_recorded ? "[%s,%s]" : "%s", now, inverse);
    if (strlen(both) != row->written.length || memcmp(both, row->written.bytes, row->written.length) != 0)
        fail("%s and not %s for %s", both, row->written.bytes, row->patch.bytes);
    if (!is_recorded && strcmp(inverse, "[]") != 0)
        fail("%s is kept, and nothing was recorded", inverse);
    if (json_patch_undo(document, &report) != (is_recorded ? JSON_PATCH_OK : JSON_PATCH_NOTHING))
        fail("a change is taken back, or not: %s", row->patch.bytes);
    if (!is_recorded)
        return;
    if (strcmp(written(json_patch_text, document), before) != 0)
        fail("%s and not %s is left", written(json_patch_text, document), before);
    if (strcmp(written(json_patch_inverse, document), "[]") != 0 || json_patch_undo(document, &report) != JSON_PATCH_NOTHING)
        fail("a change is taken back twice: %s", row->patch.bytes);
    if (updated(row, document, out, &report) || json_patch_update(document, inverse, strlen(inverse), out, ROOM, &report))
        fail("the inverse %s is refused", inverse);
    expect_said(document, before);
}

/* The patch that leads from what is kept to the second text is what the row tells, and leads there. */
static void expect_difference(const row *row) {
    json_patch_document document = JSON_PATCH_DOCUMENT;
    json_patch_report report = {77, 77, 77, 77};
    char out[ROOM], path[ROOM];
    const char *to = row->patch.bytes;
    if (json_patch_open(&document, row->document.bytes, row->document.length, NULL, &report))
        fail("%s isn't opened", row->document.bytes);
    report = (json_patch_report){77, 77, 77, 77};
    if (json_patch_diff_to(&document, to, row->patch.length, out, ROOM, &report))
        fail("no patch leads to %s", to);
    expect_told(&report, row->written.length, 0, 0);
    if (memcmp(out, row->written.bytes, report.size) != 0)
        fail("%.*s and not %s leads to %s", (int)report.size, out, row->written.bytes, to);
    if (strcmp(written(json_patch_text, &document), row->document.bytes) != 0)
        fail("%s is changed", row->document.bytes);
    if (json_patch_update(&document, out, report.size, path, ROOM, &report))
        fail("%s doesn't lead to %s", row->written.bytes, to);
    expect_said(&document, to);
    json_patch_close(&document);
}

static void expect_on_kept(const row *row) {
    if (row->call == DIFF)
        expect_difference(row);
    if (row->call >= DIFF) /* merge patches are made of texts alone */
        return;
    json_patch_document document = JSON_PATCH_DOCUMENT;
    json_patch_report report = {77, 77, 77, 77};
    char out[ROOM];
    if (json_patch_open(&document, row->document.bytes, row->document.length, NULL, &report))
        fail("%s isn't opened", row->document.bytes);
    expect_told(&report, 0, 0, 0);
    const char *before = written(json_patch_text, &document);
    report = (json_patch_report){77, 77, 77, 77};
    json_patch_status status = updated(row, &document, out, &report);
    if (status != row->status)
        fail("status %d for %s", status, row->patch.bytes);
    expect_told(&report, status == JSON_PATCH_REFUSED ? row->written.length : 0, row->operation,
                row->kind);
    if (strcmp(before, row->document.bytes) != 0)
        fail("%s and not %s is kept", before, row->document.bytes);
    if (status == JSON_PATCH_OK)
        expect_changed(row, &document, before);
    else if (strcmp(written(json_patch_text, &document), before) != 0)
        fail("%s changes %s", row->patch.bytes, before);
    if (status == JSON_PATCH_REFUSED && memcmp(out, row->written.bytes, report.size) != 0)
        fail("the path isn't %s", row->written.bytes);
    json_patch_close(&document);
}

/* ---- what the tables don't have */

static void expect(json_patch_status status, json_patch_status wanted, const char *call) {
    if (status != wanted)
        fail("status %d and not %d: %s", status, wanted, call);
}

#define EXPECT(call, wanted) expect(call, wanted, #call)
#define TEXT(s) s, strlen(s)

/* The call answers this status, and tells nothing but the kind. */
#define EXPECT_TOLD(call, wanted, kind) \
    (r = (json_patch_report){77, 77, 77, 77}, EXPECT(call, wanted), expect_told(&r, 0, 0, kind))

static void expect_closed(void) {
    json_patch_document closed = JSON_PATCH_DOCUMENT;
    json_patch_report r;
    char out[8];
    EXPECT_TOLD(json_patch_update(&closed, TEXT("[]"), out, 8, &r), JSON_PATCH_CLOSED, 0);
    EXPECT_TOLD(json_patch_update_recorded(&closed, TEXT("["), out, 8, &r), JSON_PATCH_CLOSED, 0);
    EXPECT_TOLD(json_patch_update_merged(&closed, TEXT("{}"), &r), JSON_PATCH_CLOSED, 0);
    EXPECT_TOLD(json_patch_inverse(&closed, out, 8, &r), JSON_PATCH_CLOSED, 0);
    EXPECT_TOLD(json_patch_diff_to(&closed, TEXT("{"), out, 8, &r), JSON_PATCH_CLOSED, 0);
    EXPECT_TOLD(json_patch_text(&closed, out, 8, &r), JSON_PATCH_CLOSED, 0);
    EXPECT_TOLD(json_patch_value_at(&closed, TEXT("x"), out, 8, &r), JSON_PATCH_CLOSED, 0);
    EXPECT_TOLD(json_patch_open(&closed, TEXT("{"), NULL, &r), JSON_PATCH_NO_DOCUMENT,
                JSON_PATCH_NOT_JSON);
    EXPECT(json_patch_text(&closed, out, 8, &r), JSON_PATCH_CLOSED);
    json_patch_close(&closed);
    json_patch_close(&closed);
}

static void expect_opened(void) {
    json_patch_document document = JSON_PATCH_DOCUMENT;
    json_patch_report r;
    char out[8];
    EXPECT(json_patch_open(&document, TEXT("{\"a\": 1.50}"), NULL, &r), JSON_PATCH_OK);
    EXPECT(json_patch_open(&document, TEXT("[1.5"), NULL, &r), JSON_PATCH_NO_DOCUMENT);
    if (r.kind != JSON_PATCH_NOT_JSON || strcmp(written(json_patch_text, &document), "{\"a\": 1.50}"))
        fail("a text that is refused closes the document");
    EXPECT(json_patch_open(&document, TEXT(" [ ] "), NULL, &r), JSON_PATCH_OK);
    if (strcmp(written(json_patch_text, &document), " [ ] ") != 0)
        fail("the other document isn't open");
    const json_patch_limits later = {sizeof later + 8, 1, 1, 1};
    EXPECT_TOLD(json_patch_open(&document, TEXT("1"), &later, &r), JSON_PATCH_BAD_LIMITS, 0);
    if (strcmp(written(json_patch_text, &document), " [ ] ") != 0)
        fail("limits of another size close the document");
    EXPECT(json_patch_open(&document, TEXT(" {\"b\":[1 ,2],\"a\":0,\"a\":-7} "), NULL, &r), JSON_PATCH_OK);
    if (strcmp(written(json_patch_text, &document), " {\"b\":[1 ,2],\"a\":0,\"a\":-7} ") != 0)
        fail("%s is written", written(json_patch_text, &document));
    expect_said(&document, "{\"a\":-70e-1,\"b\":[1,2]}");
    EXPECT_TOLD(json_patch_update(&document, TEXT("[]"), out, sizeof out, &r), JSON_PATCH_OK, 0);
    json_patch_close(&document);
}

static void expect_unreadable(void) {
    json_patch_document document = JSON_PATCH_DOCUMENT;
    json_patch_report r;
    char out[8];
    EXPECT(json_patch_open(&document, TEXT("{\"a\":1}"), NULL, &r), JSON_PATCH_OK);
    EXPECT_TOLD(json_patch_update(&document, TEXT("["), out, 8, &r), JSON_PATCH_NO_PATCH,
                JSON_PATCH_NOT_JSON);
    EXPECT_TOLD(json_patch_update_recorded(&document, TEXT("[\xff]"), out, 8, &r),
                JSON_PATCH_NO_PATCH, JSON_PATCH_NOT_JSON);
    EXPECT_TOLD(json_patch_update_merged(&document, TEXT(""), &r), JSON_PATCH_NO_PATCH,
                JSON_PATCH_NOT_JSON);
    EXPECT_TOLD(json_patch_diff_to(&document, TEXT("["), out, 8, &r), JSON_PATCH_NO_PATCH,
                JSON_PATCH_NOT_JSON);
    if (strcmp(written(json_patch_text, &document), "{\"a\":1}") != 0)
        fail("a text that is no patch changes the document");
    json_patch_close(&document);
}

/* Each value as a document, in a patch, and as a merge patch: a number stays, whatever it is. */
static void expect_values(void) {
    json_patch_document document = JSON_PATCH_DOCUMENT;
    json_patch_report r;
    char out[8];
    EXPECT(json_patch_open(&document, TEXT("{}"), NULL, &r), JSON_PATCH_OK);
    for (size_t i = 0; i < VALUES; i++) {
        text patch = adding(i);
        int is_number = values[i].kind == JSON_PATCH_KIND_NONE;
        json_patch_status of_patch = is_number ? JSON_PATCH_OK : JSON_PATCH_NO_PATCH;
        json_patch_document other = JSON_PATCH_DOCUMENT;
        EXPECT_TOLD(json_patch_open(&other, values[i].bytes, values[i].length, NULL, &r),
                    is_number ? JSON_PATCH_OK : JSON_PATCH_NO_DOCUMENT, values[i].kind);
        EXPECT_TOLD(json_patch_update(&document, patch.bytes, patch.length, out, 8, &r), of_patch, values[i].kind);
        EXPECT_TOLD(json_patch_update_recorded(&document, patch.bytes, patch.length, out, 8, &r), of_patch,
                    values[i].kind);
        EXPECT(json_patch_diff_to(&document, values[i].bytes, values[i].length, out, 0, &r),
               is_number ? JSON_PATCH_NO_ROOM : JSON_PATCH_NO_PATCH);
        EXPECT_TOLD(json_patch_update_merged(&document, values[i].bytes, values[i].length, &r), of_patch,
                    values[i].kind);
        if (is_number && (strcmp(written(json_patch_text, &document), values[i].bytes) != 0 ||
                          strcmp(written(json_patch_text, &other), values[i].bytes) != 0))
            fail("%s isn't kept", values[i].bytes);
        EXPECT(json_patch_update_merged(&document, TEXT("{}"), &r), JSON_PATCH_OK);
        if (strcmp(written(json_patch_text, &document), "{}") != 0)
            fail("%s changes the document", values[i].bytes);
        json_patch_close(&other);
        free(patch.bytes);
    }
    json_patch_close(&document);
}

/* Whether a text of so many bytes was written to `out`, where it has room, and nothing else. */
static int is_alone(const char *out, size_t room, size_t size) {
    size_t written = size <= room ? size : 0;
    return (written == 0 || out[0] != '-') && out[written] == '-';
}

/* Each length of `out`, from none to more than what is wanted. */
static void expect_rooms(void) {
    const char *text = "{\"a\":[1,{\"b\":\"c\"}]}", *found = "{\"b\":\"c\"}";
    const char *patch = "[{\"op\":\"add\",\"path\":\"/a\",\"value\":[1,{\"b\":\"c\"}]}]";
    const char *inverse = "[{\"op\":\"remove\",\"path\":\"/a\"}]";
    json_patch_document document = JSON_PATCH_DOCUMENT;
    json_patch_report r;
    char out[64];
    EXPECT(json_patch_open(&document, TEXT("{}"), NULL, &r), JSON_PATCH_OK);
    EXPECT(json_patch_update_recorded(&document, TEXT(patch), out, 0, &r), JSON_PATCH_OK);
    for (size_t room = 0; room < 63; room++) {
        memset(out, '-', sizeof out);
        EXPECT(json_patch_text(&document, out, room, &r),
               room < strlen(text) ? JSON_PATCH_NO_ROOM : JSON_PATCH_OK);
        if (r.size != strlen(text) || !is_alone(out, room, r.size))
            fail("a text in %zu bytes", room);
        memset(out, '-', sizeof out);
        EXPECT(json_patch_value_at(&document, TEXT("/a/1"), out, room, &r),
               room < strlen(found) ? JSON_PATCH_NO_ROOM : JSON_PATCH_OK);
        if (r.size != strlen(found) || !is_alone(out, room, r.size))
            fail("what stands at a pointer in %zu bytes", room);
        memset(out, '-', sizeof out);
        EXPECT(json_patch_inverse(&document, out, room, &r),
               room < strlen(inverse) ? JSON_PATCH_NO_ROOM : JSON_PATCH_OK);
        if (r.size != strlen(inverse) || !is_alone(out, room, r.size))
            fail("an inverse in %zu bytes", room);
        memset(out, '-', sizeof out);
        EXPECT(json_patch_diff_to(&document, TEXT("{}"), out, room, &r),
               room < strlen(inverse) ? JSON_PATCH_NO_ROOM : JSON_PATCH_OK);
        if (r.size != strlen(inverse) || !is_alone(out, room, r.size))
            fail("a difference in %zu bytes", room);
    }
    json_patch_close(&document);
}

/* The path of a refusal, in each length of `out`. */
static void expect_paths(void) {
    const char *path = "/b/~1", *patch = "[{\"op\":\"test\",\"path\":\"\",\"value\":{}},"
                                       "{\"op\":\"remove\",\"path\":\"/b/~1\"}]";
    json_patch_document document = JSON_PATCH_DOCUMENT;
    json_patch_report r;
    char out[16];
    EXPECT(json_patch_open(&document, TEXT("{}"), NULL, &r), JSON_PATCH_OK);
    for (size_t room = 0; room < 15; room++)
        for (int is_recorded = 0; is_recorded < 2; is_recorded++) {
            memset(out, '-', sizeof out);
            EXPECT((is_recorded ? json_patch_update_recorded : json_patch_update)(
                       &document, TEXT(patch), out, room, &r),
                   JSON_PATCH_REFUSED);
            expect_told(&r, strlen(path), 1, JSON_PATCH_INVALID_POINTER);
            if (!is_alone(out, room, r.size) || (room >= r.size && memcmp(out, path, r.size) != 0))
                fail("a path in %zu bytes", room);
        }
    json_patch_close(&document);
}

static void expect_found(const char *pointer, json_patch_status wanted, const char *text) {
    json_patch_document document = JSON_PATCH_DOCUMENT;
    json_patch_report r;
    char out[64];
    EXPECT(json_patch_open(&document, TEXT("{\"a/b\": [1e2, { \"m~n\":null}]}"), NULL, &r), JSON_PATCH_OK);
    expect(json_patch_value_at(&document, TEXT(pointer), out, sizeof out, &r), wanted, pointer);
    if (r.size != strlen(text) || memcmp(out, text, r.size) != 0)
        fail("%.*s and not %s stands at %s", (int)r.size, out, text, pointer);
    json_patch_close(&document);
}

/* What malloc has given out and not got back (nothing, under a sanitizer). */
static size_t held(void) {
    struct mallinfo2 all = mallinfo2();
    return all.uordblks + all.hblkhd;
}

/* A document in which each of many small rows was changed and looked at takes hardly more memory than where one was. */
static void expect_small_rows_closed(void) {
    enum { ROWS = 4000 };
    static char text[ROWS * 40];
    char patch[80], pointer[20], out[8];
    size_t size = 0, at_first = 0;
    json_patch_document document = JSON_PATCH_DOCUMENT;
    json_patch_report r;
    for (int i = 0; i < ROWS; i++)
        size += (size_t)sprintf(text + size, "%c[10, 11, 12, 13, 14, 15, 16, 17]", i ? ',' : '[');
    text[size++] = ']';
    EXPECT(json_patch_open(&document, text, size, NULL, &r), JSON_PATCH_OK);
    for (int i = 0; i < ROWS; i++) {
        sprintf(patch, "[{\"op\":\"replace\",\"path\":\"/%d/3\",\"value\":99}]", i);
        sprintf(pointer, "/%d/3", i);
        EXPECT(json_patch_update(&document, TEXT(patch), out, sizeof out, &r), JSON_PATCH_OK);
        EXPECT(json_patch_value_at(&document, TEXT(pointer), out, sizeof out, &r), JSON_PATCH_OK);
        if (i == 0)
            at_first = held();
    }
    if (held() > at_first + size / 10)
        fail("%zu bytes are held, and not %zu", held(), at_first);
    json_patch_close(&document);
}

/* Rows of 1,600 bytes, of which each number takes some 200 when its row is open. */
enum { LARGE_ROWS = 300, NUMBERS = 400, ROW_LENGTH = 4 * NUMBERS };

static size_t at_number(int row, int number) {
    return 1 + (size_t)row * (ROW_LENGTH + 1) + 1 + 4 * (size_t)number;
}

/* The document's text is this one, and it takes at most five times as much since so much was held. */
static void expect_narrow(json_patch_document *document, const char *text, size_t size, size_t before) {
    static char out[LARGE_ROWS * (ROW_LENGTH + 1) + 2];
    json_patch_report r;
    if (held() > before + 5 * size)
        fail("%zu bytes are held for %zu", held() - before, size);
    EXPECT(json_patch_text(document, out, sizeof out, &r), JSON_PATCH_OK);
    if (r.size != size || memcmp(out, text, size) != 0)
        fail("another text");
}

/* In a document whose large rows are changed or looked at, those that were are closed again. A change of a row is
 * recorded; of each three one is taken back at once, and one after another was refused. */
static void expect_large_rows_closed(void) {
    static char text[LARGE_ROWS * (ROW_LENGTH + 1) + 2];
    char patch[120], pointer[20], out[300];
    size_t size = 0, before = held();
    json_patch_document document = JSON_PATCH_DOCUMENT;
    json_patch_report r;
    for (int row = 0; row < LARGE_ROWS; row++)
        for (int number = 0; number < NUMBERS; number++)
            size += (size_t)sprintf(text + size, "%s10", number ? ", " : row ? "],[" : "[[");
    size += (size_t)sprintf(text + size, "]]");
    EXPECT(json_patch_open(&document, text, size, NULL, &r), JSON_PATCH_OK);
    for (int row = 0; row < LARGE_ROWS; row++) {
        int number = (row * 7) % NUMBERS;
        sprintf(patch, "[{\"op\":\"replace\",\"path\":\"/%d/%d\",\"value\":99}]", row, number);
        EXPECT(json_patch_update_recorded(&document, TEXT(patch), out, sizeof out, &r), JSON_PATCH_OK);
        memcpy(text + at_number(row, number), "99", 2);
        if (row % 3 == 1) {
            sprintf(patch, "[{\"op\":\"remove\",\"path\":\"/%d/0\"},{\"op\":\"test\",\"path\":\"\",\"value\":0}]", row - 1);
            EXPECT(json_patch_update(&document, TEXT(patch), out, sizeof out, &r), JSON_PATCH_REFUSED);
        }
        if (row % 3 != 0) {
            EXPECT(json_patch_undo(&document, &r), JSON_PATCH_OK);
            memcpy(text + at_number(row, number), "10", 2);
        }
        expect_narrow(&document, text, size, before);
    }
    for (int row = 0; row < 2 * LARGE_ROWS; row++) {
        sprintf(pointer, "/%d/3", row % LARGE_ROWS);
        EXPECT(json_patch_value_at(&document, TEXT(pointer), out, sizeof out, &r), JSON_PATCH_OK);
        expect_narrow(&document, text, size, before);
    }
    json_patch_close(&document);
}

int main(int count, char **words) {
    if (count != 2)
        fail("test_document CASES");
    for_each_row(words[1], expect_on_kept);
    expect_closed();
    expect_opened();
    expect_unreadable();
    expect_values();
    expect_rooms();
    expect_paths();
    expect_small_rows_closed();
    expect_large_rows_closed();
    expect_found("", JSON_PATCH_OK, "{\"a/b\": [1e2, { \"m~n\":null}]}");
    expect_found("/a~1b/0", JSON_PATCH_OK, "1e2");
    expect_found("/a~1b/1", JSON_PATCH_OK, "{ \"m~n\":null}");
    expect_found("/a~1b/1/m~0n", JSON_PATCH_OK, "null");
    expect_found("/a~1b/2", JSON_PATCH_NOTHING, "");
    expect_found("/a~1b/-", JSON_PATCH_NOTHING, "");
    expect_found("a", JSON_PATCH_NO_POINTER, "");
    expect_found("/~2", JSON_PATCH_NO_POINTER, "");
    expect_found("/\xff", JSON_PATCH_NO_POINTER, "");
    printf("c: %lu changes of kept documents\n", updates);
    return 0;
}
