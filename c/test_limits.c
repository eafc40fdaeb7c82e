/*
 * Tests of the limits, each call on a thread with the stack that the header names: patches that nest
 * a document in itself, values and texts nested up to the limit and past it, and patches that copy
 * too much. What has to come of each is counted here, from the levels and sizes alone.
 *
 *     test_limits [STACK]     the stack's bytes (196608)
 */
#include "put.h"

#include <pthread.h>

enum { ROOM = 1 << 21, MOST = JSON_PATCH_MOST_LEVELS, LONGEST = 1 << 20 };

static unsigned long calls;
static char *out, *inverse, *other;

/* ---- texts */

static void put_times(text *to, const char *piece, size_t times) {
    while (times--)
        put(to, "%s", piece);
}

/* A way to nest: how a level opens and closes, and the token that leads a level down. */
typedef struct {
    const char *open, *close, *token;
} nest;

static const nest nests[] = {
    {"{\"a\":", "}", "/a"},
    {"[", "]", "/0"},
    {"{\"a/m~\":", "}", "/a~1m~0"},
    {"[[", "]]", "/0/0"},
    {"{\"a\":[", "]}", "/a/0"},
};
enum { NESTS = sizeof nests / sizeof *nests };

static size_t levels_of(const nest *by) {
    return strlen(by->token) > 4 && by->token[3] == '1' ? 1 : strchr(by->token + 1, '/') ? 2 : 1;
}

/* 0 in so many turns of nesting. */
static text nested(const nest *by, size_t turns) {
    text made = {NULL, 0, 0};
    put_times(&made, by->open, turns);
    put(&made, "0");
    put_times(&made, by->close, turns);
    return made;
}

/* ---- what is expected */

static void expect(json_patch_status status, const json_patch_report *report,
                   json_patch_status wanted, size_t operation, json_patch_kind kind,
                   const char *of) {
    calls++;
    if (status != wanted || report->operation != operation || report->kind != kind)
        fail("status %d, operation %zu, kind %d, and not %d, %zu and %d: %s", status,
             report->operation, report->kind, wanted, operation, kind, of);
}

static void expect_text(const char *wanted, size_t length, const char *found, size_t size, const char *of) {
    if (size != length || memcmp(wanted, found, size) != 0)
        fail("%.*s is left: %s", (int)size, found, of);
}

static json_patch_limits limits_of(size_t depth, size_t bytes) {
    return (json_patch_limits){sizeof(json_patch_limits), depth, bytes, SIZE_MAX};
}

/* ---- a patch in each call that takes one */

/* A document that is kept is as it was, where the status isn't JSON_PATCH_OK, and after json_patch_undo. */
static void expect_kept(const text *document, const text *patch, const json_patch_limits *limits, int is_recorded,
                        json_patch_status wanted, size_t operation, json_patch_kind kind, const char *of) {
    json_patch_report report;
    json_patch_document kept = JSON_PATCH_DOCUMENT;
    expect(json_patch_open(&kept, OF(*document), limits, &report), &report, JSON_PATCH_OK, 0, 0, of);
    expect((is_recorded ? json_patch_update_recorded : json_patch_update)(&kept, OF(*patch), out, ROOM, &report), &report,
           wanted, operation, kind, of);
    if (is_recorded && wanted == JSON_PATCH_OK)
        expect(json_patch_undo(&kept, &report), &report, JSON_PATCH_OK, 0, 0, of);
    if (is_recorded || wanted != JSON_PATCH_OK) {
        expect(json_patch_text(&kept, out, ROOM, &report), &report, JSON_PATCH_OK, 0, 0, of);
        expect_text(OF(*document), out, report.size, of);
    }
    json_patch_close(&kept);
}

/* On the document's text. */
static size_t expect_applied(const text *document, const text *patch, const json_patch_limits *limits,
                             json_patch_status wanted, size_t operation, json_patch_kind kind, const char *of) {
    json_patch_report report;
    expect(json_patch_apply(OF(*document), OF(*patch), limits, out, ROOM, &report), &report, wanted, operation, kind,
           of);
    return report.size;
}

/* The text that is recorded is that which is made, and the inverse leads back to what says the same. */
static void expect_recorded(const text *document, const text *patch, const json_patch_limits *limits,
                            json_patch_status wanted, size_t operation, json_patch_kind kind, const char *of) {
    const json_patch_limits enough = limits_of(limits->depth, SIZE_MAX);
    json_patch_report report;
    expect(json_patch_record(OF(*document), OF(*patch), limits, other, ROOM, inverse, ROOM, &report), &report, wanted,
           operation, kind, of);
    if (wanted != JSON_PATCH_OK)
        return;
    size_t size = report.size, inverse_size = report.inverse_size;
    expect_text(out, expect_applied(document, patch, limits, JSON_PATCH_OK, 0, 0, of), other, size, of);
    expect(json_patch_apply(other, size, inverse, inverse_size, &enough, out, ROOM, &report), &report, JSON_PATCH_OK, 0,
           0, of);
    expect(json_patch_diff(OF(*document), out, report.size, limits, 0, other, ROOM, &report), &report, JSON_PATCH_OK, 0, 0,
           of);
    expect_text("[]", 2, other, report.size, of);
}

/* On the text, and the same where it is recorded. */
static void expect_in_text(const text *document, const text *patch, const json_patch_limits *limits,
                           json_patch_status wanted, size_t operation, json_patch_kind kind, const char *of) {
    expect_applied(document, patch, limits, wanted, operation, kind, of);
    expect_recorded(document, patch, limits, wanted, operation, kind, of);
}

/* In all of them, with the same outcome. */
static void expect_each(const text *document, const text *patch, const json_patch_limits *limits,
                        json_patch_status wanted, size_t operation, json_patch_kind kind, const char *of) {
    for (int is_recorded = 0; is_recorded <= 1; is_recorded++)
        expect_kept(document, patch, limits, is_recorded, wanted, operation, kind, of);
    expect_in_text(document, patch, limits, wanted, operation, kind, of);
}

/* ---- patches that nest */

/* Copies of the document into what stands innermost in it, each of which doubles the levels. */
static void expect_doubling(const nest *by, size_t longest, const json_patch_limits *limits) {
    text document = nested(by, 1), patch = {NULL, 0, 0};
    size_t each = levels_of(by), number = 0, over = SIZE_MAX;
    put(&patch, "[");
    for (size_t turns = 1; patch.length + turns * strlen(by->token) < longest; turns *= 2) {
        put(&patch, "%s{\"op\":\"copy\",\"from\":\"\",\"path\":\"", number ? "," : "");
        put_times(&patch, by->token, turns);
        put(&patch, "\"}");
        if (over == SIZE_MAX && 2 * turns * each > limits->depth)
            over = number;
        number++;
    }
    put(&patch, "]");
    if (over == SIZE_MAX)
        expect_each(&document, &patch, limits, JSON_PATCH_OK, 0, 0, by->token);
    else
        expect_each(&document, &patch, limits, JSON_PATCH_OVER, over, JSON_PATCH_TOO_DEEP, by->token);
    free(document.bytes);
    free(patch.bytes);
}

/* Moves of a member into the one beside it, each of which puts it a level deeper: never past what a
   document of so many levels allows. */
static void expect_moves(size_t turns, const json_patch_limits *limits) {
    text document = {NULL, 0, 0}, patch = {NULL, 0, 0};
    put(&document, "{");
    for (size_t i = 0; i <= turns; i++)
        put(&document, "%s\"m%04zu\":{}", i ? "," : "", i);
    put(&document, "}");
    put(&patch, "[");
    for (size_t i = 1; i <= turns; i++)
        put(&patch, "%s{\"op\":\"move\",\"from\":\"/m%04zu\",\"path\":\"/m%04zu/m\"}", i > 1 ? "," : "",
            i - 1, i);
    put(&patch, "]");
    /* before operation k the value that is moved has k + 1 levels, and it goes two tokens deep */
    int fits = turns + 2 <= limits->depth;
    json_patch_status wanted = fits ? JSON_PATCH_OK : JSON_PATCH_OVER;
    size_t over = fits ? 0 : limits->depth - 2;
    json_patch_kind kind = fits ? JSON_PATCH_KIND_NONE : JSON_PATCH_TOO_DEEP;
    expect_each(&document, &patch, limits, wanted, over, kind, "moves");
    free(document.bytes);
    free(patch.bytes);
}

/* A value of so many levels in an add, a replace and a test, beside a document that has none. */
static void expect_values(size_t levels, const json_patch_limits *limits) {
    static const char *const names[] = {"add", "replace", "test"};
    text document = {NULL, 0, 0};
    put(&document, "{\"a\":0}");
    for (int i = 0; i < 3; i++) {
        for (int below = 0; below <= 1; below++) {
            text patch = {NULL, 0, 0};
            put(&patch, "[{\"op\":\"%s\",\"path\":\"%s\",\"value\":", names[i], below ? "/a" : "");
            put_times(&patch, nests[1].open, levels);
            put(&patch, "0");
            put_times(&patch, nests[1].close, levels);
            put(&patch, "}]");
            /* the patch's text nests two levels more than the value */
            json_patch_status wanted = levels + 2 > 127                         ? JSON_PATCH_NO_PATCH
                                       : i == 2                                 ? JSON_PATCH_REFUSED
                                       : levels + (size_t)below > limits->depth ? JSON_PATCH_OVER
                                                                                : JSON_PATCH_OK;
            json_patch_kind kind = wanted == JSON_PATCH_OK        ? JSON_PATCH_KIND_NONE
                                   : wanted == JSON_PATCH_REFUSED ? JSON_PATCH_TEST_FAILED
                                                                  : JSON_PATCH_TOO_DEEP;
            expect_each(&document, &patch, limits, wanted, 0, kind, names[i]);
            free(patch.bytes);
        }
    }
    free(document.bytes);
}

/* ---- texts that nest */

/* What stands innermost in a text of so many turns. */
static void expect_deep_value(const text *deep, const char *token, size_t turns, size_t levels,
                              const json_patch_limits *limits) {
    text pointer = {NULL, 0, 0};
    json_patch_report report;
    int fits = levels <= (limits ? limits->depth : MOST) && levels <= MOST;
    put(&pointer, "%s", "");
    put_times(&pointer, token, turns);
    expect(json_patch_value(OF(*deep), OF(pointer), limits, out, ROOM, &report), &report,
           fits ? JSON_PATCH_OK : JSON_PATCH_NO_DOCUMENT, 0, fits ? JSON_PATCH_KIND_NONE : JSON_PATCH_TOO_DEEP,
           "a deep pointer into a text");
    if (fits)
        expect_text("0", 1, out, report.size, "a deep pointer into a text");
    free(pointer.bytes);
}

/* What leads to a deep text from none, and two of it joined, is that text. */
static void expect_deep_merge_patches(const text *deep, const json_patch_limits *limits, json_patch_kind kind) {
    json_patch_report report;
    int fits = kind == JSON_PATCH_KIND_NONE;
    json_patch_status of_first = fits ? JSON_PATCH_OK : JSON_PATCH_NO_DOCUMENT;
    json_patch_status of_second = fits ? JSON_PATCH_OK : JSON_PATCH_NO_PATCH;
    expect(json_patch_merge_diff(OF(*deep), "1", 1, limits, out, ROOM, &report), &report, of_first, 0, kind,
           "a merge patch from a deep text");
    expect(json_patch_merge_diff("{}", 2, OF(*deep), limits, out, ROOM, &report), &report, of_second, 0, kind,
           "a merge patch to a deep text");
    if (fits)
        expect_text(OF(*deep), out, report.size, "a merge patch to a deep text");
    expect(json_patch_merge_join("{}", 2, OF(*deep), limits, out, ROOM, &report), &report, of_second, 0, kind,
           "a deep merge patch that is joined");
    expect(json_patch_merge_join(OF(*deep), OF(*deep), limits, out, ROOM, &report), &report, of_first, 0, kind,
           "two deep merge patches");
    if (fits)
        expect_text(OF(*deep), out, report.size, "two deep merge patches");
}

/* A text of so many turns, as a document, a merge patch and a patch. */
static void expect_deep(const nest *by, size_t turns, const json_patch_limits *limits) {
    text deep = nested(by, turns), none = {"[]", 2, 0};
    size_t levels = turns * levels_of(by);
    int fits = levels <= limits->depth && levels <= MOST;
    json_patch_status of_document = fits ? JSON_PATCH_OK : JSON_PATCH_NO_DOCUMENT;
    json_patch_status of_patch = fits ? JSON_PATCH_OK : JSON_PATCH_NO_PATCH;
    json_patch_kind kind = fits ? JSON_PATCH_KIND_NONE : JSON_PATCH_TOO_DEEP;
    json_patch_report report;
    json_patch_document kept = JSON_PATCH_DOCUMENT;
    expect_in_text(&deep, &none, limits, of_document, 0, kind, "a deep document");
    expect(json_patch_merge("{}", 2, OF(deep), limits, out, ROOM, &report), &report, of_patch, 0, kind,
           "a deep merge patch");
    expect(json_patch_merge(OF(deep), OF(deep), limits, out, ROOM, &report), &report, of_document, 0, kind,
           "a deep merge into a deep text");
    expect(json_patch_check(OF(deep), &report), &report, JSON_PATCH_NO_PATCH, 0,
           levels > 127                            ? JSON_PATCH_TOO_DEEP
           : levels == 0 || by->open[0] != '[' ? JSON_PATCH_NOT_A_LIST
                                                   : JSON_PATCH_NOT_AN_OBJECT,
           "a deep patch");
    expect(json_patch_open(&kept, OF(deep), limits, &report), &report, of_document, 0, kind,
           "a deep document that is opened");
    if (fits) {
        text pointer = {NULL, 0, 0};
        put_times(&pointer, by->token, turns);
        expect(json_patch_value_at(&kept, turns ? pointer.bytes : "", pointer.length, out, ROOM, &report), &report,
               JSON_PATCH_OK, 0, 0, "a deep pointer");
        expect(json_patch_update_merged(&kept, OF(deep), &report), &report, JSON_PATCH_OK, 0, 0,
               "a deep merge into a deep document");
        free(pointer.bytes);
    }
    json_patch_close(&kept);
    expect_deep_merge_patches(&deep, limits, kind);
    expect_deep_value(&deep, by->token, turns, levels, limits);
    expect_deep_value(&deep, by->token, turns, levels, NULL);
    free(deep.bytes);
}

/* Five changes as deep as a text may nest, of which each level is long: all on the way is opened at once. */
static void expect_long_way(const nest *by, const json_patch_limits *limits) {
    size_t turns = (limits->depth - 1) / levels_of(by);
    text document = {NULL, 0, 0}, patch = {NULL, 0, 0};
    put_times(&document, by->open, turns);
    put(&document, "[0,\"");
    put_times(&document, "x", 3000);
    put(&document, "\"]");
    put_times(&document, by->close, turns);
    for (int i = 0; i < 5; i++) {
        put(&patch, "%s{\"op\":\"replace\",\"path\":\"", i ? "," : "[");
        put_times(&patch, by->token, turns);
        put(&patch, "/0\",\"value\":%d}", i + 1);
    }
    put(&patch, "]");
    expect_each(&document, &patch, limits, JSON_PATCH_OK, 0, 0, "a long way");
    free(document.bytes);
    free(patch.bytes);
}

/* Two documents that differ in what stands innermost. Each level has a member beside it, so long that no level
   is replaced whole. */
static text made_of(size_t turns, int goal) {
    text made = {NULL, 0, 0};
    put_times(&made, "{\"a\":", turns);
    put(&made, "%d", goal);
    for (size_t i = 0; i < turns; i++)
        put(&made, ",\"b\":\"%0100d\"}", 0);
    return made;
}

/* The patch that leads on from a text and from what is kept of it is the same, for free; it is read again, though
   the documents are as deep as one may be. */
static text expect_led(const char *from, size_t length, const text *to, const json_patch_limits *limits) {
    json_patch_report report;
    json_patch_document kept = JSON_PATCH_DOCUMENT;
    text patch = {malloc(ROOM), 0, ROOM};
    if (!patch.bytes)
        fail("no memory");
    expect(json_patch_open(&kept, from, length, limits, &report), &report, JSON_PATCH_OK, 0, 0, "a deep document");
    expect(json_patch_diff_to(&kept, OF(*to), patch.bytes, ROOM, &report), &report, JSON_PATCH_OK, 0, 0,
           "a deep difference of what is kept");
    patch.length = report.size;
    expect(json_patch_diff(from, length, OF(*to), limits, 0, out, ROOM, &report), &report, JSON_PATCH_OK, 0, 0,
           "a deep difference");
    expect_text(OF(patch), out, report.size, "a deep difference");
    expect(json_patch_update(&kept, OF(patch), out, ROOM, &report), &report, JSON_PATCH_OK, 0, 0, "a deep difference");
    json_patch_text(&kept, out, ROOM, &report);
    expect_text(OF(*to), out, report.size, "a deep difference");
    expect(json_patch_apply(from, length, OF(patch), limits, out, ROOM, &report), &report, JSON_PATCH_OK, 0, 0,
           "a deep difference as a patch");
    expect_text(OF(*to), out, report.size, "a deep difference as a patch");
    json_patch_close(&kept);
    return patch;
}

/* The merge patch between the two has what stands innermost alone, and leads there; that there is none is told
   where it has to be a null. */
static void expect_merge_difference(const text *from, const text *to, size_t levels, const json_patch_limits *limits) {
    text innermost = nested(&nests[0], levels), null = {NULL, 0, 0};
    json_patch_report report;
    innermost.bytes[levels * strlen(nests[0].open)] = '1';
    expect(json_patch_merge_diff(OF(*from), OF(*to), limits, other, ROOM, &report), &report, JSON_PATCH_OK, 0, 0,
           "a deep merge patch");
    expect_text(OF(innermost), other, report.size, "a deep merge patch");
    expect(json_patch_merge(OF(*from), other, report.size, limits, out, ROOM, &report), &report, JSON_PATCH_OK, 0, 0,
           "a deep merge patch that is merged");
    expect_text(OF(*to), out, report.size, "a deep merge patch that is merged");
    put_times(&null, nests[0].open, levels);
    put(&null, "null");
    put_times(&null, nests[0].close, levels);
    expect(json_patch_merge_diff(OF(*from), OF(null), limits, out, ROOM, &report), &report,
           levels ? JSON_PATCH_IMPOSSIBLE : JSON_PATCH_OK, 0, 0, "a deep null");
    free(innermost.bytes);
    free(null.bytes);
}

static text named_deep(const char *name, size_t levels) {
    text made = {NULL, 0, 0};
    put(&made, "{\"%s\":", name);
    put_times(&made, nests[0].open, levels - 1);
    put(&made, "\"%0100d\"", 0);
    put_times(&made, nests[0].close, levels - 1);
    put(&made, "}");
    return made;
}

/* A member that nests as deep as it may gets another name. */
static void expect_moved(size_t levels, const json_patch_limits *limits) {
    static const char moves[] = "[{\"from\":\"/a\",\"op\":\"move\",\"path\":\"/b\"}]";
    text from = named_deep("a", levels), to = named_deep("b", levels);
    json_patch_report report;
    expect(json_patch_diff(OF(from), OF(to), limits, JSON_PATCH_DIFF_MOVES, other, ROOM, &report), &report,
           JSON_PATCH_OK, 0, 0, "a deep move");
    expect_text(moves, sizeof moves - 1, other, report.size, "a deep move");
    expect(json_patch_apply(OF(from), other, report.size, limits, out, ROOM, &report), &report, JSON_PATCH_OK, 0, 0,
           "a deep move as a patch");
    expect_text(OF(to), out, report.size, "a deep move as a patch");
    free(from.bytes);
    free(to.bytes);
}

/* So with tests: of what nests as deep, in a patch that leads there. */
static void expect_guarded(size_t levels, const json_patch_limits *limits) {
    static const char begins[] = "[{\"op\":\"test\",\"path\":\"\",\"value\":{\"a\":";
    text from = named_deep("a", levels), to = named_deep("b", levels);
    json_patch_report report;
    expect(json_patch_diff(OF(from), OF(to), limits, JSON_PATCH_DIFF_GUARDED, other, ROOM, &report), &report,
           JSON_PATCH_OK, 0, 0, "a deep test");
    expect_text(begins, sizeof begins - 1, other, sizeof begins - 1, "a deep test");
    expect(json_patch_apply(OF(from), other, report.size, limits, out, ROOM, &report), &report, JSON_PATCH_OK, 0, 0,
           "a deep test in a patch");
    expect_text(OF(to), out, report.size, "a deep test in a patch");
    free(from.bytes);
    free(to.bytes);
}

static void expect_difference(size_t levels, const json_patch_limits *limits) {
    text from = made_of(levels, 0), to = made_of(levels, 1);
    int fits = levels <= limits->depth && levels <= MOST;
    json_patch_kind kind = fits ? JSON_PATCH_KIND_NONE : JSON_PATCH_TOO_DEEP;
    json_patch_status of_goal = fits ? JSON_PATCH_OK : JSON_PATCH_NO_PATCH;
    json_patch_report report;
    json_patch_document kept = JSON_PATCH_DOCUMENT;
    expect(json_patch_diff(OF(from), OF(to), limits, 0, out, ROOM, &report), &report,
           fits ? JSON_PATCH_OK : JSON_PATCH_NO_DOCUMENT, 0, kind, "a deep difference");
    expect(json_patch_diff("7.5", 3, OF(to), limits, 0, out, ROOM, &report), &report, of_goal, 0, kind, "a deep goal");
    json_patch_open(&kept, "{}", 2, limits, &report);
    expect(json_patch_diff_to(&kept, OF(to), out, ROOM, &report), &report, of_goal, 0, kind,
           "a deep goal of what is kept");
    json_patch_close(&kept);
    if (fits) {
        text patch = expect_led(OF(from), &to, limits);
        if (levels && patch.length > 300 + 2 * levels)
            fail("%.*s leads on %zu levels", (int)patch.length, patch.bytes, levels);
        /* and the whole, in one operation */
        text whole = expect_led("7", 1, &to, limits);
        expect(json_patch_diff("7.5", 3, OF(to), limits, 0, out, ROOM, &report), &report, JSON_PATCH_OK, 0, 0,
               "a deep whole");
        expect_text(OF(whole), out, report.size, "a deep whole");
        expect_merge_difference(&from, &to, levels, limits);
        if (levels) {
            expect_moved(levels, limits);
            expect_guarded(levels, limits);
        }
        free(patch.bytes);
        free(whole.bytes);
    }
    free(from.bytes);
    free(to.bytes);
}

/* Names with an escape, so many of them that they are indexed, in an object so many turns deep: each
   member is replaced, by a merge patch and by a patch. */
static void expect_names(size_t turns) {
    enum { NAMES = 40 };
    text from = {NULL, 0, 0}, to = {NULL, 0, 0}, patch = {NULL, 0, 0};
    json_patch_report report;
    for (int goal = 0; goal <= 1; goal++) {
        text *made = goal ? &to : &from;
        put_times(made, "{\"a\":", turns);
        for (int i = 0; i < NAMES; i++)
            put(made, "%s\"\\u00e9%d\":%d", i ? "," : "{", i, goal);
        put_times(made, "}", turns + 1);
    }
    for (int i = 0; i < NAMES; i++) {
        put(&patch, "%s{\"op\":\"replace\",\"path\":\"", i ? "," : "[");
        put_times(&patch, "/a", turns);
        put(&patch, "/\\u00e9%d\",\"value\":1}", i);
    }
    put(&patch, "]");
    const json_patch_limits limits = JSON_PATCH_LIMITS;
    expect(json_patch_merge(OF(from), OF(to), NULL, out, ROOM, &report), &report, JSON_PATCH_OK, 0, 0,
           "a merge of many names");
    expect_text(OF(to), out, report.size, "a merge of many names");
    expect_recorded(&from, &patch, &limits, JSON_PATCH_OK, 0, 0, "a patch of many names");
    expect_text(OF(to), out, expect_applied(&from, &patch, NULL, JSON_PATCH_OK, 0, 0, "a patch of many names"),
                "a patch of many names");
    free(from.bytes);
    free(to.bytes);
    free(patch.bytes);
}

/* Brackets that never close: so many in a text, and in a patch's. */
static void expect_open_brackets(text open, size_t count, json_patch_kind kind, json_patch_kind kind_of_patch) {
    json_patch_document kept = JSON_PATCH_DOCUMENT;
    json_patch_report report;
    open.length = count;
    expect_in_text(&open, &(const text){"[]", 2, 0}, &(const json_patch_limits)JSON_PATCH_LIMITS,
                   JSON_PATCH_NO_DOCUMENT, 0, kind, "brackets that never close");
    expect(json_patch_value(OF(open), "/0", 2, NULL, out, ROOM, &report), &report, JSON_PATCH_NO_DOCUMENT, 0, kind,
           "brackets that never close, and a pointer");
    expect(json_patch_open(&kept, OF(open), NULL, &report), &report, JSON_PATCH_NO_DOCUMENT, 0, kind,
           "brackets that never close, opened");
    expect(json_patch_check(OF(open), &report), &report, JSON_PATCH_NO_PATCH, 0, kind_of_patch,
           "brackets of a patch that never close");
}

/* Brackets that never close, that are in a string, and that no document has. */
static void expect_brackets(void) {
    const json_patch_limits limits = JSON_PATCH_LIMITS;
    json_patch_report report;
    json_patch_document kept = JSON_PATCH_DOCUMENT;
    text open = {NULL, 0, 0}, quoted = {NULL, 0, 0}, none = {"[]", 2, 0};
    put_times(&open, "[", LONGEST);
    expect_open_brackets(open, MOST, JSON_PATCH_NOT_JSON, JSON_PATCH_NOT_JSON);
    expect_open_brackets(open, MOST + 1, JSON_PATCH_TOO_DEEP, JSON_PATCH_NOT_JSON);
    expect_open_brackets(open, 127, JSON_PATCH_TOO_DEEP, JSON_PATCH_NOT_JSON);
    expect_open_brackets(open, 128, JSON_PATCH_TOO_DEEP, JSON_PATCH_TOO_DEEP);
    expect_open_brackets(open, LONGEST, JSON_PATCH_TOO_DEEP, JSON_PATCH_TOO_DEEP);
    put(&quoted, "[\"\\\"");
    put_times(&quoted, "[{", 200);
    put(&quoted, "\\\\\",1");
    expect_in_text(&quoted, &none, &limits, JSON_PATCH_NO_DOCUMENT, 0, JSON_PATCH_NOT_JSON, "brackets in a string");
    expect(json_patch_open(&kept, OF(quoted), NULL, &report), &report, JSON_PATCH_NO_DOCUMENT, 0, JSON_PATCH_NOT_JSON,
           "brackets in a string");
    put(&quoted, "]");
    expect_each(&quoted, &none, &limits, JSON_PATCH_OK, 0, 0, "brackets in a string of a text");
    free(open.bytes);
    free(quoted.bytes);
}

/* ---- copies */

/* A document of one string of so many bytes. */
static text of_bytes(const char *open, size_t bytes, const char *close) {
    text made = {NULL, 0, 0};
    put(&made, "%s\"", open);
    put_times(&made, "x", bytes);
    put(&made, "\"%s", close);
    return made;
}

/* Two operations by turns, so many together. */
static text by_turns(size_t count, const char *one, const char *two) {
    text made = {NULL, 0, 0};
    for (size_t i = 0; i < count; i++)
        put(&made, "%c%s", i ? ',' : '[', i % 2 ? two : one);
    put(&made, "]");
    return made;
}

/* Copies of a string of so many bytes, one after another, in a text of n + 4 bytes, where each copy adds a comma,
   two marks and the bytes: the texts' own bytes count too. */
static void expect_copies(size_t bytes, size_t copies, const json_patch_limits *limits) {
    static const char copy[] = "{\"op\":\"copy\",\"from\":\"/0\",\"path\":\"/-\"}";
    text document = of_bytes("[", bytes, "]"), patch = by_turns(copies, copy, copy);
    size_t most = (patch.length + limits->bytes) / (bytes + 3);
    int fits = copies <= most;
    expect_each(&document, &patch, limits, fits ? JSON_PATCH_OK : JSON_PATCH_OVER, fits ? 0 : most,
                fits ? JSON_PATCH_KIND_NONE : JSON_PATCH_TOO_MUCH, "copies");
    free(document.bytes);
    free(patch.bytes);
}

/* One operation so often, which costs so many bytes each time and leaves a text as short as the document's: what they
   cost counts together. */
static void expect_costs(text document, const char *operation, size_t cost, size_t count,
                         const json_patch_limits *limits) {
    text patch = by_turns(count, operation, operation);
    size_t most = (document.length + patch.length + limits->bytes) / cost;
    int fits = count <= most;
    json_patch_status wanted = fits ? JSON_PATCH_OK : JSON_PATCH_OVER;
    json_patch_kind kind = fits ? JSON_PATCH_KIND_NONE : JSON_PATCH_TOO_MUCH;
    expect_applied(&document, &patch, limits, wanted, fits ? 0 : most, kind, operation);
    expect_kept(&document, &patch, limits, 0, wanted, fits ? 0 : most, kind, operation);
    free(document.bytes);
    free(patch.bytes);
}

/* Copies over one member. */
static void expect_copies_over(size_t bytes, size_t copies, const json_patch_limits *limits) {
    expect_costs(of_bytes("{\"a\":", bytes, "}"), "{\"op\":\"copy\",\"from\":\"/a\",\"path\":\"/b\"}", bytes + 2,
                 copies, limits);
}

/* Tests of an array of so much whitespace, by one of none. */
static void expect_tests(size_t bytes, size_t tests, const json_patch_limits *limits) {
    text document = {NULL, 0, 0};
    put(&document, "{\"a\":[");
    put_times(&document, " ", bytes);
    put(&document, "]}");
    expect_costs(document, "{\"op\":\"test\",\"path\":\"/a\",\"value\":[]}", bytes, tests, limits);
}

/* Copies of a list into itself, each of which doubles it, with a comma between: too much long before
   it is too deep. */
static void expect_growth(size_t bytes, size_t copies, const json_patch_limits *limits) {
    static const char copy[] = "{\"op\":\"copy\",\"from\":\"/a\",\"path\":\"/a/-\"}";
    text document = of_bytes("{\"a\":[", bytes, "]}"), patch = by_turns(copies, copy, copy);
    size_t over = 0, list = bytes + 4, most = document.length + patch.length + limits->bytes;
    while (6 + 2 * list + 1 <= most && over < copies) {
        list = 2 * list + 1;
        over++;
    }
    if (over == copies)
        fail("%zu copies are too few", copies);
    expect_each(&document, &patch, limits, JSON_PATCH_OVER, over, JSON_PATCH_TOO_MUCH, "a list that grows");
    free(document.bytes);
    free(patch.bytes);
}

/* Moves of a string of n bytes, there and back. Where they are recorded their operations' bytes count, all of which
   the inverse holds; otherwise none counts. */
static void expect_moves_back(size_t bytes, size_t moves, const json_patch_limits *limits) {
    text document = of_bytes("{\"a\":", bytes, "}");
    text patch = by_turns(moves, "{\"op\":\"move\",\"from\":\"/a\",\"path\":\"/b\"}",
                          "{\"op\":\"move\",\"from\":\"/b\",\"path\":\"/a\"}");
    /* {"op":"remove","path":"/b"} has 27 bytes, {"op":"add","path":"/a","value":"..."} n + 35, and there are two
       commas for each move but the first, and two brackets */
    size_t most = (document.length + patch.length + limits->bytes - 1) / (27 + bytes + 35 + 2);
    int fits = moves <= most;
    json_patch_status wanted = fits ? JSON_PATCH_OK : JSON_PATCH_OVER;
    json_patch_kind kind = fits ? JSON_PATCH_KIND_NONE : JSON_PATCH_TOO_MUCH;
    expect_applied(&document, &patch, limits, JSON_PATCH_OK, 0, 0, "moves back");
    expect_kept(&document, &patch, limits, 0, JSON_PATCH_OK, 0, 0, "moves back");
    expect_recorded(&document, &patch, limits, wanted, fits ? 0 : most, kind, "recorded moves back");
    expect_kept(&document, &patch, limits, 1, wanted, fits ? 0 : most, kind, "recorded moves back");
    free(document.bytes);
    free(patch.bytes);
}

/* So many operations, where as many may be, and where one less. */
static void expect_operations(size_t count) {
    static const char add[] = "{\"op\":\"add\",\"path\":\"/0\",\"value\":7}", take[] = "{\"op\":\"remove\",\"path\":\"/0\"}";
    text document = {NULL, 0, 0}, patch = by_turns(count, add, take);
    json_patch_limits limits = JSON_PATCH_LIMITS;
    put(&document, " [ 1.50 ] ");
    limits.operations = count;
    expect_each(&document, &patch, &limits, JSON_PATCH_OK, 0, 0, "operations");
    limits.operations = count - 1;
    expect_each(&document, &patch, &limits, JSON_PATCH_OVER, count - 1, JSON_PATCH_TOO_MANY, "operations");
    free(document.bytes);
    free(patch.bytes);
}

/* ---- taking back */

static void expect_undo(void) {
    json_patch_document kept = JSON_PATCH_DOCUMENT;
    json_patch_report report;
    text deep = nested(&nests[0], MOST), patch = {NULL, 0, 0};
    expect(json_patch_undo(&kept, &report), &report, JSON_PATCH_CLOSED, 0, 0, "nothing is open");
    json_patch_open(&kept, OF(deep), NULL, &report);
    expect(json_patch_undo(&kept, &report), &report, JSON_PATCH_NOTHING, 0, 0, "nothing is recorded");
    put(&patch, "[{\"op\":\"replace\",\"path\":\"\",\"value\":1}]");
    json_patch_update_recorded(&kept, OF(patch), out, ROOM, &report);
    expect(json_patch_inverse(&kept, inverse, ROOM, &report), &report, JSON_PATCH_OK, 0, 0, "the inverse");
    /* its text is read again, though the document is as deep as one may be */
    size_t length = report.size;
    expect(json_patch_check(inverse, length, &report), &report, JSON_PATCH_OK, 0, 0, "the inverse");
    expect(json_patch_undo(&kept, &report), &report, JSON_PATCH_OK, 0, 0, "what is recorded");
    json_patch_text(&kept, out, ROOM, &report);
    expect_text(OF(deep), out, report.size, "json_patch_undo");
    expect(json_patch_undo(&kept, &report), &report, JSON_PATCH_NOTHING, 0, 0, "it is used up");
    json_patch_update(&kept, OF(patch), out, ROOM, &report);
    expect(json_patch_undo(&kept, &report), &report, JSON_PATCH_NOTHING, 0, 0, "no inverse is kept");
    expect(json_patch_update(&kept, inverse, length, out, ROOM, &report), &report, JSON_PATCH_OK, 0, 0,
           "the inverse as a patch");
    json_patch_text(&kept, out, ROOM, &report);
    expect_text(OF(deep), out, report.size, "the inverse");
    json_patch_close(&kept);
    free(deep.bytes);
    free(patch.bytes);
}

/* ---- all of it, on a thread */

static void *made(void *unused) {
    static const size_t depths[] = {1, 2, 3, 7, 60, 123, 124, 125, 127, 1000};
    static const size_t lengths[] = {100, 300, 3000, 70000, LONGEST};
    for (size_t i = 0; i < sizeof depths / sizeof *depths; i++) {
        json_patch_limits given = limits_of(depths[i], JSON_PATCH_MOST_BYTES);
        json_patch_limits limits = given;
        if (limits.depth > MOST)
            limits.depth = MOST;
        for (size_t j = 0; j < NESTS; j++) {
            if (levels_of(&nests[j]) <= limits.depth)
                for (size_t k = 0; k < sizeof lengths / sizeof *lengths; k++)
                    expect_doubling(&nests[j], lengths[k], &limits);
            expect_long_way(&nests[j], &limits);
            for (size_t turns = 0; turns <= 130; turns++)
                expect_deep(&nests[j], turns, given.depth > MOST ? &given : &limits);
        }
        if (limits.depth >= 2) {
            expect_moves(1, &limits);
            expect_moves(limits.depth, &limits);
            expect_moves(500, &limits);
        }
        for (size_t levels = 1; levels <= 130; levels++)
            expect_values(levels, &limits);
        for (size_t levels = 0; levels <= 130; levels++)
            expect_difference(levels, given.depth > MOST ? &given : &limits);
    }
    const json_patch_limits usual = JSON_PATCH_LIMITS, small = limits_of(MOST, 1000), larger = limits_of(MOST, 200000);
    /* the text of one copy has 39 bytes */
    expect_copies(1036, 1, &small);
    expect_copies(1037, 1, &small);
    expect_copies(1000, 250, &larger);
    expect_copies(50000, 1400, &usual);
    /* six copies have as many bytes as a text may have, or five more */
    expect_copies_over(245, 6, &small);
    expect_copies_over(246, 6, &small);
    expect_copies_over(50000, 1400, &usual);
    /* six tests read one byte less than may be read, or four more */
    expect_tests(246, 6, &small);
    expect_tests(247, 6, &small);
    expect_tests(50000, 1400, &usual);
    expect_moves_back(9, 100, &small);
    expect_moves_back(9, 101, &small);
    expect_moves_back(1000, 500, &usual);
    /* a text's inverse has as many bytes as it may, and one more */
    expect_moves_back(956, 2, &small);
    expect_moves_back(957, 2, &small);
    expect_moves_back(9, 29, &small);
    expect_moves_back(9, 30, &small);
    expect_growth(10, 100, &small);
    expect_growth(1000, 100, &usual);
    expect_operations(1);
    expect_operations(2);
    expect_operations(2000);
    expect_names(0);
    expect_names(MOST - 1);
    expect_brackets();
    expect_undo();
    return unused;
}

int main(int count, char **words) {
    size_t stack = count > 1 ? strtoul(words[1], NULL, 10) : 196608;
    pthread_attr_t attributes;
    pthread_t thread;
    out = malloc(ROOM), inverse = malloc(ROOM), other = malloc(ROOM);
    if (!out || !inverse || !other || pthread_attr_init(&attributes) || pthread_attr_setstacksize(&attributes, stack) ||
        pthread_create(&thread, &attributes, made, NULL) || pthread_join(thread, NULL))
        fail("no thread with a stack of %zu bytes", stack);
    printf("c: %lu calls within limits, on a stack of %zu bytes\n", calls, stack);
    free(out);
    free(inverse);
    free(other);
    return 0;
}
