/*
 * Tests of the calls of json_patch.h on texts: rows worked out by hand and those of cases.json, each with
 * outputs of every length from 0 to past what it needs; and limits, at each side of where they lie. It prints
 * how many calls it made.
 *
 *     test CASES
 */
#define _DEFAULT_SOURCE /* MAP_ANONYMOUS */
#include "expect.h"

#include "values.h"

#include <sys/mman.h>
#include <unistd.h>

#define TEXT(s) {(char *)(s), sizeof(s) - 1}
#define MAKES(call, document, patch, written) {call, TEXT(document), TEXT(patch), 0, 0, 0, TEXT(written), NULL}
#define TELLS(call, document, patch, status, operation, kind, path) \
    {call, TEXT(document), TEXT(patch), status, operation, kind, TEXT(path), NULL}
/* The document or the patch is none. */
#define NOT(call, status, kind, document, patch) TELLS(call, document, patch, JSON_PATCH_##status, 0, JSON_PATCH_##kind, "")
#define REFUSES(call, document, patch, operation, kind, path) \
    TELLS(call, document, patch, JSON_PATCH_REFUSED, operation, JSON_PATCH_##kind, path)

#define LAYOUT "{\r\n\t\"a\" : 1e400,\r\n\t\"b\":\t[ ]\r\n}\r\n"
#define PLACES " { \"a\" : [1.50 , 1e400 ] } "
#define NAMES "{\"\\u0061/b\":\"\\u00e9\",\"m~n\":1,\"m~n\":2.0}"
#define DEPTH_9 "[[[[[[[[["
#define DEPTH_63 DEPTH_9 DEPTH_9 DEPTH_9 DEPTH_9 DEPTH_9 DEPTH_9 DEPTH_9
#define DEPTH_124 DEPTH_63 DEPTH_9 DEPTH_9 DEPTH_9 DEPTH_9 DEPTH_9 DEPTH_9 "[[[[[[["
#define DEPTH_126 DEPTH_63 DEPTH_63

static const row rows[] = {
    /* a value is put in as it is written, and a copied one too */
    MAKES(APPLY, "{ \"price\": 1.50, \"list\": [1, 2] }", "[{\"op\": \"copy\", \"from\": \"/price\", \"path\": \"/list/1\"}]",
          "{ \"price\": 1.50, \"list\": [1, 1.50, 2] }"),
    MAKES(APPLY, LAYOUT, "[{\"op\":\"replace\",\"path\":\"/b\",\"value\": -0.0 }]",
          "{\r\n\t\"a\" : 1e400,\r\n\t\"b\":\t-0.0\r\n}\r\n"),
    MAKES(APPLY, LAYOUT, "[{\"op\":\"replace\",\"path\":\"\",\"value\":{ \"c\" : 1E+2 }}]", "{ \"c\" : 1E+2 }\r\n"),
    MAKES(APPLY, " \n1\t", "[{\"op\":\"add\",\"path\":\"\",\"value\":\"\\u0031\"}]", " \n\"\\u0031\"\t"),
    /* what goes with a new member or element is as beside its neighbour */
    MAKES(APPLY, LAYOUT, "[{\"op\":\"add\",\"path\":\"/c\",\"value\":{\"d\":1.50}}]",
          "{\r\n\t\"a\" : 1e400,\r\n\t\"b\":\t[ ],\r\n\t\"c\":\t{\"d\":1.50}\r\n}\r\n"),
    MAKES(APPLY, "[\n  1\n]", "[{\"op\":\"add\",\"path\":\"/-\",\"value\":2}]", "[\n  1,\n  2\n]"),
    MAKES(APPLY, "[1, 2]", "[{\"op\":\"add\",\"path\":\"/0\",\"value\":9}]", "[9, 1, 2]"),
    MAKES(APPLY, "[ ]", "[{\"op\":\"add\",\"path\":\"/0\",\"value\":9}]", "[9 ]"),
    MAKES(APPLY, "{ }", "[{\"op\":\"add\",\"path\":\"/a\",\"value\":9}]", "{\"a\":9 }"),
    /* and goes with it where it goes */
    MAKES(APPLY, LAYOUT, "[{\"op\":\"remove\",\"path\":\"/a\"}]", "{\r\n\t\"b\":\t[ ]\r\n}\r\n"),
    MAKES(APPLY, LAYOUT, "[{\"op\":\"remove\",\"path\":\"/b\"}]", "{\r\n\t\"a\" : 1e400\r\n}\r\n"),
    MAKES(APPLY, "[1 ,2 ,3]", "[{\"op\":\"move\",\"from\":\"/0\",\"path\":\"/1\"}]", "[2 ,1,3]"),
    /* nothing is changed */
    MAKES(APPLY, " {\"b\":1,\"a\":2,\"b\":3} ", "[]", " {\"b\":1,\"a\":2,\"b\":3} "),
    MAKES(APPLY, " {\"b\":[1 ,2],\"a\":0,\"a\":-7} ", " [ ] ", " {\"b\":[1 ,2],\"a\":0,\"a\":-7} "),
    MAKES(APPLY, "[1.50,100,-0]",
          "[{\"op\":\"test\",\"path\":\"/0\",\"value\":1.5},{\"op\":\"test\",\"path\":\"/1\",\"value\":1e2},"
          "{\"op\":\"test\",\"path\":\"/2\",\"value\":0}]",
          "[1.50,100,-0]"),
    /* of several members of one name the last is meant, and all go */
    MAKES(APPLY, "{\"a\":1,\"a\":2}", "[{\"op\":\"replace\",\"path\":\"/a\",\"value\":3}]", "{\"a\":1,\"a\":3}"),
    MAKES(APPLY, "{\"a\":1,\"b\":2,\"a\":3}", "[{\"op\":\"remove\",\"path\":\"/a\"}]", "{\"b\":2}"),
    MAKES(APPLY, "{\"\\u0061\":1.0,\"b\":2}", "[{\"op\":\"replace\",\"path\":\"/a\",\"value\":3}]", "{\"\\u0061\":3,\"b\":2}"),
    /* the inverse has what was displaced as it was written, the last operation's first */
    MAKES(RECORD, LAYOUT, "[]", "[" LAYOUT ",[]]"),
    MAKES(RECORD, "[1.50]", "[{\"op\":\"test\",\"path\":\"/0\",\"value\":15e-1}]", "[[1.50],[]]"),
    MAKES(RECORD, LAYOUT, "[{\"op\":\"remove\",\"path\":\"/a\"},{\"op\":\"add\",\"path\":\"/b/-\",\"value\":[ 1E+2 ]}]",
          "[{\r\n\t\"b\":\t[[ 1E+2 ] ]\r\n}\r\n,"
          "[{\"op\":\"remove\",\"path\":\"/b/0\"},{\"op\":\"add\",\"path\":\"/a\",\"value\":1e400}]]"),
    MAKES(RECORD, " { \"a/b\" : [ 1.50 ], \"~\" : -0.0 } ",
          "[{\"op\":\"move\",\"from\":\"/a~1b/0\",\"path\":\"/~0\"},{\"op\":\"replace\",\"path\":\"/a~1b\",\"value\":\"\\u0061\"}]",
          "[ { \"a/b\" : \"\\u0061\", \"~\" : 1.50 } ,[{\"op\":\"replace\",\"path\":\"/a~1b\",\"value\":[]},"
          "{\"op\":\"replace\",\"path\":\"/~0\",\"value\":-0.0},{\"op\":\"add\",\"path\":\"/a~1b/0\",\"value\":1.50}]]"),
    MAKES(RECORD, "\n[ 1.0 , {\"\\u0061\" : 2} ]\t",
          "[{\"op\":\"copy\",\"from\":\"/1\",\"path\":\"/0\"},{\"op\":\"move\",\"from\":\"/2\",\"path\":\"\"}]",
          "[\n{\"\\u0061\" : 2}\t,[{\"op\":\"replace\",\"path\":\"\",\"value\":[ {\"\\u0061\" : 2}, 1.0 ]},"
          "{\"op\":\"add\",\"path\":\"/2\",\"value\":{\"\\u0061\" : 2}},{\"op\":\"remove\",\"path\":\"/0\"}]]"),
    MAKES(RECORD, "{\"\\\"\\\\\\n\\u0001\\u00e9\\u007f\":1E0}",
          "[{\"op\":\"remove\",\"path\":\"/\\u0022\\u005c\\n\\u0001\\u00e9\\u007F\"}]",
          "[{},[{\"op\":\"add\",\"path\":\"/\\\"\\\\\\n\\u0001\xc3\xa9\x7f\",\"value\":1E0}]]"),
    /* what is null goes, an object is merged, and any other value is put in where not the same stands */
    MAKES(MERGE, LAYOUT, "{\"b\":{\"c\" : 1.50,\"d\":null}}", "{\r\n\t\"a\" : 1e400,\r\n\t\"b\":\t{\"c\" : 1.50}\r\n}\r\n"),
    MAKES(MERGE, LAYOUT, "{\"a\":null}", "{\r\n\t\"b\":\t[ ]\r\n}\r\n"),
    MAKES(MERGE, LAYOUT, "{\"a\":10e399,\"c\":null,\"b\":[]}", LAYOUT),
    MAKES(MERGE, LAYOUT, "{\"c\":1.0}", "{\r\n\t\"a\" : 1e400,\r\n\t\"b\":\t[ ],\r\n\t\"c\":\t1.0\r\n}\r\n"),
    MAKES(MERGE, " { \"a\" : { \"b\" : 1 } } ", "{\"a\":{\"b\":[null]}}", " { \"a\" : { \"b\" : [null] } } "),
    MAKES(MERGE, " [1.50] ", "\"\\u0061\"", " \"\\u0061\" "),
    MAKES(MERGE, " {} ", " { } ", " {} "),
    MAKES(MERGE, "{}", "{\"a\":1e2}", "{\"a\":1e2}"),
    /* numbers are compared by what they say, and written as the second text has them */
    MAKES(DIFF, LAYOUT, "{\"b\":[],\"a\":10e399}", "[]"),
    MAKES(DIFF, " {\"b\":[1 ,2],\"a\":0,\"a\":-7} ", "{\"a\":-7,\"b\":[1,2]}", "[]"),
    MAKES(DIFF, "{\"a\":1,\"a\":2.50}", " {\"a\" : 25e-1} ", "[]"),
    MAKES(DIFF, "-0", "-0.0", "[]"),
    MAKES(DIFF, "{\"a\":1.5,\"b\":1}", "{\"a\":1.50,\"b\":2.5e3}", "[{\"op\":\"replace\",\"path\":\"/b\",\"value\":2.5e3}]"),
    MAKES(DIFF, LAYOUT, "{\"a\":1e400,\"b\":[-0.0]}", "[{\"op\":\"add\",\"path\":\"/b/0\",\"value\":-0.0}]"),
    MAKES(DIFF, "{\"text\":\"some longer text\",\"b\":1e9,\"a/b\":1.50}", "{\"text\":\"some longer text\",\"b\":1e9}",
          "[{\"op\":\"remove\",\"path\":\"/a~1b\"}]"),
    MAKES(DIFF, "1.51", "1.50", "[{\"op\":\"replace\",\"path\":\"\",\"value\":1.50}]"),
    /* what is moved has equal numbers, and stays as it is written */
    MAKES(MOVING_DIFF, LAYOUT, "{\"b\":[],\"a\":10e399}", "[]"),
    MAKES(MOVING_DIFF, "{\"draft\" : [1.50, 1e400]}", "{\"title\":[1.5,10e399]}",
          "[{\"from\":\"/draft\",\"op\":\"move\",\"path\":\"/title\"}]"),
    MAKES(MOVING_DIFF, "{\"a\":{\"n\":1.5},\"b\":1e9,\"text\":\"some longer text, so that the whole is not replaced\"}",
          "{\"b\":1e9,\"c\":{\"n\":1.50},\"d\":-0.0,\"text\":\"some longer text, so that the whole is not replaced\"}",
          "[{\"from\":\"/a\",\"op\":\"move\",\"path\":\"/c\"},{\"op\":\"add\",\"path\":\"/d\",\"value\":-0.0}]"),
    /* with a member that another hides, the text would nest deeper than both: it isn't moved */
    MAKES(MOVING_DIFF, "{\"a\":{\"x\":[[[]]],\"x\":1},\"b\":{\"text\":\"some longer text that stays\"}}",
          "{\"b\":{\"c\":{\"x\":1},\"text\":\"some longer text that stays\"}}",
          "[{\"op\":\"remove\",\"path\":\"/a\"},{\"op\":\"add\",\"path\":\"/b/c\",\"value\":{\"x\":1}}]"),
    /* what is removed or replaced is tested, written as it stands there */
    MAKES(GUARDED_DIFF, LAYOUT, "{\"b\":[],\"a\":10e399}", "[]"),
    MAKES(GUARDED_DIFF, "{\"a\":1.50,\"b\":1}", "{\"a\":2e1,\"b\":1}",
          "[{\"op\":\"test\",\"path\":\"/a\",\"value\":1.50},{\"op\":\"replace\",\"path\":\"/a\",\"value\":2e1}]"),
    MAKES(GUARDED_DIFF, "{\"a\":[1.0],\"b\":1.00,\"c\":1e0,\"text\":\"some longer text, so that the whole is not replaced\"}",
          "{\"b\":1,\"c\":2,\"d\":[1],\"text\":\"some longer text, so that the whole is not replaced\"}",
          "[{\"op\":\"test\",\"path\":\"/a\",\"value\":[1.0]},{\"op\":\"remove\",\"path\":\"/a\"},"
          "{\"op\":\"test\",\"path\":\"/c\",\"value\":1e0},{\"op\":\"replace\",\"path\":\"/c\",\"value\":2},"
          "{\"op\":\"add\",\"path\":\"/d\",\"value\":[1]}]"),
    /* so is the merge patch between two texts; names are in byte order, and escaped where they have to be */
    MAKES(MERGE_DIFF, LAYOUT, "{\"b\":[],\"a\":10e399}", "{}"),
    MAKES(MERGE_DIFF, LAYOUT, "{\"c\":{\"d\" : 1.50},\"b\":[ -0.0 ]}", "{\"a\":null,\"b\":[-0.0],\"c\":{\"d\":1.50}}"),
    MAKES(MERGE_DIFF, "{}", "{\"\\u00e9\":1E+2,\"\\\"\\\\\\n\\u0001\":\"\\u0041\\/\",\"\":0}",
          "{\"\":0,\"\\\"\\\\\\n\\u0001\":\"A/\",\"\xc3\xa9\":1E+2}"),
    MAKES(MERGE_DIFF, "{\"a\":{\"b\":null,\"c\":1}}", "{\"a\":{\"b\":null}}", "{\"a\":{\"c\":null}}"),
    MAKES(MERGE_DIFF, "[1]", "{\"a\":[null]}", "{\"a\":[null]}"),
    MAKES(MERGE_DIFF, "1.5", "null", "null"),
    /* no merge patch makes a member null */
    NOT(MERGE_DIFF, IMPOSSIBLE, KIND_NONE, "{\"a\":1}", "{\"a\":{\"b\":{\"c\":null}}}"),
    NOT(MERGE_DIFF, IMPOSSIBLE, KIND_NONE, "null", "{\"a\":null}"),
    NOT(MERGE_DIFF, IMPOSSIBLE, KIND_NONE, "{\"a\":null,\"b\":1}", "{\"a\":1,\"b\":null}"),
    /* two merge patches in one: what the second has, and else the first */
    MAKES(MERGE_JOIN, LAYOUT, "{}", "{\"a\":1e400,\"b\":[]}"),
    MAKES(MERGE_JOIN, "{\"a\":{\"b\":1.50,\"c\":null},\"d\":1}", "{\"a\":{\"b\":null,\"e\":-0},\"d\":null}",
          "{\"a\":{\"b\":null,\"c\":null,\"e\":-0},\"d\":null}"),
    MAKES(MERGE_JOIN, "{\"a\":1}", "[ 1.0 ]", "[1.0]"),
    /* none makes an object whole, as the first and then the second do */
    NOT(MERGE_JOIN, IMPOSSIBLE, KIND_NONE, "{\"a\":1.5}", "{\"a\":{\"b\":null}}"),
    NOT(MERGE_JOIN, IMPOSSIBLE, KIND_NONE, "{\"a\":{\"b\":null}}", "{\"a\":{\"b\":{}}}"),
    NOT(MERGE_JOIN, IMPOSSIBLE, KIND_NONE, "[]", "{}"),
    /* an operation is refused */
    REFUSES(APPLY, "[1.50]", "[{\"op\":\"test\",\"path\":\"/0\",\"value\":1.51}]", 0, TEST_FAILED, "/0"),
    REFUSES(APPLY, "[1e400]",
            "[{\"op\":\"test\",\"path\":\"/0\",\"value\":1e400},{\"op\":\"test\",\"path\":\"/0\",\"value\":1e401}]", 1,
            TEST_FAILED, "/0"),
    REFUSES(APPLY, "{}",
            "[{\"op\":\"add\",\"path\":\"/a\",\"value\":0.1},{\"op\":\"copy\",\"from\":\"/x\",\"path\":\"/y\"}]", 1,
            INVALID_FROM_POINTER, "/y"),
    REFUSES(APPLY, "{}", "[{\"op\":\"remove\",\"path\":\"/a~1b\"}]", 0, INVALID_POINTER, "/a~1b"),
    REFUSES(APPLY, "{\"a\":{}}", "[{\"op\":\"move\",\"from\":\"/a\",\"path\":\"/a/b\"}]", 0, CANNOT_MOVE_INSIDE_ITSELF,
            "/a/b"),
    REFUSES(RECORD, "[1.50]",
            "[{\"op\":\"remove\",\"path\":\"/0\"},{\"op\":\"replace\",\"path\":\"/0\",\"value\":1e400}]", 1,
            INVALID_POINTER, "/0"),
    /* a text is none, the document's first */
    NOT(APPLY, NO_DOCUMENT, NOT_JSON, "", "[]"),
    NOT(APPLY, NO_DOCUMENT, NOT_JSON, "[1,", "[]"),
    NOT(APPLY, NO_DOCUMENT, NOT_JSON, "[1,]", "[]"),
    NOT(APPLY, NO_DOCUMENT, NOT_JSON, "01", "[]"),
    NOT(APPLY, NO_DOCUMENT, NOT_JSON, "\"\xff\"", "[]"),
    NOT(APPLY, NO_DOCUMENT, NOT_JSON, "{", "["),
    NOT(APPLY, NO_DOCUMENT, TOO_DEEP, DEPTH_126, "["),
    NOT(APPLY, NO_PATCH, NOT_JSON, "1", ""),
    NOT(APPLY, NO_PATCH, NOT_JSON, "1", "[\xc0]"),
    NOT(APPLY, NO_PATCH, NOT_JSON, "1", DEPTH_126 "["),
    NOT(APPLY, NO_PATCH, TOO_DEEP, "1", DEPTH_126 "[["),
    NOT(APPLY, NO_PATCH, NOT_A_LIST, "1", "1.5"),
    NOT(APPLY, NO_PATCH, BAD_PATH, "1", "[{\"op\":\"add\",\"path\":\"a\",\"value\":1.5}]"),
    TELLS(APPLY, "1", "[{\"op\":\"test\",\"path\":\"\",\"value\":2},1.5]", JSON_PATCH_NO_PATCH, 1,
          JSON_PATCH_NOT_AN_OBJECT, ""),
    NOT(RECORD, NO_DOCUMENT, NOT_JSON, "{", "["),
    NOT(RECORD, NO_DOCUMENT, TOO_DEEP, DEPTH_126, "["),
    NOT(RECORD, NO_PATCH, NOT_JSON, "1", "["),
    NOT(RECORD, NO_PATCH, NOT_JSON, "-0", "["),
    NOT(RECORD, NO_PATCH, TOO_DEEP, "1", DEPTH_126 "[["),
    NOT(MERGE, NO_DOCUMENT, NOT_JSON, "{", "{"),
    NOT(MERGE, NO_DOCUMENT, TOO_DEEP, DEPTH_126, "{"),
    NOT(MERGE, NO_DOCUMENT, UNPAIRED_SURROGATE, "[\"\\ud800\"]", "{"),
    NOT(MERGE, NO_PATCH, NOT_JSON, "{}", "{"),
    NOT(MERGE, NO_PATCH, NOT_JSON, "{}", "{\"a\":"),
    NOT(MERGE, NO_PATCH, NOT_JSON, "{}", "\"\xff\""),
    NOT(MERGE, NO_PATCH, UNPAIRED_SURROGATE, "{}", "\"\\udfff\""),
    NOT(MERGE, NO_PATCH, TOO_DEEP, "{}", DEPTH_126),
    NOT(DIFF, NO_DOCUMENT, NOT_JSON, "{", "{"),
    NOT(DIFF, NO_DOCUMENT, NOT_JSON, "{", DEPTH_126),
    NOT(DIFF, NO_DOCUMENT, TOO_DEEP, DEPTH_126, "1"),
    NOT(DIFF, NO_PATCH, NOT_JSON, "{}", ""),
    NOT(DIFF, NO_PATCH, NOT_JSON, "1.5", "[1.5,]"),
    NOT(DIFF, NO_PATCH, UNPAIRED_SURROGATE, "1.5", "\"\\ud800\""),
    NOT(DIFF, NO_PATCH, TOO_DEEP, "1.5", DEPTH_126),
    NOT(MOVING_DIFF, NO_DOCUMENT, TOO_DEEP, DEPTH_126, "1"),
    NOT(MOVING_DIFF, NO_PATCH, NOT_JSON, "1.5", "[1.5,]"),
    NOT(GUARDED_DIFF, NO_DOCUMENT, TOO_DEEP, DEPTH_126, "1"),
    NOT(GUARDED_DIFF, NO_PATCH, NOT_JSON, "1.5", "[1.5,]"),
    NOT(MERGE_DIFF, NO_DOCUMENT, NOT_JSON, "{", "{\"a\":null}"),
    NOT(MERGE_DIFF, NO_DOCUMENT, TOO_DEEP, DEPTH_126, "1"),
    NOT(MERGE_DIFF, NO_PATCH, NOT_JSON, "1.5", "[1.5,]"),
    NOT(MERGE_DIFF, NO_PATCH, UNPAIRED_SURROGATE, "1.5", "{\"\\ud800\":null}"),
    NOT(MERGE_DIFF, NO_PATCH, TOO_DEEP, "1.5", DEPTH_126),
    NOT(MERGE_JOIN, NO_DOCUMENT, NOT_JSON, "[", DEPTH_126),
    NOT(MERGE_JOIN, NO_DOCUMENT, UNPAIRED_SURROGATE, "\"\\udc00\"", "{"),
    NOT(MERGE_JOIN, NO_PATCH, NOT_JSON, "1", "\"\xff\""),
    NOT(MERGE_JOIN, NO_PATCH, TOO_DEEP, "1", DEPTH_126),
    /* where a pointer leads */
    MAKES(VALUE, PLACES, "", "{ \"a\" : [1.50 , 1e400 ] }"),
    MAKES(VALUE, PLACES, "/a", "[1.50 , 1e400 ]"),
    MAKES(VALUE, PLACES, "/a/0", "1.50"),
    MAKES(VALUE, PLACES, "/a/1", "1e400"),
    NOT(VALUE, NOTHING, KIND_NONE, PLACES, "/a/2"),
    NOT(VALUE, NOTHING, KIND_NONE, PLACES, "/a/-"),
    NOT(VALUE, NOTHING, KIND_NONE, PLACES, "/a/00"),
    NOT(VALUE, NOTHING, KIND_NONE, PLACES, "/b"),
    MAKES(VALUE, NAMES, "/a~1b", "\"\\u00e9\""),
    MAKES(VALUE, NAMES, "/m~0n", "2.0"),
    NOT(VALUE, NO_POINTER, KIND_NONE, "{}", "a"),
    NOT(VALUE, NO_POINTER, KIND_NONE, "{}", "/~2"),
    NOT(VALUE, NO_POINTER, KIND_NONE, "{}", "/\xff"),
    NOT(VALUE, NO_POINTER, KIND_NONE, "{", "a"),
    NOT(VALUE, NO_DOCUMENT, NOT_JSON, "{", "/a"),
    NOT(VALUE, NO_DOCUMENT, NOT_JSON, "{\"a\":\"\xff\"}", "/a"),
    NOT(VALUE, NO_DOCUMENT, NOT_JSON, DEPTH_124, "/0"),
    NOT(VALUE, NO_DOCUMENT, TOO_DEEP, DEPTH_124 "[", "/0"),
};

static unsigned long checks[JSON_PATCH_NO_PATCH + 1];

/* Reads the patch of the row alone, and compares what is told with what that row says of it. */
static void expect_check(const row *row) {
    json_patch_report report = {77, 77, 77, 77};
    int is_patch = row->status != JSON_PATCH_NO_PATCH;
    if (row->call > RECORD || row->status == JSON_PATCH_NO_DOCUMENT)
        return;
    json_patch_status status = json_patch_check(row->patch.bytes, row->patch.length, &report);
    calls++;
    if (status != (is_patch ? JSON_PATCH_OK : JSON_PATCH_NO_PATCH) || report.size != 0 || report.inverse_size != 0 ||
        report.operation != (is_patch ? 0 : row->operation) ||
        report.kind != (is_patch ? JSON_PATCH_KIND_NONE : row->kind))
        fail("status %d, operation %zu, kind %d of the check of %s", status, report.operation, report.kind,
             row->patch.bytes);
    checks[status]++;
}

/* ---- where a patch leads */

enum { ROOM = 1 << 20 };

/* Two texts say the same. */
static void expect_same(text first, text second) {
    static char out[ROOM];
    json_patch_report report;
    const row between = {DIFF, first, second, 0, 0, 0, {NULL, 0}, NULL};
    if (made(&between, out, ROOM, NULL, 0, &report) || report.size != 2)
        fail("%.*s, and not %.*s", (int)first.length, first.bytes, (int)second.length, second.bytes);
}

/* The text that a merge leaves, in this room. */
static text merged(text document, text patch, char *out) {
    const json_patch_limits enough = {sizeof enough, JSON_PATCH_MOST_LEVELS, SIZE_MAX, SIZE_MAX};
    const row merge = {MERGE, document, patch, 0, 0, 0, {NULL, 0}, &enough};
    json_patch_report report;
    if (made(&merge, out, ROOM, NULL, 0, &report))
        fail("%.*s isn't merged", (int)patch.length, patch.bytes);
    return (text){out, report.size};
}

/* The merge patch of two texts leads to the second; one of two does what these do in turn. */
static void expect_merged(const row *it) {
    static const text documents[] = {TEXT("null"), TEXT(LAYOUT), TEXT("{\"a\":{\"b\":[],\"x\":1},\"price\":0,\"d\":{\"e\":null}}")};
    static char made_of[ROOM], out[ROOM], first[ROOM], second[ROOM];
    json_patch_report report;
    if ((it->call != MERGE_DIFF && it->call != MERGE_JOIN) || it->status != JSON_PATCH_OK)
        return;
    made(it, made_of, ROOM, NULL, 0, &report);
    const text patch = {made_of, report.size};
    if (it->call == MERGE_DIFF) {
        expect_same(merged(it->document, patch, out), it->patch);
        return;
    }
    for (size_t i = 0; i < sizeof documents / sizeof *documents; i++)
        expect_same(merged(documents[i], patch, out),
                    merged(merged(documents[i], it->document, first), it->patch, second));
}

/* The patch of a difference leads to the second text, and an inverse back: the text that it leaves says the
   same. */
static void expect_led(const row *it) {
    static char out[ROOM], inverse[ROOM], led[ROOM];
    const json_patch_limits enough = {sizeof enough, JSON_PATCH_MOST_LEVELS, SIZE_MAX, SIZE_MAX};
    json_patch_report report;
    int is_difference = it->call == DIFF || it->call == MOVING_DIFF || it->call == GUARDED_DIFF;
    if ((!is_difference && it->call != RECORD) || it->status != JSON_PATCH_OK)
        return;
    made(it, out, ROOM, inverse, ROOM, &report);
    const text none = {NULL, 0}, first = {out, report.size}, second = {inverse, report.inverse_size};
    row applied = {APPLY, first, second, 0, 0, 0, none, &enough};
    if (is_difference)
        applied.document = it->document, applied.patch = first;
    if (made(&applied, led, ROOM, NULL, 0, &report))
        fail("%.*s is refused", (int)applied.patch.length, applied.patch.bytes);
    expect_same((text){led, report.size}, is_difference ? it->patch : it->document);
}

/* A row of cases.json. */
static void expect_row(const row *row) {
    expect_at_each_length(row);
    expect_check(row);
    expect_led(row);
    expect_merged(row);
}

/* Each value as a document, in a patch, and as a merge patch: a number stays, whatever it is. */
static void expect_values(void) {
    const text none = TEXT("[]"), object = TEXT("{}"), nothing = TEXT(""), unread = TEXT("[");
    for (size_t i = 0; i < VALUES; i++) {
        const text value = {(char *)values[i].bytes, values[i].length}, patch = adding(i);
        int is_number = values[i].kind == JSON_PATCH_KIND_NONE;
        char added[1024], whole[1024];
        const text in_object = {added, (size_t)snprintf(added, sizeof added, "{\"a\":%s}", value.bytes)};
        const text put = {whole, (size_t)snprintf(whole, sizeof whole, "[{\"op\":\"replace\",\"path\":\"\",\"value\":%s}]",
                                                  value.bytes)};
        const row told[] = {
            {APPLY, value, none, 2, 0, values[i].kind, nothing, NULL},
            {APPLY, object, patch, 3, 0, values[i].kind, nothing, NULL},
            {MERGE, value, object, 2, 0, values[i].kind, nothing, NULL},
            {MERGE, object, value, 3, 0, values[i].kind, nothing, NULL},
            {DIFF, value, unread, 2, 0, values[i].kind, nothing, NULL},
            {DIFF, object, value, 3, 0, values[i].kind, nothing, NULL},
            {MERGE_DIFF, value, unread, 2, 0, values[i].kind, nothing, NULL},
            {MERGE_DIFF, object, value, 3, 0, values[i].kind, nothing, NULL},
            {MERGE_JOIN, value, unread, 2, 0, values[i].kind, nothing, NULL},
            {MERGE_JOIN, object, value, 3, 0, values[i].kind, nothing, NULL},
            {VALUE, value, nothing, 2, 0, values[i].kind, nothing, NULL},
            {RECORD, value, unread, 2, 0, values[i].kind, nothing, NULL},
        };
        const text written[] = {value, in_object, object, value, nothing, put, nothing, value, nothing, value, value, nothing};
        for (size_t j = 0; j < sizeof told / sizeof *told; j++) {
            row it = told[j];
            if (is_number)
                it.status = 0, it.kind = 0, it.written = written[j];
            if (is_number && it.patch.bytes == unread.bytes)
                it.status = 3, it.kind = JSON_PATCH_NOT_JSON;
            expect(&it, it.written.length + 8, 8);
            expect_check(&it);
        }
        free(patch.bytes);
    }
}

/* ---- limits */

#define WITHIN(depth, bytes) (&(const json_patch_limits){sizeof(json_patch_limits), depth, bytes, SIZE_MAX})
#define OPERATIONS(count) \
    (&(const json_patch_limits){sizeof(json_patch_limits), JSON_PATCH_MOST_LEVELS, JSON_PATCH_MOST_BYTES, count})

/* The call within limits, which comes to that; and how many bytes it makes. */
static size_t expect_within(call call, const char *document, const char *patch, const json_patch_limits *limits,
                            json_patch_status wanted, size_t operation, json_patch_kind kind) {
    static char out[ROOM], inverse[ROOM];
    const row it = {call, {(char *)document, strlen(document)}, {(char *)patch, strlen(patch)}, 0, 0, 0, {NULL, 0}, limits};
    json_patch_report report = {77, 77, 77, 77};
    json_patch_status status = made(&it, out, ROOM, inverse, ROOM, &report);
    statuses[status]++;
    if (status != wanted || report.operation != operation || report.kind != kind)
        fail("status %d, operation %zu, kind %d for %s", status, report.operation, report.kind, patch);
    return report.size;
}

/* The most levels of a text: the document's, and that of each text on the way. An inverse has more. */
static void expect_levels(void) {
    const char *deep = "[{\"op\":\"add\",\"path\":\"/-\",\"value\":[[]]}]";
    const char *way = "[{\"op\":\"test\",\"path\":\"\",\"value\":[]},{\"op\":\"add\",\"path\":\"/0\",\"value\":[[]]},"
                      "{\"op\":\"remove\",\"path\":\"/0\"}]";
    const char *refused = "[{\"op\":\"add\",\"path\":\"/a\",\"value\":[[]]}]";
    const char *whole = "[{\"op\":\"replace\",\"path\":\"\",\"value\":1}]";
    for (call call = APPLY; call <= RECORD; call++) {
        expect_within(call, "[[]]", "[]", WITHIN(2, 0), JSON_PATCH_OK, 0, 0);
        expect_within(call, "[[]]", "[]", WITHIN(1, 0), JSON_PATCH_NO_DOCUMENT, 0, JSON_PATCH_TOO_DEEP);
        expect_within(call, "1", "[]", WITHIN(0, 0), JSON_PATCH_OK, 0, 0);
        expect_within(call, "[]", deep, WITHIN(3, 0), JSON_PATCH_OK, 0, 0);
        expect_within(call, "[]", deep, WITHIN(2, 0), JSON_PATCH_OVER, 0, JSON_PATCH_TOO_DEEP);
        expect_within(call, "[]", way, WITHIN(3, 0), JSON_PATCH_OK, 0, 0);
        expect_within(call, "[]", way, WITHIN(2, 0), JSON_PATCH_OVER, 1, JSON_PATCH_TOO_DEEP);
        expect_within(call, "[]", refused, WITHIN(1, 0), JSON_PATCH_REFUSED, 0, JSON_PATCH_INVALID_POINTER);
        expect_within(call, "[[]]", whole, WITHIN(2, 0), JSON_PATCH_OK, 0, 0);
    }
    /* one of the two texts may have as many */
    expect_within(MERGE, "{\"a\":[1]}", "{\"b\":{}}", WITHIN(2, 0), JSON_PATCH_OK, 0, 0);
    expect_within(MERGE, "{\"a\":[1]}", "{\"b\":{}}", WITHIN(1, 0), JSON_PATCH_NO_DOCUMENT, 0, JSON_PATCH_TOO_DEEP);
    expect_within(MERGE, "{}", "{\"b\":{}}", WITHIN(2, 0), JSON_PATCH_OK, 0, 0);
    expect_within(MERGE, "{}", "{\"b\":{}}", WITHIN(1, 0), JSON_PATCH_NO_PATCH, 0, JSON_PATCH_TOO_DEEP);
    expect_within(DIFF, "[[]]", "1", WITHIN(2, 0), JSON_PATCH_OK, 0, 0);
    expect_within(DIFF, "[[]]", "1", WITHIN(1, 0), JSON_PATCH_NO_DOCUMENT, 0, JSON_PATCH_TOO_DEEP);
    expect_within(DIFF, "1", "[[]]", WITHIN(1, 0), JSON_PATCH_NO_PATCH, 0, JSON_PATCH_TOO_DEEP);
    for (call call = MERGE_DIFF; call <= MERGE_JOIN; call++) {
        expect_within(call, "[[]]", "1", WITHIN(2, 0), JSON_PATCH_OK, 0, 0);
        expect_within(call, "[[]]", "1", WITHIN(1, 0), JSON_PATCH_NO_DOCUMENT, 0, JSON_PATCH_TOO_DEEP);
        expect_within(call, "1", "[[]]", WITHIN(2, 0), JSON_PATCH_OK, 0, 0);
        expect_within(call, "1", "[[]]", WITHIN(1, 0), JSON_PATCH_NO_PATCH, 0, JSON_PATCH_TOO_DEEP);
    }
    expect_within(VALUE, "[[]]", "/0", WITHIN(2, 0), JSON_PATCH_OK, 0, 0);
    expect_within(VALUE, "[[]]", "/0", WITHIN(1, 0), JSON_PATCH_NO_DOCUMENT, 0, JSON_PATCH_TOO_DEEP);
}

/* Those of a call that is given none, and of one that is given more than there may be. */
static void expect_most(void) {
    char document[2 * (JSON_PATCH_MOST_LEVELS + 1) + 1] = {0};
    static const char *const others[] = {[APPLY] = "[]", [RECORD] = "[]", [MERGE] = "{}", [DIFF] = "1",
                                         [MOVING_DIFF] = "1", [GUARDED_DIFF] = "1", [MERGE_DIFF] = "1",
                                         [MERGE_JOIN] = "1", [VALUE] = ""};
    for (size_t levels = JSON_PATCH_MOST_LEVELS; levels <= JSON_PATCH_MOST_LEVELS + 1; levels++) {
        int fits = levels <= JSON_PATCH_MOST_LEVELS;
        memset(document, '[', levels);
        memset(document + levels, ']', levels);
        for (call call = APPLY; call <= VALUE; call++)
            for (int is_given = 0; is_given <= 1; is_given++)
                expect_within(call, document, others[call], is_given ? WITHIN(SIZE_MAX, SIZE_MAX) : NULL,
                              fits ? JSON_PATCH_OK : JSON_PATCH_NO_DOCUMENT, 0, fits ? 0 : JSON_PATCH_TOO_DEEP);
    }
}

/* An array of one string, of so many bytes. */
static const char *of_bytes(size_t count) {
    static char made[JSON_PATCH_MOST_BYTES + 128];
    memset(made, 'x', count + 2);
    memcpy(made, "[\"", 2);
    memcpy(made + count + 2, "\"]", 3);
    return made;
}

/* The most bytes of a text: those of both texts and as many as the limit has. A copy of n x's, with two
   marks, makes 2 (n + 2) + 3 bytes of n + 4. */
static void expect_bytes(void) {
    enum { X = 200, MORE = X + 3 };
    const char *patch = "[{\"op\":\"copy\",\"from\":\"/0\",\"path\":\"/-\"}]";
    const char *twice = "[{\"op\":\"copy\",\"from\":\"/0\",\"path\":\"/1\"},{\"op\":\"remove\",\"path\":\"/1\"}]";
    const char *taken = "[{\"op\":\"remove\",\"path\":\"/0\"}]", *back = "[{\"op\":\"add\",\"path\":\"/0\",\"value\":1.50}]";
    const size_t one = MORE - strlen(patch), two = MORE - strlen(twice), most = JSON_PATCH_MOST_BYTES + strlen(patch) - 3;
    for (call call = APPLY; call <= RECORD; call++) {
        expect_within(call, of_bytes(X), patch, WITHIN(1, one), JSON_PATCH_OK, 0, 0);
        expect_within(call, of_bytes(X), patch, WITHIN(1, one - 1), JSON_PATCH_OVER, 0, JSON_PATCH_TOO_MUCH);
        expect_within(call, of_bytes(X), patch, WITHIN(0, 0), JSON_PATCH_NO_DOCUMENT, 0, JSON_PATCH_TOO_DEEP);
        expect_within(call, of_bytes(X), twice, WITHIN(1, two), JSON_PATCH_OK, 0, 0);
        expect_within(call, of_bytes(X), twice, WITHIN(1, two - 1), JSON_PATCH_OVER, 0, JSON_PATCH_TOO_MUCH);
        expect_within(call, of_bytes(most), patch, NULL, JSON_PATCH_OK, 0, 0);
        expect_within(call, of_bytes(most + 1), patch, NULL, JSON_PATCH_OVER, 0, JSON_PATCH_TOO_MUCH);
    }
    /* those of an inverse are no more */
    const size_t beyond = strlen(back) - strlen("[1.50]") - strlen(taken);
    expect_within(APPLY, "[1.50]", taken, WITHIN(1, 0), JSON_PATCH_OK, 0, 0);
    expect_within(RECORD, "[1.50]", taken, WITHIN(1, beyond), JSON_PATCH_OK, 0, 0);
    expect_within(RECORD, "[1.50]", taken, WITHIN(1, beyond - 1), JSON_PATCH_OVER, 0, JSON_PATCH_TOO_MUCH);
}

static void expect_merged_within(const char *document, const char *patch, size_t bytes, size_t size) {
    size_t made = expect_within(MERGE, document, patch, WITHIN(1, bytes), size ? JSON_PATCH_OK : JSON_PATCH_OVER, 0,
                                size ? JSON_PATCH_KIND_NONE : JSON_PATCH_TOO_MUCH);
    if (made != size)
        fail("%zu bytes of a merge, and not %zu", made, size);
}

/* The bytes of a merge: many new members beside a member with 60,000 spaces take none of them over, and
   make the bytes of both texts, but for two braces, and a comma. Of 14 spaces each takes them over. */
static void expect_merged_bytes(void) {
    enum { SPACES = 60000, MEMBERS = 6000 };
    static char document[SPACES + 9], patch[MEMBERS * 12];
    size_t length = 0;
    document[0] = '{';
    memset(document + 1, ' ', SPACES);
    memcpy(document + 1 + SPACES, "\"a\":1}", 7);
    for (int i = 0; i < MEMBERS; i++)
        length += (size_t)snprintf(patch + length, sizeof patch - length, "%c\"m%d\":1", i ? ',' : '{', i);
    patch[length++] = '}';
    expect_merged_within(document, patch, 0, SPACES + 7 + length - 1);
    const char *near = "{              \"a\":1}", *two = "{\"b\":2,\"c\": 3  }";
    expect_merged_within(near, two, 24, 61);
    expect_merged_within(near, two, 23, 0);
}

/* The most operations of a patch: with one more none is made, whether or not one of them is refused. */
static void expect_operations(void) {
    const char *one = "[{\"op\":\"add\",\"path\":\"/-\",\"value\":1}]";
    const char *two = "[{\"op\":\"add\",\"path\":\"/-\",\"value\":1},{\"op\":\"remove\",\"path\":\"/0\"}]";
    const char *refused = "[{\"op\":\"remove\",\"path\":\"/0\"},{\"op\":\"remove\",\"path\":\"/0\"}]";
    const char *unread = "[{\"op\":\"remove\",\"path\":\"/0\"},{\"op\":\"remove\",\"path\":\"/0\"},{}]";
    for (call call = APPLY; call <= RECORD; call++) {
        expect_within(call, "[]", "[]", OPERATIONS(0), JSON_PATCH_OK, 0, 0);
        expect_within(call, "[]", one, OPERATIONS(0), JSON_PATCH_OVER, 0, JSON_PATCH_TOO_MANY);
        expect_within(call, "[]", one, OPERATIONS(1), JSON_PATCH_OK, 0, 0);
        expect_within(call, "[]", two, OPERATIONS(1), JSON_PATCH_OVER, 1, JSON_PATCH_TOO_MANY);
        expect_within(call, "[]", two, OPERATIONS(2), JSON_PATCH_OK, 0, 0);
        expect_within(call, "[]", two, OPERATIONS(SIZE_MAX - 1), JSON_PATCH_OK, 0, 0);
        expect_within(call, "[]", refused, OPERATIONS(1), JSON_PATCH_OVER, 1, JSON_PATCH_TOO_MANY);
        expect_within(call, "[]", refused, OPERATIONS(2), JSON_PATCH_REFUSED, 0, JSON_PATCH_INVALID_POINTER);
        expect_within(call, "[]", unread, OPERATIONS(1), JSON_PATCH_NO_PATCH, 2, JSON_PATCH_MISSING_OP);
        expect_within(call, "[", two, OPERATIONS(1), JSON_PATCH_NO_DOCUMENT, 0, JSON_PATCH_NOT_JSON);
    }
    expect_within(MERGE, "{}", "{\"a\":1,\"b\":2}", OPERATIONS(0), JSON_PATCH_OK, 0, 0);
    expect_within(DIFF, "[]", "[1]", OPERATIONS(0), JSON_PATCH_OK, 0, 0);
}

/* A struct of limits that says it has so many bytes: it may only be read, and nothing stands behind what is
   read of it. */
static const json_patch_limits *of_size(size_t size) {
    const size_t page = (size_t)sysconf(_SC_PAGESIZE), words = size < 8 ? 1 : size < 32 ? (size + 7) / 8 : 4;
    static char *pages;
    if (!pages)
        pages = mmap(NULL, 2 * page, PROT_NONE, MAP_PRIVATE | MAP_ANONYMOUS, -1, 0);
    size_t *at = (size_t *)(void *)(pages + page) - words;
    if (pages == MAP_FAILED || mprotect(pages, page, PROT_READ | PROT_WRITE))
        fail("no page");
    for (size_t word = 0; word < words; word++)
        at[word] = word ? 1 : size;
    if (mprotect(pages, page, PROT_READ))
        fail("no page to read from");
    return (const json_patch_limits *)at;
}

/* Flags that aren't known or don't go together, where the limits are known. */
static void expect_flags(void) {
    static const unsigned flags[] = {3, 4, 1u << 31, (unsigned)-1};
    for (size_t i = 0; i < sizeof flags / sizeof *flags; i++)
        for (int is_known = 0; is_known <= 1; is_known++) {
            char out[2] = {'!', '!'};
            json_patch_report report = {77, 77, 77, 77};
            json_patch_status status = json_patch_diff("1", 1, "1", 1, of_size(is_known ? 32 : 8), flags[i], out,
                                                       sizeof out, &report);
            if (status != (is_known ? JSON_PATCH_BAD_FLAGS : JSON_PATCH_BAD_LIMITS) || report.size || report.operation ||
                report.inverse_size || report.kind || out[0] != '!')
                fail("status %d for the flags %u", status, flags[i]);
            statuses[status]++;
            calls++;
        }
}

/* A size of the struct that isn't known, in each call that takes one. */
static void expect_sizes(void) {
    static const size_t sizes[] = {32, 0, 8, 16, 24, 31, 33, 40, SIZE_MAX};
    for (size_t i = 0; i < sizeof sizes / sizeof *sizes; i++) {
        const json_patch_limits *limits = of_size(sizes[i]);
        json_patch_status wanted = i ? JSON_PATCH_BAD_LIMITS : JSON_PATCH_OK;
        const row its[] = {MAKES(APPLY, "1", "[]", "1"), MAKES(RECORD, "1", "[]", "[1,[]]"),
                           MAKES(MERGE, "1", "{}", "{}"), MAKES(DIFF, "1", "1", "[]"), MAKES(VALUE, "1", "", "1"),
                           MAKES(MOVING_DIFF, "1", "1", "[]"), MAKES(GUARDED_DIFF, "1", "1", "[]"),
                           MAKES(MERGE_DIFF, "1", "1", "1"), MAKES(MERGE_JOIN, "1", "1", "1")};
        for (size_t j = 0; j < sizeof its / sizeof *its; j++) {
            row it = its[j];
            it.limits = limits;
            it.status = wanted;
            if (wanted)
                it.written.length = 0;
            expect(&it, 8, 8);
        }
        json_patch_document kept = JSON_PATCH_DOCUMENT;
        json_patch_report report = {77, 77, 77, 77};
        calls++;
        if (json_patch_open(&kept, "1", 1, limits, &report) != wanted || report.size || report.inverse_size ||
            report.operation || report.kind || (kept.at != NULL) != !wanted)
            fail("a document is opened, or not, with limits of size %zu", sizes[i]);
        json_patch_close(&kept);
    }
}

/* ---- kinds */

/* Each kind has a text of its own, and what is none is wrong. */
static void expect_kinds(void) {
    for (unsigned kind = 0; kind <= UINT8_MAX; kind++) {
        int is_known = (kind > 0 && kind <= JSON_PATCH_TOO_MANY && kind != 2) ||
                       (kind >= JSON_PATCH_NOT_A_LIST && kind <= JSON_PATCH_MISSING_VALUE);
        const char *said = json_patch_kind_text((uint8_t)kind);
        if ((strcmp(said, "is wrong") != 0) != is_known)
            fail("kind %u %s", kind, said);
        for (unsigned other = 0; is_known && other < kind; other++)
            if (strcmp(said, json_patch_kind_text((uint8_t)other)) == 0)
                fail("kinds %u and %u are told alike", other, kind);
    }
    if (strcmp(json_patch_kind_text(JSON_PATCH_INVALID_POINTER), "path is invalid") != 0)
        fail("a path that is invalid %s", json_patch_kind_text(JSON_PATCH_INVALID_POINTER));
}

int main(int count, char **words) {
    if (count != 2)
        fail("test CASES");
    for (size_t i = 0; i < sizeof rows / sizeof *rows; i++)
        expect_row(&rows[i]);
    for_each_row(words[1], expect_row);
    expect_values();
    expect_levels();
    expect_most();
    expect_bytes();
    expect_merged_bytes();
    expect_operations();
    expect_sizes();
    expect_flags();
    expect_kinds();
    for (int status = 0; status <= JSON_PATCH_BAD_FLAGS; status++)
        if (statuses[status] == 0 && status != JSON_PATCH_NO_MEMORY && status != JSON_PATCH_CLOSED)
            fail("no call returned status %d", status);
    if (!checks[JSON_PATCH_OK] || !checks[JSON_PATCH_NO_PATCH])
        fail("a patch was never read alone, or never refused");
    printf("c: %lu calls on texts\n", calls);
    return 0;
}
