/*
 * Tests of json_patch_diff on pairs of documents that a stranger may hand in: long lists, equal, shifted,
 * reversed, all different and all alike, and objects with many members. Each is answered, and the patch,
 * which is no longer than the replacement of the whole, leads to the second document, from a text and
 * from what is kept, and back by what is recorded.
 *
 *     test_diff
 */
#include "put.h"

static unsigned long pairs;

static text with_room(size_t room) {
    text made = {malloc(room), 0, room};
    if (!made.bytes)
        fail("no memory");
    return made;
}

/* ---- documents */

/* The element at this place of an array of so many. */
typedef long element(long place, long count);

static long counted(long place, long count) { return place + 0 * count; }
static long shifted(long place, long count) { return place + 1 + 0 * count; }
static long reversed(long place, long count) { return count - place; }
static long others(long place, long count) { return -1 - place - 0 * count; }
static long alike(long place, long count) { return 7 + 0 * (place + count); }
static long by_turns(long place, long count) { return place % 2 + 0 * count; }
static long by_other_turns(long place, long count) { return (place + 1) % 2 + 0 * count; }
static long scattered(long place, long count) { return (long)((unsigned long)place * 7919 % 104729) % count; }

static element *const elements[] = {counted, shifted, reversed, others, alike, by_turns, by_other_turns, scattered};
enum { ELEMENTS = sizeof elements / sizeof *elements };

static text array(element *of, long count) {
    text made = {NULL, 0, 0};
    put(&made, "[");
    for (long place = 0; place < count; place++)
        put(&made, "%s%ld", place ? "," : "", of(place, count));
    put(&made, "]");
    return made;
}

/* Members in the order of their names, each an array of one element. */
static text object(element *of, long count, long first) {
    text made = {NULL, 0, 0};
    put(&made, "{");
    for (long place = 0; place < count; place++)
        put(&made, "%s\"m%08ld\":[%ld]", place ? "," : "", first + place, of(place, count));
    put(&made, "}");
    return made;
}

/* ---- pairs */

static void expect(json_patch_status status, const char *of) {
    if (status != JSON_PATCH_OK)
        fail("status %d: %s", status, of);
}

static void expect_text(const text *wanted, const char *bytes, size_t length, const char *of) {
    if (wanted->length != length || memcmp(wanted->bytes, bytes, length) != 0)
        fail("it leads to %.*s: %s", (int)(length < 200 ? length : 200), bytes, of);
}

/* What is kept is led to the second document and back. */
static void expect_kept(const text *from, const text *to, const text *patch, text *out, const char *of) {
    json_patch_document kept = JSON_PATCH_DOCUMENT;
    json_patch_report report;
    expect(json_patch_open(&kept, OF(*from), NULL, &report), of);
    expect(json_patch_diff_to(&kept, OF(*to), out->bytes, out->room, &report), of);
    expect_text(patch, out->bytes, report.size, of);
    expect(json_patch_update_recorded(&kept, OF(*patch), out->bytes, out->room, &report), of);
    expect(json_patch_text(&kept, out->bytes, out->room, &report), of);
    expect_text(to, out->bytes, report.size, of);
    if (patch->length > 2)
        expect(json_patch_undo(&kept, &report), of);
    expect(json_patch_text(&kept, out->bytes, out->room, &report), of);
    expect_text(from, out->bytes, report.size, of);
    json_patch_close(&kept);
}

/* The text is led to the second and, by what is recorded, to one that says the first. */
static void expect_recorded(const text *from, const text *to, const text *patch, text *out, const char *of) {
    const json_patch_limits enough = {sizeof enough, JSON_PATCH_MOST_LEVELS, SIZE_MAX, SIZE_MAX};
    text inverse = with_room(from->length + patch->length + JSON_PATCH_MOST_BYTES), back = with_room(out->room);
    json_patch_report report;
    expect(json_patch_apply(OF(*from), OF(*patch), NULL, out->bytes, out->room, &report), of);
    expect_text(to, out->bytes, report.size, of);
    expect(json_patch_record(OF(*from), OF(*patch), NULL, out->bytes, out->room, inverse.bytes, inverse.room, &report),
           of);
    expect_text(to, out->bytes, report.size, of);
    expect(json_patch_apply(OF(*to), inverse.bytes, report.inverse_size, &enough, back.bytes, back.room, &report), of);
    expect(json_patch_diff(OF(*from), back.bytes, report.size, NULL, 0, out->bytes, out->room, &report), of);
    expect_text(&(const text){"[]", 2, 2}, out->bytes, report.size, of);
    free(inverse.bytes);
    free(back.bytes);
}

static void expect_pair(const text *from, const text *to, const char *of) {
    static const char head[] = "[{\"op\":\"replace\",\"path\":\"\",\"value\":", tail[] = "}]";
    size_t whole = sizeof head - 1 + to->length + sizeof tail - 1;
    text out = with_room(whole + from->length), patch = with_room(whole);
    json_patch_report report;
    int is_equal = from->length == to->length && memcmp(from->bytes, OF(*to)) == 0;
    pairs++;
    /* there is room for the replacement of the whole, and so for each patch */
    expect(json_patch_diff(OF(*from), OF(*to), NULL, 0, patch.bytes, whole, &report), of);
    patch.length = report.size;
    if (is_equal != (patch.length == 2))
        fail("%.*s leads from one to the other: %s", 200, patch.bytes, of);
    expect_recorded(from, to, &patch, &out, of);
    expect_kept(from, to, &patch, &out, of);
    free(out.bytes);
    free(patch.bytes);
}

static void expect_lists(long olds, long news) {
    for (size_t i = 0; i < ELEMENTS; i++)
        for (size_t j = 0; j < ELEMENTS; j++) {
            char of[64];
            text from = array(elements[i], olds), to = array(elements[j], news);
            snprintf(of, sizeof of, "lists %zu and %zu of %ld and %ld", i, j, olds, news);
            expect_pair(&from, &to, of);
            free(from.bytes);
            free(to.bytes);
        }
}

static void expect_objects(long olds, long news, long first) {
    for (size_t i = 0; i < ELEMENTS; i += 2) {
        text from = object(counted, olds, 0), to = object(elements[i], news, first);
        expect_pair(&from, &to, "objects");
        free(from.bytes);
        free(to.bytes);
    }
}

int main(void) {
    static const long counts[] = {0, 1, 2, 9, 300};
    for (size_t i = 0; i < sizeof counts / sizeof *counts; i++)
        for (size_t j = 0; j < sizeof counts / sizeof *counts; j++)
            expect_lists(counts[i], counts[j]);
    /* 3,000,000 pairs of elements, and more than the 16,777,216 of which each is looked at */
    expect_lists(1500, 2000);
    expect_lists(6000, 5000);
    expect_objects(0, 1000, 0);
    expect_objects(1000, 0, 0);
    expect_objects(20000, 20000, 0);
    expect_objects(20000, 20000, 7);
    printf("c: the patch between %lu pairs of documents\n", pairs);
    return 0;
}
