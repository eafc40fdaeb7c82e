/*
 * JSON Patch (RFC 6902) and JSON Merge Patch (RFC 7396) in SQL: a loadable extension of SQLite over
 * json_patch.h.
 *
 *     json_patch_apply(document, patch)      the document that the patch leaves
 *     json_patch_inverse(document, patch)    the patch that takes this one back
 *     json_patch_merge(document, patch)      the document with the merge patch merged into it
 *     json_patch_diff(document, goal)        the patch that leads from the one to the other
 *     json_patch_merge_diff(document, goal)  the merge patch that leads there
 *     json_patch_check(patch)                NULL, or what is wrong with the patch
 *
 * All but the last also take two limits, depth and bytes, and the first two a third, operations, as
 * json_patch.h has them. A NULL among the arguments gives NULL. What isn't a text, or says no document or,
 * but for json_patch_check, no patch, a goal to which no merge patch leads, and a patch that is refused or
 * over the limits are errors of the statement. json_patch_apply and json_patch_merge keep the text where they
 * don't change it. Numbers may be any. A result depends on the arguments alone, and no call reads or writes
 * anything else; so the functions may stand in indexes, generated columns, CHECKs and triggers.
 *
 * In the folder of the archive, with sqlite3ext.h (Debian: libsqlite3-dev):
 *
 *     cc -shared -fPIC -O2 -Iinclude -o json_patch.so sqlite/json_patch_sqlite.c lib/libjson_patch.a
 *     sqlite3 < sqlite/example.sql
 */
#include <sqlite3ext.h>
SQLITE_EXTENSION_INIT1

#include <json_patch.h>
#include <string.h>

/* Since 3.45 SQLite wants it. A header from before hasn't it, and an SQLite from before looks past it. */
#ifndef SQLITE_RESULT_SUBTYPE
#define SQLITE_RESULT_SUBTYPE 0x001000000
#endif

/* What SQLite's own functions give a text that is JSON, so that they take it for a value. */
enum { JSON_SUBTYPE = 'J' };

/* Room beside as much as the texts that are handed in take. */
enum { SPARE_ROOM = 64 };

typedef struct {
    const char *bytes;
    size_t length;
} text;

typedef struct {
    text first, second;
    json_patch_limits limits;
} arguments;

/* A text that can be written, as each call of json_patch.h writes it. */
typedef json_patch_status writer(const arguments *given, char *out, size_t room,
                                 json_patch_report *report);

typedef struct {
    const char *name;
    int texts, limits; /* how many it takes, the limits behind the texts */
    const char *first, *second;
    writer *write;
} function;

/* ---- what is written */

static size_t larger(size_t one, size_t other)
{
    return one > other ? one : other;
}

static json_patch_status write_applied(const arguments *given, char *out, size_t room,
                                       json_patch_report *report)
{
    return json_patch_apply(given->first.bytes, given->first.length, given->second.bytes,
                            given->second.length, &given->limits, out, room, report);
}

static json_patch_status write_merged(const arguments *given, char *out, size_t room,
                                      json_patch_report *report)
{
    return json_patch_merge(given->first.bytes, given->first.length, given->second.bytes,
                            given->second.length, &given->limits, out, room, report);
}

static json_patch_status write_difference(const arguments *given, char *out, size_t room,
                                          json_patch_report *report)
{
    return json_patch_diff(given->first.bytes, given->first.length, given->second.bytes,
                           given->second.length, &given->limits, 0, out, room, report);
}

static json_patch_status write_merge_difference(const arguments *given, char *out, size_t room,
                                                json_patch_report *report)
{
    return json_patch_merge_diff(given->first.bytes, given->first.length, given->second.bytes,
                                 given->second.length, &given->limits, out, room, report);
}

/* The new text goes to the second half of the room: nobody asks for it. */
static json_patch_status write_inverse(const arguments *given, char *out, size_t room,
                                       json_patch_report *report)
{
    size_t half = room / 2;
    json_patch_status status = json_patch_record(
        given->first.bytes, given->first.length, given->second.bytes, given->second.length,
        &given->limits, out + half, half, out, half, report);
    if (status == JSON_PATCH_REFUSED) /* the path, which is no longer than the patch's text */
        memmove(out, out + half, report->size);
    else if (status == JSON_PATCH_NO_ROOM)
        report->size = 2 * larger(report->size, report->inverse_size);
    else
        report->size = report->inverse_size;
    return status;
}

static json_patch_status write_nothing(const arguments *given, char *out, size_t room,
                                       json_patch_report *report)
{
    (void)out;
    (void)room;
    return json_patch_check(given->first.bytes, given->first.length, report);
}

/* ---- what is wrong, in words */

/* Whether the fault is of one operation of the patch, and not of the whole. */
static int is_of_an_operation(json_patch_kind kind)
{
    return kind >= JSON_PATCH_NOT_AN_OBJECT;
}

static char *fault_of_text(const char *which, const json_patch_report *report)
{
    if (is_of_an_operation(report->kind))
        return sqlite3_mprintf("%s: operation %llu: %s", which,
                               (sqlite3_uint64)report->operation, json_patch_kind_text(report->kind));
    return sqlite3_mprintf("%s %s", which, json_patch_kind_text(report->kind));
}

/* Appends a path in visible characters, and none that ends a text: a control character, also of those
   from U+007F to U+009F, is written \uXXXX, and a backslash twice. */
static void append_path(sqlite3_str *message, const char *path, size_t size)
{
    for (size_t i = 0; i < size; i++) {
        unsigned byte = (unsigned char)path[i];
        unsigned next = i + 1 < size ? (unsigned char)path[i + 1] : 0;
        if (byte < 0x20 || byte == 0x7f) {
            sqlite3_str_appendf(message, "\\u%04x", byte);
        } else if (byte == 0xc2 && next < 0xa0) { /* U+0080 to U+009F, in UTF-8 */
            sqlite3_str_appendf(message, "\\u%04x", next);
            i++;
        } else {
            if (byte == '\\')
                sqlite3_str_appendchar(message, 1, '\\');
            sqlite3_str_appendchar(message, 1, path[i]);
        }
    }
}

static char *refusal(const char *path, const json_patch_report *report)
{
    sqlite3_str *message = sqlite3_str_new(NULL);
    sqlite3_str_appendf(message, "operation %llu failed at path '",
                        (sqlite3_uint64)report->operation);
    append_path(message, path, report->size);
    sqlite3_str_appendf(message, "': %s", json_patch_kind_text(report->kind));
    return sqlite3_str_finish(message);
}

/* Why nothing was written, in memory of SQLite; NULL where there is none, or where it is for want of
   memory. A refused operation's path is in out. */
static char *fault(const function *of, json_patch_status status, const char *out,
                   const json_patch_report *report)
{
    switch (status) {
    case JSON_PATCH_REFUSED:
        return refusal(out, report);
    case JSON_PATCH_OVER:
        if (of->write == write_merged)
            return sqlite3_mprintf("%s is over the limits: it %s", of->second, json_patch_kind_text(report->kind));
        return sqlite3_mprintf("operation %llu is over the limits: it %s",
                               (sqlite3_uint64)report->operation, json_patch_kind_text(report->kind));
    case JSON_PATCH_NO_DOCUMENT:
        return fault_of_text(of->first, report);
    case JSON_PATCH_NO_PATCH:
        return fault_of_text(of->texts == 1 ? of->first : of->second, report);
    case JSON_PATCH_IMPOSSIBLE:
        return sqlite3_mprintf("no merge patch leads to the %s: it would have to make a member null", of->second);
    default:
        return NULL;
    }
}

/* ---- the functions */

static void refuse(sqlite3_context *context, const function *of, char *why)
{
    char *message = why ? sqlite3_mprintf("%s: %s", of->name, why) : NULL;
    sqlite3_free(why);
    if (message)
        sqlite3_result_error(context, message, -1);
    else
        sqlite3_result_error_nomem(context);
    sqlite3_free(message);
}

/* Mostly this suffices. */
static size_t first_room(const function *of, const arguments *given)
{
    size_t room = given->first.length + given->second.length + SPARE_ROOM;
    return of->write == write_inverse ? 2 * room : room;
}

/* Gives the text that is written, or the reason why there is none. How much room it takes is known once
   it is made. */
static void give_written(sqlite3_context *context, const function *of, const arguments *given)
{
    size_t room = first_room(of, given);
    json_patch_report report;
    json_patch_status status;
    char *out;
    for (;;) {
        out = sqlite3_malloc64(room);
        if (!out) {
            sqlite3_result_error_nomem(context);
            return;
        }
        status = of->write(given, out, room, &report);
        if (status != JSON_PATCH_NO_ROOM)
            break;
        sqlite3_free(out);
        room = report.size;
    }
    if (status == JSON_PATCH_OK) {
        sqlite3_result_text64(context, out, report.size, sqlite3_free, SQLITE_UTF8);
        sqlite3_result_subtype(context, JSON_SUBTYPE);
        return;
    }
    refuse(context, of, fault(of, status, out, &report));
    sqlite3_free(out);
}

/* Gives NULL for a patch, and else what is wrong with it. */
static void give_fault(sqlite3_context *context, const function *of, const arguments *given)
{
    json_patch_report report;
    json_patch_status status = of->write(given, NULL, 0, &report);
    if (status == JSON_PATCH_OK)
        return;
    char *why = fault(of, status, NULL, &report);
    if (why)
        sqlite3_result_text(context, why, -1, sqlite3_free);
    else
        sqlite3_result_error_nomem(context);
}

/* Takes a text from an argument, or refuses it. */
static int takes_text(sqlite3_context *context, const function *of, const char *which,
                      sqlite3_value *value, text *taken)
{
    if (sqlite3_value_type(value) != SQLITE_TEXT) {
        refuse(context, of, sqlite3_mprintf("%s is not a text", which));
        return 0;
    }
    taken->bytes = (const char *)sqlite3_value_text(value);
    taken->length = (size_t)sqlite3_value_bytes(value);
    if (!taken->bytes)
        sqlite3_result_error_nomem(context);
    return taken->bytes != NULL;
}

/* Takes a limit from an argument, or refuses it. */
static int takes_limit(sqlite3_context *context, const function *of, const char *which,
                       sqlite3_value *value, size_t *taken)
{
    if (sqlite3_value_type(value) != SQLITE_INTEGER || sqlite3_value_int64(value) < 0) {
        refuse(context, of, sqlite3_mprintf("%s is not a whole number from 0 on", which));
        return 0;
    }
    *taken = (size_t)sqlite3_value_int64(value);
    return 1;
}

/* Takes the limits behind the texts, if there are some. */
static int takes_limits(sqlite3_context *context, const function *of, int count,
                        sqlite3_value **values, json_patch_limits *taken)
{
    const char *const names[] = {"depth", "bytes", "operations"};
    size_t *const to[] = {&taken->depth, &taken->bytes, &taken->operations};
    for (int i = 0; i < count; i++)
        if (!takes_limit(context, of, names[i], values[i], to[i]))
            return 0;
    return 1;
}

static int is_any_null(int count, sqlite3_value **values)
{
    for (int i = 0; i < count; i++)
        if (sqlite3_value_type(values[i]) == SQLITE_NULL)
            return 1;
    return 0;
}

static void run(sqlite3_context *context, int count, sqlite3_value **values)
{
    const function *of = sqlite3_user_data(context);
    arguments given = {{"", 0}, {"", 0}, JSON_PATCH_LIMITS};
    if (is_any_null(count, values))
        return;
    if (!takes_text(context, of, of->first, values[0], &given.first))
        return;
    if (of->texts == 2 && !takes_text(context, of, of->second, values[1], &given.second))
        return;
    if (!takes_limits(context, of, count - of->texts, values + of->texts, &given.limits))
        return;
    if (of->texts == 1)
        give_fault(context, of, &given);
    else
        give_written(context, of, &given);
}

static const function FUNCTIONS[] = {
    {"json_patch_apply", 2, 3, "document", "patch", write_applied},
    {"json_patch_inverse", 2, 3, "document", "patch", write_inverse},
    {"json_patch_merge", 2, 2, "document", "merge patch", write_merged},
    {"json_patch_diff", 2, 2, "document", "goal", write_difference},
    {"json_patch_merge_diff", 2, 2, "document", "goal", write_merge_difference},
    {"json_patch_check", 1, 0, "patch", NULL, write_nothing},
};

static int add(sqlite3 *database, const function *of, int count)
{
    int flags = SQLITE_UTF8 | SQLITE_DETERMINISTIC | SQLITE_INNOCUOUS | SQLITE_RESULT_SUBTYPE;
    return sqlite3_create_function_v2(database, of->name, count, flags, (void *)of, run, NULL, NULL,
                                      NULL);
}

/* The entry point, by the name that SQLite looks for in a file json_patch.so. */
int sqlite3_jsonpatch_init(sqlite3 *database, char **message, const sqlite3_api_routines *routines);

int sqlite3_jsonpatch_init(sqlite3 *database, char **message, const sqlite3_api_routines *routines)
{
    (void)message;
    SQLITE_EXTENSION_INIT2(routines);
    for (size_t i = 0; i < sizeof FUNCTIONS / sizeof *FUNCTIONS; i++) {
        const function *of = &FUNCTIONS[i];
        int status = add(database, of, of->texts);
        for (int limits = 2; status == SQLITE_OK && limits <= of->limits; limits++)
            status = add(database, of, of->texts + limits);
        if (status != SQLITE_OK)
            return status;
    }
    return SQLITE_OK;
}
