/*
 * JSON Patch (RFC 6902) and JSON Merge Patch (RFC 7396) in SQL: an extension of PostgreSQL over
 * json_patch.h. The file json_patch--VERSION.sql declares the functions, and says what each gives.
 *
 * A call of the library gives back what it took before it returns, and nothing that can raise an error
 * runs inside one: no error leaks. What is written is in memory of the server.
 *
 * In the folder of the archive, with Debian's postgresql-server-dev-15:
 *
 *     make -C postgresql install
 *     psql -c 'CREATE EXTENSION json_patch'
 */
#include "postgres.h"

#include <limits.h>

#include "access/htup_details.h"
#include "catalog/namespace.h"
#include "catalog/pg_type_d.h"
#include "fmgr.h"
#include "funcapi.h"
#include "mb/pg_wchar.h"
#include "miscadmin.h"
#include "utils/builtins.h"
#include "utils/guc.h"
#include "utils/jsonb.h"
#include "utils/lsyscache.h"
#include "utils/memutils.h"
#if PG_VERSION_NUM >= 160000
#include "varatt.h"
#endif

#include <json_patch.h>

PG_MODULE_MAGIC;

/* The SQLSTATEs, which docs/POSTGRESQL.md has in a table. JP030 to JP032 are the history's, in SQL. */
#define TEST_FAILED MAKE_SQLSTATE('J', 'P', '0', '0', '1')
#define INVALID_PATH MAKE_SQLSTATE('J', 'P', '0', '0', '2')
#define INVALID_FROM MAKE_SQLSTATE('J', 'P', '0', '0', '3')
#define MOVE_INSIDE_ITSELF MAKE_SQLSTATE('J', 'P', '0', '0', '4')
#define NO_DOCUMENT MAKE_SQLSTATE('J', 'P', '0', '1', '0')
#define NO_PATCH MAKE_SQLSTATE('J', 'P', '0', '1', '1')
#define NO_POINTER MAKE_SQLSTATE('J', 'P', '0', '1', '2')
#define NO_MERGE_PATCH MAKE_SQLSTATE('J', 'P', '0', '1', '3')
#define TOO_DEEP MAKE_SQLSTATE('J', 'P', '0', '2', '0')
#define TOO_MUCH MAKE_SQLSTATE('J', 'P', '0', '2', '1')
#define TOO_MANY MAKE_SQLSTATE('J', 'P', '0', '2', '2')

/* Room beside as much as the texts that are handed in take: mostly that suffices. */
enum { SPARE_ROOM = 64 };

/* The longest text that a value of json holds, with a zero behind it. */
#define LONGEST_TEXT (MaxAllocSize - VARHDRSZ - 1)

/* The settings of a session: of -1 operations none is too many. */
static int max_depth = JSON_PATCH_MOST_LEVELS;
static int max_bytes = JSON_PATCH_MOST_BYTES;
static int max_operations = -1;

typedef struct {
    const char *bytes;
    size_t length;
} text_given;

typedef struct {
    text_given first, second;
    json_patch_limits limits;
} arguments;

/* A text that is written, behind room for the header of a value of json and before that of one zero. */
typedef struct {
    char *block;
    size_t size;
} text_written;

/* What a function writes: one text, and beside it the inverse where a patch is recorded. */
typedef struct {
    text_written text, inverse;
} texts_written;

typedef json_patch_status writer(const arguments *given, const texts_written *to,
                                 json_patch_report *report);

/* A writer, and what its arguments are called in messages. */
typedef struct {
    const char *first, *second;
    writer *write;
} function;

static char *bytes_of(const text_written *text)
{
    return text->block + VARHDRSZ;
}

/* ---- the library: what is called of it is called here */

static json_patch_status write_applied(const arguments *given, const texts_written *to,
                                       json_patch_report *report)
{
    return json_patch_apply(given->first.bytes, given->first.length, given->second.bytes,
                            given->second.length, &given->limits, bytes_of(&to->text), to->text.size,
                            report);
}

static json_patch_status write_merged(const arguments *given, const texts_written *to,
                                      json_patch_report *report)
{
    return json_patch_merge(given->first.bytes, given->first.length, given->second.bytes,
                            given->second.length, &given->limits, bytes_of(&to->text), to->text.size,
                            report);
}

static json_patch_status write_difference(const arguments *given, const texts_written *to,
                                          json_patch_report *report)
{
    return json_patch_diff(given->first.bytes, given->first.length, given->second.bytes,
                           given->second.length, &given->limits, 0, bytes_of(&to->text),
                           to->text.size, report);
}

static json_patch_status write_merge_difference(const arguments *given, const texts_written *to,
                                                json_patch_report *report)
{
    return json_patch_merge_diff(given->first.bytes, given->first.length, given->second.bytes,
                                 given->second.length, &given->limits, bytes_of(&to->text),
                                 to->text.size, report);
}

static json_patch_status write_record(const arguments *given, const texts_written *to,
                                      json_patch_report *report)
{
    return json_patch_record(given->first.bytes, given->first.length, given->second.bytes,
                             given->second.length, &given->limits, bytes_of(&to->text), to->text.size,
                             bytes_of(&to->inverse), to->inverse.size, report);
}

static json_patch_status write_value(const arguments *given, const texts_written *to,
                                     json_patch_report *report)
{
    return json_patch_value(given->first.bytes, given->first.length, given->second.bytes,
                            given->second.length, &given->limits, bytes_of(&to->text), to->text.size,
                            report);
}

static json_patch_status write_nothing(const arguments *given, const texts_written *to,
                                       json_patch_report *report)
{
    (void)to;
    return json_patch_check(given->first.bytes, given->first.length, report);
}

static const function APPLY = {"document", "patch", write_applied};
static const function MERGE = {"document", "merge patch", write_merged};
static const function DIFF = {"document", "goal", write_difference};
static const function MERGE_DIFF = {"document", "goal", write_merge_difference};
static const function RECORD = {"document", "patch", write_record};
static const function VALUE = {"document", "pointer", write_value};
static const function CHECK = {"document", "patch", write_nothing};

/* ---- encodings: the library's texts are UTF-8 */

static text_given in_utf8(char *bytes, size_t length)
{
    text_given same = {bytes, length};
    char *changed = pg_server_to_any(bytes, (int)length, PG_UTF8);

    if (changed != bytes) {
        same.bytes = changed;
        same.length = strlen(changed);
    }
    return same;
}

/* Converts what it can of the beginning of a text to the server's encoding, ended by a zero, and says
   how many bytes of the text that is. */
static int converted(Oid conversion, const unsigned char *from, int length, char *to, int room)
{
#if PG_VERSION_NUM >= 140000
    if (OidIsValid(conversion))
        return pg_do_encoding_conversion_buf(conversion, PG_UTF8, GetDatabaseEncoding(),
                                             unconstify(unsigned char *, from), length,
                                             (unsigned char *)to, room, true);
#endif
    {
        /* no conversion says where it ends but by an error: ASCII alone is the same in each encoding */
        int count = 0;

        while (count < length && count < room - 1 && from[count] < 0x80)
            count++;
        memcpy(to, from, count);
        to[count] = 0;
        return count;
    }
}

/* Appends the first character, which isn't ASCII, as an escape of JSON, and says how many bytes it has. */
static int append_escape(StringInfo to, const unsigned char *from)
{
    int length = from[0] < 0xe0 ? 2 : from[0] < 0xf0 ? 3 : 4;
    unsigned point = from[0] & (0x7f >> length);

    for (int i = 1; i < length; i++)
        point = point << 6 | (from[i] & 0x3f);
    if (point < 0x10000)
        appendStringInfo(to, "\\u%04x", point);
    else
        appendStringInfo(to, "\\u%04x\\u%04x", 0xd800 + ((point - 0x10000) >> 10),
                         0xdc00 + ((point - 0x10000) & 0x3ff));
    return length;
}

/* The text in the server's encoding. A character that this lacks can only stand in a string of JSON, and
   is written as an escape. */
static text_written in_server(text_written text)
{
    const unsigned char *from = (const unsigned char *)bytes_of(&text);
    size_t left = text.size;
    Oid conversion;
    StringInfoData to;
    char some[1024];

    /* in SQL_ASCII nothing is converted */
    if (GetDatabaseEncoding() == PG_UTF8 || GetDatabaseEncoding() == PG_SQL_ASCII)
        return text;
    conversion = FindDefaultConversionProc(PG_UTF8, GetDatabaseEncoding());
    initStringInfo(&to);
    appendStringInfoSpaces(&to, VARHDRSZ);
    while (left > 0) {
        int taken = converted(conversion, from, (int)left, some, sizeof some);

        if (taken > 0)
            appendStringInfoString(&to, some);
        else
            taken = append_escape(&to, from);
        from += taken;
        left -= taken;
    }
    text.block = to.data;
    text.size = to.len - VARHDRSZ;
    return text;
}

/* Appends a character of a string of JSON, and says how many bytes it has. A control character, also one
   from U+007F to U+009F, becomes an escape: so a message has them all, and no zero. */
static int append_quoted(StringInfo to, const char *from, size_t left)
{
    unsigned first = (unsigned char)from[0], next = left > 1 ? (unsigned char)from[1] : 0;

    if (first == 0xc2 && next < 0xa0) {
        appendStringInfo(to, "\\u%04x", next);
        return 2;
    }
    if (first < 0x20 || first == 0x7f) {
        appendStringInfo(to, "\\u%04x", first);
        return 1;
    }
    if (first == '"' || first == '\\')
        appendStringInfoChar(to, '\\');
    appendStringInfoChar(to, from[0]);
    return 1;
}

/* A path as a string of JSON, in the server's encoding. */
static const char *quoted(const char *path, size_t size)
{
    StringInfoData to;
    text_written text;

    initStringInfo(&to);
    appendStringInfoSpaces(&to, VARHDRSZ);
    appendStringInfoChar(&to, '"');
    for (size_t at = 0; at < size;)
        at += append_quoted(&to, path + at, size - at);
    appendStringInfoChar(&to, '"');
    text.block = to.data;
    text.size = to.len - VARHDRSZ;
    text = in_server(text);
    return pnstrdup(bytes_of(&text), text.size);
}

/* ---- what is wrong */

/* Whether the fault is of one operation of the patch, and not of the whole. */
static bool is_of_an_operation(json_patch_kind kind)
{
    return kind >= JSON_PATCH_NOT_AN_OBJECT;
}

static char *fault_of_text(const char *which, const json_patch_report *report)
{
    if (is_of_an_operation(report->kind))
        return psprintf("%s: operation %zu: %s", which, report->operation,
                        json_patch_kind_text(report->kind));
    return psprintf("%s %s", which, json_patch_kind_text(report->kind));
}

static int refusal_code(json_patch_kind kind)
{
    switch (kind) {
    case JSON_PATCH_TEST_FAILED: return TEST_FAILED;
    case JSON_PATCH_INVALID_FROM_POINTER: return INVALID_FROM;
    case JSON_PATCH_CANNOT_MOVE_INSIDE_ITSELF: return MOVE_INSIDE_ITSELF;
    default: return INVALID_PATH;
    }
}

static int refusal_hint(json_patch_kind kind)
{
    switch (kind) {
    case JSON_PATCH_TEST_FAILED:
        return errhint("The document is not as the patch expects it: read it again, and make the patch anew.");
    case JSON_PATCH_INVALID_FROM_POINTER:
        return errhint("\"from\" has to lead to a value that is there.");
    case JSON_PATCH_CANNOT_MOVE_INSIDE_ITSELF:
        return errhint("\"path\" must not lead into what \"from\" leads to.");
    default:
        return errhint("Only \"add\" makes a member, in an object that is there; an index has no leading zero and is not past the end of its array, which is \"-\".");
    }
}

static int hint_of_text(json_patch_kind kind)
{
    switch (kind) {
    case JSON_PATCH_TOO_DEEP:
        return errhint("Limit json_patch.max_depth is %d, and at most %d.", max_depth,
                       JSON_PATCH_MOST_LEVELS);
    case JSON_PATCH_TOO_MUCH:
        return errhint("Limit json_patch.max_bytes is %d bytes.", max_bytes);
    case JSON_PATCH_TOO_MANY:
        return errhint("Limit json_patch.max_operations is %d.", max_operations);
    case JSON_PATCH_UNPAIRED_SURROGATE:
        return errhint("Half of a surrogate pair, such as \"\\ud800\", is no character.");
    default:
        return 0;
    }
}

static void refuse_patch(const char *path, const json_patch_report *report)
{
    ereport(ERROR,
            (errcode(refusal_code(report->kind)),
             errmsg("patch is refused: %s", json_patch_kind_text(report->kind)),
             errdetail("Operation %zu, path %s.", report->operation, quoted(path, report->size)),
             refusal_hint(report->kind)));
}

static int size_code(json_patch_kind kind)
{
    switch (kind) {
    case JSON_PATCH_TOO_DEEP: return TOO_DEEP;
    case JSON_PATCH_TOO_MANY: return TOO_MANY;
    default: return TOO_MUCH;
    }
}

static void refuse_size(const char *which, bool is_merge, const json_patch_report *report)
{
    ereport(ERROR,
            (errcode(size_code(report->kind)),
             errmsg("%s is over the limits: it %s", which, json_patch_kind_text(report->kind)),
             is_merge ? 0 : errdetail("Operation %zu.", report->operation),
             hint_of_text(report->kind)));
}

static void refuse_text(const char *which, int code, const json_patch_report *report)
{
    ereport(ERROR,
            (errcode(report->kind == JSON_PATCH_TOO_DEEP ? TOO_DEEP : code),
             errmsg("%s", fault_of_text(which, report)),
             is_of_an_operation(report->kind) ? errdetail("Operation %zu.", report->operation) : 0,
             hint_of_text(report->kind)));
}

/* Whether the second text is a document, and no patch. */
static bool is_difference(const function *of)
{
    return of->write == write_difference || of->write == write_merge_difference;
}

/* Raises the error of a call that wrote nothing. A refused operation's path is in out. */
static void refuse(const function *of, json_patch_status status, const char *out,
                   const json_patch_report *report)
{
    switch (status) {
    case JSON_PATCH_REFUSED:
        refuse_patch(out, report);
        break;
    case JSON_PATCH_OVER:
        refuse_size(of->second, of->write == write_merged, report);
        break;
    case JSON_PATCH_NO_DOCUMENT:
        refuse_text(of->first, NO_DOCUMENT, report);
        break;
    case JSON_PATCH_NO_PATCH:
        refuse_text(of->second, is_difference(of) ? NO_DOCUMENT : NO_PATCH, report);
        break;
    case JSON_PATCH_IMPOSSIBLE:
        ereport(ERROR,
                (errcode(NO_MERGE_PATCH),
                 errmsg("no merge patch leads to the %s", of->second),
                 errhint("A null in a merge patch removes a member: none makes one null.")));
        break;
    case JSON_PATCH_NO_POINTER:
        ereport(ERROR,
                (errcode(NO_POINTER),
                 errmsg("text is no JSON pointer"),
                 errhint("A pointer (RFC 6901) is empty or begins with \"/\", and has \"~\" in \"~0\" and \"~1\" alone.")));
        break;
    case JSON_PATCH_NO_MEMORY:
        ereport(ERROR,
                (errcode(ERRCODE_OUT_OF_MEMORY), errmsg("out of memory"),
                 errdetail("Failed in the library json_patch.")));
        break;
    default:
        elog(ERROR, "json_patch: status %d", status);
    }
}

/* ---- what is written */

/* A block for a text of this size. */
static text_written room_for(size_t size)
{
    text_written text;

    text.block = MemoryContextAllocHuge(CurrentMemoryContext, VARHDRSZ + size + 1);
    text.size = size;
    return text;
}

static void refuse_long(size_t size)
{
    if (size > LONGEST_TEXT)
        ereport(ERROR,
                (errcode(ERRCODE_PROGRAM_LIMIT_EXCEEDED),
                 errmsg("the text would have %zu bytes, more than a value holds", size)));
}

/* Another block, where this one is for less than is wanted. */
static void grow(text_written *text, size_t wanted)
{
    refuse_long(wanted);
    if (wanted <= text->size)
        return;
    pfree(text->block);
    *text = room_for(wanted);
}

/* Writes the texts, whose memory is asked for before the library is called. How much they take is known
   once they are made; mostly what is asked for at first suffices. False where a pointer leads nowhere. */
static bool is_written(const function *of, const arguments *given, texts_written *to)
{
    size_t room = given->first.length + given->second.length + SPARE_ROOM;
    json_patch_report report;
    json_patch_status status;

    /* behind what this allows the server keeps 512 kB free; the library wants 192 */
    check_stack_depth();
    to->text = room_for(room);
    to->inverse = room_for(of->write == write_record ? room : 0);
    for (;;) {
        CHECK_FOR_INTERRUPTS();
        status = of->write(given, to, &report);
        if (status != JSON_PATCH_NO_ROOM)
            break;
        grow(&to->text, report.size);
        grow(&to->inverse, report.inverse_size);
    }
    CHECK_FOR_INTERRUPTS();
    if (status == JSON_PATCH_NOTHING)
        return false;
    if (status != JSON_PATCH_OK)
        refuse(of, status, bytes_of(&to->text), &report);
    refuse_long(report.size);
    refuse_long(report.inverse_size);
    to->text.size = report.size;
    to->inverse.size = report.inverse_size;
    return true;
}

/* ---- from values of SQL, and to them */

/* The types of a function's arguments: json or jsonb, kept for all calls at one place of a query. */
static const Oid *types_of(FunctionCallInfo fcinfo)
{
    FmgrInfo *info = fcinfo->flinfo;

    if (!info->fn_extra) {
        MemoryContext before = MemoryContextSwitchTo(info->fn_mcxt);
        Oid *types;
        int count;

        (void)get_func_signature(info->fn_oid, &types, &count);
        MemoryContextSwitchTo(before);
        info->fn_extra = types;
    }
    return info->fn_extra;
}

static text_given taken(FunctionCallInfo fcinfo, int number)
{
    if (types_of(fcinfo)[number] == JSONBOID) {
        Jsonb *value = PG_GETARG_JSONB_P(number);
        StringInfoData to;

        initStringInfo(&to);
        (void)JsonbToCString(&to, &value->root, VARSIZE(value));
        return in_utf8(to.data, to.len);
    } else {
        text *value = PG_GETARG_TEXT_PP(number);

        return in_utf8(VARDATA_ANY(value), VARSIZE_ANY_EXHDR(value));
    }
}

static arguments arguments_of(FunctionCallInfo fcinfo)
{
    const size_t operations = max_operations < 0 ? SIZE_MAX : (size_t)max_operations;
    arguments given = {{"", 0}, {"", 0}, {sizeof(json_patch_limits), max_depth, max_bytes, operations}};

    given.first = taken(fcinfo, 0);
    if (PG_NARGS() > 1)
        given.second = taken(fcinfo, 1);
    return given;
}

static Datum as_type(text_written text, Oid type)
{
    text = in_server(text);
    if (type == JSONBOID) {
        bytes_of(&text)[text.size] = 0;
        return DirectFunctionCall1(jsonb_in, CStringGetDatum(bytes_of(&text)));
    }
    SET_VARSIZE(text.block, VARHDRSZ + text.size);
    return PointerGetDatum(text.block);
}

/* What is written, in the type of the document. */
static Datum given_back(FunctionCallInfo fcinfo, const function *of)
{
    arguments given = arguments_of(fcinfo);
    texts_written to;

    if (!is_written(of, &given, &to))
        PG_RETURN_NULL();
    return as_type(to.text, types_of(fcinfo)[0]);
}

static texts_written recorded(FunctionCallInfo fcinfo)
{
    arguments given = arguments_of(fcinfo);
    texts_written to;

    (void)is_written(&RECORD, &given, &to);
    return to;
}

/* Reads a patch, and tells what came of it. */
static json_patch_status checked(FunctionCallInfo fcinfo, json_patch_report *report)
{
    arguments given = arguments_of(fcinfo);
    json_patch_status status;

    check_stack_depth();
    CHECK_FOR_INTERRUPTS();
    status = CHECK.write(&given, NULL, report);
    if (status != JSON_PATCH_OK && status != JSON_PATCH_NO_PATCH)
        refuse(&CHECK, status, NULL, report);
    return status;
}

/* ---- the functions */

PG_FUNCTION_INFO_V1(pg_json_patch_apply);
PG_FUNCTION_INFO_V1(pg_json_patch_merge);
PG_FUNCTION_INFO_V1(pg_json_patch_diff);
PG_FUNCTION_INFO_V1(pg_json_patch_merge_diff);
PG_FUNCTION_INFO_V1(pg_json_patch_inverse);
PG_FUNCTION_INFO_V1(pg_json_patch_record);
PG_FUNCTION_INFO_V1(pg_json_patch_value);
PG_FUNCTION_INFO_V1(pg_json_patch_check);
PG_FUNCTION_INFO_V1(pg_json_patch_is_valid);
PG_FUNCTION_INFO_V1(pg_json_patch_version);

Datum pg_json_patch_apply(PG_FUNCTION_ARGS)
{
    return given_back(fcinfo, &APPLY);
}

Datum pg_json_patch_merge(PG_FUNCTION_ARGS)
{
    return given_back(fcinfo, &MERGE);
}

Datum pg_json_patch_diff(PG_FUNCTION_ARGS)
{
    return given_back(fcinfo, &DIFF);
}

Datum pg_json_patch_merge_diff(PG_FUNCTION_ARGS)
{
    return given_back(fcinfo, &MERGE_DIFF);
}

Datum pg_json_patch_value(PG_FUNCTION_ARGS)
{
    return given_back(fcinfo, &VALUE);
}

Datum pg_json_patch_inverse(PG_FUNCTION_ARGS)
{
    return as_type(recorded(fcinfo).inverse, types_of(fcinfo)[0]);
}

Datum pg_json_patch_record(PG_FUNCTION_ARGS)
{
    Oid type = types_of(fcinfo)[0];
    texts_written to;
    TupleDesc row;
    Datum values[2];
    bool nulls[2] = {false, false};

    if (get_call_result_type(fcinfo, NULL, &row) != TYPEFUNC_COMPOSITE)
        elog(ERROR, "json_patch: no row is asked for");
    to = recorded(fcinfo);
    values[0] = as_type(to.text, type);
    values[1] = as_type(to.inverse, type);
    PG_RETURN_DATUM(HeapTupleGetDatum(heap_form_tuple(BlessTupleDesc(row), values, nulls)));
}

Datum pg_json_patch_check(PG_FUNCTION_ARGS)
{
    json_patch_report report;

    if (checked(fcinfo, &report) == JSON_PATCH_OK)
        PG_RETURN_NULL();
    PG_RETURN_TEXT_P(cstring_to_text(fault_of_text(CHECK.second, &report)));
}

Datum pg_json_patch_is_valid(PG_FUNCTION_ARGS)
{
    json_patch_report report;

    PG_RETURN_BOOL(checked(fcinfo, &report) == JSON_PATCH_OK);
}

Datum pg_json_patch_version(PG_FUNCTION_ARGS)
{
    PG_RETURN_TEXT_P(cstring_to_text(json_patch_version()));
}

void _PG_init(void);

void _PG_init(void)
{
    DefineCustomIntVariable("json_patch.max_depth", "How many levels a document may have.", NULL,
                            &max_depth, JSON_PATCH_MOST_LEVELS, 0, JSON_PATCH_MOST_LEVELS,
                            PGC_USERSET, 0, NULL, NULL, NULL);
    DefineCustomIntVariable("json_patch.max_bytes",
                            "How many bytes a text that a call leaves may have beside those of its texts.",
                            NULL, &max_bytes, JSON_PATCH_MOST_BYTES, 0, INT_MAX, PGC_USERSET,
                            GUC_UNIT_BYTE, NULL, NULL, NULL);
    DefineCustomIntVariable("json_patch.max_operations",
                            "How many operations a patch may have; of -1 any number.", NULL,
                            &max_operations, -1, -1, INT_MAX, PGC_USERSET, 0, NULL, NULL, NULL);
#if PG_VERSION_NUM >= 150000
    MarkGUCPrefixReserved("json_patch");
#else
    EmitWarningsOnPlaceholders("json_patch");
#endif
}
