/*
 * JSON Patch (RFC 6902) and JSON Merge Patch (RFC 7396) on JSON texts as they are written: numbers may have
 * any form, such as 1.50 or 1e400, and every byte is kept that isn't changed. Link with -ljson_patch.
 *
 *     char out[64];
 *     json_patch_report report;
 *     json_patch_status status = json_patch_apply(document, strlen(document), patch, strlen(patch), NULL,
 *         out, sizeof out, &report);
 *     if (status == JSON_PATCH_OK)
 *         fwrite(out, 1, report.size, stdout);
 *
 * No call ends the process, writes to a stream, or keeps a pointer that it was given. What it takes
 * from malloc it gives back before it returns, but for a document that is kept. Threads may make calls
 * at the same time, each with its own out, report and handles; all else is only read.
 */
#ifndef JSON_PATCH_H
#define JSON_PATCH_H
#include <stddef.h>
#include <stdint.h>

/* The version of this header; json_patch_version() is that of the library. */
#define JSON_PATCH_VERSION "5.0.0"

#ifdef __cplusplus
extern "C" {
#endif

/* The version of the library, such as "5.0.0": a string that stays. */
const char *json_patch_version(void);

/* What a json_patch_kind says, such as "path is invalid": a string that stays. Of a kind that isn't known
   "is wrong". */
const char *json_patch_kind_text(uint8_t kind);

/* What came of a call. */
typedef uint8_t json_patch_status;
enum {
    JSON_PATCH_OK = 0,          /* done: what the call writes is in out, report->size bytes */
    JSON_PATCH_REFUSED = 1,     /* report->operation is refused, for report->kind; its path, of
                                   report->size bytes, is in out if that is long enough: as it
                                   stands, with control characters if it has some, U+0000 too */
    JSON_PATCH_NO_DOCUMENT = 2, /* the document's text says none: report->kind tells why */
    JSON_PATCH_NO_PATCH = 3,    /* the patch's text says none: report->kind tells why, and from
                                   JSON_PATCH_NOT_AN_OBJECT on report->operation where; or the text
                                   to which a patch is to lead says no document */
    JSON_PATCH_NO_MEMORY = 4,   /* malloc or realloc failed */
    JSON_PATCH_NO_ROOM = 5,     /* out is too short: the text has report->size bytes; or inverse is, of
                                   report->inverse_size */
    JSON_PATCH_CLOSED = 6,      /* of a document that is kept: none is open */
    JSON_PATCH_NO_POINTER = 7,  /* the text is no JSON pointer (RFC 6901) */
    JSON_PATCH_NOTHING = 8,     /* the pointer leads nowhere in the document, or there is nothing to
                                   take back */
    JSON_PATCH_OVER = 9,        /* report->operation is over the limits, for report->kind; in a merge
                                   that is 0 */
    JSON_PATCH_BAD_LIMITS = 10, /* the size of the struct of limits isn't one that is known */
    JSON_PATCH_IMPOSSIBLE = 11, /* of json_patch_merge_diff and json_patch_merge_join: no merge patch does
                                   it, of any form */
    JSON_PATCH_BAD_FLAGS = 12   /* of json_patch_diff: a bit isn't known, or two don't go together */
};

/* What is at fault. */
typedef uint8_t json_patch_kind;
enum {
    JSON_PATCH_KIND_NONE = 0,
    /* of JSON_PATCH_NO_DOCUMENT and JSON_PATCH_NO_PATCH */
    JSON_PATCH_NOT_JSON = 1,  /* no UTF-8, or no JSON (RFC 8259) */
    JSON_PATCH_UNPAIRED_SURROGATE = 9,   /* it would be JSON, but for an escape such as \ud800 that is half of
                                            a surrogate pair without the other half: JSON's grammar has it,
                                            and it stands for no character (RFC 8259, section 8.2) */
    /* of JSON_PATCH_NO_DOCUMENT, JSON_PATCH_NO_PATCH and JSON_PATCH_OVER */
    JSON_PATCH_TOO_DEEP = 7, /* a document or a merge patch has more levels than the limit, or a text
                                nests more than 127 arrays and objects in one another; an operation
                                would put a value deeper than the limit */
    /* of JSON_PATCH_OVER */
    JSON_PATCH_TOO_MUCH = 8, /* an operation or a merge would leave too many bytes, or the patch would copy or
                                test too much, with what it did before */
    JSON_PATCH_TOO_MANY = 10, /* the patch has more operations than the limit: this is the first too many */
    /* of JSON_PATCH_REFUSED */
    JSON_PATCH_TEST_FAILED = 3,
    JSON_PATCH_INVALID_FROM_POINTER = 4,
    JSON_PATCH_INVALID_POINTER = 5,
    JSON_PATCH_CANNOT_MOVE_INSIDE_ITSELF = 6,
    /* of JSON_PATCH_NO_PATCH, in the order in which they are looked for */
    JSON_PATCH_NOT_A_LIST = 11,
    JSON_PATCH_NOT_AN_OBJECT = 12,
    JSON_PATCH_MISSING_OP = 13,
    JSON_PATCH_OP_NOT_TEXT = 14,
    JSON_PATCH_UNKNOWN_OP = 15,
    JSON_PATCH_MISSING_FROM = 16,
    JSON_PATCH_FROM_NOT_TEXT = 17,
    JSON_PATCH_BAD_FROM = 18,
    JSON_PATCH_MISSING_PATH = 19,
    JSON_PATCH_PATH_NOT_TEXT = 20,
    JSON_PATCH_BAD_PATH = 21,
    JSON_PATCH_MISSING_VALUE = 22
};

/* What a call tells beside its status. Each call writes all of it; what no status above speaks of
   is 0. */
typedef struct {
    size_t size;
    size_t operation;    /* counted from 0 */
    size_t inverse_size; /* of json_patch_record alone */
    json_patch_kind kind;
} json_patch_report;

/*
 * What the caller owes, at each call:
 * - document and patch point to as many bytes as their lengths say, of which no zero need be the
 *   last, out to out_length bytes, and inverse to inverse_length. None of these pointers is null,
 *   also where its length is 0, and no length is past PTRDIFF_MAX.
 * - out, inverse and report overlap nothing else that is handed in.
 * - It is not called from a signal handler, nor in the forked child of a process with threads.
 * - malloc, realloc and free are of one allocator, and align a block to each power of two up to 16
 *   that divides its size.
 * - The stack has room for 192 kB, whatever is handed in.
 *
 * Where the status is no JSON_PATCH_OK, out and inverse are as they were, but for the path of
 * JSON_PATCH_REFUSED in out. Behind a text that a call writes, they are as they were too. Where both texts
 * are at fault, JSON_PATCH_NO_DOCUMENT is told.
 *
 * Numbers are compared by their values. Of a name that stands twice the last member is meant, and a removal
 * takes all of them. JSON_PATCH_TOO_DEEP is told of a document's text in UTF-8, JSON or not, in which more
 * arrays and objects than the limit are open at once, and of a patch's with more than 127, or as of a
 * document's if that is a merge patch.
 */

/*
 * Limits. Every call is within limits: the caller's, or where the pointer is NULL those that
 * JSON_PATCH_LIMITS names.
 *
 *     json_patch_limits limits = JSON_PATCH_LIMITS;
 *     limits.depth = 10;
 *
 * `size` is that of the struct, so that a later version can have more limits: JSON_PATCH_BAD_LIMITS where
 * it isn't known. In each text that a call leaves at most `depth` arrays and objects are open at once; a
 * `depth` above JSON_PATCH_MOST_LEVELS counts as that. What a call makes of texts has at most as many bytes as these
 * and `bytes` together: the new text, after each operation and after a merge, and the inverse. Nor do the
 * operations of a patch together cost more: a copy what it copies, also where that is exchanged or removed
 * again, and a test what it reads beyond the length of its value: whitespace, or members of one name. The first
 * operation with which this isn't so is over: JSON_PATCH_OVER, and nothing is changed. One that is refused
 * leaves no text, and is not over. A document that is kept counts as the text that it has at the call.
 *
 * A patch has at most `operations` operations; SIZE_MAX is no limit, and with another the patch is read twice. With
 * more it is JSON_PATCH_OVER, for JSON_PATCH_TOO_MANY, before the first is made. JSON_PATCH_NO_DOCUMENT and
 * JSON_PATCH_NO_PATCH are told before.
 */
typedef struct {
    size_t size;
    size_t depth;
    size_t bytes;
    size_t operations;
} json_patch_limits;
#define JSON_PATCH_MOST_LEVELS 124
#define JSON_PATCH_MOST_BYTES 500000
#define JSON_PATCH_LIMITS {sizeof(json_patch_limits), JSON_PATCH_MOST_LEVELS, JSON_PATCH_MOST_BYTES, SIZE_MAX}

/* Writes the document's text with the patch applied: every byte is kept that no operation changes. What
   goes with a new member or element, whitespace, a comma and a colon, is as beside its neighbours. Of
   more than 128 bytes of whitespace, or of a colon with whitespace, none is taken over. */
json_patch_status json_patch_apply(const char *document, size_t document_length, const char *patch,
                                   size_t patch_length, const json_patch_limits *limits, char *out,
                                   size_t out_length, json_patch_report *report);

/* The same, and writes to inverse the patch that leads back: the text that json_patch_apply makes by it of the
   new text, within the same depth and with enough `bytes`, says the same as the document's, up to the order
   of members. It adds, removes and replaces alone, and has at most two operations for each of the patch. What
   an operation displaced has the bytes there that it had. So what a list of moves displaces again and again
   counts each time. */
json_patch_status json_patch_record(const char *document, size_t document_length, const char *patch,
                                    size_t patch_length, const json_patch_limits *limits, char *out,
                                    size_t out_length, char *inverse, size_t inverse_length,
                                    json_patch_report *report);

/* Writes the document's text with the merge patch merged into it: every byte is kept that the merge
   doesn't change, and all of them where it changes nothing. What goes with a new member is as for
   json_patch_apply. Never JSON_PATCH_REFUSED. */
json_patch_status json_patch_merge(const char *document, size_t document_length, const char *patch,
                                   size_t patch_length, const json_patch_limits *limits, char *out,
                                   size_t out_length, json_patch_report *report);

/* The flags of json_patch_diff, of which one goes alone. */
enum {
    JSON_PATCH_DIFF_MOVES = 1, /* it may move: a member that got another name or stands in another object, an
                                  element that stands elsewhere, each written as in `from` */
    JSON_PATCH_DIFF_GUARDED = 2 /* directly before each operation that removes or replaces stands a test of what it
                                   takes, its numbers written as in `from`: a text that has something else there
                                   is refused, by JSON_PATCH_TEST_FAILED or since nothing stands there. Elsewhere a
                                   text may differ: what is added isn't tested. */
};

/* Writes the patch that leads from what the text `from` says to what the text `to` says: the text that
   json_patch_apply makes of `from`, within the same depth and with enough `bytes`, says the same as `to`. With
   no flag, 0, it adds, removes and replaces alone. It is [] exactly where both say the same. Numbers that it puts
   are written as in `to`, and the members of an object that it puts are in byte order of their names.
   JSON_PATCH_NO_DOCUMENT, where `from` is no JSON text, and JSON_PATCH_NO_PATCH, where `to` is none. Of the
   limits `depth` alone counts. Never JSON_PATCH_REFUSED or JSON_PATCH_OVER. */
json_patch_status json_patch_diff(const char *from, size_t from_length, const char *to, size_t to_length,
                                  const json_patch_limits *limits, unsigned flags, char *out,
                                  size_t out_length, json_patch_report *report);

/* Writes the merge patch that leads from what the text `from` says to what the text `to` says: the text that
   json_patch_merge makes of `from`, within the same depth and with enough `bytes`, says the same as `to`. It has
   no more levels than `to`, and is {} where both say one object. Its numbers are written as in `to`, and members
   are in byte order of their names. JSON_PATCH_IMPOSSIBLE where no merge patch leads there: `to` has a null, in
   objects alone, such as {"a": {"b": null}}, and `from` has none there. The other statuses are those of
   json_patch_diff without flags. */
json_patch_status json_patch_merge_diff(const char *from, size_t from_length, const char *to, size_t to_length,
                                        const json_patch_limits *limits, char *out, size_t out_length,
                                        json_patch_report *report);

/* Writes the merge patch that does to every text what the merge patch `first` and then the merge patch `then` do to
   it. It has no more levels than the deeper of both. Its numbers are written as they are there, and members are in
   byte order of their names. JSON_PATCH_IMPOSSIBLE where no merge patch does that: under the same names `first`
   has a value that is no object, and `then` an object, as {"a": null} and {"a": {}}. JSON_PATCH_NO_DOCUMENT, where
   `first` is no JSON text, and JSON_PATCH_NO_PATCH, where `then` is none. Of the limits `depth` alone counts.
   Never JSON_PATCH_REFUSED or JSON_PATCH_OVER. */
json_patch_status json_patch_merge_join(const char *first, size_t first_length, const char *then, size_t then_length,
                                        const json_patch_limits *limits, char *out, size_t out_length,
                                        json_patch_report *report);

/* Reads the patch as json_patch_apply does, and does nothing else. JSON_PATCH_OK, JSON_PATCH_NO_PATCH or
   JSON_PATCH_NO_MEMORY. */
json_patch_status json_patch_check(const char *patch, size_t patch_length, json_patch_report *report);

/* Writes the text of the value where the pointer leads, as it stands in the document's text, without the
   whitespace around it. Of the limits `depth` alone counts. JSON_PATCH_OK, JSON_PATCH_NO_DOCUMENT,
   JSON_PATCH_NO_MEMORY, JSON_PATCH_NO_ROOM, JSON_PATCH_NO_POINTER, and then the document isn't looked at,
   JSON_PATCH_NOTHING or JSON_PATCH_BAD_LIMITS. */
json_patch_status json_patch_value(const char *document, size_t document_length, const char *pointer,
                                   size_t pointer_length, const json_patch_limits *limits, char *out,
                                   size_t out_length, json_patch_report *report);

/*
 * A document that is kept, as its text: what a change makes of it is what the call on texts makes, byte for
 * byte, and the last change is taken back to the very bytes before it. It takes the memory of the text, and
 * some 210 bytes for each member and element of an object or array of more than 1,024 bytes into which a call
 * led: up to three times the text, or what two calls open, and then that is let go. As much again is held
 * while a recorded change can be taken back.
 *
 *     json_patch_document document = JSON_PATCH_DOCUMENT;
 *     if (json_patch_open(&document, text, strlen(text), NULL, &report) == JSON_PATCH_OK) {
 *         json_patch_update(&document, patch, strlen(patch), out, sizeof out, &report);
 *         json_patch_text(&document, out, sizeof out, &report);
 *     }
 *     json_patch_close(&document);
 *
 * Beside what is owed above, the caller owes of each handle:
 * - It begins as JSON_PATCH_DOCUMENT, isn't copied, and its field is neither read nor written.
 * - It stays on the thread that opened it.
 * - It is closed before its memory goes: only that gives back what the document takes.
 * - It overlaps nothing else that is handed in.
 *
 * Each call but those that open and close a document returns JSON_PATCH_CLOSED where none is open.
 * Where the status is no JSON_PATCH_OK, the document is as it was.
 */
typedef struct {
    void *at;
} json_patch_document;
#define JSON_PATCH_DOCUMENT {NULL}

/* Opens the document of a text, and closes the one that was open: that one stays where the status
   is no JSON_PATCH_OK. The limits hold of every change of the document too. JSON_PATCH_OK,
   JSON_PATCH_NO_DOCUMENT, JSON_PATCH_NO_MEMORY or JSON_PATCH_BAD_LIMITS. */
json_patch_status json_patch_open(json_patch_document *document, const char *text, size_t length,
                                  const json_patch_limits *limits, json_patch_report *report);

/* Changes the document as json_patch_apply does. JSON_PATCH_OK, JSON_PATCH_REFUSED, with the path in out,
   JSON_PATCH_OVER, JSON_PATCH_NO_PATCH or JSON_PATCH_NO_MEMORY. */
json_patch_status json_patch_update(json_patch_document *document, const char *patch,
                                    size_t patch_length, char *out, size_t out_length,
                                    json_patch_report *report);

/* The same, and keeps what takes the change back, for json_patch_inverse and json_patch_undo. The inverse may have
   as many bytes as that of json_patch_record. */
json_patch_status json_patch_update_recorded(json_patch_document *document, const char *patch,
                                             size_t patch_length, char *out, size_t out_length,
                                             json_patch_report *report);

/* Merges the merge patch into the document, as json_patch_merge does. JSON_PATCH_OK, JSON_PATCH_OVER,
   JSON_PATCH_NO_PATCH or JSON_PATCH_NO_MEMORY. */
json_patch_status json_patch_update_merged(json_patch_document *document, const char *patch,
                                           size_t patch_length, json_patch_report *report);

/* Takes back the last change, if that was recorded, once: the text is that before it, byte for byte. It asks for
   no memory. JSON_PATCH_OK or JSON_PATCH_NOTHING. */
json_patch_status json_patch_undo(json_patch_document *document, json_patch_report *report);

/* Writes the inverse of the last change, if that was recorded and isn't taken back, as json_patch_record writes
   it, and else []. JSON_PATCH_OK, JSON_PATCH_NO_MEMORY or JSON_PATCH_NO_ROOM. */
json_patch_status json_patch_inverse(json_patch_document *document, char *out, size_t out_length,
                                     json_patch_report *report);

/* Writes the patch that leads from the document to what the text says, as json_patch_diff does with no flag,
   and leaves the document. JSON_PATCH_OK, JSON_PATCH_NO_PATCH, where the text is no JSON text,
   JSON_PATCH_NO_MEMORY or JSON_PATCH_NO_ROOM. */
json_patch_status json_patch_diff_to(json_patch_document *document, const char *text, size_t length,
                                     char *out, size_t out_length, json_patch_report *report);

/* Writes the document's text. JSON_PATCH_OK, JSON_PATCH_NO_MEMORY or JSON_PATCH_NO_ROOM. */
json_patch_status json_patch_text(json_patch_document *document, char *out, size_t out_length,
                                  json_patch_report *report);

/* Writes the value's text where the pointer leads, as json_patch_value does. JSON_PATCH_OK, JSON_PATCH_NO_MEMORY,
   JSON_PATCH_NO_ROOM, JSON_PATCH_NO_POINTER or JSON_PATCH_NOTHING. */
json_patch_status json_patch_value_at(json_patch_document *document, const char *pointer,
                                      size_t pointer_length, char *out, size_t out_length,
                                      json_patch_report *report);

/* Gives back what the document takes. The handle may be opened again, and closed again. */
void json_patch_close(json_patch_document *document);

#ifdef __cplusplus
}
#endif
#endif
