/*
 * One call of json_patch.h on one input, first with every request for memory granted, and then with
 * each request refused in turn, alone and with all after it.
 *
 *     one_call CALL DOCUMENT TEXT [PATCH..]
 *
 * CALL is apply, record, merge, diff, moving_diff, guarded_diff, merge_diff, merge_join, check or value, or of a
 * document that is kept open, update, update_recorded, update_merged, undo, text, value_at, diff_to or inverse;
 * to that the patches are applied before.
 * It prints what the call answers with ample memory: the status and the report, what was written, the inverse
 * behind it, and then the text of the document that is kept; and, in a last line, how many requests there were. Whether a request was refused is told
 * by the functions below that stand in for malloc and realloc: so it is linked with
 * -Wl,--wrap=malloc,--wrap=realloc,--wrap=free. Where all requests after one are refused, too, the limits are
 * handed in that the call otherwise has by itself, but that the operations of a patch are counted.
 *
 * It ends with status 1 and says why where a run breaks the rule: a request was refused exactly where
 * the call answers JSON_PATCH_NO_MEMORY, which writes nothing and leaves the kept document as it was;
 * otherwise the answer is the one with ample memory. In each run all memory is given back.
 */
#include "json_patch.h"

#include <stdio.h>
#include <stdlib.h>
#include <string.h>

enum { ROOM = 1 << 18, UNTOUCHED = 0xa5 };

/* ---- the requests for memory */

void *__real_malloc(size_t size);
void *__real_realloc(void *old, size_t size);
void __real_free(void *block);
void *__wrap_malloc(size_t size);
void *__wrap_realloc(void *old, size_t size);
void __wrap_free(void *block);

static long blocks;
static int is_within;
static unsigned long refuse_at, requests, refused;
static int refuses_rest;

/* Counts a request, and tells whether it is refused. */
static int is_refused(void) {
    if (!is_within)
        return 0;
    requests++;
    if (refuse_at == 0 || requests < refuse_at || (requests > refuse_at && !refuses_rest))
        return 0;
    refused++;
    return 1;
}

void *__wrap_malloc(size_t size) {
    void *block = is_refused() ? NULL : __real_malloc(size);
    blocks += block != NULL;
    return block;
}

void *__wrap_realloc(void *old, size_t size) {
    void *block = is_refused() ? NULL : __real_realloc(old, size);
    blocks += !old && block;
    return block;
}

void __wrap_free(void *block) {
    blocks -= block != NULL;
    __real_free(block);
}

/* ---- the call */

typedef struct {
    const char *name, *document, *text;
    char **earlier;
} input;

/* What came of the call, and the text of the document that is kept, before it and after. */
typedef struct {
    json_patch_status status, was_open, is_open;
    json_patch_report report;
    char out[ROOM], inverse[ROOM], before[ROOM], after[ROOM];
} outcome;

static json_patch_status called(const input *it, json_patch_document *kept, const json_patch_limits *limits,
                                outcome *came) {
    const char *name = it->name, *document = it->document, *text = it->text;
    size_t size = strlen(document), length = strlen(text);
    char *out = came->out;
    json_patch_report *report = &came->report;
    if (strcmp(name, "apply") == 0)
        return json_patch_apply(document, size, text, length, limits, out, ROOM, report);
    if (strcmp(name, "record") == 0)
        return json_patch_record(document, size, text, length, limits, out, ROOM, came->inverse, ROOM, report);
    if (strcmp(name, "merge") == 0)
        return json_patch_merge(document, size, text, length, limits, out, ROOM, report);
    if (strcmp(name, "diff") == 0)
        return json_patch_diff(document, size, text, length, limits, 0, out, ROOM, report);
    if (strcmp(name, "moving_diff") == 0)
        return json_patch_diff(document, size, text, length, limits, JSON_PATCH_DIFF_MOVES, out, ROOM, report);
    if (strcmp(name, "guarded_diff") == 0)
        return json_patch_diff(document, size, text, length, limits, JSON_PATCH_DIFF_GUARDED, out, ROOM, report);
    if (strcmp(name, "merge_diff") == 0)
        return json_patch_merge_diff(document, size, text, length, limits, out, ROOM, report);
    if (strcmp(name, "merge_join") == 0)
        return json_patch_merge_join(document, size, text, length, limits, out, ROOM, report);
    if (strcmp(name, "check") == 0)
        return json_patch_check(text, length, report);
    if (strcmp(name, "value") == 0)
        return json_patch_value(document, size, text, length, limits, out, ROOM, report);
    if (strcmp(name, "open") == 0)
        return json_patch_open(kept, text, length, limits, report);
    if (strcmp(name, "update") == 0)
        return json_patch_update(kept, text, length, out, ROOM, report);
    if (strcmp(name, "update_recorded") == 0)
        return json_patch_update_recorded(kept, text, length, out, ROOM, report);
    if (strcmp(name, "update_merged") == 0)
        return json_patch_update_merged(kept, text, length, report);
    if (strcmp(name, "undo") == 0)
        return json_patch_undo(kept, report);
    if (strcmp(name, "text") == 0)
        return json_patch_text(kept, out, ROOM, report);
    if (strcmp(name, "value_at") == 0)
        return json_patch_value_at(kept, text, length, out, ROOM, report);
    if (strcmp(name, "diff_to") == 0)
        return json_patch_diff_to(kept, text, length, out, ROOM, report);
    if (strcmp(name, "inverse") == 0)
        return json_patch_inverse(kept, out, ROOM, report);
    fprintf(stderr, "one_call: there is no call %s\n", name);
    exit(64);
}

/* The text of the document that is kept, with a zero after it. */
static json_patch_status kept_text(json_patch_document *kept, char *text) {
    json_patch_report told;
    json_patch_status status = json_patch_text(kept, text, ROOM - 1, &told);
    text[status == JSON_PATCH_OK ? told.size : 0] = 0;
    return status;
}

/* Opens the document, applies the earlier patches to it, and keeps an inverse for the calls inverse and undo: of
 * the text, a patch. */
static void prepare(const input *it, json_patch_document *kept, const json_patch_limits *limits, char *out) {
    json_patch_report told;
    int is_recorded = strcmp(it->name, "inverse") == 0 || strcmp(it->name, "undo") == 0;
    if (json_patch_open(kept, it->document, strlen(it->document), limits, &told) != JSON_PATCH_OK)
        return;
    for (char **patch = it->earlier; *patch; patch++)
        json_patch_update_recorded(kept, *patch, strlen(*patch), out, ROOM, &told);
    if (is_recorded)
        json_patch_update_recorded(kept, it->text, strlen(it->text), out, ROOM, &told);
}

/* Makes the call with that request refused. */
static void make(const input *it, unsigned long number, int rest, outcome *came) {
    static const json_patch_limits usual = {sizeof usual, JSON_PATCH_MOST_LEVELS, JSON_PATCH_MOST_BYTES, SIZE_MAX - 1};
    const json_patch_limits *limits = rest ? &usual : NULL;
    json_patch_document kept = JSON_PATCH_DOCUMENT;
    long had = blocks;
    prepare(it, &kept, limits, came->out);
    came->was_open = kept_text(&kept, came->before);
    came->report = (json_patch_report){77, 77, 77, 77};
    memset(came->out, UNTOUCHED, ROOM);
    memset(came->inverse, UNTOUCHED, ROOM);
    refuse_at = number;
    refuses_rest = rest;
    requests = refused = 0;
    is_within = 1;
    came->status = called(it, &kept, limits, came);
    is_within = 0;
    came->is_open = kept_text(&kept, came->after);
    json_patch_close(&kept);
    if (blocks != had) {
        printf("left: %ld blocks where request %lu is refused\n", blocks - had, number);
        exit(1);
    }
}

/* ---- the rule */

static int is_untouched(const char *out, size_t from) {
    for (size_t i = from; i < ROOM; i++)
        if ((unsigned char)out[i] != UNTOUCHED)
            return 0;
    return 1;
}

static int is_same_report(json_patch_report a, json_patch_report b) {
    return a.size == b.size && a.inverse_size == b.inverse_size && a.operation == b.operation && a.kind == b.kind;
}

/* Whether nothing is told but the status, nothing is written, and the kept document stays. */
static int is_out_of_memory(const outcome *came) {
    return came->status == JSON_PATCH_NO_MEMORY &&
           is_same_report(came->report, (json_patch_report){0, 0, 0, 0}) &&
           is_untouched(came->out, 0) && is_untouched(came->inverse, 0) && came->was_open == came->is_open &&
           strcmp(came->before, came->after) == 0;
}

static int is_same(const outcome *came, const outcome *ample) {
    return came->status == ample->status && is_same_report(came->report, ample->report) &&
           memcmp(came->out, ample->out, ROOM) == 0 && memcmp(came->inverse, ample->inverse, ROOM) == 0 &&
           came->is_open == ample->is_open &&
           strcmp(came->after, ample->after) == 0;
}

/* Makes the call with that request refused, and ends the program where it breaks the rule. */
static void refuse(const input *it, unsigned long number, int rest, const outcome *ample) {
    static outcome came;
    make(it, number, rest, &came);
    if (refused && is_out_of_memory(&came))
        return;
    printf("request %lu refused, %s: %lu refusals, status %d, %s that with ample memory\n", number,
           rest ? "and all after it" : "alone", refused, came.status,
           is_same(&came, ample) ? "the answer is" : "the answer isn't");
    exit(1);
}

int main(int count, char **words) {
    static outcome ample, again;
    if (count < 4)
        return 64;
    input it = {words[1], words[2], words[3], words + 4};
    make(&it, 0, 0, &ample);
    unsigned long most = requests;
    json_patch_report *told = &ample.report;
    size_t written = ample.status <= JSON_PATCH_REFUSED ? told->size : 0;
    size_t back = ample.status == JSON_PATCH_OK ? told->inverse_size : 0;
    printf("%d %zu %zu %zu %d %.*s%.*s\n%s\n%lu\n", ample.status, told->size, told->inverse_size, told->operation,
           told->kind, (int)written, ample.out, (int)back, ample.inverse, ample.after, most);
    if (!is_untouched(ample.out, written) || !is_untouched(ample.inverse, back))
        return puts("spoilt") < 0 ? 64 : 1;
    for (int rest = 0; rest <= 1; rest++) {
        make(&it, 0, rest, &again);
        most = requests;
        for (unsigned long number = 1; number <= most; number++)
            refuse(&it, number, rest, &ample);
        make(&it, most + 1, rest, &again);
        if (refused || !is_same(&again, &ample))
            return puts("another answer, with ample memory again") < 0 ? 64 : 1;
    }
    return 0;
}
