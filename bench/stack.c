/* How much stack each call of json_patch.h takes on deep texts: it is painted before the call, and looked at after.
 *
 *     cc -O2 -pthread -Ic/out/include -o /tmp/stack bench/stack.c c/out/lib/libjson_patch.a && /tmp/stack
 *
 * For each call, on arrays and on objects, it prints the bytes that a thread takes at the most levels there may be, beyond
 * those of one that makes no call, and by how many these grow with a level. */
#define _DEFAULT_SOURCE
#include <json_patch.h>
#include <pthread.h>
#include <stdio.h>
#include <stdlib.h>
#include <string.h>
#include <sys/mman.h>

enum { STACK = 1 << 20, ROOM = 1 << 14, FEW = 24, MOST = JSON_PATCH_MOST_LEVELS, PAINT = 0xa5 };

typedef struct {
    const char *open, *close, *token;
} nest;
static const nest nests[] = {{"[", "]", "/0"}, {"{\"a\":", "}", "/a"}};

/* What a call takes: texts that nest so many levels, with other values innermost, and patches for the first. */
static struct {
    char from[ROOM], to[ROOM], replace[ROOM], whole[ROOM], test[ROOM], copy[ROOM], pointer[ROOM], pair[ROOM];
} of;
static char out[2 * ROOM], inverse[2 * ROOM];
static json_patch_document kept;

#define TEXT(text) (text), strlen(text)
#define CALL(name, made) \
    static json_patch_status name(json_patch_report *report) { return made; }
#define ON(call, document, second) call(TEXT(document), TEXT(second), NULL, out, sizeof out, report)
#define DIFF(flags) json_patch_diff(TEXT(of.from), TEXT(of.to), NULL, flags, out, sizeof out, report)

CALL(nothing, (json_patch_status)(report->size = 0))
CALL(replaced, ON(json_patch_apply, of.from, of.replace))
CALL(replaced_whole, ON(json_patch_apply, of.from, of.whole))
CALL(tested, ON(json_patch_apply, of.from, of.test))
CALL(copied, ON(json_patch_apply, of.pair, of.copy))
CALL(recorded, json_patch_record(TEXT(of.from), TEXT(of.whole), NULL, out, sizeof out, inverse, sizeof inverse, report))
CALL(merged, ON(json_patch_merge, of.from, of.to))
CALL(compared, DIFF(0))
CALL(compared_with_moves, DIFF(JSON_PATCH_DIFF_MOVES))
CALL(compared_guarded, DIFF(JSON_PATCH_DIFF_GUARDED))
CALL(merge_compared, ON(json_patch_merge_diff, of.from, of.to))
CALL(joined, ON(json_patch_merge_join, of.from, of.to))
CALL(checked, json_patch_check(TEXT(of.whole), report))
CALL(looked_up, ON(json_patch_value, of.from, of.pointer))

static json_patch_status in_kept(json_patch_report *report, json_patch_status change) {
    json_patch_status status = change;
    json_patch_undo(&kept, report);
    json_patch_close(&kept);
    return status;
}
#define KEPT(name, change) \
    CALL(name, json_patch_open(&kept, TEXT(of.from), NULL, report) ? JSON_PATCH_CLOSED : in_kept(report, change))
KEPT(kept_replaced, json_patch_update_recorded(&kept, TEXT(of.replace), out, sizeof out, report))
KEPT(kept_merged, json_patch_update_merged(&kept, TEXT(of.to), report))
KEPT(kept_compared, json_patch_diff_to(&kept, TEXT(of.to), out, sizeof out, report))

static const struct {
    const char *name;
    json_patch_status (*made)(json_patch_report *);
} calls[] = {
    {"apply, a replace at the bottom", replaced}, {"apply, a replace of the whole", replaced_whole},
    {"apply, a test of the whole", tested}, {"apply, a copy", copied}, {"record", recorded}, {"merge", merged},
    {"diff", compared}, {"diff with moves", compared_with_moves}, {"diff, guarded", compared_guarded},
    {"merge_diff", merge_compared}, {"merge_join", joined}, {"check", checked}, {"value", looked_up},
    {"open, update_recorded, undo, close", kept_replaced}, {"open, update_merged, close", kept_merged},
    {"open, diff_to, close", kept_compared},
};

static void put(char *text, const char *part, size_t times) {
    while (times--)
        strcat(text, part);
}

/* The text with what stands before and behind the value, which nests so many levels. */
static void nested(char *text, const char *before, const nest *by, size_t levels, const char *innermost, const char *behind) {
    strcpy(text, before);
    put(text, by->open, levels);
    strcat(text, innermost);
    put(text, by->close, levels);
    strcat(text, behind);
}

static void make_texts(const nest *by, size_t levels) {
    nested(of.from, "", by, levels, "0", "");
    nested(of.to, "", by, levels, "1", "");
    nested(of.whole, "[{\"op\":\"replace\",\"path\":\"\",\"value\":", by, levels, "1", "}]");
    nested(of.test, "[{\"op\":\"test\",\"path\":\"\",\"value\":", by, levels, "0", "}]");
    nested(of.pair, "{\"a\":", by, levels - 1, "0", "}");
    strcpy(of.copy, "[{\"op\":\"copy\",\"from\":\"/a\",\"path\":\"/b\"}]");
    of.pointer[0] = 0;
    put(of.pointer, by->token, levels);
    sprintf(of.replace, "[{\"op\":\"replace\",\"path\":\"%s\",\"value\":1}]", of.pointer);
}

static void *run(void *call) {
    json_patch_report report;
    json_patch_status (*const *made)(json_patch_report *) = call;
    return (*made)(&report) ? call : NULL;
}

/* The bytes of a thread's stack that the call wrote. */
static size_t taken(json_patch_status (*made)(json_patch_report *)) {
    pthread_attr_t attributes;
    pthread_t thread;
    void *failed;
    size_t left = 0;
    unsigned char *stack = mmap(NULL, STACK, PROT_READ | PROT_WRITE, MAP_PRIVATE | MAP_ANONYMOUS, -1, 0);
    if (stack == MAP_FAILED)
        exit(1);
    memset(stack, PAINT, STACK);
    if (pthread_attr_init(&attributes) || pthread_attr_setstack(&attributes, stack, STACK) ||
        pthread_create(&thread, &attributes, run, &made) || pthread_join(thread, &failed))
        exit(1);
    if (failed) {
        puts("a call has another status");
        exit(1);
    }
    while (left < STACK && stack[left] == PAINT)
        left++;
    munmap(stack, STACK);
    return STACK - left;
}

int main(void) {
    for (size_t i = 0; i < sizeof calls / sizeof *calls; i++)
        for (size_t by = 0; by < 2; by++) {
            make_texts(&nests[by], FEW);
            size_t few = taken(calls[i].made);
            make_texts(&nests[by], MOST);
            size_t most = taken(calls[i].made);
            printf("%-36s %s: %7zu bytes, %5zu a level\n", calls[i].name, by ? "objects" : "arrays", most - taken(nothing),
                   (most - few) / (MOST - FEW));
        }
    return 0;
}
