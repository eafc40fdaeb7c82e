/*
 * Times the calls of json_patch.h as bench/driver.rt.txt times those of the crate: its arguments are
 * `MODE COUNT accepted`, its input is `[document,patch]`, and it prints the nanoseconds of one call, or
 * 0 where one is refused. In mode `texts` a call goes from the two texts to the new one; in mode `kept` the
 * document stays open, and a call changes it by the patch's text. Mode `merge` takes a merge patch. Mode `copied`
 * copies the document's text, which any call from texts at least does, and mode `read` reads the patch alone.
 */
#include <json_patch.h>

#include <stdio.h>
#include <stdlib.h>
#include <string.h>
#include <time.h>

typedef struct {
    char *bytes;
    size_t length;
} text;

static long long now(void) {
    struct timespec at;
    clock_gettime(CLOCK_MONOTONIC, &at);
    return at.tv_sec * 1000000000LL + at.tv_nsec;
}

static text whole_input(void) {
    text read = {NULL, 0};
    for (size_t room = 1 << 20;; room *= 2) {
        read.bytes = realloc(read.bytes, room);
        read.length += fread(read.bytes + read.length, 1, room - read.length, stdin);
        if (read.length < room)
            return read;
    }
}

/* One of the two values of the input. */
static text part(json_patch_document *pair, const char *pointer, size_t room) {
    text found = {malloc(room), 0};
    json_patch_report report;
    if (json_patch_value_at(pair, pointer, 2, found.bytes, room, &report))
        exit(1);
    found.length = report.size;
    return found;
}

static json_patch_status call(const char *mode, json_patch_document *kept, text document, text patch,
                              char *out, size_t room) {
    json_patch_report report;
    if (strcmp(mode, "copied") == 0) {
        memcpy(out, document.bytes, document.length);
        __asm__ volatile("" : : "r"(out) : "memory");
        return JSON_PATCH_OK;
    }
    if (strcmp(mode, "read") == 0)
        return json_patch_check(patch.bytes, patch.length, &report);
    if (strcmp(mode, "merge") == 0)
        return json_patch_merge(document.bytes, document.length, patch.bytes, patch.length, NULL, out, room, &report);
    if (strcmp(mode, "kept") == 0)
        return json_patch_update(kept, patch.bytes, patch.length, out, room, &report);
    return json_patch_apply(document.bytes, document.length, patch.bytes, patch.length, NULL, out, room, &report);
}

int main(int count, char **words) {
    json_patch_document pair = JSON_PATCH_DOCUMENT, kept = JSON_PATCH_DOCUMENT;
    json_patch_report report;
    text input = whole_input();
    if (count != 4 || json_patch_open(&pair, input.bytes, input.length, NULL, &report))
        return 1;
    text document = part(&pair, "/0", input.length), patch = part(&pair, "/1", input.length);
    size_t room = 2 * input.length + 64;
    char *out = malloc(room);
    json_patch_close(&pair);
    if (json_patch_open(&kept, document.bytes, document.length, NULL, &report))
        return 1;
    long times = atol(words[2]);
    json_patch_status refused = 0;
    long long start = now();
    for (long i = 0; i < times; i++)
        refused |= call(words[1], &kept, document, patch, out, room);
    printf("%lld\n", refused ? 0 : (now() - start) / times);
    json_patch_close(&kept);
    return 0;
}
