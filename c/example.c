/* Calls of json_patch.h on texts and on a kept document, and what they return. */
#include <json_patch.h>

#include <stdio.h>
#include <string.h>

/* Prints the text that was made, or why none was. `out` has room for every path of these patches. */
static void print(const char *call, json_patch_status status, const char *out,
                  const json_patch_report *report) {
    switch (status) {
    case JSON_PATCH_OK:
        printf("%s: %.*s\n", call, (int)report->size, out);
        break;
    case JSON_PATCH_REFUSED:
        printf("%s: operation %zu is refused at %.*s: %s\n", call, report->operation, (int)report->size, out,
               json_patch_kind_text(report->kind));
        break;
    case JSON_PATCH_OVER:
        printf("%s: operation %zu %s\n", call, report->operation, json_patch_kind_text(report->kind));
        break;
    case JSON_PATCH_NO_ROOM:
        printf("%s: %zu bytes are wanted\n", call, report->size);
        break;
    default:
        printf("%s: status %d, it %s\n", call, status, json_patch_kind_text(report->kind));
    }
}

static void on_texts(void) {
    const char *document = "{ \"price\": 1.50, \"tags\": [\"new\"] }", *pointer = "/price";
    const char *patch = "[{\"op\":\"move\",\"from\":\"/tags/0\",\"path\":\"/state\"}]";
    const char *refused = "[{\"op\":\"remove\",\"path\":\"/c\"}]", *doubling = "[{\"op\":\"copy\",\"from\":\"\",\"path\":\"/was\"}]";
    const char *merge_patch = "{\"tags\":null,\"stock\":1e3}";
    const char *goal = "{\"tags\":[\"new\",\"red\"],\"price\":15e-1}", *half = "\"\\ud83d\"";
    size_t length = strlen(document);
    json_patch_limits limits = JSON_PATCH_LIMITS;
    char out[128], inverse[128];
    json_patch_report report;
    json_patch_status status;

    status = json_patch_apply(document, length, patch, strlen(patch), NULL, out, sizeof out, &report);
    print("apply", status, out, &report);
    status = json_patch_record(document, length, patch, strlen(patch), NULL, out, sizeof out, inverse, sizeof inverse,
                               &report);
    print("record", status, out, &report);
    printf("and back: %.*s\n", (int)report.inverse_size, inverse);
    status = json_patch_merge(document, length, merge_patch, strlen(merge_patch), NULL, out, sizeof out, &report);
    print("merge", status, out, &report);
    status = json_patch_diff(document, length, goal, strlen(goal), NULL, 0, out, sizeof out, &report);
    print("diff", status, out, &report);
    status = json_patch_value(document, length, pointer, strlen(pointer), NULL, out, sizeof out, &report);
    print("value", status, out, &report);
    status = json_patch_check(patch, strlen(patch), &report);
    print("check", status, out, &report);
    status = json_patch_apply(document, length, refused, strlen(refused), NULL, out, sizeof out, &report);
    print("apply", status, out, &report);
    status = json_patch_merge(document, length, half, strlen(half), NULL, out, sizeof out, &report);
    print("merge", status, out, &report);
    status = json_patch_apply(document, length, patch, strlen(patch), NULL, out, 8, &report);
    print("apply", status, out, &report);
    limits.bytes = 0;
    status = json_patch_apply(document, length, doubling, strlen(doubling), &limits, out, sizeof out, &report);
    print("apply", status, out, &report);
}

static void on_a_kept_document(void) {
    const char *text = "{\"rows\": [1, 2]}", *merge_patch = "{\"name\":\"x\"}", *pointer = "/rows/0";
    const char *patch = "[{\"op\":\"replace\",\"path\":\"/rows/0\",\"value\":2.50}]";
    const char *removal = "[{\"op\":\"remove\",\"path\":\"/rows/0\"}]";
    const char *goal = "{\"name\":\"x\",\"rows\":[2.0,1]}";
    json_patch_document document = JSON_PATCH_DOCUMENT;
    char out[128];
    json_patch_report report;
    json_patch_status status;

    status = json_patch_open(&document, text, strlen(text), NULL, &report);
    print("open", status, out, &report);
    status = json_patch_update(&document, patch, strlen(patch), out, sizeof out, &report);
    print("update", status, out, &report);
    status = json_patch_update_merged(&document, merge_patch, strlen(merge_patch), &report);
    print("update_merged", status, out, &report);
    status = json_patch_update_recorded(&document, removal, strlen(removal), out, sizeof out, &report);
    print("update_recorded", status, out, &report);
    status = json_patch_inverse(&document, out, sizeof out, &report);
    print("inverse", status, out, &report);
    status = json_patch_diff_to(&document, goal, strlen(goal), out, sizeof out, &report);
    print("diff_to", status, out, &report);
    status = json_patch_value_at(&document, pointer, strlen(pointer), out, sizeof out, &report);
    print("value_at", status, out, &report);
    status = json_patch_undo(&document, &report);
    print("undo", status, out, &report);
    status = json_patch_text(&document, out, sizeof out, &report);
    print("text", status, out, &report);
    json_patch_close(&document);
}

int main(void) {
    on_texts();
    on_a_kept_document();
    return 0;
}
