/* The calls of the library that aren't proved: a proved function can't return a string of C's. */
#include <json_patch.h>

const char *json_patch_version(void) {
    return JSON_PATCH_VERSION;
}

const char *json_patch_kind_text(uint8_t kind) {
    static const char *const texts[] = {
        [JSON_PATCH_NOT_JSON] = "is not JSON",
        [JSON_PATCH_TEST_FAILED] = "value did not match",
        [JSON_PATCH_INVALID_FROM_POINTER] = "\"from\" path is invalid",
        [JSON_PATCH_INVALID_POINTER] = "path is invalid",
        [JSON_PATCH_CANNOT_MOVE_INSIDE_ITSELF] = "cannot move the value inside itself",
        [JSON_PATCH_TOO_DEEP] = "nests too deep",
        [JSON_PATCH_TOO_MUCH] = "takes too much",
        [JSON_PATCH_UNPAIRED_SURROGATE] = "holds an unpaired surrogate",
        [JSON_PATCH_TOO_MANY] = "exceeds the number of operations",
        [JSON_PATCH_NOT_A_LIST] = "is not a list",
        [JSON_PATCH_NOT_AN_OBJECT] = "is not an object",
        [JSON_PATCH_MISSING_OP] = "member \"op\" is missing",
        [JSON_PATCH_OP_NOT_TEXT] = "member \"op\" is not a text",
        [JSON_PATCH_UNKNOWN_OP] = "member \"op\" is unknown",
        [JSON_PATCH_MISSING_FROM] = "member \"from\" is missing",
        [JSON_PATCH_FROM_NOT_TEXT] = "member \"from\" is not a text",
        [JSON_PATCH_BAD_FROM] = "member \"from\" is not a pointer",
        [JSON_PATCH_MISSING_PATH] = "member \"path\" is missing",
        [JSON_PATCH_PATH_NOT_TEXT] = "member \"path\" is not a text",
        [JSON_PATCH_BAD_PATH] = "member \"path\" is not a pointer",
        [JSON_PATCH_MISSING_VALUE] = "member \"value\" is missing",
    };
    const char *text = kind < sizeof texts / sizeof *texts ? texts[kind] : NULL;
    return text ? text : "is wrong";
}
