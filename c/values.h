/* Texts, and the kind that is told of each: none of a number, whatever it is, and else why it is no JSON. */
#define TEN_ZEROS "0000000000"
#define HUNDRED_ZEROS                                                                              \
    TEN_ZEROS TEN_ZEROS TEN_ZEROS TEN_ZEROS TEN_ZEROS TEN_ZEROS TEN_ZEROS TEN_ZEROS TEN_ZEROS      \
        TEN_ZEROS
/* 308 zeros: with 1 before them they are the largest power of ten in a float's range. */
#define ZEROS HUNDRED_ZEROS HUNDRED_ZEROS HUNDRED_ZEROS "00000000"
#define VALUE(text, kind) {text, sizeof(text) - 1, kind}

static const struct {
    const char *bytes;
    size_t length;
    json_patch_kind kind;
} values[] = {
    VALUE("1e400", JSON_PATCH_KIND_NONE),
    VALUE("-1e400", JSON_PATCH_KIND_NONE),
    VALUE("1" ZEROS "0", JSON_PATCH_KIND_NONE),
    VALUE("-1" ZEROS "0", JSON_PATCH_KIND_NONE),
    VALUE("1" ZEROS HUNDRED_ZEROS, JSON_PATCH_KIND_NONE),
    VALUE("\"\\ud800\"", JSON_PATCH_UNPAIRED_SURROGATE),
    VALUE("\"\\udc00\\ud800\"", JSON_PATCH_UNPAIRED_SURROGATE),
    VALUE("\"\\uD83D\\uDE00\\\\\\ud83d\\n\"", JSON_PATCH_UNPAIRED_SURROGATE),
    VALUE("\"\\uDBFF\\u0041\"", JSON_PATCH_UNPAIRED_SURROGATE),
    /* a pair, a backslash before ud800, and what is no JSON beside a half */
    VALUE("\"\\ud83d\\ude00", JSON_PATCH_NOT_JSON),
    VALUE("[\"\\\\ud800\",]", JSON_PATCH_NOT_JSON),
    VALUE("\"\\ud800", JSON_PATCH_NOT_JSON),
    VALUE("\"\\ud80\"", JSON_PATCH_NOT_JSON),
    VALUE("\"\xed\xa0\x80\"", JSON_PATCH_NOT_JSON),
    VALUE("\xef\xbb\xbf[]", JSON_PATCH_NOT_JSON),
    VALUE("[\0]\0", JSON_PATCH_NOT_JSON),
    VALUE("\0[\0]", JSON_PATCH_NOT_JSON),
    VALUE("\xff\xfe[\0]\0", JSON_PATCH_NOT_JSON),
    VALUE("1" ZEROS, JSON_PATCH_KIND_NONE),
    VALUE("1e308", JSON_PATCH_KIND_NONE),
    VALUE("1e-400", JSON_PATCH_KIND_NONE),
    VALUE("-1e-400", JSON_PATCH_KIND_NONE),
    VALUE("-0", JSON_PATCH_KIND_NONE),
    VALUE("-0.0", JSON_PATCH_KIND_NONE),
    VALUE("18446744073709551616", JSON_PATCH_KIND_NONE),
};

enum { VALUES = sizeof values / sizeof *values };

/* The text of a patch that adds the value, for free. */
static text adding(size_t value) {
    static const char head[] = "[{\"op\":\"add\",\"path\":\"/a\",\"value\":", tail[] = "}]";
    size_t before = sizeof head - 1, length = values[value].length;
    text patch = {malloc(before + length + sizeof tail - 1), before + length + sizeof tail - 1};
    if (!patch.bytes)
        fail("no memory");
    memcpy(patch.bytes, head, before);
    memcpy(patch.bytes + before, values[value].bytes, length);
    memcpy(patch.bytes + before + length, tail, sizeof tail - 1);
    return patch;
}
