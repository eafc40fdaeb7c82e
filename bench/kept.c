/* A kept document of some rows, from C: what it takes to open, change, look at and close it, beside one call of
 * json_patch_apply on its text.
 *
 *     cc -O2 -Ic/out/include -o /tmp/kept bench/kept.c c/out/lib/libjson_patch.a && /tmp/kept [ROWS]
 *
 * Of changes the mean of 1,000 is told, and of 1,000,000, at random rows. Times are the processor's, memory is what the process has
 * beyond the text. bench/kept_peer.py times the same of Python's jsonpatch, in place. */
#define _POSIX_C_SOURCE 200809L
#include <json_patch.h>
#include <malloc.h>
#include <stdio.h>
#include <stdlib.h>
#include <string.h>
#include <time.h>

enum { TIMES = 1000, MANY = 1000000 };

static char *text, *room, out[1000];
static size_t size, capacity;
static int rows;
static json_patch_document kept = JSON_PATCH_DOCUMENT;
static json_patch_report report;

static double now(void) {
    struct timespec time;
    clock_gettime(CLOCK_PROCESS_CPUTIME_ID, &time);
    return (double)time.tv_sec * 1e6 + (double)time.tv_nsec / 1e3;
}

static long kilobytes(void) {
    long all = 0, resident = 0;
    FILE *file = fopen("/proc/self/statm", "r");
    if (!file || fscanf(file, "%ld %ld", &all, &resident) != 2)
        exit(1);
    fclose(file);
    return resident * 4;
}

static void make_text(void) {
    capacity = (size_t)rows * 100 + 100;
    text = malloc(capacity);
    room = malloc(capacity);
    size = (size_t)sprintf(text, "{\"rows\": [");
    for (int i = 0; i < rows; i++)
        size += (size_t)sprintf(text + size, "%s{\"id\": %d, \"name\": \"row %d\", \"price\": %d.50, \"tags\": [1, 2]}",
                                i ? ", " : "", i, i, i % 1000);
    size += (size_t)sprintf(text + size, "]}");
}

/* The patch, with a number of a row for each %d. */
static const char *patch(const char *form) {
    static char made[400];
    sprintf(made, form, rand() % (rows - 1), rand() % (rows - 1));
    return made;
}

static void wants(json_patch_status status, json_patch_status wanted) {
    if (status != wanted) {
        printf("status %d, not %d\n", (int)status, (int)wanted);
        exit(1);
    }
}

static void change(const char *form, json_patch_status wanted) {
    const char *made = patch(form);
    wants(json_patch_update(&kept, made, strlen(made), out, sizeof out, &report), wanted);
}

static void tell(const char *what, double begun, int times) {
    printf("%-40s %10.1f us\n", what, (now() - begun) / times);
}

static void changes(const char *what, int times, const char *form, json_patch_status wanted) {
    double begun = now();
    for (int i = 0; i < times; i++)
        change(form, wanted);
    tell(what, begun, times);
}

static void undone(const char *what, const char *form) {
    double begun = now();
    for (int i = 0; i < TIMES; i++) {
        const char *made = patch(form);
        wants(json_patch_update_recorded(&kept, made, strlen(made), out, sizeof out, &report), JSON_PATCH_OK);
        wants(json_patch_undo(&kept, &report), JSON_PATCH_OK);
    }
    tell(what, begun, TIMES);
}

/* Of an object of as many members, whose index of names comes back with each undo. */
static void members(void) {
    size = (size_t)sprintf(text, "{\"first\": 0");
    for (int i = 0; i < rows; i++)
        size += (size_t)sprintf(text + size, ", \"member %d\": %d.50", i, i % 1000);
    size += (size_t)sprintf(text + size, "}");
    printf("%zu bytes of text, one object\n", size);
    wants(json_patch_open(&kept, text, size, NULL, &report), JSON_PATCH_OK);
    double begun = now();
    for (int i = 0; i < 20; i++)
        change("[{\"op\":\"replace\",\"path\":\"/member %d\",\"value\":%d}]", JSON_PATCH_OK);
    tell("20 replaces, which make the index", begun, 1);
    undone("a member added, recorded, and undone", "[{\"op\":\"add\",\"path\":\"/new %d\",\"value\":%d}]");
    undone("a member removed, recorded, and undone",
           "[{\"op\":\"remove\",\"path\":\"/member %d\"},{\"op\":\"replace\",\"path\":\"/first\",\"value\":%d}]");
    json_patch_close(&kept);
}

enum { NUMBERS = 400 };

/* A pointer, or a patch, with the numbers of one of so many arrays and of a number in it. */
static const char *at_random(const char *form, int arrays) {
    static char made[100];
    sprintf(made, form, rand() % arrays, rand() % NUMBERS);
    return made;
}

/* Of arrays too long to stay closed: what the text takes while more and more of them are changed or looked at. */
static void large_rows(void) {
    const char *replace = "[{\"op\":\"replace\",\"path\":\"/%d/%d\",\"value\":7}]";
    int arrays = rows / 24;
    size = 0;
    for (int i = 0; i < arrays * NUMBERS; i++)
        size += (size_t)sprintf(text + size, "%s%d", i % NUMBERS ? "," : i ? "],[" : "[[", rand() % 200);
    size += (size_t)sprintf(text + size, "]]");
    malloc_trim(0);
    long before = kilobytes();
    printf("%zu bytes of text, %d arrays\n", size, arrays);
    wants(json_patch_open(&kept, text, size, NULL, &report), JSON_PATCH_OK);
    double begun = now();
    for (int done = 1; done <= 100 * TIMES; done++) {
        const char *made = at_random(replace, arrays);
        wants(json_patch_update(&kept, made, strlen(made), out, sizeof out, &report), JSON_PATCH_OK);
        if (done == TIMES || done == 100 * TIMES) {
            tell("a replace in a random array", begun, done);
            printf("%ld kB after %d\n", kilobytes() - before, done);
        }
    }
    begun = now();
    for (int i = 0; i < 10 * TIMES; i++) {
        const char *made = at_random(replace, arrays);
        wants(json_patch_update_recorded(&kept, made, strlen(made), out, sizeof out, &report), JSON_PATCH_OK);
    }
    tell("the same, recorded, of 10,000", begun, 10 * TIMES);
    printf("%ld kB\n", kilobytes() - before);
    begun = now();
    for (int i = 0; i < 10 * TIMES; i++) {
        const char *pointer = at_random("/%d/%d", arrays);
        wants(json_patch_value_at(&kept, pointer, strlen(pointer), out, sizeof out, &report), JSON_PATCH_OK);
    }
    tell("a look into a random array, of 10,000", begun, 10 * TIMES);
    printf("%ld kB\n", kilobytes() - before);
    json_patch_close(&kept);
}

int main(int count, char **words) {
    const char *replace = "[{\"op\":\"replace\",\"path\":\"/rows/%d/price\",\"value\":%d}]";
    rows = count > 1 ? atoi(words[1]) : 145000;
    make_text();
    long before = kilobytes();
    double begun = now();
    wants(json_patch_open(&kept, text, size, NULL, &report), JSON_PATCH_OK);
    tell("open", begun, 1);
    printf("%zu bytes of text, %ld kB\n", size, kilobytes() - before);
    begun = now();
    change(replace, JSON_PATCH_OK);
    tell("the first replace", begun, 1);
    changes("a replace", TIMES, replace, JSON_PATCH_OK);
    printf("%ld kB\n", kilobytes() - before);
    changes("a replace, of 1,000,000", MANY, replace, JSON_PATCH_OK);
    printf("%ld kB\n", kilobytes() - before);
    undone("a replace recorded, and undone", replace);
    changes("a remove and an add, refused by a test", TIMES,
            "[{\"op\":\"remove\",\"path\":\"/rows/%d\"},{\"op\":\"add\",\"path\":\"/rows/%d\",\"value\":7},"
            "{\"op\":\"test\",\"path\":\"/rows/0\",\"value\":8}]", JSON_PATCH_REFUSED);
    changes("a remove and an add", TIMES, "[{\"op\":\"remove\",\"path\":\"/rows/%d\"},{\"op\":\"add\",\"path\":\"/rows/%d\",\"value\":7}]",
            JSON_PATCH_OK);
    printf("%ld kB\n", kilobytes() - before);
    begun = now();
    wants(json_patch_value_at(&kept, "/rows/7", 7, out, sizeof out, &report), JSON_PATCH_OK);
    tell("a value", begun, 1);
    begun = now();
    wants(json_patch_text(&kept, room, capacity, &report), JSON_PATCH_OK);
    tell("the text", begun, 1);
    begun = now();
    json_patch_close(&kept);
    tell("close", begun, 1);
    const char *made = patch(replace);
    begun = now();
    wants(json_patch_apply(text, size, made, strlen(made), NULL, room, capacity, &report), JSON_PATCH_OK);
    tell("json_patch_apply of one replace", begun, 1);
    members();
    large_rows();
    return 0;
}
