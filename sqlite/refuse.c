/*
 * Each request for memory refused in turn, while a statement runs that calls the functions of the
 * extension: first those of the library, by functions that stand in for malloc and realloc (so it is
 * linked with -Wl,--wrap=malloc,--wrap=realloc), then those of SQLite, by its own interface for
 * allocators. It ends with 1 and says why where a run breaks the rule: where a request of the library
 * was refused, and there alone, the statement fails with SQLITE_NOMEM; where one of SQLite was, it
 * fails so or answers as with ample memory; and a statement that failed changed nothing.
 */
#define SQLITE_CORE 1
#include <sqlite3.h>

#include <stdio.h>
#include <stdlib.h>
#include <string.h>

int sqlite3_jsonpatch_init(sqlite3 *database, char **message, const void *routines);
void *__real_malloc(size_t size);
void *__real_realloc(void *block, size_t size);

enum source { NONE, LIBRARY, SQLITE };

static enum source counted_source;
static long left_until_refusal; /* 0 where none is refused */
static long requests;
static int was_refused;

static int is_refused(enum source source)
{
    if (source != counted_source)
        return 0;
    requests++;
    if (left_until_refusal == 0 || --left_until_refusal > 0)
        return 0;
    was_refused = 1;
    return 1;
}

void *__wrap_malloc(size_t size)
{
    return is_refused(LIBRARY) ? NULL : __real_malloc(size);
}

void *__wrap_realloc(void *block, size_t size)
{
    return is_refused(LIBRARY) ? NULL : __real_realloc(block, size);
}

static sqlite3_mem_methods ample;

static void *refusing_malloc(int size)
{
    return is_refused(SQLITE) ? NULL : ample.xMalloc(size);
}

static void *refusing_realloc(void *block, int size)
{
    return is_refused(SQLITE) ? NULL : ample.xRealloc(block, size);
}

static const char *const STATEMENTS[] = {
    "UPDATE t SET d = json_patch_apply(d, '[{\"op\":\"copy\",\"from\":\"/a\",\"path\":\"/b\"},"
    "{\"op\":\"move\",\"from\":\"/a/0\",\"path\":\"/a/-\"}]')",
    "UPDATE t SET d = json_patch_merge(d, '{\"a\":null,\"c\":{\"d\":[\"e\"]}}')",
    "UPDATE t SET d = json_patch_inverse(d, '[{\"op\":\"remove\",\"path\":\"/a/0\"}]')",
    "UPDATE t SET d = json_patch_inverse(d, '[{\"op\":\"remove\",\"path\":\"/a/0\"},{\"op\":\"remove\",\"path\":\"/none\"}]')",
    // more than the room that is asked for at first
    "UPDATE t SET d = json_patch_apply(d, '[{\"op\":\"copy\",\"from\":\"\",\"path\":\"/b\"},{\"op\":\"copy\",\"from\":\"\",\"path\":\"/c\"},"
    "{\"op\":\"copy\",\"from\":\"\",\"path\":\"/d\"},{\"op\":\"copy\",\"from\":\"\",\"path\":\"/e\"}]')",
    "UPDATE t SET d = json_patch_inverse(d, '[{\"op\":\"copy\",\"from\":\"\",\"path\":\"/b\"},{\"op\":\"copy\",\"from\":\"\",\"path\":\"/c\"},"
    "{\"op\":\"copy\",\"from\":\"\",\"path\":\"/d\"},{\"op\":\"copy\",\"from\":\"\",\"path\":\"/e\"}]')",
    "UPDATE t SET d = json_patch_diff(d, '{\"a\":[1,3,\"xx\"],\"b\":{}}')",
    "UPDATE t SET d = json_patch_merge_diff(d, '{\"a\":[1,3,\"xx\"],\"b\":{}}')",
    "UPDATE t SET d = json_patch_merge_diff(d, '{\"b\":{\"c\":null}}')",
    "UPDATE t SET d = coalesce(json_patch_check('[{\"op\":\"add\",\"path\":\"/b\",\"value\":[{}]}]'), d || ' ')",
    "UPDATE t SET d = json_patch_check('[{\"op\":\"add\",\"path\":\"b\",\"value\":[{}]}]')",
    "UPDATE t SET d = json_patch_apply(d, '[{\"op\":\"remove\",\"path\":\"/none\"}]')",
};
static const char DOCUMENT[] = "{\"a\":[1,{\"b\":\"text\"},[[]]]}";

static sqlite3 *database_with_document(void)
{
    sqlite3 *database;
    if (sqlite3_open(":memory:", &database) != SQLITE_OK || sqlite3_jsonpatch_init(database, NULL, NULL) != SQLITE_OK)
        exit(2);
    char *fill = sqlite3_mprintf("CREATE TABLE t (d TEXT); INSERT INTO t VALUES (%Q)", DOCUMENT);
    if (sqlite3_exec(database, fill, NULL, NULL, NULL) != SQLITE_OK)
        exit(2);
    sqlite3_free(fill);
    return database;
}

static char *document_of(sqlite3 *database)
{
    sqlite3_stmt *query;
    if (sqlite3_prepare_v2(database, "SELECT d FROM t", -1, &query, NULL) != SQLITE_OK || sqlite3_step(query) != SQLITE_ROW)
        exit(2);
    char *text = sqlite3_mprintf("%s", sqlite3_column_text(query, 0));
    sqlite3_finalize(query);
    return text;
}

/* Runs the statement with the request of this number refused, and tells what it comes to. */
static int run(const char *statement, enum source source, long number, char **after)
{
    sqlite3 *database = database_with_document();
    requests = 0;
    was_refused = 0;
    counted_source = source;
    left_until_refusal = number;
    int status = sqlite3_exec(database, statement, NULL, NULL, NULL);
    counted_source = NONE;
    *after = document_of(database);
    sqlite3_close(database);
    return status;
}

static int wrong(const char *statement, long number, const char *why)
{
    fprintf(stderr, "sqlite: WRONG: request %ld of %s: %s\n", number, statement, why);
    return 1;
}

/* Refuses each request of the source in turn. */
static int refuse_each(const char *statement, enum source source)
{
    char *expected, *after;
    int answer = run(statement, source, 0, &expected), faults = 0;
    long all = requests;
    if (all == 0)
        faults += wrong(statement, 0, "no memory is asked for, so nothing is tried");
    if (answer == SQLITE_NOMEM)
        faults += wrong(statement, 0, "it fails for want of memory where there is enough");
    for (long number = 1; number <= all; number++) {
        int status = run(statement, source, number, &after);
        if (!was_refused)
            faults += wrong(statement, number, "it was not asked for");
        if (status == SQLITE_NOMEM) {
            if (strcmp(after, DOCUMENT) != 0)
                faults += wrong(statement, number, "it failed, and changed the document");
        } else if (source == LIBRARY) {
            faults += wrong(statement, number, "it was refused, and the statement didn't fail for that");
        } else if (status != answer || strcmp(after, expected) != 0) {
            faults += wrong(statement, number, "another answer than with ample memory");
        }
        sqlite3_free(after);
    }
    sqlite3_free(expected);
    printf("sqlite: %ld requests of %s refused in %.40s..\n", all, source == LIBRARY ? "the library" : "SQLite", statement);
    return faults;
}

int main(void)
{
    int faults = 0;
    sqlite3_config(SQLITE_CONFIG_GETMALLOC, &ample);
    sqlite3_mem_methods refusing = ample;
    refusing.xMalloc = refusing_malloc;
    refusing.xRealloc = refusing_realloc;
    sqlite3_config(SQLITE_CONFIG_MALLOC, &refusing);
    for (size_t i = 0; i < sizeof STATEMENTS / sizeof *STATEMENTS; i++) {
        faults += refuse_each(STATEMENTS[i], LIBRARY);
        faults += refuse_each(STATEMENTS[i], SQLITE);
    }
    return faults != 0;
}
