/*
 * Stands in for malloc and realloc of the library (so it is linked with -Wl,--wrap=malloc,--wrap=realloc),
 * and refuses one request, by its number, where SQL asks for that:
 *
 *     refuse(number)    from now on; 0 for none. It gives how many were made since it was called before.
 */
#include "postgres.h"

#include "fmgr.h"

void *__real_malloc(size_t size);
void *__real_realloc(void *block, size_t size);
void *__wrap_malloc(size_t size);
void *__wrap_realloc(void *block, size_t size);

static int requests;
static int refused;

static bool is_refused(void)
{
    return ++requests == refused;
}

void *__wrap_malloc(size_t size)
{
    return is_refused() ? NULL : __real_malloc(size);
}

void *__wrap_realloc(void *block, size_t size)
{
    return is_refused() ? NULL : __real_realloc(block, size);
}

PG_FUNCTION_INFO_V1(pg_json_patch_refuse);

Datum pg_json_patch_refuse(PG_FUNCTION_ARGS)
{
    int made = requests;

    requests = 0;
    refused = PG_GETARG_INT32(0);
    PG_RETURN_INT32(made);
}
