/* The requests for memory of the package's module, and of the library in it, counted and refused: linked with
 * -Wl,--wrap=malloc,--wrap=realloc, for refused.py. */
#include <stddef.h>

void *__real_malloc(size_t size);
void *__real_realloc(void *block, size_t size);

static long asked, first, last;

/* From here on requests are refused from this number to that, of which the next one has 1, and none has 0. Returns
   how many there were since the last time. */
__attribute__((visibility("default"))) long refuse(long from, long to) {
    long before = asked;
    asked = 0;
    first = from;
    last = to;
    return before;
}

static int is_granted(void) {
    asked++;
    return asked < first || asked > last;
}

void *__wrap_malloc(size_t size) {
    return is_granted() ? __real_malloc(size) : NULL;
}

void *__wrap_realloc(void *block, size_t size) {
    return is_granted() ? __real_realloc(block, size) : NULL;
}
