/* Preloaded into a program, makes one of its requests for memory fail, or all from one on.
 *
 * FAILS=N in the environment fails the Nth request alone, FAILS=N+ the Nth and all after it. Each failing request
 * writes a byte to the file descriptor of FAILS_TOLD, so that the caller knows whether there were that many. */
#include <errno.h>
#include <stddef.h>
#include <stdlib.h>
#include <unistd.h>

void *__libc_malloc(size_t);
void *__libc_calloc(size_t, size_t);
void *__libc_realloc(void *, size_t);
void *__libc_memalign(size_t, size_t);

static unsigned long first, requests;
static int fails_on, told = -1;

__attribute__((constructor)) static void start(void) {
    const char *wanted = getenv("FAILS"), *at = getenv("FAILS_TOLD");
    char *end = NULL;
    first = wanted ? strtoul(wanted, &end, 10) : 0;
    fails_on = end && *end == '+';
    told = at ? atoi(at) : -1;
}

/* Counts a request and says whether it fails. Before `start` there is no first one, so none is counted. */
static int fails(void) {
    if (first == 0)
        return 0;
    unsigned long request = __atomic_add_fetch(&requests, 1, __ATOMIC_SEQ_CST);
    if (request != first && !(fails_on && request > first))
        return 0;
    ssize_t ignored = write(told, "x", 1);
    (void)ignored;
    errno = ENOMEM;
    return 1;
}

void *malloc(size_t size) { return fails() ? NULL : __libc_malloc(size); }

void *calloc(size_t count, size_t size) { return fails() ? NULL : __libc_calloc(count, size); }

void *realloc(void *old, size_t size) { return fails() ? NULL : __libc_realloc(old, size); }

void *aligned_alloc(size_t align, size_t size) { return fails() ? NULL : __libc_memalign(align, size); }

void *memalign(size_t align, size_t size) { return fails() ? NULL : __libc_memalign(align, size); }

int posix_memalign(void **made, size_t align, size_t size) {
    void *block = fails() ? NULL : __libc_memalign(align, size);
    if (block)
        *made = block;
    return block ? 0 : ENOMEM;
}
