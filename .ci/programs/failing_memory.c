/* Loaded before a program with the GNU C library: the allocation with the number in FAIL_ALLOCATION is refused, and a byte is written
   to the file descriptor in TELL_REFUSED then. What shrinks and frees isn't counted. */
#include <errno.h>
#include <malloc.h>
#include <stdatomic.h>
#include <stdlib.h>
#include <unistd.h>

void *__libc_malloc(size_t size);
void *__libc_calloc(size_t number, size_t size);
void *__libc_realloc(void *old, size_t size);
void *__libc_memalign(size_t align, size_t size);

static atomic_ulong count;
static unsigned long refused;
static int told = -1;
static int is_ready;

static int is_refused(void) {
    if (!is_ready || atomic_fetch_add(&count, 1) + 1 != refused)
        return 0;
    if (write(told, "r", 1) != 1)
        _exit(99);
    errno = ENOMEM;
    return 1;
}

void *malloc(size_t size) {
    return is_refused() ? NULL : __libc_malloc(size);
}

void *calloc(size_t number, size_t size) {
    return is_refused() ? NULL : __libc_calloc(number, size);
}

void *realloc(void *old, size_t size) {
    int grows = !old || size > malloc_usable_size(old);
    return grows && is_refused() ? NULL : __libc_realloc(old, size);
}

void *aligned_alloc(size_t align, size_t size) {
    return is_refused() ? NULL : __libc_memalign(align, size);
}

int posix_memalign(void **at, size_t align, size_t size) {
    void *made = is_refused() ? NULL : __libc_memalign(align, size);
    if (!made)
        return ENOMEM;
    *at = made;
    return 0;
}

__attribute__((constructor)) static void begin(void) {
    const char *number = getenv("FAIL_ALLOCATION");
    const char *to = getenv("TELL_REFUSED");
    refused = number ? strtoul(number, NULL, 10) : 0;
    told = to ? atoi(to) : 2;
    is_ready = 1;
}
