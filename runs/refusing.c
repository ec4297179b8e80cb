/* An allocator that refuses one allocation: that whose number, from 1 on, stands in the variable REFUSED. It is loaded before
 * the C library, whose allocator answers all others, and says on standard error that it refused one. */
#include <errno.h>
#include <stdatomic.h>
#include <stddef.h>
#include <stdlib.h>
#include <unistd.h>

extern void *__libc_malloc(size_t size);
extern void *__libc_calloc(size_t count, size_t size);
extern void *__libc_realloc(void *at, size_t size);
extern void *__libc_memalign(size_t alignment, size_t size);

static atomic_long made;
static long refused = -1;

static int is_refused(void) {
    if (refused < 0) {
        const char *text = getenv("REFUSED");
        refused = text ? atol(text) : 0;
    }
    if (atomic_fetch_add(&made, 1) + 1 != refused) return 0;
    ssize_t written = write(2, "refused\n", 8);
    (void)written;
    errno = ENOMEM;
    return 1;
}

void *malloc(size_t size) { return is_refused() ? NULL : __libc_malloc(size); }

void *calloc(size_t count, size_t size) { return is_refused() ? NULL : __libc_calloc(count, size); }

void *realloc(void *at, size_t size) { return is_refused() ? NULL : __libc_realloc(at, size); }

void *aligned_alloc(size_t alignment, size_t size) { return is_refused() ? NULL : __libc_memalign(alignment, size); }

int posix_memalign(void **out, size_t alignment, size_t size) {
    void *at = is_refused() ? NULL : __libc_memalign(alignment, size);
    if (!at) return ENOMEM;
    *out = at;
    return 0;
}
