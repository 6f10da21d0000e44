/* Refuses one allocation of a program that this is preloaded into: the one of number REFUSE, counted from 1 over all threads. It
   tells so by a byte on file descriptor 9. */
#define _POSIX_C_SOURCE 200112L

#include <errno.h>
#include <stdatomic.h>
#include <stdbool.h>
#include <stdlib.h>
#include <unistd.h>

/* The C library's own, under the names that it keeps for whoever replaces the others. */
extern void *__libc_malloc(size_t size);
extern void *__libc_calloc(size_t count, size_t size);
extern void *__libc_realloc(void *old, size_t size);
extern void *__libc_memalign(size_t alignment, size_t size);

static atomic_ulong calls;

static bool refuses(void) {
    const char *number = getenv("REFUSE");
    if (!number || atomic_fetch_add(&calls, 1) + 1 != strtoul(number, NULL, 10))
        return false;
    if (write(9, "x", 1) != 1)
        _exit(99);
    errno = ENOMEM;
    return true;
}

void *malloc(size_t size) { return refuses() ? NULL : __libc_malloc(size); }

void *calloc(size_t count, size_t size) { return refuses() ? NULL : __libc_calloc(count, size); }

void *realloc(void *old, size_t size) { return refuses() ? NULL : __libc_realloc(old, size); }

void *aligned_alloc(size_t alignment, size_t size) { return refuses() ? NULL : __libc_memalign(alignment, size); }

int posix_memalign(void **made, size_t alignment, size_t size) {
    void *got = refuses() ? NULL : __libc_memalign(alignment, size);
    if (!got)
        return ENOMEM;
    *made = got;
    return 0;
}
