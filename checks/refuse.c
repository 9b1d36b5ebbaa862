/* Refuses one allocation of the program that it is loaded into (LD_PRELOAD): the one whose number the variable REFUSED has,
   counted from 1. Says "refused" on standard error when it does. Appends the size of each request, a number of 8 bytes, to the
   file that the variable SIZES names, if there is one. */
#include <errno.h>
#include <fcntl.h>
#include <stddef.h>
#include <stdint.h>
#include <stdlib.h>
#include <unistd.h>

void *__libc_malloc(size_t size);
void *__libc_calloc(size_t count, size_t size);
void *__libc_realloc(void *old, size_t size);
void *__libc_memalign(size_t align, size_t size);

static long left;
static int sizes = -1;

__attribute__((constructor)) static void begin(void) {
    const char *number = getenv("REFUSED");
    left = number ? atol(number) : 0;
    const char *path = getenv("SIZES");
    if (path && (sizes = open(path, O_WRONLY | O_APPEND)) < 0) {
        abort();
    }
}

/* Notes a request of `size` bytes, and tells whether it is refused. */
static int is_refused(uint64_t size) {
    if (sizes >= 0 && write(sizes, &size, sizeof size) != sizeof size) {
        abort();
    }
    if (__atomic_sub_fetch(&left, 1, __ATOMIC_RELAXED) != 0) {
        return 0;
    }
    if (write(2, "refused\n", 8) != 8) {
        abort();
    }
    errno = ENOMEM;
    return 1;
}

void *malloc(size_t size) { return is_refused(size) ? NULL : __libc_malloc(size); }

void *calloc(size_t count, size_t size) { return is_refused(count * size) ? NULL : __libc_calloc(count, size); }

void *realloc(void *old, size_t size) { return is_refused(size) ? NULL : __libc_realloc(old, size); }

void *aligned_alloc(size_t align, size_t size) { return is_refused(size) ? NULL : __libc_memalign(align, size); }

int posix_memalign(void **out, size_t align, size_t size) {
    if (is_refused(size)) {
        return ENOMEM;
    }
    *out = __libc_memalign(align, size);
    return *out ? 0 : ENOMEM;
}
