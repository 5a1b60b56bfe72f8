/* An allocator that fails, for LD_PRELOAD. Of the calls for memory or for more memory, counted from 1, the one with the
   number FAIL_AT fails, and writes `!` to standard output. A program may also choose the number itself, by
   `fail_allocation`. */
#include <errno.h>
#include <stddef.h>
#include <stdlib.h>
#include <unistd.h>

extern void *__libc_malloc(size_t);
extern void *__libc_calloc(size_t, size_t);
extern void *__libc_realloc(void *, size_t);
extern void *__libc_memalign(size_t, size_t);

static unsigned long allocations, fail_at;

__attribute__((constructor)) static void begin(void) {
    const char *number = getenv("FAIL_AT");
    fail_at = number ? strtoul(number, NULL, 10) : 0;
    allocations = 0;
}

/* Counts from 1 again; the call with this number fails, or none for 0. Returns how many calls there were since it last
   counted. */
unsigned long fail_allocation(unsigned long number) {
    unsigned long before = allocations;
    fail_at = number;
    allocations = 0;
    return before;
}

static int fails(void) {
    if (++allocations != fail_at) return 0;
    errno = write(1, "!", 1) == 1 ? ENOMEM : EIO;
    return 1;
}

void *malloc(size_t size) { return fails() ? NULL : __libc_malloc(size); }
void *calloc(size_t count, size_t size) { return fails() ? NULL : __libc_calloc(count, size); }
void *realloc(void *old, size_t size) { return fails() ? NULL : __libc_realloc(old, size); }
void *memalign(size_t alignment, size_t size) { return fails() ? NULL : __libc_memalign(alignment, size); }
void *aligned_alloc(size_t alignment, size_t size) { return memalign(alignment, size); }

int posix_memalign(void **block, size_t alignment, size_t size) {
    *block = memalign(alignment, size);
    return *block ? 0 : ENOMEM;
}
