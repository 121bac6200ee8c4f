/* Counts the allocations of the program that it is preloaded into, and refuses one of them.

   REFUSE_COUNT names a file of eight bytes for the count; REFUSE_AT is the number of the allocation that gets no memory,
   from 1. Where it is 0 or not given, none is refused. */
#include <errno.h>
#include <fcntl.h>
#include <stddef.h>
#include <stdint.h>
#include <stdlib.h>
#include <sys/mman.h>

extern void *__libc_malloc(size_t), *__libc_calloc(size_t, size_t), *__libc_realloc(void *, size_t), *__libc_memalign(size_t, size_t);

static uint64_t before_main, *count = &before_main, refused_at;

__attribute__((constructor)) static void begin(void) {
    const char *at = getenv("REFUSE_AT"), *name = getenv("REFUSE_COUNT");
    int file = name ? open(name, O_RDWR) : -1;
    void *shared = file < 0 ? MAP_FAILED : mmap(NULL, sizeof *count, PROT_READ | PROT_WRITE, MAP_SHARED, file, 0);
    if (shared == MAP_FAILED) abort();
    count = shared;
    refused_at = at ? strtoull(at, NULL, 10) : 0;
}

static int is_refused(void) {
    if (count == &before_main || ++*count != refused_at) return 0;
    errno = ENOMEM;
    return 1;
}

void *malloc(size_t size) { return is_refused() ? NULL : __libc_malloc(size); }
void *calloc(size_t number, size_t size) { return is_refused() ? NULL : __libc_calloc(number, size); }
void *realloc(void *old, size_t size) { return is_refused() ? NULL : __libc_realloc(old, size); }
void *memalign(size_t align, size_t size) { return is_refused() ? NULL : __libc_memalign(align, size); }
void *aligned_alloc(size_t align, size_t size) { return is_refused() ? NULL : __libc_memalign(align, size); }

int posix_memalign(void **out, size_t align, size_t size) {
    void *found = is_refused() ? NULL : __libc_memalign(align, size);
    if (found) *out = found;
    return found ? 0 : ENOMEM;
}
