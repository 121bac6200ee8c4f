/* What the proved code takes memory by. Each of the first two answers whether there is memory, and where. A program that has
 * its own links an object with these three before libdia.a. */
#include <stddef.h>
#include <stdint.h>
#include <stdlib.h>

typedef struct {
    uint64_t ok;
    void *memory;
} taken;

/* Where nothing is: a pointer that is not NULL, and is never followed. */
static const char nowhere;

static taken answer(void *memory) {
    return (taken){memory != NULL, memory != NULL ? memory : (void *)&nowhere};
}

taken rattle_alloc(size_t size, size_t align);
taken rattle_realloc(void *memory, size_t kept, size_t size, size_t align);
void rattle_dealloc(void *memory);

taken rattle_alloc(size_t size, size_t align) {
    return answer(malloc(size != 0 ? size : align));
}

taken rattle_realloc(void *memory, size_t kept, size_t size, size_t align) {
    (void)kept;
    return answer(realloc(memory, size != 0 ? size : align));
}

void rattle_dealloc(void *memory) {
    free(memory);
}
