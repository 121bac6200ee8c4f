/* The allocator of the program in a web page, in place of the C library's malloc: segregated free lists with boundary tags.
 *
 * The heap is one range of addresses, from `heap_start` to `heap_end`, and grows at its end alone. It is a sequence of blocks, each
 * a header and its payload. The last block, `top`, is free. No two other free blocks are adjacent, nor is one adjacent to `top`.
 * Each of them is in the list of its size class: one class for each size below SMALL, then CLASSES_PER_POWER for each power of two.
 *
 * tests/heap.c draws calls, and checks these invariants after each. */
#ifdef __wasm__
typedef __SIZE_TYPE__ size_t;
typedef __UINT64_TYPE__ uint64_t;
typedef __UINT8_TYPE__ uint8_t;
#define NULL ((void *)0)
#else
#include <stddef.h>
#include <stdint.h>
#endif

/* What the program's calls return: whether memory was allocated, and where. */
typedef struct {
    uint64_t is_allocated;
    void *memory;
} allocation;

typedef struct block {
    size_t tag;           /* the size with the header, a multiple of ALIGNMENT, | IS_USED */
    size_t previous_size; /* of the block before it; 0 for the first */
    struct block *next_free;     /* these two are part of the payload, and hold for free blocks alone */
    struct block *previous_free;
} block;

enum {
    ALIGNMENT = 16,
    HEADER = 16,
    MIN_BLOCK = 32,
    IS_USED = 1,
    PAGE = 65536,
    SMALL = 1024,
    SMALL_CLASSES = SMALL / ALIGNMENT,
    LOG_SMALL = 10,
    CLASSES_PER_POWER = 4,
    CLASSES = SMALL_CLASSES + (64 - LOG_SMALL) * CLASSES_PER_POWER,
    WORDS = (CLASSES + 63) / 64,
    TRIES = 8 /* how many blocks of the size's own class are looked at */
};

/* No more than this is allocated at once, so that sums of sizes don't wrap. */
#define MAX_REQUEST ((size_t)1 << 40)

static block *free_lists[CLASSES];
static uint64_t nonempty[WORDS]; /* a bit for each list */
static uint8_t *heap_start;
static uint8_t *heap_end;
static block *top;
static size_t heap_limit = ~(size_t)0;

/* The address in an answer without memory: not NULL, and never dereferenced. */
static const char no_memory;

#ifdef __wasm__
extern uint8_t __heap_base;

static uint8_t *first_address(void) {
    return &__heap_base;
}

static uint8_t *end_address(void) {
    return (uint8_t *)(__builtin_wasm_memory_size(0) * PAGE);
}

/* Extends memory by a multiple of PAGE, and answers whether it could. */
static int grow(size_t bytes) {
    return __builtin_wasm_memory_grow(0, bytes / PAGE) != ~(size_t)0;
}
#else
extern uint8_t *first_address(void);
extern uint8_t *end_address(void);
extern int grow(size_t bytes);
#endif

static size_t size_of(const block *it) {
    return it->tag & ~(size_t)(ALIGNMENT - 1);
}

static int is_used(const block *it) {
    return (it->tag & IS_USED) != 0;
}

static block *block_at(const void *address, size_t offset) {
    return (block *)((uint8_t *)address + offset);
}

static void *payload_of(block *it) {
    return (uint8_t *)it + HEADER;
}

static block *block_of(void *payload) {
    return (block *)((uint8_t *)payload - HEADER);
}

static size_t round_up(size_t bytes, size_t unit) {
    return (bytes + unit - 1) / unit * unit;
}

static size_t class_of(size_t size) {
    size_t power, quarter;
    if (size < SMALL) {
        return size / ALIGNMENT;
    }
    power = 63 - (size_t)__builtin_clzll(size);
    quarter = (size >> (power - 2)) & (CLASSES_PER_POWER - 1);
    return SMALL_CLASSES + (power - LOG_SMALL) * CLASSES_PER_POWER + quarter;
}

static void insert_free(block *it) {
    size_t class = class_of(it->tag);
    it->previous_free = NULL;
    it->next_free = free_lists[class];
    if (it->next_free != NULL) {
        it->next_free->previous_free = it;
    }
    free_lists[class] = it;
    nonempty[class / 64] |= (uint64_t)1 << (class % 64);
}

static void remove_free(block *it) {
    size_t class = class_of(it->tag);
    if (it->next_free != NULL) {
        it->next_free->previous_free = it->previous_free;
    }
    if (it->previous_free != NULL) {
        it->previous_free->next_free = it->next_free;
        return;
    }
    free_lists[class] = it->next_free;
    if (it->next_free == NULL) {
        nonempty[class / 64] &= ~((uint64_t)1 << (class % 64));
    }
}

/* The first class from this one on whose list isn't empty, or CLASSES. */
static size_t nonempty_from(size_t class) {
    size_t word = class / 64;
    uint64_t bits;
    if (class >= CLASSES) {
        return CLASSES;
    }
    bits = nonempty[word] & (~(uint64_t)0 << (class % 64));
    while (bits == 0) {
        word++;
        if (word == WORDS) {
            return CLASSES;
        }
        bits = nonempty[word];
    }
    return word * 64 + (size_t)__builtin_ctzll(bits);
}

/* Takes a free block of at least this size out of its list, or answers NULL. All blocks of the higher classes are large enough. */
static block *take_fit(size_t size) {
    size_t class = class_of(size), tries = TRIES;
    block *it = free_lists[class];
    while (it != NULL && it->tag < size && tries > 0) {
        it = it->next_free;
        tries--;
    }
    if (it == NULL || it->tag < size) {
        class = nonempty_from(class + 1);
        if (class == CLASSES) {
            return NULL;
        }
        it = free_lists[class];
    }
    remove_free(it);
    return it;
}

static size_t heap_size(void) {
    return (size_t)(heap_end - heap_start);
}

/* Sets the heap up at the first call, and answers whether there is one. */
static int set_up(void) {
    uint8_t *start;
    if (heap_start != NULL) {
        return 1;
    }
    start = (uint8_t *)round_up((size_t)first_address(), ALIGNMENT);
    if (end_address() < start + MIN_BLOCK && !grow(PAGE)) {
        return 0;
    }
    heap_start = start;
    heap_end = end_address();
    top = (block *)start;
    top->tag = heap_size();
    top->previous_size = 0;
    return 1;
}

/* Makes `top` larger than `size` by MIN_BLOCK or more, and answers whether it could. The heap grows by an eighth, or by what is needed if
 * that is more, or if the eighth is refused. */
static int extend_top(size_t size) {
    size_t needed, eighth, room;
    if (!set_up()) {
        return 0;
    }
    if (top->tag >= size + MIN_BLOCK) {
        return 1;
    }
    needed = round_up(size + MIN_BLOCK - top->tag, PAGE);
    eighth = round_up(heap_size() / 8, PAGE);
    room = heap_size() < heap_limit ? heap_limit - heap_size() : 0;
    if (needed > room) {
        return 0;
    }
    if (eighth <= needed || eighth > room || !grow(eighth)) {
        eighth = needed;
        if (!grow(needed)) {
            return 0;
        }
    }
    heap_end += eighth;
    top->tag += eighth;
    return 1;
}

/* Makes the first `size` bytes of `top` a used block. */
static block *cut_top(size_t size) {
    block *it = top;
    top = block_at(it, size);
    top->tag = it->tag - size;
    top->previous_size = size;
    it->tag = size | IS_USED;
    return it;
}

/* Shortens a used block to this size. The rest becomes free, joined with a free block or `top` after it. */
static void shorten(block *it, size_t size) {
    size_t left = size_of(it) - size;
    block *rest, *next;
    if (left < MIN_BLOCK) {
        return;
    }
    next = block_at(it, size_of(it));
    it->tag = size | IS_USED;
    rest = block_at(it, size);
    rest->previous_size = size;
    if (next == top) {
        rest->tag = left + top->tag;
        top = rest;
        return;
    }
    if (!is_used(next)) {
        remove_free(next);
        left += next->tag;
    }
    rest->tag = left;
    block_at(rest, left)->previous_size = left;
    insert_free(rest);
}

/* The size of a block for so many bytes, or 0. */
static size_t block_size(size_t bytes) {
    if (bytes > MAX_REQUEST) {
        return 0;
    }
    return bytes + HEADER < MIN_BLOCK ? MIN_BLOCK : round_up(bytes + HEADER, ALIGNMENT);
}

static void *allocate(size_t bytes) {
    size_t size = block_size(bytes);
    block *it;
    if (size == 0) {
        return NULL;
    }
    it = take_fit(size);
    if (it != NULL) {
        it->tag |= IS_USED;
        shorten(it, size);
        return payload_of(it);
    }
    return extend_top(size) ? payload_of(cut_top(size)) : NULL;
}

static void release(void *memory) {
    block *it = block_of(memory), *next;
    it->tag = size_of(it);
    if (it->previous_size != 0) {
        block *previous = (block *)((uint8_t *)it - it->previous_size);
        if (!is_used(previous)) {
            remove_free(previous);
            previous->tag += it->tag;
            it = previous;
        }
    }
    next = block_at(it, it->tag);
    if (next == top) {
        it->tag += top->tag;
        top = it;
        return;
    }
    if (!is_used(next)) {
        remove_free(next);
        it->tag += next->tag;
        next = block_at(it, it->tag);
    }
    next->previous_size = it->tag;
    insert_free(it);
}

/* Lengthens a used block where it is, and answers whether it could. */
static int lengthen(block *it, size_t size) {
    size_t old = size_of(it);
    block *next = block_at(it, old);
    if (next == top) {
        if (!extend_top(size - old)) {
            return 0;
        }
        cut_top(size - old);
        it->tag = size | IS_USED;
        top->previous_size = size;
        return 1;
    }
    if (is_used(next) || old + next->tag < size) {
        return 0;
    }
    remove_free(next);
    old += next->tag;
    it->tag = old | IS_USED;
    block_at(it, old)->previous_size = old;
    shorten(it, size);
    return 1;
}

/* Changes the size of a block, of which the first `kept` bytes stay. */
static void *resize(void *memory, size_t kept, size_t bytes) {
    block *it = block_of(memory);
    size_t size = block_size(bytes);
    void *moved;
    if (size == 0) {
        return NULL;
    }
    if (size <= size_of(it)) {
        shorten(it, size);
        return memory;
    }
    if (lengthen(it, size)) {
        return memory;
    }
    moved = allocate(bytes);
    if (moved != NULL) {
        __builtin_memcpy(moved, memory, kept < bytes ? kept : bytes);
        release(memory);
    }
    return moved;
}

static allocation answer(void *memory) {
    return (allocation){memory != NULL, memory != NULL ? memory : (void *)&no_memory};
}

allocation rattle_alloc(size_t size, size_t align);
allocation rattle_realloc(void *memory, size_t kept, size_t size, size_t align);
void rattle_dealloc(void *memory);
void limit_heap(size_t bytes);

allocation rattle_alloc(size_t size, size_t align) {
    return answer(allocate(size != 0 ? size : align));
}

allocation rattle_realloc(void *memory, size_t kept, size_t size, size_t align) {
    return answer(resize(memory, kept, size != 0 ? size : align));
}

void rattle_dealloc(void *memory) {
    release(memory);
}

/* From the next call on the heap doesn't grow above so many bytes. */
void limit_heap(size_t bytes) {
    heap_limit = bytes;
}
