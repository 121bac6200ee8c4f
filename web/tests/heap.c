/* Draws calls of c/heap.c, and checks after each its invariants, that what is allocated doesn't overlap, and that its bytes stay.
 *
 *     heap SEED CALLS */
#include <stdio.h>
#include <stdlib.h>
#include <sys/mman.h>
#include "../c/heap.c"

enum { ROOM = 1 << 28, SLOTS = 200, START = 40 };

static uint8_t *arena;
static size_t arena_size = 3 * PAGE / 2;
static size_t arena_limit = ROOM;

uint8_t *first_address(void) {
    return arena + START;
}

uint8_t *end_address(void) {
    return arena + arena_size;
}

int grow(size_t bytes) {
    if (arena_size + bytes > arena_limit) {
        return 0;
    }
    arena_size += bytes;
    return 1;
}

static struct slot {
    uint8_t *memory;
    size_t bytes;
    uint8_t mark;
} slots[SLOTS];

static void require(int holds, const char *what) {
    if (!holds) {
        fprintf(stderr, "heap: %s\n", what);
        exit(1);
    }
}

/* Counts the free blocks, once the blocks are found to be adjacent. */
static size_t check_blocks(void) {
    size_t free_blocks = 0, previous = 0;
    int was_free = 0;
    block *it;
    for (it = (block *)heap_start; it != top; it = block_at(it, size_of(it))) {
        require((uint8_t *)it >= heap_start && (uint8_t *)it < heap_end, "a block is outside the heap");
        require(size_of(it) >= MIN_BLOCK && it->previous_size == previous, "the sizes of a block");
        require(is_used(it) || !was_free, "two free blocks are adjacent");
        was_free = !is_used(it);
        free_blocks += (size_t)was_free;
        previous = size_of(it);
    }
    require(!was_free, "a free block is adjacent to top");
    require(it->previous_size == previous && (uint8_t *)it + it->tag == heap_end && !is_used(it), "top");
    return free_blocks;
}

static size_t check_list(size_t class) {
    size_t count = 0;
    block *previous = NULL;
    require(((nonempty[class / 64] >> (class % 64)) & 1) == (free_lists[class] != NULL), "the bit of a list");
    for (block *it = free_lists[class]; it != NULL; it = it->next_free) {
        require(it->previous_free == previous && class_of(it->tag) == class && !is_used(it), "an entry of a list");
        previous = it;
        count++;
    }
    return count;
}

static void check(void) {
    size_t free_blocks, listed = 0;
    if (heap_start == NULL) {
        return;
    }
    free_blocks = check_blocks();
    for (size_t class = 0; class < CLASSES; class++) {
        listed += check_list(class);
    }
    require(listed == free_blocks, "a free block is in no list");
}

static void check_bytes(const struct slot *it, size_t count) {
    for (size_t i = 0; i < count; i++) {
        require(it->memory[i] == (uint8_t)(it->mark + i), "bytes have changed");
    }
}

static void fill(struct slot *it, uint8_t *memory, size_t bytes) {
    require(((size_t)memory & (ALIGNMENT - 1)) == 0, "alignment");
    *it = (struct slot){memory, bytes, (uint8_t)rand()};
    for (size_t i = 0; i < bytes; i++) {
        memory[i] = (uint8_t)(it->mark + i);
    }
}

static size_t draw_size(void) {
    static const size_t limits[] = {1, 64, 64, 1200, 20000, 400000};
    if (rand() % 1000 == 0) {
        return (size_t)1 << (36 + rand() % 28);
    }
    return (size_t)rand() % limits[rand() % 6];
}

/* Allocates, resizes or releases a slot, and answers whether memory was refused. */
static int step(struct slot *it) {
    size_t bytes = draw_size();
    allocation made;
    if (it->memory != NULL && rand() % 3 != 0) {
        check_bytes(it, it->bytes);
        rattle_dealloc(it->memory);
        it->memory = NULL;
        return 0;
    }
    if (it->memory == NULL) {
        made = rattle_alloc(bytes, 8);
    } else {
        size_t kept = it->bytes < bytes ? it->bytes : bytes;
        made = rattle_realloc(it->memory, kept, bytes, 8);
        if (made.is_allocated) {
            it->memory = made.memory;
        }
        check_bytes(it, made.is_allocated ? kept : it->bytes);
    }
    if (!made.is_allocated) {
        return 1;
    }
    fill(it, made.memory, bytes);
    return 0;
}

static void check_slots(void) {
    for (int i = 0; i < SLOTS; i++) {
        if (slots[i].memory != NULL) {
            check_bytes(&slots[i], slots[i].bytes);
        }
    }
}

int main(int argc, char **argv) {
    unsigned calls = argc > 2 ? (unsigned)atoi(argv[2]) : 20000, refused = 0;
    srand(argc > 1 ? (unsigned)atoi(argv[1]) : 1);
    arena = mmap(NULL, ROOM, PROT_READ | PROT_WRITE, MAP_PRIVATE | MAP_ANONYMOUS | MAP_NORESERVE, -1, 0);
    require(arena != MAP_FAILED, "no memory for the test");
    for (unsigned n = 0; n < calls; n++) {
        if (n % 4000 == 3000) {
            arena_limit = arena_size + (size_t)(rand() % 8) * PAGE;
        } else if (n % 4000 == 0) {
            arena_limit = ROOM;
        }
        refused += (unsigned)step(&slots[rand() % SLOTS]);
        check();
        if (n % 64 == 0) {
            check_slots();
        }
    }
    check_slots();
    for (int i = 0; i < SLOTS; i++) {
        if (slots[i].memory != NULL) {
            rattle_dealloc(slots[i].memory);
            check();
        }
    }
    require((uint8_t *)top == heap_start, "all is released, and top isn't the whole heap");
    require(refused > 0, "no call was refused");
    limit_heap(0);
    require(!rattle_alloc(heap_size() + PAGE, 8).is_allocated, "the limit of the heap");
    printf("heap: %u calls, %u refused, %zu bytes\n", calls, refused, heap_size());
    return 0;
}
