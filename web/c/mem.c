/* The functions that LLVM calls by itself, in place of those of the C library and of compiler-rt. tests/mem.c compares the arithmetic
 * with the compiler's own. */
typedef __SIZE_TYPE__ size_t;
typedef __UINT64_TYPE__ uint64_t;
typedef unsigned __int128 uint128_t;

void *memcpy(void *restrict to, const void *restrict from, size_t count);
void *memmove(void *to, const void *from, size_t count);
void *memset(void *to, int byte, size_t count);
int memcmp(const void *a, const void *b, size_t count);
int bcmp(const void *a, const void *b, size_t count);
size_t strlen(const char *text);
uint128_t __multi3(uint128_t a, uint128_t b);
uint128_t __ashlti3(uint128_t a, int by);
uint128_t __lshrti3(uint128_t a, int by);

/* The builtins of these three are instructions: memory.copy and memory.fill. */
void *memcpy(void *restrict to, const void *restrict from, size_t count) {
    return __builtin_memmove(to, from, count);
}

void *memmove(void *to, const void *from, size_t count) {
    return __builtin_memmove(to, from, count);
}

void *memset(void *to, int byte, size_t count) {
    return __builtin_memset(to, byte, count);
}

int memcmp(const void *a, const void *b, size_t count) {
    const unsigned char *x = a, *y = b;
    for (; count > 0; count--, x++, y++) {
        if (*x != *y) {
            return *x < *y ? -1 : 1;
        }
    }
    return 0;
}

int bcmp(const void *a, const void *b, size_t count) {
    return memcmp(a, b, count);
}

size_t strlen(const char *text) {
    size_t length = 0;
    while (text[length] != 0) {
        length++;
    }
    return length;
}

static uint128_t joined(uint64_t high, uint64_t low) {
    return ((uint128_t)high << 64) | low;
}

/* The whole product of two words, from those of their halves. */
static uint128_t product(uint64_t x, uint64_t y) {
    const uint64_t half = 0xffffffff;
    uint64_t x0 = x & half, x1 = x >> 32, y0 = y & half, y1 = y >> 32;
    uint64_t low = x0 * y0, mid0 = x0 * y1, mid1 = x1 * y0, high = x1 * y1;
    uint64_t mid = (low >> 32) + (mid0 & half) + (mid1 & half);
    return joined(high + (mid0 >> 32) + (mid1 >> 32) + (mid >> 32), (mid << 32) | (low & half));
}

/* LLVM multiplies so to find whether a product of 64 bits overflows. */
uint128_t __multi3(uint128_t a, uint128_t b) {
    uint64_t x = (uint64_t)a, y = (uint64_t)b;
    uint128_t low = product(x, y);
    uint64_t high = (uint64_t)(low >> 64) + (uint64_t)(a >> 64) * y + x * (uint64_t)(b >> 64);
    return joined(high, (uint64_t)low);
}

/* The shifts are by 0 to 127. */
uint128_t __ashlti3(uint128_t a, int by) {
    uint64_t low = (uint64_t)a, high = (uint64_t)(a >> 64);
    if (by >= 64) {
        return joined(low << (by - 64), 0);
    }
    return by == 0 ? a : joined((high << by) | (low >> (64 - by)), low << by);
}

uint128_t __lshrti3(uint128_t a, int by) {
    uint64_t low = (uint64_t)a, high = (uint64_t)(a >> 64);
    if (by >= 64) {
        return joined(0, high >> (by - 64));
    }
    return by == 0 ? a : joined(high >> by, (low >> by) | (high << (64 - by)));
}
