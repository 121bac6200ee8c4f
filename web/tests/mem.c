/* Compares the products and shifts of c/mem.c with those of the compiler. */
#include <stdio.h>
#include <stdlib.h>
#define memcpy own_memcpy
#define memmove own_memmove
#define memset own_memset
#define memcmp own_memcmp
#define bcmp own_bcmp
#define strlen own_strlen
#define __multi3 own_product
#define __ashlti3 own_left
#define __lshrti3 own_right
#include "../c/mem.c"

enum { DRAWS = 200000 };

static uint128_t draw(void) {
    static uint128_t state = 1;
    state = state * joined(0x2360ed051fc65da4, 0x4385df649fccf645) + joined(0x5851f42d4c957f2d, 0x14057b7ef767814f);
    /* also numbers of few bits, and those of which the upper ones are all set */
    switch (rand() % 4) {
    case 0: return state >> (rand() % 128);
    case 1: return -(state >> (rand() % 128));
    default: return state;
    }
}

int main(void) {
    for (int i = 0; i < DRAWS; i++) {
        uint128_t a = draw(), b = draw();
        int by = i % 128;
        if (own_product(a, b) != a * b || own_left(a, by) != a << by || own_right(a, by) != a >> by) {
            fprintf(stderr, "mem: draw %d differs\n", i);
            return 1;
        }
    }
    printf("mem: %d draws\n", DRAWS);
    return 0;
}
