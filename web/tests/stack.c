/* A program whose stack overflows: it tests that the run ends with a trap, and not with an answer. */
int main(int count, char **words);
void limit_heap(unsigned long bytes);

static volatile int sink;

static int deeper(int depth) {
    volatile char room[4096];
    room[depth % 4096] = (char)depth;
    return sink == 0 ? deeper(depth + 1) + room[depth % 4096] : depth;
}

int main(int count, char **words) {
    (void)words;
    return deeper(count);
}

void limit_heap(unsigned long bytes) {
    (void)bytes;
}
