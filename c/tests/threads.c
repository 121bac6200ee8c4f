/* Threads check by handles of one dictionary at once, whole messages and pieces, and close their own handles. */
#define _POSIX_C_SOURCE 200809L
#include "tests.h"
#include <pthread.h>

enum { THREADS = 4, ROUNDS = 200 };

typedef struct {
    dia_dict dict;
    int right;
} worker;

static int checks_pieces(dia_dict *dict) {
    dia_stream stream = DIA_STREAM_INIT;
    dia_fed front, rest;
    dia_verdict verdict;
    int right = dia_stream_open(dict, DIA_KEPT, DIA_ANY_LEVELS, &stream) == DIA_OK
        && dia_stream_feed(&stream, watchdog, 30, &front) == DIA_OK
        && dia_stream_feed(&stream, watchdog + 30, sizeof watchdog - 30, &rest) == DIA_OK
        && dia_stream_finish(&stream, &verdict) == DIA_OK && verdict.outcome == DIA_VALID;
    dia_stream_close(&stream);
    return right;
}

static void *works(void *given) {
    worker *own = given;
    dia_dict other = DIA_DICT_INIT;
    dia_verdict verdict;
    for (int i = 0; i < ROUNDS; i++) {
        own->right += dia_check(&own->dict, DIA_KEPT, DIA_ANY_LEVELS, watchdog, sizeof watchdog, &verdict) == DIA_OK
            && verdict.outcome == DIA_VALID && checks_pieces(&own->dict) && dia_dict_share(&own->dict, &other) == DIA_OK;
        dia_dict_close(&other);
    }
    dia_dict_close(&own->dict);
    return NULL;
}

int main(void) {
    static worker workers[THREADS];
    pthread_t threads[THREADS];
    EXPECT(dia_dict_open_base(&workers[0].dict) == DIA_OK);
    for (int i = 1; i < THREADS; i++) {
        EXPECT(dia_dict_share(&workers[0].dict, &workers[i].dict) == DIA_OK);
    }
    for (int i = 0; i < THREADS; i++) {
        EXPECT(pthread_create(&threads[i], NULL, works, &workers[i]) == 0);
    }
    for (int i = 0; i < THREADS; i++) {
        EXPECT(pthread_join(threads[i], NULL) == 0 && workers[i].right == ROUNDS);
    }
    return tell_counts();
}
