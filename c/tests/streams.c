/* Messages that come in pieces: however a message is cut, it is answered as dia_check answers it whole. */
#include "tests.h"
#include <stdlib.h>

static dia_dict dict;

/* What is said of the bytes where they come in pieces of this size. */
static dia_status in_pieces(const uint8_t *bytes, size_t len, size_t size, dia_verdict *verdict, size_t *taken) {
    dia_stream stream = DIA_STREAM_INIT;
    dia_fed fed = {0, 0};
    dia_status status = dia_stream_open(&dict, DIA_KEPT, DIA_ANY_LEVELS, &stream);
    *taken = 0;
    for (size_t at = 0; status == DIA_OK && at < len && fed.done == 0; at += fed.taken) {
        size_t count = len - at < size ? len - at : size;
        uint8_t *piece = malloc(count); /* of just this length, so that a sanitizer sees a read behind it */
        if (piece == NULL)
            abort();
        memcpy(piece, bytes + at, count);
        status = dia_stream_feed(&stream, piece, count, &fed);
        free(piece);
        *taken += fed.taken;
        if (fed.done == 0 && fed.taken != count)
            return DIA_REFUSED;
    }
    if (status == DIA_OK)
        status = dia_stream_finish(&stream, verdict);
    dia_stream_close(&stream);
    return status;
}

/* The message and each change of one byte of it, whole and in pieces of several sizes. */
static void pieces_are_answered_as_a_whole(void) {
    static const size_t sizes[] = {1, 3, 7, 19, 20, 21, 64};
    static const uint8_t flips[] = {0x00, 0x01, 0x40, 0xff};
    uint8_t bytes[sizeof watchdog];
    dia_verdict whole, cut;
    size_t taken, streams = 0, differ = 0;
    for (size_t at = 0; at < sizeof bytes; at++) {
        for (size_t flip = 0; flip < sizeof flips; flip++) {
            memcpy(bytes, watchdog, sizeof bytes);
            bytes[at] ^= flips[flip];
            EXPECT(dia_check(&dict, DIA_KEPT, DIA_ANY_LEVELS, bytes, sizeof bytes, &whole) == DIA_OK);
            for (size_t i = 0; i < sizeof sizes / sizeof *sizes; i++, streams++) {
                int done = in_pieces(bytes, sizeof bytes, sizes[i], &cut, &taken) == DIA_OK;
                /* of bytes behind the message a stream takes none, so it can't tell of them */
                if (whole.outcome == DIA_TRAILING)
                    differ += !done || taken == sizeof bytes;
                else
                    differ += !done || memcmp(&whole, &cut, sizeof cut) != 0;
            }
        }
    }
    printf("%zu streams, %zu differ\n", streams, differ);
    EXPECT(differ == 0);
}

static void ends_are_told(void) {
    uint8_t both[sizeof watchdog + 20];
    dia_verdict verdict;
    size_t taken;
    memcpy(both, watchdog, sizeof watchdog);
    memcpy(both + sizeof watchdog, watchdog, 20);
    EXPECT(in_pieces(both, sizeof both, sizeof both, &verdict, &taken) == DIA_OK);
    EXPECT(taken == sizeof watchdog && verdict.outcome == DIA_VALID);
    EXPECT(in_pieces(watchdog, sizeof watchdog - 1, 10, &verdict, &taken) == DIA_OK && verdict.outcome == DIA_TRUNCATED);
    EXPECT(in_pieces(watchdog, 0, 10, &verdict, &taken) == DIA_OK && verdict.outcome == DIA_TRUNCATED && taken == 0);
    both[0] = 2;
    EXPECT(in_pieces(both, sizeof both, sizeof both, &verdict, &taken) == DIA_OK && taken == 20);
    EXPECT(verdict.outcome == DIA_FAULT && verdict.code == 5011 && verdict.place == 0 && verdict.reason == DIA_R_VERSION);
}

/* The body begins at 20, and the group's members at 28. */
static void levels_are_counted(void) {
    static const struct {
        size_t from, until, levels;
    } steps[] = {{0, 19, 0}, {19, 20, 1}, {20, 27, 1}, {27, 28, 2}, {28, 51, 2}, {51, 52, 0}};
    dia_stream stream = DIA_STREAM_INIT;
    dia_fed fed;
    dia_verdict verdict;
    size_t levels = 99;
    EXPECT(dia_stream_levels(&stream, &levels) == DIA_IS_CLOSED && levels == 99);
    EXPECT(dia_stream_open(&dict, DIA_KEPT, DIA_ANY_LEVELS, &stream) == DIA_OK);
    for (size_t i = 0; i < sizeof steps / sizeof *steps; i++) {
        size_t count = steps[i].until - steps[i].from;
        EXPECT(dia_stream_feed(&stream, grouped + steps[i].from, count, &fed) == DIA_OK && fed.taken == count);
        EXPECT(fed.done == (steps[i].until == sizeof grouped));
        EXPECT(dia_stream_levels(&stream, &levels) == DIA_OK && levels == steps[i].levels);
    }
    EXPECT(dia_stream_finish(&stream, &verdict) == DIA_OK && verdict.outcome == DIA_FAULT);
    /* Origin-Host is missing (RFC 6733 section 5.3.1) */
    EXPECT(verdict.code == 5005 && verdict.avp_code == 264);
}

static void handles_are_asked(void) {
    dia_dict closed = DIA_DICT_INIT, other = DIA_DICT_INIT;
    dia_stream stream = DIA_STREAM_INIT;
    dia_fed fed = {99, 99};
    dia_verdict verdict = {99, 99, 99, 99, 99, 99, 99, 99, {99, 99, 99, 99}};
    EXPECT(dia_stream_open(&closed, DIA_KEPT, DIA_ANY_LEVELS, &stream) == DIA_IS_CLOSED);
    EXPECT(dia_stream_open(&dict, 2, DIA_ANY_LEVELS, &stream) == DIA_BAD_ARGUMENT);
    EXPECT(dia_stream_feed(&stream, watchdog, 20, &fed) == DIA_IS_CLOSED && fed.taken == 99 && fed.done == 99);
    EXPECT(dia_stream_finish(&stream, &verdict) == DIA_IS_CLOSED && verdict.outcome == 99);
    EXPECT(dia_dict_open_base(&other) == DIA_OK);
    EXPECT(dia_stream_open(&other, DIA_KEPT, DIA_ANY_LEVELS, &stream) == DIA_OK);
    EXPECT(dia_stream_open(&other, DIA_KEPT, DIA_ANY_LEVELS, &stream) == DIA_IS_OPEN);
    /* the stream keeps its dictionary */
    dia_dict_close(&other);
    EXPECT(dia_stream_feed(&stream, watchdog, sizeof watchdog, &fed) == DIA_OK && fed.taken == sizeof watchdog && fed.done == 1);
    EXPECT(dia_stream_feed(&stream, watchdog, sizeof watchdog, &fed) == DIA_OK && fed.taken == 0 && fed.done == 1);
    EXPECT(dia_stream_finish(&stream, &verdict) == DIA_OK && verdict.outcome == DIA_VALID);
    EXPECT(dia_stream_finish(&stream, &verdict) == DIA_IS_CLOSED);
    EXPECT(dia_stream_open(&dict, DIA_KEPT, DIA_ANY_LEVELS, &stream) == DIA_OK);
    dia_stream_close(&stream);
    dia_stream_close(&stream);
    EXPECT(stream.dia_private == NULL && stream.dia_state == 0);
}

/* Messages one after the other by one stream, after each verdict, which is that of dia_check. */
static void streams_begin_again(void) {
    static const struct {
        const uint8_t *bytes;
        size_t len, taken;
    } messages[] = {{watchdog, sizeof watchdog, sizeof watchdog}, {watchdog, 30, 30}, {watchdog, 0, 0},
                    {grouped, sizeof grouped, sizeof grouped}, {watchdog + 1, 40, 20}, {grouped, 51, 51},
                    {watchdog, sizeof watchdog, sizeof watchdog}};
    dia_stream stream = DIA_STREAM_INIT;
    dia_dict own = DIA_DICT_INIT;
    dia_fed fed;
    dia_verdict verdict = {99, 99, 99, 99, 99, 99, 99, 99, {99, 99, 99, 99}}, whole;
    size_t levels = 99;
    EXPECT(dia_stream_again(&stream, &verdict) == DIA_IS_CLOSED && verdict.outcome == 99);
    EXPECT(dia_dict_open_base(&own) == DIA_OK);
    EXPECT(dia_stream_open(&own, DIA_KEPT, 0, &stream) == DIA_OK);
    dia_dict_close(&own);
    for (size_t i = 0; i < sizeof messages / sizeof *messages; i++) {
        EXPECT(dia_stream_feed(&stream, messages[i].bytes, messages[i].len, &fed) == DIA_OK && fed.taken == messages[i].taken);
        EXPECT(dia_stream_again(&stream, &verdict) == DIA_OK && dia_stream_levels(&stream, &levels) == DIA_OK && levels == 0);
        /* with the limit of the stream: no group may be open */
        EXPECT(dia_check(&dict, DIA_KEPT, 0, messages[i].bytes, messages[i].taken, &whole) == DIA_OK);
        EXPECT(memcmp(&verdict, &whole, sizeof whole) == 0);
    }
    EXPECT(dia_stream_finish(&stream, &verdict) == DIA_OK && verdict.outcome == DIA_TRUNCATED);
}

int main(void) {
    EXPECT(dia_dict_open_base(&dict) == DIA_OK);
    pieces_are_answered_as_a_whole();
    ends_are_told();
    levels_are_counted();
    handles_are_asked();
    streams_begin_again();
    dia_dict_close(&dict);
    return tell_counts();
}
