/* stream DICTIONARY < BYTES: prints of each message, back to back, where it begins and its verdict. The bytes
 * are checked in the pieces in which they come, and no message is buffered. A fault of the version or of the Message Length is reported
 * last, since it is not known where the next message begins. Status 0: all are valid; 1: some are not; 2: the bytes end within a
 * message, or no more could be read.
 *     cc stream.c $(pkg-config --cflags --libs dia) */
#include <dia.h>
#include <stdio.h>

static uint8_t text[DIA_MAX_TEXT + 1], piece[4096];

static int open_dictionary(const char *path, dia_dict *dict) {
    FILE *file = fopen(path, "rb");
    dia_problem problem;
    size_t len;
    if (file == NULL) {
        return 0;
    }
    len = fread(text, 1, sizeof text, file);
    fclose(file);
    return dia_dict_open(text, len, dict, &problem) == DIA_OK;
}

static void print_verdict(dia_dict *dict, unsigned long place, const dia_verdict *v) {
    uint8_t name[DIA_MAX_NAME];
    size_t count;
    if (v->outcome == DIA_VALID && dia_command_name(dict, v->command, name, sizeof name, &count) == DIA_OK) {
        printf("%lu valid %.*s\n", place, (int)count, (const char *)name);
    } else if (v->outcome == DIA_FAULT) {
        printf("%lu fault %u at %u\n", place, (unsigned)v->code, (unsigned)v->place);
    } else {
        printf("%lu truncated\n", place);
    }
}

/* The message that is being read, where it begins, and how many of its bytes came. */
typedef struct {
    dia_stream stream;
    unsigned long place, taken;
    int is_lost; /* where the next one begins */
    int status;
} reader;

/* Ends the message, and prints its verdict. */
static dia_status finish(reader *r, dia_dict *dict) {
    dia_verdict verdict;
    dia_status status = dia_stream_finish(&r->stream, &verdict);
    if (status == DIA_OK) {
        print_verdict(dict, r->place, &verdict);
        r->is_lost = verdict.outcome == DIA_FAULT && (verdict.reason == DIA_R_VERSION || verdict.reason == DIA_R_LENGTH);
        r->status |= verdict.outcome != DIA_VALID;
        r->place += r->taken;
        r->taken = 0;
    }
    return status;
}

/* Takes a piece, in which messages may end and begin. */
static dia_status feed(reader *r, dia_dict *dict, size_t len) {
    size_t at = 0;
    dia_status status = DIA_OK;
    while (status == DIA_OK && at < len && !r->is_lost) {
        dia_fed fed = {0, 0};
        if (r->taken == 0) {
            status = dia_stream_open(dict, DIA_KEPT, DIA_ANY_LEVELS, &r->stream);
        }
        if (status == DIA_OK) {
            status = dia_stream_feed(&r->stream, piece + at, len - at, &fed);
        }
        at += fed.taken;
        r->taken += fed.taken;
        if (status == DIA_OK && fed.done) {
            status = finish(r, dict);
        }
    }
    return status;
}

int main(int argc, char **argv) {
    dia_dict dict = DIA_DICT_INIT;
    reader r = {DIA_STREAM_INIT, 0, 0, 0, 0};
    dia_status status = DIA_OK;
    size_t len;
    if (argc != 2 || dia_abi_version() != DIA_ABI_VERSION || !open_dictionary(argv[1], &dict)) {
        return 2;
    }
    while (status == DIA_OK && !r.is_lost && (len = fread(piece, 1, sizeof piece, stdin)) != 0) {
        status = feed(&r, &dict, len);
    }
    if (status == DIA_OK && r.taken != 0) {
        status = finish(&r, &dict);
        r.status = 2;
    }
    dia_stream_close(&r.stream);
    dia_dict_close(&dict);
    return status != DIA_OK || fflush(stdout) != 0 ? 2 : r.status;
}
