/* relay_guard DICTIONARY < FROM > TO: reads messages back to back, as a connection brings them, and writes those that
 * are valid. Standard error reports each of the others. Status 0: all were valid; 1: some were not; 2: no more could be read.
 *     cc relay_guard.c $(pkg-config --cflags --libs dia) */
#include <dia.h>
#include <stdio.h>

#define HEADER 20

static uint8_t text[DIA_MAX_TEXT + 1], message[1 << 24]; /* Message Length has 24 bits (RFC 6733 section 3) */

static int open_dictionary(const char *path, dia_dict *dict) {
    FILE *file = fopen(path, "rb");
    dia_problem problem;
    size_t len;
    if (file == NULL) {
        return 0;
    }
    len = fread(text, 1, sizeof text, file);
    fclose(file);
    return dia_dict_open(text, len, dict, &problem) == DIA_OK;
}

/* Reads the next message: its length, or 0 where there is none. *broken says whether the bytes end within one, or begin none. */
static uint32_t next_message(int *broken) {
    dia_verdict verdict;
    uint32_t length = 0;
    size_t had = fread(message, 1, HEADER, stdin);
    *broken = had != 0;
    if (had != HEADER || dia_message_length(message, HEADER, &length, &verdict) != DIA_OK) {
        return 0;
    }
    if (fread(message + HEADER, 1, length - HEADER, stdin) != length - HEADER) {
        return 0;
    }
    *broken = 0;
    return length;
}

int main(int argc, char **argv) {
    dia_dict dict = DIA_DICT_INIT;
    dia_verdict verdict;
    unsigned long number = 0;
    uint32_t length;
    int broken, status = 0;
    if (argc != 2 || dia_abi_version() != DIA_ABI_VERSION || !open_dictionary(argv[1], &dict)) {
        return 2;
    }
    while ((length = next_message(&broken)) != 0) {
        number++;
        if (dia_check(&dict, DIA_KEPT, DIA_ANY_LEVELS, message, length, &verdict) != DIA_OK) {
            status = 2;
            break;
        }
        if (verdict.outcome == DIA_VALID) {
            fwrite(message, 1, length, stdout);
        } else {
            fprintf(stderr, "message %lu: fault %u at %u\n", number, (unsigned)verdict.code, (unsigned)verdict.place);
            status = 1;
        }
    }
    if (broken) {
        fprintf(stderr, "message %lu: no message begins here, or the bytes end within it\n", number + 1);
        status = 2;
    }
    dia_dict_close(&dict);
    return fflush(stdout) != 0 ? 2 : status;
}
