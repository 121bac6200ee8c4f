/* answered DICTIONARY MESSAGES: writes of each line of hexadecimal digits the answer to this request in such digits, or `none`; and
 * after a space the line of its verdict. */
#include "dia.h"
#include <stdio.h>
#include <stdlib.h>
#include <string.h>

static uint8_t source[DIA_MAX_TEXT + 1];
static char line[1 << 17];
static const char host[] = "host.invalid", realm[] = "invalid";

/* The bytes of the line, in memory of just their number, so that a sanitizer sees a read behind them. */
static uint8_t *read_bytes(size_t len) {
    uint8_t *bytes = malloc(len != 0 ? len : 1);
    unsigned byte;
    for (size_t i = 0; bytes != NULL && i < len; i++) {
        if (sscanf(line + 2 * i, "%2x", &byte) != 1) {
            free(bytes);
            return NULL;
        }
        bytes[i] = (uint8_t)byte;
    }
    return bytes;
}

static int write_digits(dia_text *answer) {
    uint8_t piece[100];
    size_t from = 0, count;
    dia_status status;
    while ((status = dia_text_read(answer, from, piece, sizeof piece, &count)) == DIA_OK && count != 0) {
        for (size_t i = 0; i < count; i++) {
            printf("%02x", (unsigned)piece[i]);
        }
        from += count;
    }
    return status == DIA_OK;
}

static int write_verdict(dia_dict *dict, const dia_verdict *verdict) {
    uint8_t text[DIA_MAX_LINE];
    size_t count = 0;
    return dia_verdict_text(dict, verdict, text, sizeof text, &count) == DIA_OK && printf(" %.*s\n", (int)count, (const char *)text) > 0;
}

/* Whether the request was answered, or gets no answer, and both lines were written. */
static int answer_line(dia_dict *dict) {
    size_t len = strcspn(line, "\n") / 2;
    uint8_t *request = read_bytes(len);
    dia_text answer = DIA_TEXT_INIT;
    dia_verdict verdict;
    uint32_t form = 0;
    dia_status status;
    int written;
    if (request == NULL) {
        return 0;
    }
    status = dia_answer(dict, DIA_KEPT, DIA_ANY_LEVELS, (const uint8_t *)host, strlen(host), (const uint8_t *)realm, strlen(realm), request,
                        len, &answer, &form, &verdict);
    written = status == DIA_OK ? form != 0 && write_digits(&answer) : status == DIA_NONE && fputs("none", stdout) >= 0;
    dia_text_close(&answer);
    free(request);
    return written && write_verdict(dict, &verdict);
}

int main(int argc, char **argv) {
    dia_dict dict = DIA_DICT_INIT;
    dia_problem problem;
    FILE *file;
    size_t len;
    if (argc != 3 || (file = fopen(argv[1], "rb")) == NULL) {
        return 2;
    }
    len = fread(source, 1, sizeof source, file);
    fclose(file);
    if (dia_dict_open(source, len, &dict, &problem) != DIA_OK || (file = fopen(argv[2], "r")) == NULL) {
        return 2;
    }
    while (fgets(line, sizeof line, file) != NULL) {
        if (!answer_line(&dict)) {
            return 3;
        }
    }
    fclose(file);
    dia_dict_close(&dict);
    return 0;
}
