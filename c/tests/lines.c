/* lines DICTIONARY MESSAGES [json]: writes of each line of hexadecimal digits what `diacmd check --lines` writes, or what
 * `diacmd check --json` writes of the message. Each message is checked in pieces, too, which has to say the same. */
#include "dia.h"
#include <stdio.h>
#include <stdlib.h>
#include <string.h>

static const char *const reasons[] = {
    "version", "length", "bits", "command", "application", "proxiable", "avp-length", "unknown",
    "m-bit", "missing", "not-allowed", "too-many", "leaf-length", "leaf-value", "depth",
};

static uint8_t source[DIA_MAX_TEXT + 1];
static char line[1 << 17];
static size_t piece = 1;
static int as_json;

static void tell_subject(dia_dict *dict, const dia_verdict *v) {
    uint8_t name[DIA_MAX_NAME];
    size_t count;
    if (v->subject == DIA_ABOUT_NOTHING) {
        puts("-");
    } else if (v->subject == DIA_ABOUT_WILDCARD) {
        puts("AVP");
    } else if (dia_avp_name(dict, v->avp_code, v->avp_vendor, name, sizeof name, &count) == DIA_OK) {
        printf("%.*s\n", (int)count, (const char *)name);
    } else {
        printf("%u:%u\n", (unsigned)v->avp_code, (unsigned)v->avp_vendor);
    }
}

static int tell(dia_dict *dict, const dia_verdict *v) {
    uint8_t name[DIA_MAX_NAME];
    size_t count;
    switch (v->outcome) {
    case DIA_VALID:
        if (dia_command_name(dict, v->command, name, sizeof name, &count) != DIA_OK) {
            return 0;
        }
        printf("valid %.*s\n", (int)count, (const char *)name);
        return 1;
    case DIA_FAULT:
        if (v->reason >= sizeof reasons / sizeof *reasons) {
            return 0;
        }
        printf("fault %u at %u %s ", (unsigned)v->code, (unsigned)v->place, reasons[v->reason]);
        tell_subject(dict, v);
        return 1;
    default:
        puts(v->outcome == DIA_TRUNCATED ? "truncated" : "trailing");
        return 1;
    }
}

static int tell_json(dia_dict *dict, const uint8_t *message, size_t len) {
    dia_text text = DIA_TEXT_INIT;
    uint8_t json[1024];
    size_t count = 0, length = 0;
    int told = dia_check_json(dict, DIA_KEPT, DIA_ANY_LEVELS, message, len, &text) == DIA_OK
        && dia_text_length(&text, &length) == DIA_OK && dia_text_read(&text, 0, json, sizeof json, &count) == DIA_OK;
    dia_text_close(&text);
    return told && count == length && fwrite(json, 1, count, stdout) == count;
}

/* Whether pieces of one size say the same; of bytes behind the message they can't tell. */
static int is_same_in_pieces(dia_dict *dict, const uint8_t *message, size_t len, const dia_verdict *whole) {
    dia_stream stream = DIA_STREAM_INIT;
    dia_fed fed = {0, 0};
    dia_verdict verdict;
    size_t at = 0;
    dia_status status = dia_stream_open(dict, DIA_KEPT, DIA_ANY_LEVELS, &stream);
    piece = piece % 61 + 1;
    while (status == DIA_OK && at < len && !fed.done) {
        status = dia_stream_feed(&stream, message + at, len - at < piece ? len - at : piece, &fed);
        at += fed.taken;
    }
    if (status != DIA_OK || dia_stream_finish(&stream, &verdict) != DIA_OK) {
        return 0;
    }
    return whole->outcome == DIA_TRAILING ? at < len : memcmp(whole, &verdict, sizeof verdict) == 0;
}

static int check_line(dia_dict *dict) {
    size_t len = strcspn(line, "\n") / 2;
    uint8_t *message = malloc(len != 0 ? len : 1); /* of just this length, so that a sanitizer sees a read behind it */
    dia_verdict verdict;
    unsigned byte;
    int told;
    if (message == NULL) {
        return 0;
    }
    for (size_t i = 0; i < len; i++) {
        if (sscanf(line + 2 * i, "%2x", &byte) != 1) {
            free(message);
            return 0;
        }
        message[i] = (uint8_t)byte;
    }
    told = dia_check(dict, DIA_KEPT, DIA_ANY_LEVELS, message, len, &verdict) == DIA_OK
        && (as_json ? tell_json(dict, message, len) : tell(dict, &verdict)) && is_same_in_pieces(dict, message, len, &verdict);
    free(message);
    return told;
}

int main(int argc, char **argv) {
    dia_dict dict = DIA_DICT_INIT;
    dia_problem problem;
    FILE *file;
    size_t len;
    as_json = argc == 4 && strcmp(argv[3], "json") == 0;
    if (argc < 3 || (file = fopen(argv[1], "rb")) == NULL) {
        return 2;
    }
    len = fread(source, 1, sizeof source, file);
    fclose(file);
    if (dia_dict_open(source, len, &dict, &problem) != DIA_OK || (file = fopen(argv[2], "r")) == NULL) {
        return 2;
    }
    while (fgets(line, sizeof line, file) != NULL) {
        if (!check_line(&dict)) {
            return 3;
        }
    }
    fclose(file);
    dia_dict_close(&dict);
    return 0;
}
