/* check DICTIONARY MESSAGE: checks the message of a file of hexadecimal digits against the dictionary of a file.
 *     cc check.c $(pkg-config --cflags --libs dia) */
#include <dia.h>
#include <stdio.h>

static uint8_t text[DIA_MAX_TEXT + 1], message[1 << 16];

static size_t read_text(const char *path) {
    FILE *file = fopen(path, "rb");
    size_t len = 0;
    if (file != NULL) {
        len = fread(text, 1, sizeof text, file);
        fclose(file);
    }
    return len;
}

static size_t read_message(const char *path) {
    FILE *file = fopen(path, "r");
    size_t len = 0;
    unsigned byte;
    if (file != NULL) {
        while (len < sizeof message && fscanf(file, "%2x", &byte) == 1) {
            message[len++] = (uint8_t)byte;
        }
        fclose(file);
    }
    return len;
}

/* Prints all that is wrong with the dictionary's text. */
static void print_faults(const char *path, size_t len) {
    dia_faults faults = DIA_FAULTS_INIT;
    dia_fault fault;
    size_t count, line, column;
    if (dia_faults_open(text, len, &faults, &count) != DIA_OK) {
        return;
    }
    for (size_t i = 0; i < count && dia_faults_get(&faults, i, &fault) == DIA_OK; i++) {
        dia_line_column(text, len, fault.at, &line, &column);
        fprintf(stderr, "%s:%zu:%zu: kind %u %.*s %.*s\n", path, line, column, (unsigned)fault.kind, (int)fault.name_count,
                (const char *)fault.name, (int)fault.slot_count, (const char *)fault.slot);
    }
    dia_faults_close(&faults);
}

static void print_valid(dia_dict *dict, const dia_verdict *v) {
    uint8_t name[DIA_MAX_NAME];
    size_t count;
    if (dia_command_name(dict, v->command, name, sizeof name, &count) == DIA_OK) {
        printf("valid %.*s\n", (int)count, (const char *)name);
    }
}

int main(int argc, char **argv) {
    dia_dict dict = DIA_DICT_INIT;
    dia_problem problem;
    dia_verdict v;
    dia_status status;
    size_t len;
    if (argc != 3 || dia_abi_version() != DIA_ABI_VERSION) {
        return 2;
    }
    len = read_text(argv[1]);
    status = dia_dict_open(text, len, &dict, &problem);
    if (status == DIA_REFUSED) {
        print_faults(argv[1], len);
    }
    if (status != DIA_OK) {
        return 2;
    }
    status = dia_check(&dict, DIA_KEPT, DIA_ANY_LEVELS, message, read_message(argv[2]), &v);
    if (status == DIA_OK) {
        switch (v.outcome) {
        case DIA_VALID: print_valid(&dict, &v); break;
        case DIA_FAULT: printf("fault %u at %u\n", (unsigned)v.code, (unsigned)v.place); break;
        case DIA_TRUNCATED: puts("truncated"); break;
        default: puts("trailing");
        }
    }
    dia_dict_close(&dict);
    return status != DIA_OK ? 3 : v.outcome != DIA_VALID;
}
