/* breaking A B [ACCEPTED]: lists what breaks where a side with the dictionary of file A sends and one with that of file B reads,
 * but for the lines of file ACCEPTED. The status is 0 where nothing does, 1 where something does, and 2 where a file is refused.
 *     cc breaking.c $(pkg-config --cflags --libs dia-breaking) */
#include <dia.h>
#include <stdio.h>

static uint8_t text[DIA_MAX_TEXT + 1];

static size_t read_text(const char *path) {
    FILE *file = fopen(path, "rb");
    size_t len = 0;
    if (file != NULL) {
        len = fread(text, 1, sizeof text, file);
        fclose(file);
    }
    return len;
}

static int open_dictionary(const char *path, dia_dict *dict) {
    dia_problem problem = {0, 0, 0};
    dia_status status = dia_dict_open(text, read_text(path), dict, &problem);
    if (status == DIA_REFUSED) {
        fprintf(stderr, "%s: kind %u\n", path, (unsigned)problem.kind);
    }
    return status == DIA_OK;
}

static void print_text(dia_text *lines) {
    uint8_t piece[4096];
    size_t from = 0, count;
    while (dia_text_read(lines, from, piece, sizeof piece, &count) == DIA_OK && count != 0) {
        fwrite(piece, 1, count, stdout);
        from += count;
    }
}

int main(int argc, char **argv) {
    dia_dict a = DIA_DICT_INIT, b = DIA_DICT_INIT;
    dia_text lines = DIA_TEXT_INIT;
    dia_problem problem = {0, 0, 0};
    dia_status status = DIA_NONE;
    uint32_t safe = 0;
    if (argc < 3 || argc > 4 || dia_abi_version() != DIA_ABI_VERSION) {
        return 2;
    }
    if (open_dictionary(argv[1], &a) && open_dictionary(argv[2], &b)) {
        size_t len = argc == 4 ? read_text(argv[3]) : 0;
        status = dia_breaking(&a, &b, DIA_SENDS_ANY, DIA_KEPT, 0, (const uint8_t *)"", 0, text, len, &lines, &safe, &problem);
    }
    if (status == DIA_REFUSED) {
        fprintf(stderr, "kind %u at line %u\n", (unsigned)problem.kind, (unsigned)problem.line);
    }
    print_text(&lines);
    dia_text_close(&lines);
    dia_dict_close(&a);
    dia_dict_close(&b);
    return status != DIA_OK ? 2 : !safe;
}
