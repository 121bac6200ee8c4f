/* Comparisons of two dictionaries. The answers are those of the rules of docs/FORMATS.md, worked out by hand. */
#include "tests.h"

#define X "%avp X 9002 Unsigned32 any\n"
#define Y "%avp Y 9003 Unsigned32 any\n"
#define T "<T> ::= < Diameter Header: 302, REQ > "
#define TABLE "command T = T\navp X = X\n"

/* Whether the comparison is done and writes this line. */
static int writes(const char *a, const char *b, uint32_t unknown, const char *table, const char *wanted, uint32_t wanted_holds) {
    dia_dict first = DIA_DICT_INIT, second = DIA_DICT_INIT;
    dia_text line = DIA_TEXT_INIT;
    dia_problem problem = {99, 99, 99};
    uint8_t told[64];
    size_t count = 0;
    uint32_t holds = 99;
    dia_status status = DIA_NONE;
    EXPECT(open_text(a, &first, &problem) == DIA_OK && open_text(b, &second, &problem) == DIA_OK);
    status = dia_compare(&first, &second, unknown, (const uint8_t *)table, strlen(table), &line, &holds, &problem);
    EXPECT(dia_text_read(&line, 0, told, sizeof told, &count) == DIA_OK);
    dia_text_close(&line);
    dia_dict_close(&first);
    dia_dict_close(&second);
    return status == DIA_OK && holds == wanted_holds && count == strlen(wanted) && memcmp(told, wanted, count) == 0
        && problem.kind == 99;
}

static void comparisons_are_told(void) {
    EXPECT(writes(X T "{ X }", X T "1*3 { X }", DIA_KEPT, TABLE, "yes\n", 1));
    EXPECT(writes(X T "1*3 { X }", X T "{ X }", DIA_KEPT, TABLE, "no command T = T N2\n", 0));
    EXPECT(writes(X T "{ X } * [ AVP ]", X Y T "{ X } * [ AVP ]", DIA_KEPT, TABLE, "no command T = T N9\n", 0));
    EXPECT(writes(X T "{ X } * [ AVP ]", X Y T "{ X } * [ AVP ]", DIA_UNKNOWN_REFUSED, TABLE, "yes\n", 1));
    EXPECT(writes(X T "{ X }", X T "{ X } <T5> ::= < Diameter Header: 302, REQ, 5 > { X }", DIA_KEPT, TABLE "command T = T5\n",
                  "yes\n", 1));
    EXPECT(writes("%avp E 9004 Enumerated any ( 0..3 ) " T "{ E }", "%avp E 9004 Enumerated any ( 0..1 3 ) " T "{ E }",
                  DIA_KEPT, "command T = T\navp E = E", "no avp E = E N10\n", 0));
    EXPECT(writes(X T "{ X }", Y T "{ Y }", DIA_KEPT, "", "yes\n", 1));
}

/* Whether the table is refused for this, at this column, and nothing is written. */
static int is_refused(const char *table, size_t len, uint32_t kind, uint32_t line_number, size_t column_number) {
    dia_dict a = DIA_DICT_INIT, b = DIA_DICT_INIT;
    dia_text line = DIA_TEXT_INIT;
    dia_problem problem = {99, 99, 99};
    uint32_t holds = 99;
    dia_status status = DIA_NONE;
    size_t at, line_at, column;
    EXPECT(open_text(X, &a, &problem) == DIA_OK && dia_dict_share(&a, &b) == DIA_OK);
    status = dia_compare(&a, &b, DIA_KEPT, (const uint8_t *)table, len, &line, &holds, &problem);
    dia_dict_close(&a);
    dia_dict_close(&b);
    at = dia_table_place((const uint8_t *)table, len, problem.kind, problem.line);
    dia_line_column((const uint8_t *)table, len, at, &line_at, &column);
    return status == DIA_REFUSED && holds == 99 && line.dia_private == NULL && line.dia_state == 0 && problem.kind == kind
        && problem.line == line_number && problem.token == 0 && (line_number == 0 || line_at == line_number) && column == column_number;
}

static void tables_are_refused(void) {
    static char too_long[(1 << 25) + 1];
    char long_name[160] = "\navp ";
    EXPECT(is_refused("\xff", 1, DIA_NOT_TEXT, 0, 1));
    EXPECT(is_refused("command T = T\n; a comment\navp X\n", 32, DIA_SYNTAX, 3, 6));
    memset(long_name + 5, 'n', DIA_MAX_NAME + 1);
    strcpy(long_name + 5 + DIA_MAX_NAME + 1, " = X");
    EXPECT(is_refused(long_name, strlen(long_name), DIA_LIMIT, 2, 5));
    memset(too_long, ' ', sizeof too_long);
    EXPECT(is_refused(too_long, sizeof too_long, DIA_LIMIT, 0, sizeof too_long + 1));
}

static void handles_are_asked(void) {
    dia_dict a = DIA_DICT_INIT, b = DIA_DICT_INIT;
    dia_text line = DIA_TEXT_INIT;
    dia_problem problem = {99, 99, 99};
    uint32_t holds = 99;
    const uint8_t *none = (const uint8_t *)"";
    EXPECT(dia_compare(&a, &b, 2, none, 0, &line, &holds, &problem) == DIA_BAD_ARGUMENT);
    EXPECT(dia_compare(&a, &b, DIA_KEPT, none, 0, &line, &holds, &problem) == DIA_IS_CLOSED);
    EXPECT(dia_dict_open_base(&a) == DIA_OK);
    EXPECT(dia_compare(&a, &b, DIA_KEPT, none, 0, &line, &holds, &problem) == DIA_IS_CLOSED);
    EXPECT(dia_compare(&b, &a, DIA_KEPT, none, 0, &line, &holds, &problem) == DIA_IS_CLOSED && holds == 99);
    EXPECT(dia_dict_share(&a, &b) == DIA_OK);
    EXPECT(dia_compare(&a, &b, DIA_KEPT, none, 0, &line, &holds, &problem) == DIA_OK && holds == 1);
    EXPECT(dia_compare(&a, &b, DIA_KEPT, none, 0, &line, &holds, &problem) == DIA_IS_OPEN && problem.kind == 99);
    dia_text_close(&line);
    dia_dict_close(&a);
    dia_dict_close(&b);
}

int main(void) {
    comparisons_are_told();
    tables_are_refused();
    handles_are_asked();
    return tell_counts();
}
