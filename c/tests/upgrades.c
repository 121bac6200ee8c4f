/* What breaks between two dictionaries. The answers are those of the rules of docs/FORMATS.md, worked out by hand. */
#include "tests.h"

#define X "%avp X 9002 Unsigned32 any\n"
#define T "<T> ::= < Diameter Header: 302, REQ > "
#define U "<U> ::= < Diameter Header: 303, REQ > "
#define AVP_X "0000232a0000000c00000000"
#define LINE_T "T: too-many X: 1..3 sent, 1 accepted\n"
#define LINE_U "U: too-many X: 1..3 sent, 1 accepted\n"

static const char three[] = X T "1*3 { X }" U "1*3 { X }", one[] = X T "{ X }" U "{ X }";

typedef struct {
    uint32_t sends, unknown, options;
    const char *commands, *accepted;
} wanted;

static const wanted all = {DIA_SENDS_LISTED, DIA_KEPT, 0, "", ""};

static dia_status lists(const wanted *w, dia_dict *a, dia_dict *b, dia_text *text, uint32_t *safe, dia_problem *problem) {
    return dia_breaking(a, b, w->sends, w->unknown, w->options, (const uint8_t *)w->commands, strlen(w->commands),
                        (const uint8_t *)w->accepted, strlen(w->accepted), text, safe, problem);
}

/* Whether this is written of the two texts. */
static int writes(const wanted *w, const char *a, const char *b, const char *told, uint32_t wanted_safe) {
    dia_dict first = DIA_DICT_INIT, second = DIA_DICT_INIT;
    dia_text text = DIA_TEXT_INIT;
    dia_problem problem = {99, 99, 99};
    uint8_t found[512];
    size_t count = 0;
    uint32_t safe = 99;
    dia_status status = DIA_NONE;
    EXPECT(open_text(a, &first, &problem) == DIA_OK && open_text(b, &second, &problem) == DIA_OK);
    status = lists(w, &first, &second, &text, &safe, &problem);
    EXPECT(dia_text_read(&text, 0, found, sizeof found, &count) == DIA_OK);
    dia_text_close(&text);
    dia_dict_close(&first);
    dia_dict_close(&second);
    return status == DIA_OK && safe == wanted_safe && count == strlen(told) && memcmp(found, told, count) == 0
        && problem.kind == 99;
}

static void breaks_are_told(void) {
    wanted w = all;
    EXPECT(writes(&w, one, three, "nothing breaks\n", 1));
    EXPECT(writes(&w, three, one, LINE_T LINE_U, 0));
    w.commands = "U";
    EXPECT(writes(&w, three, one, LINE_U, 0));
    w.commands = "U\r\nT\n";
    EXPECT(writes(&w, three, one, LINE_U LINE_T, 0));
    w.options = DIA_ONCE;
    w.commands = "";
    EXPECT(writes(&w, three, one, "too-many X: 1..3 sent, 1 accepted, in 2 commands, first in T\n", 0));
    w.options = DIA_WITH_MESSAGES;
    w.commands = "T";
    EXPECT(writes(&w, three, one, LINE_T "  0100002c8000012e000000000000000000000000" AVP_X AVP_X "\n", 0));
}

static void lines_are_accepted(void) {
    wanted w = all;
    w.accepted = "# known\n" LINE_T;
    EXPECT(writes(&w, three, one, LINE_U, 0));
    w.accepted = LINE_T LINE_U;
    EXPECT(writes(&w, three, one, "nothing else breaks\n", 1));
    w.accepted = "too-many X: 1..3 sent, 1 accepted, in 2 commands, first in T\n";
    EXPECT(writes(&w, three, one, "nothing else breaks\n", 1));
}

static void meanings_are_told(void) {
    static const char real[] = "%avp X 9002 Float32 any\n" T "{ X }", whole[] = X T "{ X }";
    wanted w = all;
    EXPECT(writes(&w, whole, real, "nothing breaks\n", 1));
    w.options = DIA_MEANING;
    EXPECT(writes(&w, whole, real, "T: meaning X: Unsigned32 sent, Float32 read\n", 0));
    EXPECT(writes(&w, whole, whole, "nothing differs\n", 1));
}

static void policies_are_asked(void) {
    static const char known[] = X T "{ X }", open[] = T "* [ AVP ]", closed[] = T, fills[] = X T "* [ AVP ]", has_none[] = X T;
    wanted w = all;
    EXPECT(writes(&w, known, open, "T: unknown X: M set sent, not known\n", 0));
    w.unknown = DIA_UNKNOWN_REFUSED;
    EXPECT(writes(&w, known, open, "T: unknown X: sent, not known\n", 0));
    EXPECT(writes(&all, open, closed, "nothing breaks\n", 1));
    w = all;
    w.sends = DIA_SENDS_ANY;
    EXPECT(writes(&w, open, closed, "T: not-allowed AVP: 0..* sent\n", 0));
    EXPECT(writes(&all, fills, has_none, "nothing breaks\n", 1));
    w.sends = DIA_SENDS_FILLED;
    EXPECT(writes(&w, fills, has_none, "T: not-allowed AVP: 0..* sent\n", 0));
    EXPECT(writes(&w, open, closed, "nothing breaks\n", 1));
}

/* Whether nothing is listed, for this. */
static int is_refused(const wanted *w, const char *a, uint32_t kind, uint32_t line) {
    dia_dict first = DIA_DICT_INIT, second = DIA_DICT_INIT;
    dia_text text = DIA_TEXT_INIT;
    dia_problem problem = {99, 99, 99};
    uint32_t safe = 99;
    dia_status status = DIA_NONE;
    EXPECT(open_text(a, &first, &problem) == DIA_OK && open_text(one, &second, &problem) == DIA_OK);
    status = lists(w, &first, &second, &text, &safe, &problem);
    dia_dict_close(&first);
    dia_dict_close(&second);
    return status == DIA_REFUSED && safe == 99 && text.dia_private == NULL && text.dia_state == 0 && problem.kind == kind
        && problem.line == line && problem.token == 0;
}

static void texts_are_refused(void) {
    static char too_long[(1 << 20) + 2];
    wanted w = all;
    w.accepted = "\xff";
    EXPECT(is_refused(&w, three, DIA_NOT_TEXT, 0));
    w.accepted = LINE_T "\nT too-many\n";
    EXPECT(is_refused(&w, three, DIA_SYNTAX, 3));
    memset(too_long, '#', sizeof too_long - 1);
    w.accepted = too_long;
    EXPECT(is_refused(&w, three, DIA_LIMIT, 0));
    for (size_t i = 0; i < 65537; i++) {
        too_long[i] = '\n';
    }
    too_long[65537] = '\0';
    EXPECT(is_refused(&w, three, DIA_LIMIT, 65537));
    w = all;
    w.commands = "T\nV\nW\n";
    EXPECT(is_refused(&w, three, DIA_NO_COMMAND, 2));
    w.commands = "\nT\n";
    EXPECT(is_refused(&w, three, DIA_NO_COMMAND, 1));
    w.commands = "T\xff";
    EXPECT(is_refused(&w, three, DIA_NO_COMMAND, 0));
    w.commands = "";
    EXPECT(is_refused(&w, X, DIA_NO_COMMANDS, 0));
}

static void arguments_are_asked(void) {
    dia_dict a = DIA_DICT_INIT, b = DIA_DICT_INIT;
    dia_text text = DIA_TEXT_INIT;
    dia_problem problem = {99, 99, 99};
    uint32_t safe = 99;
    wanted w = all;
    w.sends = 4;
    EXPECT(lists(&w, &a, &b, &text, &safe, &problem) == DIA_BAD_ARGUMENT);
    w = all;
    w.unknown = 2;
    EXPECT(lists(&w, &a, &b, &text, &safe, &problem) == DIA_BAD_ARGUMENT);
    w = all;
    w.options = 8;
    EXPECT(lists(&w, &a, &b, &text, &safe, &problem) == DIA_BAD_ARGUMENT);
    EXPECT(lists(&all, &a, &b, &text, &safe, &problem) == DIA_IS_CLOSED);
    EXPECT(dia_dict_open_base(&a) == DIA_OK);
    EXPECT(lists(&all, &a, &b, &text, &safe, &problem) == DIA_IS_CLOSED);
    EXPECT(lists(&all, &b, &a, &text, &safe, &problem) == DIA_IS_CLOSED && safe == 99);
    EXPECT(dia_dict_share(&a, &b) == DIA_OK);
    EXPECT(lists(&all, &a, &b, &text, &safe, &problem) == DIA_OK && safe == 1);
    EXPECT(lists(&all, &a, &b, &text, &safe, &problem) == DIA_IS_OPEN && problem.kind == 99);
    dia_text_close(&text);
    dia_dict_close(&a);
    dia_dict_close(&b);
}

int main(void) {
    breaks_are_told();
    lines_are_accepted();
    meanings_are_told();
    policies_are_asked();
    texts_are_refused();
    arguments_are_asked();
    return tell_counts();
}
