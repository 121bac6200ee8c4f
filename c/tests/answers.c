/* What each function answers. The expected values are from RFC 6733, docs/FORMATS.md and docs/FAULTS.md. */
#include "tests.h"

static uint8_t bytes[DIA_MAX_TEXT + 1];

static int is_name(const uint8_t *name, size_t count, const char *expected) {
    return count == strlen(expected) && memcmp(name, expected, count) == 0;
}

static int is_fault(const dia_verdict *v, uint32_t code, uint32_t place, uint32_t reason, uint32_t about, uint32_t avp) {
    return v->outcome == DIA_FAULT && v->command == 0 && v->code == code && v->place == place && v->reason == reason
        && v->subject == about && v->avp_code == avp && v->avp_vendor == 0;
}

static int has_problem(const char *text, uint32_t kind, uint32_t line, uint32_t token) {
    dia_dict dict = DIA_DICT_INIT;
    dia_problem problem = {99, 99, 99};
    dia_status status = open_text(text, &dict, &problem);
    return status == DIA_REFUSED && dict.dia_private == NULL && dict.dia_state == 0 && problem.kind == kind
        && problem.line == line && problem.token == token;
}

static void texts_are_refused(void) {
    EXPECT(has_problem("\xff", DIA_NOT_TEXT, 0, 0));
    EXPECT(has_problem("x", DIA_SYNTAX, 1, 2));
    EXPECT(has_problem("\n]", DIA_SYNTAX, 2, 1));
    EXPECT(has_problem("%avp A 4294967296 OctetString any", DIA_NUMBER, 1, 0));
    EXPECT(has_problem("%avp A 1 OctetString any\n%avp A 2 OctetString any", DIA_DUPLICATE_NAME, 0, 0));
    EXPECT(has_problem("%avp A 1 Grouped any", DIA_NO_GROUP_FORMAT, 0, 0));
    EXPECT(has_problem("%avp A 1 OctetString any\n%avp B 1 OctetString any", DIA_DUPLICATE_KEY, 0, 0));
    EXPECT(has_problem("G ::= < AVP Header: 1 > { B }", DIA_UNDEFINED_NAME, 0, 0));
    EXPECT(has_problem("%avp A 1 OctetString any\nG ::= < AVP Header: 2 > { A } [ A ]", DIA_REPEATED_SLOT, 0, 0));
    EXPECT(has_problem("%avp A 1 OctetString any\nG ::= < AVP Header: 2 > 3*2{ A }", DIA_MIN_OVER_MAX, 0, 0));
    EXPECT(has_problem("%avp A 1 OctetString any\nG ::= < AVP Header: 2 > 0*2{ A }", DIA_REQUIRED_MIN, 0, 0));
    EXPECT(has_problem("%avp A 1 OctetString any\nG ::= < AVP Header: 2 > 1*2[ A ]", DIA_OPTIONAL_MIN, 0, 0));
    dia_dict dict = DIA_DICT_INIT;
    dia_problem problem = {99, 99, 99};
    memset(bytes, ' ', sizeof bytes);
    EXPECT(dia_dict_open(bytes, sizeof bytes, &dict, &problem) == DIA_REFUSED);
    EXPECT(problem.kind == DIA_LIMIT && problem.line == 0 && problem.token == 0);
    memset(bytes, 'n', DIA_MAX_NAME + 1);
    EXPECT(dia_dict_open(bytes, DIA_MAX_NAME + 1, &dict, &problem) == DIA_REFUSED);
    EXPECT(problem.kind == DIA_LIMIT && problem.line == 1 && problem.token == 0);
}

typedef struct {
    uint32_t kind;
    size_t line, column;
    const char *name, *slot;
} wanted_fault;

/* Whether the faults of a text are these, in this order. */
static void has_faults(const char *text, const wanted_fault *wanted, size_t wanted_count) {
    dia_faults faults = DIA_FAULTS_INIT;
    dia_fault f;
    size_t len = strlen(text), count = 99, line, column;
    EXPECT(dia_faults_open((const uint8_t *)text, len, &faults, &count) == DIA_OK && count == wanted_count);
    for (size_t i = 0; i < wanted_count; i++) {
        EXPECT(dia_faults_get(&faults, i, &f) == DIA_OK && f.kind == wanted[i].kind && f.has_place == 1);
        EXPECT(is_name(f.name, f.name_count, wanted[i].name) && is_name(f.slot, f.slot_count, wanted[i].slot));
        dia_line_column((const uint8_t *)text, len, f.at, &line, &column);
        EXPECT(line == wanted[i].line && column == wanted[i].column);
    }
    f.kind = 99;
    EXPECT(dia_faults_get(&faults, wanted_count, &f) == DIA_NONE && f.kind == 99);
    EXPECT(dia_faults_get(&faults, SIZE_MAX, &f) == DIA_NONE);
    dia_faults_close(&faults);
}

static void all_faults_are_told(void) {
    static const char text[] = "%avp A 1 Time any\n%avp A 2 Time any\n%avp B 2 Grouped any\n%avp C 1 Time any\n"
                               "<G> ::= < AVP Header: 5 > { X } ; \xc3\xa4 \xc3\xb6\n  1*0 [ AVP ]\n";
    static const wanted_fault wanted[] = {
        {DIA_DUPLICATE_NAME, 2, 6, "A", ""}, {DIA_NO_GROUP_FORMAT, 3, 6, "B", ""}, {DIA_DUPLICATE_KEY, 4, 6, "C", ""},
        {DIA_UNDEFINED_NAME, 5, 29, "G", "X"}, {DIA_MIN_OVER_MAX, 6, 9, "G", "AVP"}, {DIA_OPTIONAL_MIN, 6, 9, "G", "AVP"},
    };
    static const wanted_fault syntax[] = {{DIA_SYNTAX, 1, 23, "", ""}};
    static const wanted_fault not_text[] = {{DIA_NOT_TEXT, 2, 3, "", ""}};
    dia_faults faults = DIA_FAULTS_INIT;
    dia_fault f;
    size_t count = 99;
    has_faults(text, wanted, sizeof wanted / sizeof *wanted);
    has_faults(one_avp, NULL, 0);
    has_faults("", NULL, 0);
    has_faults("%avp A 1 Time any ; \xc3\xa4\n]", (const wanted_fault[]){{DIA_SYNTAX, 2, 1, "", ""}}, 1);
    has_faults(";\xc3\xa4\xc3\xb6 %\n<T> ::= < Diameter X", (const wanted_fault[]){{DIA_SYNTAX, 2, 20, "", ""}}, 1);
    has_faults("%avp A 1 OctetString  ]", syntax, 1);
    has_faults("\n;\xc3\xa4\xff", (const wanted_fault[]){{DIA_NOT_TEXT, 2, 3, "", ""}}, 1);
    has_faults("\n; \xff", not_text, 1);
    has_faults("%avp A 4294967296 Time any", (const wanted_fault[]){{DIA_NUMBER, 1, 8, "", ""}}, 1);
    EXPECT(dia_faults_get(&faults, 0, &f) == DIA_IS_CLOSED);
    memset(bytes, ' ', sizeof bytes);
    EXPECT(dia_faults_open(bytes, sizeof bytes, &faults, &count) == DIA_OK && count == 1);
    EXPECT(dia_faults_get(&faults, 0, &f) == DIA_OK && f.kind == DIA_LIMIT && f.has_place == 0 && f.at == 0);
    EXPECT(dia_faults_open(bytes, 0, &faults, &count) == DIA_IS_OPEN && count == 1);
    dia_faults_close(&faults);
    dia_faults_close(&faults);
}

static void places_are_told(void) {
    static const uint8_t text[] = "a\xc3\xa4z\r\n\nb";
    static const size_t wanted[][2] = {{1, 1}, {1, 2}, {1, 3}, {1, 3}, {1, 4}, {1, 5}, {2, 1}, {3, 1}, {3, 2}, {3, 2}};
    size_t line, column;
    for (size_t at = 0; at < sizeof wanted / sizeof *wanted; at++) {
        dia_line_column(text, sizeof text - 1, at, &line, &column);
        EXPECT(line == wanted[at][0] && column == wanted[at][1]);
    }
    dia_line_column(text, sizeof text - 1, SIZE_MAX, &line, &column);
    EXPECT(line == 3 && column == 2);
}

static void handles_are_open_or_closed(void) {
    dia_dict dict = DIA_DICT_INIT, other = DIA_DICT_INIT;
    dia_text text = DIA_TEXT_INIT;
    dia_problem problem = {99, 99, 99};
    dia_verdict verdict = {99, 99, 99, 99, 99, 99, 99, 99, {99, 99, 99, 99}};
    uint8_t name[DIA_MAX_NAME];
    size_t count = 99;
    EXPECT(dia_check(&dict, DIA_KEPT, 0, watchdog, 64, &verdict) == DIA_IS_CLOSED && verdict.outcome == 99);
    EXPECT(dia_dict_share(&dict, &other) == DIA_IS_CLOSED && other.dia_state == 0);
    EXPECT(dia_command_name(&dict, 0, name, sizeof name, &count) == DIA_IS_CLOSED);
    EXPECT(dia_avp_name(&dict, 264, 0, name, sizeof name, &count) == DIA_IS_CLOSED);
    EXPECT(dia_text_read(&text, 0, name, sizeof name, &count) == DIA_IS_CLOSED);
    EXPECT(dia_text_length(&text, &count) == DIA_IS_CLOSED && count == 99);
    dia_dict_close(&dict);
    dia_text_close(&text);
    EXPECT(open_text(one_avp, &dict, &problem) == DIA_OK);
    EXPECT(open_text(one_avp, &dict, &problem) == DIA_IS_OPEN);
    EXPECT(open_text("x", &dict, &problem) == DIA_IS_OPEN && problem.kind == 99);
    EXPECT(dia_dict_open_base(&dict) == DIA_IS_OPEN);
    EXPECT(dia_dict_open_base(&other) == DIA_OK);
    EXPECT(dia_dict_share(&dict, &other) == DIA_IS_OPEN);
    EXPECT(dia_check(&dict, 2, 0, watchdog, 64, &verdict) == DIA_BAD_ARGUMENT && verdict.outcome == 99);
    dia_dict_close(&dict);
    dia_dict_close(&dict);
    EXPECT(dia_avp_name(&dict, 1, 0, name, sizeof name, &count) == DIA_IS_CLOSED);
    dia_dict_close(&other);
}

static void a_share_outlives_its_dictionary(void) {
    dia_dict dict = DIA_DICT_INIT, other = DIA_DICT_INIT;
    dia_problem problem;
    uint8_t name[1];
    size_t count = 99;
    EXPECT(open_text(one_avp, &dict, &problem) == DIA_OK);
    EXPECT(dia_dict_share(&dict, &other) == DIA_OK);
    EXPECT(dia_avp_name(&dict, 1, 0, name, sizeof name, &count) == DIA_OK && is_name(name, count, "A"));
    dia_dict_close(&dict);
    EXPECT(dia_avp_name(&other, 1, 0, name, sizeof name, &count) == DIA_OK && is_name(name, count, "A"));
    EXPECT(dia_avp_name(&other, 264, 0, name, sizeof name, &count) == DIA_NONE);
    dia_dict_close(&other);
}

static void messages_are_checked(void) {
    dia_dict dict = DIA_DICT_INIT;
    dia_verdict v;
    uint8_t name[DIA_MAX_NAME], m[84];
    size_t count = 99;
    EXPECT(dia_dict_open_base(&dict) == DIA_OK);
    EXPECT(dia_check(&dict, DIA_KEPT, DIA_ANY_LEVELS, watchdog, 64, &v) == DIA_OK && v.outcome == DIA_VALID);
    EXPECT(dia_command_name(&dict, v.command, name, sizeof name, &count) == DIA_OK && is_name(name, count, "DWR"));
    EXPECT(dia_check(&dict, DIA_KEPT, 0, watchdog, 60, &v) == DIA_OK && v.outcome == DIA_TRUNCATED);
    EXPECT(dia_check(&dict, DIA_KEPT, 0, watchdog, 0, &v) == DIA_OK && v.outcome == DIA_TRUNCATED);
    memset(m, 0, sizeof m);
    memcpy(m, watchdog, 64);
    EXPECT(dia_check(&dict, DIA_KEPT, 0, m, 68, &v) == DIA_OK && v.outcome == DIA_TRAILING);
    m[0] = 2;
    EXPECT(dia_check(&dict, DIA_KEPT, 0, m, 64, &v) == DIA_OK && is_fault(&v, 5011, 0, DIA_R_VERSION, DIA_ABOUT_NOTHING, 0));
    m[0] = 1;
    m[4] = 0xa0;
    EXPECT(dia_check(&dict, DIA_KEPT, 0, m, 64, &v) == DIA_OK && is_fault(&v, 5013, 4, DIA_R_BITS, DIA_ABOUT_NOTHING, 0));
    m[4] = 0x80;
    m[3] = 44;
    EXPECT(dia_check(&dict, DIA_KEPT, 0, m, 44, &v) == DIA_OK && is_fault(&v, 5005, 44, DIA_R_MISSING, DIA_ABOUT_AVP, 296));
    /* an AVP of the code 99999 behind the others, of 8 bytes and with no data, and M clear */
    m[3] = 72;
    memcpy(m + 64, "\x00\x01\x86\x9f\x00\x00\x00\x08", 8);
    EXPECT(dia_check(&dict, DIA_KEPT, 0, m, 72, &v) == DIA_OK && v.outcome == DIA_VALID);
    EXPECT(dia_check(&dict, DIA_UNKNOWN_REFUSED, 0, m, 72, &v) == DIA_OK
        && is_fault(&v, 5001, 64, DIA_R_UNKNOWN, DIA_ABOUT_AVP, 99999));
    dia_dict_close(&dict);
}

static void faults_are_told(void) {
    /* the command 300, with an AVP of 8 bytes and no data behind the header */
    static const uint8_t m[28] = {1, 0, 0, 28, 0x80, 0, 1, 44, 0, 0, 0, 0, 0, 0, 0, 0, 0, 0, 0, 0, 0, 0, 0, 1, 0, 0, 0, 8};
    dia_dict dict = DIA_DICT_INIT;
    dia_problem problem;
    dia_verdict v;
    EXPECT(open_text("%avp A 1 OctetString must <T> ::= < Diameter Header: 300, REQ > [ A ]", &dict, &problem) == DIA_OK);
    EXPECT(dia_check(&dict, DIA_KEPT, 0, m, 28, &v) == DIA_OK && is_fault(&v, 3009, 20, DIA_R_M_BIT, DIA_ABOUT_AVP, 1));
    dia_dict_close(&dict);
    EXPECT(open_text("%avp A 1 Unsigned32 any <T> ::= < Diameter Header: 300, REQ > [ A ]", &dict, &problem) == DIA_OK);
    EXPECT(dia_check(&dict, DIA_KEPT, 0, m, 28, &v) == DIA_OK && is_fault(&v, 5014, 20, DIA_R_LEAF_LENGTH, DIA_ABOUT_AVP, 1));
    dia_dict_close(&dict);
    EXPECT(open_text("%avp A 1 OctetString any <T> ::= < Diameter Header: 300, REQ > { A } 1*{ AVP }", &dict, &problem)
        == DIA_OK);
    EXPECT(dia_check(&dict, DIA_KEPT, 0, m, 28, &v) == DIA_OK && is_fault(&v, 5005, 28, DIA_R_MISSING, DIA_ABOUT_WILDCARD, 0));
    dia_dict_close(&dict);
    EXPECT(open_text("%avp A 1 Grouped any A ::= < AVP Header: 1 > <T> ::= < Diameter Header: 300, REQ > [ A ]", &dict, &problem)
        == DIA_OK);
    EXPECT(dia_check(&dict, DIA_KEPT, 1, m, 28, &v) == DIA_OK && v.outcome == DIA_VALID);
    EXPECT(dia_check(&dict, DIA_KEPT, 0, m, 28, &v) == DIA_OK && is_fault(&v, 5012, 20, DIA_R_DEPTH, DIA_ABOUT_AVP, 1));
    dia_dict_close(&dict);
}

/* A name is written, and no byte after it; and no byte at all where there is too little room, or no name. */
static void names_are_told(void) {
    dia_dict dict = DIA_DICT_INIT;
    dia_verdict v;
    uint8_t name[DIA_MAX_NAME];
    size_t count = 99;
    memset(name, FILLING, sizeof name);
    EXPECT(dia_avp_name(&dict, 264, 0, name, sizeof name, &count) == DIA_IS_CLOSED && count == 99 && is_left(name, sizeof name));
    EXPECT(dia_dict_open_base(&dict) == DIA_OK);
    EXPECT(dia_avp_name(&dict, 264, 0, name, 10, &count) == DIA_NO_ROOM && count == 11 && is_left(name, sizeof name));
    EXPECT(dia_avp_name(&dict, 264, 1, name, sizeof name, &count) == DIA_NONE && is_left(name, sizeof name));
    EXPECT(dia_avp_name(&dict, 264, 0, name, 11, &count) == DIA_OK && is_name(name, count, "Origin-Host"));
    EXPECT(is_left(name + 11, sizeof name - 11));
    memset(name, FILLING, sizeof name);
    EXPECT(dia_avp_name(&dict, 264, 0, name, sizeof name, &count) == DIA_OK && is_name(name, count, "Origin-Host"));
    EXPECT(is_left(name + 11, sizeof name - 11));
    memset(name, FILLING, sizeof name);
    EXPECT(dia_check(&dict, DIA_KEPT, DIA_ANY_LEVELS, watchdog, 64, &v) == DIA_OK && v.outcome == DIA_VALID);
    EXPECT(dia_command_name(&dict, v.command, name, 2, &count) == DIA_NO_ROOM && count == 3 && is_left(name, sizeof name));
    EXPECT(dia_command_name(&dict, UINT32_MAX, name, sizeof name, &count) == DIA_NONE && is_left(name, sizeof name));
    EXPECT(dia_command_name(&dict, v.command, name, sizeof name, &count) == DIA_OK && is_name(name, count, "DWR"));
    EXPECT(is_left(name + 3, sizeof name - 3));
    dia_dict_close(&dict);
}

static void lengths_are_told(void) {
    dia_verdict v;
    uint8_t m[20];
    uint32_t length = 99;
    memcpy(m, watchdog, 20);
    EXPECT(dia_message_length(m, 20, &length, &v) == DIA_OK && length == 64);
    EXPECT(dia_message_length(watchdog, 64, &length, &v) == DIA_OK && length == 64);
    length = 99;
    EXPECT(dia_message_length(m, 19, &length, &v) == DIA_REFUSED && v.outcome == DIA_TRUNCATED && length == 99);
    m[3] = 18;
    EXPECT(dia_message_length(m, 20, &length, &v) == DIA_REFUSED && is_fault(&v, 5015, 1, DIA_R_LENGTH, DIA_ABOUT_NOTHING, 0));
    m[3] = 21;
    EXPECT(dia_message_length(m, 20, &length, &v) == DIA_REFUSED && is_fault(&v, 5015, 1, DIA_R_LENGTH, DIA_ABOUT_NOTHING, 0));
    m[0] = 0;
    EXPECT(dia_message_length(m, 20, &length, &v) == DIA_REFUSED && is_fault(&v, 5011, 0, DIA_R_VERSION, DIA_ABOUT_NOTHING, 0));
    EXPECT(length == 99);
}

static void headers_are_delivered(void) {
    static const dia_head untouched = {99, 99, 99, 99, 99, 99};
    /* version 1, length 24, flags P and E, code 0x010203, and the numbers 4 to 15 */
    static const uint8_t bytes[21] = {1, 0, 0, 24, 0x60, 1, 2, 3, 4, 5, 6, 7, 8, 9, 10, 11, 12, 13, 14, 15, 255};
    dia_head head = untouched;
    dia_verdict v = {99, 99, 99, 99, 99, 99, 99, 99, {99, 99, 99, 99}};
    uint8_t m[20];
    EXPECT(dia_header(bytes, 19, &head, &v) == DIA_REFUSED && v.outcome == DIA_TRUNCATED);
    EXPECT(memcmp(&head, &untouched, sizeof head) == 0);
    v.outcome = 99;
    EXPECT(dia_header(bytes, 21, &head, &v) == DIA_OK && head.length == 24 && head.flags == 0x60 && head.code == 0x010203);
    EXPECT(head.app == 0x04050607 && head.hop == 0x08090a0b && head.e2e == 0x0c0d0e0f && v.outcome == 99);
    EXPECT(dia_header(bytes, 20, &head, &v) == DIA_OK && head.length == 24);
    head = untouched;
    memcpy(m, bytes, sizeof m);
    m[3] = 22; /* no multiple of four */
    EXPECT(dia_header(m, 20, &head, &v) == DIA_REFUSED && is_fault(&v, 5015, 1, DIA_R_LENGTH, DIA_ABOUT_NOTHING, 0));
    m[0] = 2;
    EXPECT(dia_header(m, 20, &head, &v) == DIA_REFUSED && is_fault(&v, 5011, 0, DIA_R_VERSION, DIA_ABOUT_NOTHING, 0));
    EXPECT(memcmp(&head, &untouched, sizeof head) == 0);
}

static void texts_are_read_in_pieces(void) {
    static const char untidy[] = "%avp   A 1\tOctetString  any ; a comment", canonical[] = "%avp A 1 OctetString any\n";
    dia_text text = DIA_TEXT_INIT;
    dia_problem problem;
    uint8_t piece[7], all[64];
    const uint8_t *bytes = NULL, *again = NULL;
    size_t count = 0, from = 0;
    EXPECT(dia_render((const uint8_t *)"x", 1, &text, &problem) == DIA_REFUSED && problem.kind == DIA_SYNTAX);
    EXPECT(dia_render((const uint8_t *)untidy, strlen(untidy), &text, &problem) == DIA_OK);
    EXPECT(dia_render((const uint8_t *)untidy, strlen(untidy), &text, &problem) == DIA_IS_OPEN);
    EXPECT(dia_text_length(&text, &count) == DIA_OK && count == strlen(canonical));
    count = 99;
    EXPECT(dia_text_view(&text, &bytes, &count) == DIA_OK && count == strlen(canonical) && memcmp(bytes, canonical, count) == 0);
    memset(piece, FILLING, sizeof piece);
    while (dia_text_read(&text, from, piece, sizeof piece, &count) == DIA_OK && count > 0) {
        EXPECT(count == 7 || count == strlen(canonical) % 7);
        EXPECT(is_left(piece + count, sizeof piece - count));
        memcpy(all + from, piece, count);
        memset(piece, FILLING, sizeof piece);
        from += count;
    }
    EXPECT(is_name(all, from, canonical));
    EXPECT(dia_text_read(&text, SIZE_MAX, piece, sizeof piece, &count) == DIA_OK && count == 0 && is_left(piece, sizeof piece));
    EXPECT(dia_text_read(&text, 0, piece, 0, &count) == DIA_OK && count == 0 && is_left(piece, sizeof piece));
    EXPECT(dia_text_view(&text, &again, &count) == DIA_OK && again == bytes && memcmp(bytes, canonical, count) == 0);
    dia_text_close(&text);
    again = NULL;
    count = 99;
    EXPECT(dia_text_view(&text, &again, &count) == DIA_IS_CLOSED && again == NULL && count == 99);
    EXPECT(dia_text_read(&text, 0, piece, sizeof piece, &count) == DIA_IS_CLOSED && is_left(piece, sizeof piece));
}

int main(void) {
    EXPECT(dia_abi_version() == DIA_ABI_VERSION);
    texts_are_refused();
    all_faults_are_told();
    places_are_told();
    handles_are_open_or_closed();
    a_share_outlives_its_dictionary();
    messages_are_checked();
    faults_are_told();
    names_are_told();
    lengths_are_told();
    headers_are_delivered();
    texts_are_read_in_pieces();
    return tell_counts();
}
