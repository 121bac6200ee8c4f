/* The answer to a request that has a fault. The answers were worked out by hand from RFC 6733 sections 6.2, 7.1.5, 7.2 and 7.5. */
#include "tests.h"

/* A Device-Watchdog-Request without AVPs, and its answer: Result-Code, Origin-Host, Origin-Realm, Error-Message, and a Failed-AVP
 * that holds an Origin-Host. */
static const uint8_t empty[] = {
    0x01, 0x00, 0x00, 0x14, 0x80, 0x00, 0x01, 0x18, 0x00, 0x00, 0x00, 0x00, 0x00, 0x00, 0x00, 0x01, 0x00, 0x00, 0x00, 0x02};
static const uint8_t answer_to_empty[] = {
    0x01, 0x00, 0x00, 0x84, 0x00, 0x00, 0x01, 0x18, 0x00, 0x00, 0x00, 0x00, 0x00, 0x00, 0x00, 0x01, 0x00, 0x00, 0x00, 0x02,
    0x00, 0x00, 0x01, 0x0c, 0x40, 0x00, 0x00, 0x0c, 0x00, 0x00, 0x13, 0x8d, 0x00, 0x00, 0x01, 0x08, 0x40, 0x00, 0x00, 0x14,
    0x68, 0x6f, 0x73, 0x74, 0x2e, 0x69, 0x6e, 0x76, 0x61, 0x6c, 0x69, 0x64, 0x00, 0x00, 0x01, 0x28, 0x40, 0x00, 0x00, 0x0f,
    0x69, 0x6e, 0x76, 0x61, 0x6c, 0x69, 0x64, 0x00, 0x00, 0x00, 0x01, 0x19, 0x00, 0x00, 0x00, 0x2c, 0x66, 0x61, 0x75, 0x6c,
    0x74, 0x20, 0x35, 0x30, 0x30, 0x35, 0x20, 0x61, 0x74, 0x20, 0x32, 0x30, 0x20, 0x6d, 0x69, 0x73, 0x73, 0x69, 0x6e, 0x67,
    0x20, 0x4f, 0x72, 0x69, 0x67, 0x69, 0x6e, 0x2d, 0x48, 0x6f, 0x73, 0x74, 0x00, 0x00, 0x01, 0x17, 0x40, 0x00, 0x00, 0x14,
    0x00, 0x00, 0x01, 0x08, 0x40, 0x00, 0x00, 0x09, 0x61, 0x00, 0x00, 0x00};

/* One with P, which the command doesn't allow: an error message. */
static const uint8_t proxiable[] = {
    0x01, 0x00, 0x00, 0x2c, 0xc0, 0x00, 0x01, 0x18, 0x00, 0x00, 0x00, 0x00, 0x00, 0x00, 0x00, 0x01, 0x00, 0x00, 0x00, 0x02,
    0x00, 0x00, 0x01, 0x08, 0x40, 0x00, 0x00, 0x0b, 0x61, 0x2e, 0x62, 0x00, 0x00, 0x00, 0x01, 0x28, 0x40, 0x00, 0x00, 0x09,
    0x62, 0x00, 0x00, 0x00};
static const uint8_t answer_to_proxiable[] = {
    0x01, 0x00, 0x00, 0x68, 0x60, 0x00, 0x01, 0x18, 0x00, 0x00, 0x00, 0x00, 0x00, 0x00, 0x00, 0x01, 0x00, 0x00, 0x00, 0x02,
    0x00, 0x00, 0x01, 0x08, 0x40, 0x00, 0x00, 0x14, 0x68, 0x6f, 0x73, 0x74, 0x2e, 0x69, 0x6e, 0x76, 0x61, 0x6c, 0x69, 0x64,
    0x00, 0x00, 0x01, 0x28, 0x40, 0x00, 0x00, 0x0f, 0x69, 0x6e, 0x76, 0x61, 0x6c, 0x69, 0x64, 0x00, 0x00, 0x00, 0x01, 0x0c,
    0x40, 0x00, 0x00, 0x0c, 0x00, 0x00, 0x0b, 0xc0, 0x00, 0x00, 0x01, 0x19, 0x00, 0x00, 0x00, 0x23, 0x66, 0x61, 0x75, 0x6c,
    0x74, 0x20, 0x33, 0x30, 0x30, 0x38, 0x20, 0x61, 0x74, 0x20, 0x34, 0x20, 0x70, 0x72, 0x6f, 0x78, 0x69, 0x61, 0x62, 0x6c,
    0x65, 0x20, 0x2d, 0x00};

/* A request of a command of a dictionary that has no answers: an error message of RFC 6733. */
static const char no_answers[] = "%avp Session-Id 263 UTF8String must\n<T> ::= < Diameter Header: 302, REQ > { Session-Id }\n";
static const uint8_t unanswerable[] = {
    0x01, 0x00, 0x00, 0x14, 0x80, 0x00, 0x01, 0x2e, 0x00, 0x00, 0x00, 0x00, 0x00, 0x00, 0x00, 0x01, 0x00, 0x00, 0x00, 0x02};
static const uint8_t answer_to_unanswerable[] = {
    0x01, 0x00, 0x00, 0x80, 0x20, 0x00, 0x01, 0x2e, 0x00, 0x00, 0x00, 0x00, 0x00, 0x00, 0x00, 0x01, 0x00, 0x00, 0x00, 0x02,
    0x00, 0x00, 0x01, 0x08, 0x40, 0x00, 0x00, 0x14, 0x68, 0x6f, 0x73, 0x74, 0x2e, 0x69, 0x6e, 0x76, 0x61, 0x6c, 0x69, 0x64,
    0x00, 0x00, 0x01, 0x28, 0x40, 0x00, 0x00, 0x0f, 0x69, 0x6e, 0x76, 0x61, 0x6c, 0x69, 0x64, 0x00, 0x00, 0x00, 0x01, 0x0c,
    0x40, 0x00, 0x00, 0x0c, 0x00, 0x00, 0x13, 0x8d, 0x00, 0x00, 0x01, 0x19, 0x00, 0x00, 0x00, 0x2b, 0x66, 0x61, 0x75, 0x6c,
    0x74, 0x20, 0x35, 0x30, 0x30, 0x35, 0x20, 0x61, 0x74, 0x20, 0x32, 0x30, 0x20, 0x6d, 0x69, 0x73, 0x73, 0x69, 0x6e, 0x67,
    0x20, 0x53, 0x65, 0x73, 0x73, 0x69, 0x6f, 0x6e, 0x2d, 0x49, 0x64, 0x00, 0x00, 0x00, 0x01, 0x17, 0x40, 0x00, 0x00, 0x10,
    0x00, 0x00, 0x01, 0x07, 0x40, 0x00, 0x00, 0x08};

static const dia_verdict untouched = {99, 99, 99, 99, 99, 99, 99, 99, {99, 99, 99, 99}};
static const char host[] = "host.invalid", realm[] = "invalid";

static dia_status answer(dia_dict *dict, const uint8_t *message, size_t len, dia_text *bytes, uint32_t *form, dia_verdict *v) {
    return dia_answer(dict, DIA_KEPT, DIA_ANY_LEVELS, (const uint8_t *)host, strlen(host), (const uint8_t *)realm, strlen(realm),
                      message, len, bytes, form, v);
}

/* Whether the answer to a request has these bytes and this form, and the verdict is the one of dia_check. */
static void is_answered(dia_dict *dict, const uint8_t *message, size_t len, const uint8_t *wanted, size_t wanted_len,
                        uint32_t wanted_form, uint32_t code) {
    dia_text bytes = DIA_TEXT_INIT;
    dia_verdict verdict = untouched, checked = untouched;
    uint8_t made[512];
    size_t count = 0, length = 0;
    uint32_t form = 99;
    EXPECT(answer(dict, message, len, &bytes, &form, &verdict) == DIA_OK && form == wanted_form);
    EXPECT(dia_check(dict, DIA_KEPT, DIA_ANY_LEVELS, message, len, &checked) == DIA_OK);
    EXPECT(memcmp(&verdict, &checked, sizeof verdict) == 0 && verdict.outcome == DIA_FAULT && verdict.code == code);
    EXPECT(dia_text_length(&bytes, &length) == DIA_OK && length == wanted_len);
    EXPECT(dia_text_read(&bytes, 0, made, sizeof made, &count) == DIA_OK && count == length && memcmp(made, wanted, count) == 0);
    dia_text_close(&bytes);
}

static void requests_are_answered(void) {
    dia_dict dict = DIA_DICT_INIT, other = DIA_DICT_INIT;
    dia_problem problem;
    EXPECT(dia_dict_open_base(&dict) == DIA_OK && open_text(no_answers, &other, &problem) == DIA_OK);
    is_answered(&dict, empty, sizeof empty, answer_to_empty, sizeof answer_to_empty, DIA_FORM_OWN, 5005);
    is_answered(&dict, proxiable, sizeof proxiable, answer_to_proxiable, sizeof answer_to_proxiable, DIA_FORM_ERROR, 3008);
    is_answered(&other, unanswerable, sizeof unanswerable, answer_to_unanswerable, sizeof answer_to_unanswerable, DIA_FORM_BASE, 5005);
    dia_dict_close(&other);
    dia_dict_close(&dict);
}

/* Whether a message gets no answer, and the verdict has this outcome. */
static void is_unanswered(dia_dict *dict, const uint8_t *message, size_t len, uint32_t outcome) {
    dia_text bytes = DIA_TEXT_INIT;
    dia_verdict verdict = untouched;
    uint32_t form = 99;
    EXPECT(answer(dict, message, len, &bytes, &form, &verdict) == DIA_NONE);
    EXPECT(verdict.outcome == outcome && form == 99 && bytes.dia_state == 0);
}

static void others_are_not_answered(void) {
    dia_dict dict = DIA_DICT_INIT;
    uint8_t message[sizeof watchdog];
    EXPECT(dia_dict_open_base(&dict) == DIA_OK);
    is_unanswered(&dict, watchdog, sizeof watchdog, DIA_VALID);
    is_unanswered(&dict, watchdog, sizeof watchdog - 1, DIA_TRUNCATED);
    is_unanswered(&dict, watchdog, 19, DIA_TRUNCATED);
    memcpy(message, watchdog, sizeof message);
    message[3] = 60;
    is_unanswered(&dict, message, sizeof message, DIA_TRAILING);
    message[3] = 64;
    message[4] = 0; /* an answer, without its Result-Code */
    is_unanswered(&dict, message, sizeof message, DIA_FAULT);
    dia_dict_close(&dict);
}

static dia_status named(dia_dict *dict, const uint8_t *first, size_t first_len, const uint8_t *second, size_t second_len) {
    dia_text bytes = DIA_TEXT_INIT;
    dia_verdict verdict = untouched;
    uint32_t form = 99;
    dia_status status = dia_answer(dict, DIA_UNKNOWN_REFUSED, 0, first, first_len, second, second_len, empty, sizeof empty, &bytes, &form, &verdict);
    EXPECT(status == DIA_OK || (bytes.dia_state == 0 && form == 99 && memcmp(&verdict, &untouched, sizeof verdict) == 0));
    dia_text_close(&bytes);
    return status;
}

static void arguments_are_refused(void) {
    dia_dict dict = DIA_DICT_INIT;
    dia_text bytes = DIA_TEXT_INIT;
    dia_verdict verdict = untouched;
    uint32_t form = 99;
    uint8_t name[256];
    memset(name, '!', sizeof name);
    EXPECT(named(&dict, name, 1, name, 1) == DIA_IS_CLOSED);
    EXPECT(dia_dict_open_base(&dict) == DIA_OK);
    EXPECT(named(&dict, name, 255, name, 255) == DIA_OK && named(&dict, name, 1, name, 1) == DIA_OK);
    EXPECT(named(&dict, name, 256, name, 1) == DIA_BAD_ARGUMENT && named(&dict, name, 1, name, 256) == DIA_BAD_ARGUMENT);
    EXPECT(named(&dict, name, 0, name, 1) == DIA_BAD_ARGUMENT && named(&dict, name, 1, name, 0) == DIA_BAD_ARGUMENT);
    name[1] = ' ';
    EXPECT(named(&dict, name, 2, name, 1) == DIA_BAD_ARGUMENT && named(&dict, name, 1, name, 2) == DIA_BAD_ARGUMENT);
    name[1] = 0xff;
    EXPECT(named(&dict, name, 2, name, 1) == DIA_BAD_ARGUMENT && named(&dict, name, 1, name, 2) == DIA_BAD_ARGUMENT);
    EXPECT(dia_answer(&dict, 2, 0, name, 1, name, 1, empty, sizeof empty, &bytes, &form, &verdict) == DIA_BAD_ARGUMENT);
    EXPECT(answer(&dict, empty, sizeof empty, &bytes, &form, &verdict) == DIA_OK && form == DIA_FORM_OWN);
    form = 99;
    verdict = untouched;
    EXPECT(answer(&dict, empty, sizeof empty, &bytes, &form, &verdict) == DIA_IS_OPEN);
    EXPECT(form == 99 && memcmp(&verdict, &untouched, sizeof verdict) == 0 && bytes.dia_state == 1);
    dia_text_close(&bytes);
    dia_dict_close(&dict);
}

int main(void) {
    requests_are_answered();
    others_are_not_answered();
    arguments_are_refused();
    return tell_counts();
}
