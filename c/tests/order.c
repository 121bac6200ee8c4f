/* Which status a call answers where several apply: DIA_BAD_ARGUMENT, then DIA_IS_OPEN, then DIA_IS_CLOSED, then the others. Each call
 * is made four times: first all that can be wrong is, and then one thing after the other is put right. */
#include "tests.h"

/* `dict` has a second handle, since a call takes two for two dictionaries. */
static dia_dict dict, second, closed;
static dia_text text;
static dia_faults faults;
static dia_stream stream;
static dia_peer peer;
static dia_verdict verdict;
static dia_problem problem;
static dia_avp avp;
static uint32_t number;
static size_t count;

static const uint8_t name[1] = {'a'};
static const uint8_t wrong[1] = {0xff}; /* no text */
static const dia_ip loopback = {0, {127, 0, 0, 1}};
static const dia_app app = {0, 4, 0, 0};
static const dia_numbers numbers = {0, 0, 0, 1, 1};

/* ---- calls of a number, a handle to be opened and handles to be used ---- */

typedef dia_status call_on(uint32_t policy, dia_dict *used, dia_text *opened);

static dia_status checks_json(uint32_t policy, dia_dict *used, dia_text *opened) {
    return dia_check_json(used, policy, 0, NULL, 0, opened);
}

static dia_status answers(uint32_t policy, dia_dict *used, dia_text *opened) {
    return dia_answer(used, policy, 0, name, 1, name, 1, NULL, 0, opened, &number, &verdict);
}

static dia_status answers_names(uint32_t policy, dia_dict *used, dia_text *opened) {
    return dia_answer(used, DIA_KEPT, 0, name, policy == DIA_KEPT, name, 1, NULL, 0, opened, &number, &verdict);
}

static dia_status compares(uint32_t policy, dia_dict *used, dia_text *opened) {
    return dia_compare(&second, used, policy, wrong, 1, opened, &number, &problem);
}

static dia_status compares_back(uint32_t policy, dia_dict *used, dia_text *opened) {
    return dia_compare(used, &second, policy, wrong, 1, opened, &number, &problem);
}

static dia_status lists(uint32_t policy, dia_dict *used, dia_text *opened) {
    return dia_breaking(&second, used, DIA_SENDS_ANY, policy, 0, NULL, 0, wrong, 1, opened, &number, &problem);
}

static dia_status lists_by(uint32_t policy, dia_dict *used, dia_text *opened) {
    uint32_t sends = policy == DIA_KEPT ? DIA_SENDS_ANY : 4;
    return dia_breaking(used, &second, sends, DIA_KEPT, 0, NULL, 0, wrong, 1, opened, &number, &problem);
}

/* The streams of the table are those of the handle in place of the text. */
static dia_status opens_stream(uint32_t policy, dia_dict *used, dia_text *opened) {
    dia_stream other = DIA_STREAM_INIT;
    dia_status status = dia_stream_open(used, policy, 0, opened->dia_state != 0 ? &stream : &other);
    dia_stream_close(&other);
    return status;
}

static void numbers_come_first(void) {
    static const struct {
        call_on *call;
        dia_status right; /* where nothing is wrong with the number and the handles */
    } rows[] = {{checks_json, DIA_OK},    {answers, DIA_NONE},    {answers_names, DIA_NONE}, {compares, DIA_REFUSED},
                {compares_back, DIA_REFUSED}, {lists, DIA_REFUSED}, {lists_by, DIA_REFUSED},   {opens_stream, DIA_OK}};
    for (size_t i = 0; i < sizeof rows / sizeof *rows; i++) {
        dia_text fresh = DIA_TEXT_INIT;
        EXPECT(rows[i].call(2, &closed, &text) == DIA_BAD_ARGUMENT);
        EXPECT(rows[i].call(DIA_KEPT, &closed, &text) == DIA_IS_OPEN);
        EXPECT(rows[i].call(DIA_KEPT, &closed, &fresh) == DIA_IS_CLOSED);
        EXPECT(rows[i].call(DIA_KEPT, &dict, &fresh) == rows[i].right);
        dia_text_close(&fresh);
    }
}

/* ---- others ---- */

/* Handles come before what is wrong with the input: the texts are none, and the bytes are no message. */
static void handles_come_before_input(void) {
    dia_text fresh = DIA_TEXT_INIT;
    dia_dict other = DIA_DICT_INIT;
    EXPECT(dia_dict_open(wrong, 1, &dict, &problem) == DIA_IS_OPEN);
    EXPECT(dia_dict_open(wrong, 1, &other, &problem) == DIA_REFUSED);
    EXPECT(dia_render(wrong, 1, &text, &problem) == DIA_IS_OPEN && dia_render(wrong, 1, &fresh, &problem) == DIA_REFUSED);
    EXPECT(dia_dict_share(&closed, &dict) == DIA_IS_OPEN && dia_dict_share(&closed, &other) == DIA_IS_CLOSED);
    EXPECT(dia_show(&closed, NULL, 0, &text, &number, &verdict) == DIA_IS_OPEN);
    EXPECT(dia_show(&closed, NULL, 0, &fresh, &number, &verdict) == DIA_IS_CLOSED);
    EXPECT(dia_show(&dict, NULL, 0, &fresh, &number, &verdict) == DIA_REFUSED);
    EXPECT(dia_avps(&closed, NULL, 0, NULL, 0, &count, &count, &verdict) == DIA_IS_CLOSED);
    EXPECT(dia_avps_at(&closed, NULL, 0, 0, NULL, 0, &count, &verdict) == DIA_IS_CLOSED);
    EXPECT(dia_avp_find(&closed, NULL, 0, 264, 0, &avp, &verdict) == DIA_IS_CLOSED);
    EXPECT(dia_explain(wrong, 1, 2, 0, NULL, 0, &text) == DIA_BAD_ARGUMENT);
    EXPECT(dia_explain(wrong, 1, DIA_KEPT, 0, NULL, 0, &text) == DIA_IS_OPEN);
}

static void numbers_come_before_one_handle(void) {
    static const size_t ends[1] = {1};
    EXPECT(dia_check(&closed, 2, 0, NULL, 0, &verdict) == DIA_BAD_ARGUMENT);
    EXPECT(dia_check(&closed, DIA_KEPT, 0, NULL, 0, &verdict) == DIA_IS_CLOSED);
    EXPECT(dia_check_many(&closed, 2, 0, name, 1, ends, 1, &verdict, 1) == DIA_BAD_ARGUMENT);
    EXPECT(dia_check_many(&closed, DIA_KEPT, 0, name, 1, ends, 1, &verdict, 0) == DIA_BAD_ARGUMENT);
    EXPECT(dia_check_many(&closed, DIA_KEPT, 0, name, 0, ends, 1, &verdict, 1) == DIA_BAD_ARGUMENT);
    EXPECT(dia_check_many(&closed, DIA_KEPT, 0, name, 1, ends, 1, &verdict, 1) == DIA_IS_CLOSED);
}

/* The dictionary says which verdicts it has. */
static void the_dictionary_has_verdicts(void) {
    static const dia_verdict none = {99, 99, 99, 99, 99, 99, 99, 99, {99, 99, 99, 99}};
    uint8_t line[DIA_MAX_LINE];
    EXPECT(dia_verdict_text(&closed, &none, line, 0, &count) == DIA_IS_CLOSED);
    EXPECT(dia_verdict_text(&dict, &none, line, 0, &count) == DIA_BAD_ARGUMENT);
}

static dia_status begins(uint32_t role, uint32_t manner, size_t host_len, dia_peer *opened) {
    return dia_peer_open_as(role, manner, name, host_len, name, 1, NULL, 0, &loopback, 1, &app, 1, &numbers, opened, &number);
}

static void peers_have_the_same_order(void) {
    dia_peer fresh = DIA_PEER_INIT, none = DIA_PEER_INIT;
    EXPECT(begins(2, 0, 0, &peer) == DIA_BAD_ARGUMENT && begins(DIA_INITIATOR, 16, 0, &peer) == DIA_BAD_ARGUMENT);
    EXPECT(begins(DIA_INITIATOR, 0, 0, &peer) == DIA_IS_OPEN);
    EXPECT(begins(DIA_INITIATOR, 0, 0, &fresh) == DIA_REFUSED && begins(DIA_INITIATOR, 0, 1, &fresh) == DIA_OK);
    EXPECT(dia_peer_event(&none, 5, NULL, 0, 0) == DIA_BAD_ARGUMENT && dia_peer_event(&none, DIA_START, NULL, 0, 0) == DIA_IS_CLOSED);
    EXPECT(dia_peer_event(&fresh, DIA_START, NULL, 0, 0) == DIA_OK && dia_peer_event(&fresh, 5, NULL, 0, 0) == DIA_BAD_ARGUMENT);
    EXPECT(dia_peer_event(&fresh, DIA_TICK, NULL, 0, 0) == DIA_OUTPUTS_LEFT);
    EXPECT(dia_peer_value(&none, 5, NULL, 0, &count) == DIA_BAD_ARGUMENT);
    EXPECT(dia_peer_value(&none, DIA_VALUE_HOST, NULL, 0, &count) == DIA_IS_CLOSED);
    dia_peer_close(&fresh);
}

int main(void) {
    EXPECT(dia_dict_open_base(&dict) == DIA_OK && dia_dict_share(&dict, &second) == DIA_OK);
    EXPECT(dia_render(NULL, 0, &text, &problem) == DIA_OK);
    EXPECT(dia_stream_open(&dict, DIA_KEPT, 0, &stream) == DIA_OK && begins(DIA_INITIATOR, 0, 1, &peer) == DIA_OK);
    EXPECT(dia_faults_open(wrong, 1, &faults, &count) == DIA_OK && dia_faults_open(wrong, 1, &faults, &count) == DIA_IS_OPEN);
    numbers_come_first();
    handles_come_before_input();
    numbers_come_before_one_handle();
    the_dictionary_has_verdicts();
    peers_have_the_same_order();
    dia_faults_close(&faults);
    dia_peer_close(&peer);
    dia_stream_close(&stream);
    dia_text_close(&text);
    dia_dict_close(&second);
    dia_dict_close(&dict);
    return tell_counts();
}
