/* Each allocation of a call refused in turn, by a heap of its own in the place of heap.c: the call answers DIA_NO_MEMORY and
 * has changed and lost nothing, or it does without and answers as ever. Calls that take no memory take none. */
#include "tests.h"
#include <stdlib.h>

typedef struct {
    uint64_t ok;
    void *memory;
} taken;

static long blocks, until, asked;
static char nowhere;

/* The one that is counted down to is refused; where `until` is 0, none is. */
static int is_refused(void) {
    asked++;
    return until > 0 && --until == 0;
}

taken rattle_alloc(size_t size, size_t align);
taken rattle_realloc(void *memory, size_t kept, size_t size, size_t align);
void rattle_dealloc(void *memory);

taken rattle_alloc(size_t size, size_t align) {
    if (is_refused()) {
        return (taken){0, &nowhere};
    }
    blocks++;
    return (taken){1, malloc(size != 0 ? size : align)};
}

taken rattle_realloc(void *memory, size_t kept, size_t size, size_t align) {
    (void)kept;
    if (is_refused()) {
        return (taken){0, &nowhere};
    }
    return (taken){1, realloc(memory, size != 0 ? size : align)};
}

void rattle_dealloc(void *memory) {
    blocks--;
    free(memory);
}

static dia_dict dict, other, own;
static dia_text text, line;
static dia_faults faults;
static dia_peer peer;
static dia_stream stream;
static dia_problem problem;
static dia_verdict verdict;
static const char source[] = "%avp A 1 OctetString any\n%avp B 2 Grouped any\nB ::= < AVP Header: 2 > { A }\n"
                             "C ::= < Diameter Header: 1000, REQ > { A } *[ B ]\n";

static const char table[] = "avp Origin-Host = Origin-Host\n";

/* A Device-Watchdog-Request without AVPs. */
static const uint8_t unanswered[] = {1, 0, 0, 20, 0x80, 0, 1, 0x18, 0, 0, 0, 0, 0, 0, 0, 1, 0, 0, 0, 2};

/* A name that is declared twice, and a rule that names nothing. */
static const char wrong[] = "%avp A 1 Time any\n%avp A 2 Time any\nB ::= < AVP Header: 2 > { X }\n";

static dia_status opens(void) {
    return open_text(source, &dict, &problem);
}

static dia_status opens_base(void) {
    return dia_dict_open_base(&dict);
}

static dia_status shares(void) {
    return dia_dict_share(&dict, &other);
}

static dia_status checks(void) {
    return dia_check(&dict, DIA_KEPT, DIA_ANY_LEVELS, watchdog, sizeof watchdog, &verdict);
}

static dia_status renders(void) {
    return dia_render((const uint8_t *)source, strlen(source), &text, &problem);
}

static dia_status compares(void) {
    uint32_t holds;
    return dia_compare(&dict, &other, DIA_KEPT, (const uint8_t *)table, strlen(table), &line, &holds, &problem);
}

/* What breaks between the base dictionary and one with a command of its own. */
static dia_status lists(void) {
    const uint8_t *names = (const uint8_t *)"C\n", *accepted = (const uint8_t *)"D: not-allowed A: 1 sent\n";
    uint32_t safe;
    return dia_breaking(&own, &other, DIA_SENDS_ANY, DIA_KEPT, DIA_WITH_MESSAGES | DIA_ONCE, names, 2, accepted, 25, &line, &safe,
                        &problem);
}

/* A name that no command has. */
static dia_status finds_no_command(void) {
    const uint8_t *names = (const uint8_t *)"C\nD\n";
    uint32_t safe = 9;
    dia_status status = dia_breaking(&own, &other, DIA_SENDS_ANY, DIA_KEPT, 0, names, 4, names, 0, &line, &safe, &problem);
    if (status == DIA_REFUSED) {
        EXPECT(problem.kind == DIA_NO_COMMAND && problem.line == 2 && safe == 9);
        return DIA_OK;
    }
    return status;
}

static dia_status tells(void) {
    return dia_check_json(&dict, DIA_KEPT, DIA_ANY_LEVELS, watchdog, sizeof watchdog, &line);
}

static dia_status shows(void) {
    uint32_t whole;
    return dia_show(&dict, watchdog, sizeof watchdog, &line, &whole, &verdict);
}

static dia_status replies(void) {
    uint32_t form;
    const uint8_t *name = (const uint8_t *)"a.b";
    return dia_answer(&dict, DIA_KEPT, DIA_ANY_LEVELS, name, 3, name, 3, unanswered, sizeof unanswered, &line, &form, &verdict);
}

static dia_status says(void) {
    uint8_t said[DIA_MAX_LINE];
    size_t count;
    static const dia_verdict truncated = {DIA_TRUNCATED, 0, 0, 0, 0, 0, 0, 0, {0}};
    return dia_verdict_text(&dict, &truncated, said, sizeof said, &count);
}

static dia_status delivers(void) {
    dia_avp avps[3];
    size_t count, bad;
    return dia_avps(&dict, grouped, sizeof grouped, avps, 3, &count, &bad, &verdict);
}

static dia_status checks_many(void) {
    static const size_t ends[] = {sizeof watchdog};
    return dia_check_many(&dict, DIA_KEPT, DIA_ANY_LEVELS, watchdog, sizeof watchdog, ends, 1, &verdict, 1);
}

/* A stream is spent once memory was refused, and a finish lets it go. */
static dia_status streams(void) {
    dia_fed fed = {9, 9};
    size_t levels = 9;
    dia_status status = dia_stream_open(&dict, DIA_KEPT, DIA_ANY_LEVELS, &stream);
    if (status != DIA_OK) {
        return status;
    }
    status = dia_stream_feed(&stream, grouped, sizeof grouped, &fed);
    if (status == DIA_OK) {
        EXPECT(fed.taken == sizeof grouped && fed.done == 1);
        return dia_stream_finish(&stream, &verdict);
    }
    EXPECT(fed.taken == 9 && dia_stream_feed(&stream, grouped, sizeof grouped, &fed) == DIA_SPENT && fed.taken == 9);
    EXPECT(dia_stream_levels(&stream, &levels) == DIA_OK && levels == 0);
    EXPECT(dia_stream_finish(&stream, &verdict) == DIA_SPENT && stream.dia_state == 0);
    return status;
}

/* A stream that was refused memory begins again, and is as good as a new one. */
static dia_status begins_again(void) {
    dia_fed fed;
    dia_status status = dia_stream_open(&dict, DIA_KEPT, DIA_ANY_LEVELS, &stream), again;
    if (status != DIA_OK) {
        return status;
    }
    status = dia_stream_feed(&stream, grouped, sizeof grouped, &fed);
    again = dia_stream_again(&stream, &verdict);
    EXPECT(again == (status == DIA_OK ? DIA_OK : DIA_SPENT));
    if (status != DIA_OK) {
        EXPECT(dia_stream_feed(&stream, watchdog, sizeof watchdog, &fed) == DIA_OK && fed.done == 1);
        EXPECT(dia_stream_again(&stream, &verdict) == DIA_OK && verdict.outcome == DIA_VALID);
        verdict = (dia_verdict){9, 9, 9, 9, 9, 9, 9, 9, {9, 9, 9, 9}};
    }
    dia_stream_close(&stream);
    return status;
}

static dia_status explains(void) {
    return dia_explain((const uint8_t *)source, strlen(source), DIA_KEPT, DIA_ANY_LEVELS, watchdog, sizeof watchdog, &line);
}

static dia_status finds_faults(void) {
    size_t count;
    return dia_faults_open((const uint8_t *)wrong, strlen(wrong), &faults, &count);
}

static dia_status opens_peer(void) {
    const dia_ip address = {0, {127, 0, 0, 1}};
    const dia_app app = {0, 4, 0, 0};
    const dia_numbers numbers = {0, 0, 0, 1, 1};
    const uint8_t *name = (const uint8_t *)"a.b";
    uint32_t fault;
    return dia_peer_open(DIA_INITIATOR, name, 3, name, 3, name, 3, &address, 1, &app, 1, &numbers, &peer, &fault);
}

static dia_status opens_peer_with(void) {
    const dia_ip address = {0, {127, 0, 0, 1}};
    const dia_app app = {0, 4, 0, 0};
    const uint8_t *name = (const uint8_t *)"a.b";
    const dia_peer_options options = {
        .size = sizeof options, .role = DIA_INITIATOR, .host = name, .host_len = 3, .realm = name, .realm_len = 3,
        .addresses = &address, .address_count = 1, .apps = &app, .app_count = 1, .numbers = {0, 0, 0, 1, 1}};
    uint32_t fault;
    return dia_peer_open_with(&options, &peer, &fault);
}

/* A CER is to be sent. */
static dia_status starts(void) {
    return dia_peer_event(&peer, DIA_START, watchdog, 0, 0);
}

static void close_dict(void) {
    dia_dict_close(&dict);
}

static void close_line(void) {
    dia_text_close(&line);
}

static void close_faults(void) {
    dia_faults_close(&faults);
}

static void close_peer(void) {
    dia_peer_close(&peer);
}

static void close_nothing(void) {
}

/* Refuses the first, the second and so on, until all is given; at least `least` calls answered DIA_NO_MEMORY. */
static void refuse_each(const char *name, dia_status (*call)(void), void (*undo)(void), long least) {
    static const dia_verdict untouched = {9, 9, 9, 9, 9, 9, 9, 9, {9, 9, 9, 9}};
    long refused = 0, without = 0, had = blocks;
    dia_dict dict_before = dict, other_before = other;
    dia_text text_before = text, line_before = line;
    dia_faults faults_before = faults;
    dia_peer peer_before = peer;
    for (;;) {
        until = refused + without + 1;
        verdict = untouched;
        dia_status status = call();
        if (until > 0) {
            EXPECT(status == DIA_OK);
            break;
        }
        if (status == DIA_OK) {
            without++;
            undo();
            EXPECT(blocks == had);
            continue;
        }
        refused++;
        EXPECT(status == DIA_NO_MEMORY);
        EXPECT(blocks == had);
        EXPECT(dict.dia_state == dict_before.dia_state && other.dia_state == other_before.dia_state);
        EXPECT(text.dia_state == text_before.dia_state && faults.dia_state == faults_before.dia_state);
        EXPECT(line.dia_state == line_before.dia_state && peer.dia_state == peer_before.dia_state);
        EXPECT(memcmp(&verdict, &untouched, sizeof verdict) == 0);
    }
    until = 0;
    printf("%s: %ld refused, %ld done without\n", name, refused, without);
    EXPECT(refused >= least);
}

static void take_no_memory(void) {
    uint8_t name[DIA_MAX_NAME];
    size_t count;
    size_t column;
    uint32_t length, state, output, why;
    const uint8_t *bytes = NULL;
    dia_head head;
    dia_fault fault;
    dia_command command;
    dia_entry entry;
    dia_avp avps[2];
    dia_verdict told;
    long before = asked;
    EXPECT(dia_abi_version() == DIA_ABI_VERSION);
    EXPECT(dia_avp_name(&dict, 264, 0, name, sizeof name, &count) == DIA_OK);
    EXPECT(dia_reason_word(DIA_R_DEPTH, name, sizeof name, &count) == DIA_OK);
    EXPECT(dia_kind_word(DIA_LIMIT, name, sizeof name, &count) == DIA_OK);
    EXPECT(dia_status_word(DIA_SPENT, name, sizeof name, &count) == DIA_OK);
    EXPECT(dia_command_name(&dict, verdict.command, name, sizeof name, &count) == DIA_OK);
    EXPECT(dia_message_length(watchdog, 20, &length, &verdict) == DIA_OK);
    EXPECT(dia_header(watchdog, 20, &head, &verdict) == DIA_OK && head.code == 280);
    EXPECT(dia_dict_commands(&dict, &count) == DIA_OK && dia_dict_command(&dict, count - 1, &command) == DIA_OK);
    EXPECT(dia_dict_avps(&dict, &count) == DIA_OK && dia_dict_avp(&dict, count - 1, &entry) == DIA_OK);
    EXPECT(dia_avps_at(&dict, grouped, sizeof grouped, 28, avps, 2, &count, &told) == DIA_OK && count == 2);
    EXPECT(dia_avp_find(&dict, grouped, sizeof grouped, 260, 0, avps, &told) == DIA_OK && avps[0].place == 20);
    EXPECT(dia_text_length(&text, &count) == DIA_OK);
    EXPECT(dia_text_view(&text, &bytes, &count) == DIA_OK && bytes != NULL);
    EXPECT(dia_text_read(&text, 0, name, sizeof name, &count) == DIA_OK);
    EXPECT(dia_stream_levels(&stream, &count) == DIA_OK && count == 0);
    EXPECT(dia_stream_again(&stream, &told) == DIA_OK && told.outcome == DIA_TRUNCATED);
    EXPECT(dia_stream_finish(&stream, &told) == DIA_OK && told.outcome == DIA_TRUNCATED);
    dia_stream_close(&stream);
    dia_dict_close(&dict);
    dia_dict_close(&other);
    dia_text_close(&text);
    dia_text_close(&line);
    EXPECT(dia_faults_get(&faults, 1, &fault) == DIA_OK && fault.kind == DIA_UNDEFINED_NAME);
    dia_line_column((const uint8_t *)wrong, sizeof wrong - 1, fault.at, &count, &column);
    EXPECT(count == 3 && column == 27);
    dia_faults_close(&faults);
    EXPECT(dia_peer_state(&peer, &state) == DIA_OK && state == DIA_STATE_WAIT_CEA);
    EXPECT(dia_peer_output(&peer, &output, name, sizeof name, &count, &why) == DIA_OK && output == DIA_SEND);
    EXPECT(dia_peer_output(&peer, &output, name, sizeof name, &count, &why) == DIA_NONE);
    dia_peer_close(&peer);
    EXPECT(asked == before);
}

int main(void) {
    refuse_each("open", opens, close_dict, 10);
    dia_dict_close(&dict);
    EXPECT(blocks == 0);
    refuse_each("open_base", opens_base, close_dict, 100);
    refuse_each("share", shares, close_nothing, 1);
    refuse_each("check", checks, close_nothing, 1);
    refuse_each("check_many", checks_many, close_nothing, 1);
    refuse_each("verdict_text", says, close_nothing, 1);
    refuse_each("avps", delivers, close_nothing, 1);
    refuse_each("compare", compares, close_line, 3);
    dia_text_close(&line);
    refuse_each("show", shows, close_line, 2);
    dia_text_close(&line);
    refuse_each("check_json", tells, close_line, 2);
    dia_text_close(&line);
    refuse_each("answer", replies, close_line, 10);
    dia_text_close(&line);
    EXPECT(open_text(source, &own, &problem) == DIA_OK);
    refuse_each("breaking", lists, close_line, 20);
    dia_text_close(&line);
    refuse_each("breaking, of no command", finds_no_command, close_nothing, 3);
    dia_dict_close(&own);
    refuse_each("stream", streams, close_nothing, 3);
    refuse_each("stream, again", begins_again, close_nothing, 3);
    refuse_each("explain", explains, close_line, 10);
    dia_text_close(&line);
    refuse_each("render", renders, close_nothing, 2);
    refuse_each("faults_open", finds_faults, close_faults, 4);
    refuse_each("peer_open", opens_peer, close_peer, 100);
    close_peer();
    refuse_each("peer_open_with", opens_peer_with, close_peer, 100);
    refuse_each("peer_event", starts, close_nothing, 2);
    EXPECT(dia_stream_open(&dict, DIA_KEPT, DIA_ANY_LEVELS, &stream) == DIA_OK);
    take_no_memory();
    EXPECT(blocks == 0);
    return tell_counts();
}
