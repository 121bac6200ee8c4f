/* Connections. The messages are worked out by hand from RFC 6733 sections 3, 4 and 5.3 to 5.5. */
#include "tests.h"

/* The initiator `a.b`: Origin-Host, Origin-Realm. */
#define OH "\x00\x00\x01\x08\x40\x00\x00\x0b" "a.b\x00"
#define OR "\x00\x00\x01\x28\x40\x00\x00\x09" "b\x00\x00\x00"
/* Host-IP-Address, Vendor-Id, Product-Name. */
#define IP "\x00\x00\x01\x01\x40\x00\x00\x0e\x00\x01\x7f\x00\x00\x01\x00\x00"
#define VENDOR "\x00\x00\x01\x0a\x40\x00\x00\x0c\x00\x00\x00\x00"
#define PRODUCT "\x00\x00\x01\x0d\x00\x00\x00\x09" "p\x00\x00\x00"
/* Auth-Application-Id 1 and 4, Acct-Application-Id 3. */
#define AUTH1 "\x00\x00\x01\x02\x40\x00\x00\x0c\x00\x00\x00\x01"
#define AUTH4 "\x00\x00\x01\x02\x40\x00\x00\x0c\x00\x00\x00\x04"
#define ACCT3 "\x00\x00\x01\x03\x40\x00\x00\x0c\x00\x00\x00\x03"
#define RELAY "\x00\x00\x01\x02\x40\x00\x00\x0c\xff\xff\xff\xff"
/* The responder `c.d`. */
#define OH2 "\x00\x00\x01\x08\x40\x00\x00\x0b" "c.d\x00"
#define OR2 "\x00\x00\x01\x28\x40\x00\x00\x09" "d\x00\x00\x00"
#define IP2 "\x00\x00\x01\x01\x40\x00\x00\x0e\x00\x01\x7f\x00\x00\x02\x00\x00"
#define PRODUCT2 "\x00\x00\x01\x0d\x00\x00\x00\x09" "q\x00\x00\x00"
/* Result-Code 2001, Disconnect-Cause 1. */
#define SUCCESS "\x00\x00\x01\x0c\x40\x00\x00\x0c\x00\x00\x07\xd1"
#define BUSY "\x00\x00\x01\x11\x40\x00\x00\x0c\x00\x00\x00\x01"
/* What follows the command code in a header: the application 0, and identifiers. */
#define IDS(hop, end) "\x00\x00\x00\x00" "\x00\x00\x00" hop "\x00\x00\x00" end

static const char cer[] = "\x01\x00\x00\x6c\x80\x00\x01\x01" IDS("\x01", "\x01") OH OR IP VENDOR PRODUCT AUTH1 AUTH4;
static const char cea[] = "\x01\x00\x00\x78\x00\x00\x01\x01" IDS("\x01", "\x01") SUCCESS OH2 OR2 IP2 VENDOR PRODUCT2 AUTH4 ACCT3;
static const char relay_cea[] = "\x01\x00\x00\x6c\x00\x00\x01\x01" IDS("\x01", "\x01") SUCCESS OH2 OR2 IP2 VENDOR PRODUCT2 RELAY;
static const char one_cea[] = "\x01\x00\x00\x6c\x00\x00\x01\x01" IDS("\x01", "\x01") SUCCESS OH2 OR2 IP2 VENDOR PRODUCT2 AUTH4;
static const char dwr[] = "\x01\x00\x00\x2c\x80\x00\x01\x18" IDS("\x01", "\x02") OH OR;
static const char dwa[] = "\x01\x00\x00\x38\x00\x00\x01\x18" IDS("\x01", "\x02") SUCCESS OH2 OR2;
static const char own_dwr[] = "\x01\x00\x00\x2c\x80\x00\x01\x18" IDS("\x01", "\x01") OH2 OR2;
static const char dpr[] = "\x01\x00\x00\x38\x80\x00\x01\x1a" IDS("\x02", "\x02") OH OR BUSY;
static const char dpa[] = "\x01\x00\x00\x38\x00\x00\x01\x1a" IDS("\x02", "\x02") SUCCESS OH2 OR2;

#define LENGTH(text) (sizeof(text) - 1)

static uint8_t out[256];

/* Opens an end with this host, the realm `d`, and Auth 4. */
static dia_status open_host(dia_peer *peer, uint32_t role, const char *host, size_t len, uint32_t *fault) {
    const dia_ip address = {0, {127, 0, 0, 2}};
    const dia_app app = {0, 4, 0, 0};
    const dia_numbers numbers = {0, 0, 0, 1, 1};
    return dia_peer_open(role, (const uint8_t *)host, len, (const uint8_t *)"d", 1, (const uint8_t *)"q", 1, &address, 1, &app, 1,
                         &numbers, peer, fault);
}

static dia_status tell(dia_peer *peer, const char *message, size_t len) {
    return dia_peer_event(peer, DIA_BYTES, (const uint8_t *)message, len, 99);
}

/* Whether the next output is this message. */
static int sends(dia_peer *peer, const char *message, size_t len) {
    uint32_t output = 99, why = 99;
    size_t count = 99;
    return dia_peer_output(peer, &output, out, sizeof out, &count, &why) == DIA_OK && output == DIA_SEND && why == 0
        && count == len && memcmp(out, message, len) == 0;
}

static int closes(dia_peer *peer, uint32_t reason) {
    uint32_t output = 99, why = 99;
    size_t count = 99;
    return dia_peer_output(peer, &output, out, sizeof out, &count, &why) == DIA_OK && output == DIA_CLOSE && why == reason
        && count == 0;
}

/* Whether nothing is left to be done, and the connection stands here. */
static int rests(dia_peer *peer, uint32_t wanted) {
    uint32_t output = 99, why = 99, state = 99;
    size_t count = 99;
    return dia_peer_output(peer, &output, out, sizeof out, &count, &why) == DIA_NONE && output == 99 && why == 99 && count == 99
        && dia_peer_state(peer, &state) == DIA_OK && state == wanted;
}

static dia_status open_initiator(dia_peer *peer) {
    const dia_ip address = {0, {127, 0, 0, 1, 9}};
    const dia_app apps[] = {{0, 1, 0, 0}, {0, 4, 0, 0}};
    const dia_numbers numbers = {0, 0, 99, 1, 1};
    uint32_t fault;
    return dia_peer_open(DIA_INITIATOR, (const uint8_t *)"a.b", 3, (const uint8_t *)"b", 1, (const uint8_t *)"p", 1, &address, 1,
                         apps, 2, &numbers, peer, &fault);
}

static dia_status open_responder(dia_peer *peer) {
    const dia_ip address = {0, {127, 0, 0, 2}};
    const dia_app apps[] = {{0, 4, 0, 0}, {1, 3, 0, 0}};
    const dia_numbers numbers = {0, 0, 0, 1, 1};
    uint32_t fault;
    return dia_peer_open(DIA_RESPONDER, (const uint8_t *)"c.d", 3, (const uint8_t *)"d", 1, (const uint8_t *)"q", 1, &address, 1,
                         apps, 2, &numbers, peer, &fault);
}

/* Whether both ends have Auth 4 in common, and nothing else. */
static int has_auth4(dia_peer *peer) {
    dia_app app = {99, 99, 99, 99};
    return dia_peer_common(peer, 0, &app) == DIA_OK && app.is_acct == 0 && app.id == 4 && app.has_vendor == 0 && app.vendor == 0
        && dia_peer_common(peer, 1, &app) == DIA_NONE && dia_peer_common(peer, SIZE_MAX, &app) == DIA_NONE;
}

static void two_ends_open_watch_and_close(void) {
    dia_peer a = DIA_PEER_INIT, b = DIA_PEER_INIT;
    dia_app app;
    EXPECT(open_initiator(&a) == DIA_OK && rests(&a, DIA_STATE_IDLE));
    EXPECT(open_responder(&b) == DIA_OK && rests(&b, DIA_STATE_IDLE));
    EXPECT(dia_peer_event(&b, DIA_START, out, 0, 0) == DIA_OK && rests(&b, DIA_STATE_WAIT_CER));
    EXPECT(dia_peer_event(&a, DIA_START, out, 0, 0) == DIA_OK);
    EXPECT(sends(&a, cer, LENGTH(cer)) && rests(&a, DIA_STATE_WAIT_CEA));
    EXPECT(tell(&b, cer, LENGTH(cer)) == DIA_OK && sends(&b, cea, LENGTH(cea)) && rests(&b, DIA_STATE_OPEN));
    EXPECT(tell(&b, cer, LENGTH(cer)) == DIA_OK && sends(&b, cea, LENGTH(cea)) && rests(&b, DIA_STATE_OPEN));
    EXPECT(dia_peer_common(&a, 0, &app) == DIA_NONE && has_auth4(&b));
    EXPECT(tell(&a, cea, LENGTH(cea)) == DIA_OK && rests(&a, DIA_STATE_OPEN) && has_auth4(&a));
    EXPECT(tell(&b, dwr, LENGTH(dwr)) == DIA_OK && sends(&b, dwa, LENGTH(dwa)) && rests(&b, DIA_STATE_OPEN));
    EXPECT(dia_peer_event(&a, DIA_STOP, out, 0, DIA_CAUSE_BUSY) == DIA_OK);
    EXPECT(sends(&a, dpr, LENGTH(dpr)) && rests(&a, DIA_STATE_WAIT_DPA));
    EXPECT(tell(&b, dpr, LENGTH(dpr)) == DIA_OK && sends(&b, dpa, LENGTH(dpa)));
    EXPECT(closes(&b, DIA_WHY_PEER_STOPPED) && rests(&b, DIA_STATE_CLOSED));
    EXPECT(tell(&a, dpa, LENGTH(dpa)) == DIA_OK && closes(&a, DIA_WHY_STOPPED) && rests(&a, DIA_STATE_CLOSED));
    EXPECT(tell(&a, dpa, LENGTH(dpa)) == DIA_OK && rests(&a, DIA_STATE_CLOSED) && has_auth4(&a));
    dia_peer_close(&a);
    dia_peer_close(&b);
}

/* An end that relays takes what the other names, and one that doesn't refuses the number of relays. */
static void a_relay_has_what_the_other_names(void) {
    const dia_ip address = {0, {127, 0, 0, 2}};
    const dia_app relay = {0, 4294967295, 0, 0};
    const dia_numbers numbers = {0, 0, 0, 1, 1};
    const uint8_t *host = (const uint8_t *)"c.d", *realm = (const uint8_t *)"d", *product = (const uint8_t *)"q";
    dia_peer b = DIA_PEER_INIT;
    dia_app app = {99, 99, 99, 99};
    uint32_t fault = 0, serves = 99;
    EXPECT(dia_peer_serves(&b, 0, &serves) == DIA_IS_CLOSED && serves == 99);
    EXPECT(dia_peer_open(DIA_RESPONDER, host, 3, realm, 1, product, 1, &address, 1, &relay, 1, &numbers, &b, &fault) == DIA_REFUSED
           && fault == DIA_BAD_APPLICATION);
    EXPECT(dia_peer_open_as(DIA_RESPONDER, 16, host, 3, realm, 1, product, 1, &address, 1, &relay, 1, &numbers, &b, &fault)
           == DIA_BAD_ARGUMENT);
    EXPECT(dia_peer_open_as(DIA_RESPONDER, DIA_MANNER_RELAYS, host, 3, realm, 1, product, 1, &address, 1, &relay, 1, &numbers, &b,
                            &fault)
           == DIA_OK);
    EXPECT(dia_peer_event(&b, DIA_START, out, 0, 0) == DIA_OK && tell(&b, cer, LENGTH(cer)) == DIA_OK);
    EXPECT(sends(&b, relay_cea, LENGTH(relay_cea)) && rests(&b, DIA_STATE_OPEN));
    EXPECT(dia_peer_common(&b, 1, &app) == DIA_OK && app.is_acct == 0 && app.id == 4);
    EXPECT(dia_peer_serves(&b, 4, &serves) == DIA_OK && serves == 1);
    EXPECT(dia_peer_serves(&b, 5, &serves) == DIA_OK && serves == 0);
    dia_peer_close(&b);
}

static void a_watchdog_without_an_answer_closes(void) {
    dia_peer b = DIA_PEER_INIT;
    EXPECT(open_responder(&b) == DIA_OK && dia_peer_event(&b, DIA_START, out, 0, 0) == DIA_OK);
    EXPECT(tell(&b, cer, LENGTH(cer)) == DIA_OK && sends(&b, cea, LENGTH(cea)));
    EXPECT(dia_peer_event(&b, DIA_TICK, out, 0, 0) == DIA_OK && sends(&b, own_dwr, LENGTH(own_dwr)));
    EXPECT(dia_peer_event(&b, DIA_TICK, out, 0, 0) == DIA_OK);
    EXPECT(closes(&b, DIA_WHY_WATCHDOG) && rests(&b, DIA_STATE_CLOSED));
    dia_peer_close(&b);
    EXPECT(open_responder(&b) == DIA_OK && dia_peer_event(&b, DIA_START, out, 0, 0) == DIA_OK);
    EXPECT(tell(&b, "x", 1) == DIA_OK && closes(&b, DIA_WHY_INVALID) && rests(&b, DIA_STATE_CLOSED));
    dia_peer_close(&b);
    EXPECT(open_responder(&b) == DIA_OK && dia_peer_event(&b, DIA_START, out, 0, 0) == DIA_OK);
    EXPECT(dia_peer_event(&b, DIA_LOST, out, 0, 0) == DIA_OK && rests(&b, DIA_STATE_CLOSED));
    dia_peer_close(&b);
}

/* Whether the other end said this value. */
static int says(dia_peer *peer, uint32_t which, const char *value, size_t len) {
    size_t count = 99;
    return dia_peer_value(peer, which, out, sizeof out, &count) == DIA_OK && count == len && memcmp(out, value, len) == 0;
}

/* The options of a responder, with Auth 4. */
static dia_peer_options responder(void) {
    static const dia_ip address = {0, {127, 0, 0, 2}};
    static const dia_app app = {0, 4, 0, 0};
    return (dia_peer_options){
        .size = sizeof(dia_peer_options), .role = DIA_RESPONDER, .host = (const uint8_t *)"c.d", .host_len = 3,
        .realm = (const uint8_t *)"d", .realm_len = 1, .product = (const uint8_t *)"q", .product_len = 1, .addresses = &address,
        .address_count = 1, .apps = &app, .app_count = 1, .numbers = {.hop = 1, .e2e = 1}};
}

/* Opens a responder of modes. */
static dia_status open_modes(dia_peer *peer, uint32_t manner) {
    dia_peer_options options = responder();
    uint32_t fault;
    options.manner = manner;
    return dia_peer_open_with(&options, peer, &fault);
}

/* Whether options are refused, for the value of an argument, and nothing is written. */
static int are_refused(const dia_peer_options *options) {
    dia_peer p = DIA_PEER_INIT;
    uint32_t fault = 99;
    return dia_peer_open_with(options, &p, &fault) == DIA_BAD_ARGUMENT && fault == 99 && p.dia_private == NULL && p.dia_state == 0;
}

/* A struct of another size, or with a field that this library doesn't know, opens nothing. */
static void options_of_later_versions_are_refused(void) {
    static const size_t sizes[] = {0, 1, sizeof(size_t), offsetof(dia_peer_options, reserved), sizeof(dia_peer_options) - 1,
                                   sizeof(dia_peer_options) + 1, sizeof(dia_peer_options) + 8, SIZE_MAX};
    dia_peer p = DIA_PEER_INIT;
    dia_peer_options options;
    uint32_t fault = 99;
    for (size_t i = 0; i < sizeof sizes / sizeof *sizes; i++) {
        options = responder();
        options.size = sizes[i];
        EXPECT(are_refused(&options));
    }
    for (size_t i = 0; i < sizeof options.reserved / sizeof *options.reserved; i++) {
        for (int bit = 0; bit < 64; bit++) {
            options = responder();
            options.reserved[i] = UINT64_C(1) << bit;
            EXPECT(are_refused(&options));
        }
    }
    options = responder();
    options.role = 2;
    EXPECT(are_refused(&options));
    options = responder();
    options.manner = 16;
    EXPECT(are_refused(&options));
    options = responder();
    options.app_count = 0;
    EXPECT(dia_peer_open_with(&options, &p, &fault) == DIA_REFUSED && fault == DIA_BAD_APPLICATION && p.dia_private == NULL);
    options = responder();
    EXPECT(dia_peer_open_with(&options, &p, &fault) == DIA_OK && rests(&p, DIA_STATE_IDLE));
    EXPECT(dia_peer_open_with(&options, &p, &fault) == DIA_IS_OPEN && rests(&p, DIA_STATE_IDLE));
    dia_peer_close(&p);
}

/* With DIA_MANNER_ANSWERS a request that is no valid message is answered before the close, and without it not. */
static void an_invalid_request_is_answered(void) {
    /* a DWR without Origin-Host, and its answer: Result-Code 5005, Error-Message, and the least AVP in Failed-AVP */
    static const char spoiled[] = "\x01\x00\x00\x20\x80\x00\x01\x18" IDS("\x01", "\x02") OR;
    static const char answer[] = "\x01\x00\x00\x78\x00\x00\x01\x18" IDS("\x01", "\x02")
        "\x00\x00\x01\x0c\x40\x00\x00\x0c\x00\x00\x13\x8d" OH2 OR2
        "\x00\x00\x01\x19\x00\x00\x00\x2c" "fault 5005 at 32 missing Origin-Host"
        "\x00\x00\x01\x17\x40\x00\x00\x14" "\x00\x00\x01\x08\x40\x00\x00\x09" "a\x00\x00\x00";
    for (uint32_t manner = 0; manner <= DIA_MANNER_ANSWERS; manner += DIA_MANNER_ANSWERS) {
        dia_peer b = DIA_PEER_INIT;
        EXPECT(open_modes(&b, manner) == DIA_OK && dia_peer_event(&b, DIA_START, out, 0, 0) == DIA_OK);
        EXPECT(tell(&b, cer, LENGTH(cer)) == DIA_OK && sends(&b, one_cea, LENGTH(one_cea)));
        EXPECT(tell(&b, spoiled, LENGTH(spoiled)) == DIA_OK);
        EXPECT(manner == 0 || sends(&b, answer, LENGTH(answer)));
        EXPECT(closes(&b, DIA_WHY_INVALID) && rests(&b, DIA_STATE_CLOSED));
        dia_peer_close(&b);
    }
}

/* With DIA_MANNER_LIFE a watchdog without an answer first makes the connection suspect. */
static void a_silent_connection_is_suspect(void) {
    dia_peer b = DIA_PEER_INIT;
    uint32_t suspect = 99;
    EXPECT(dia_peer_heard(&b) == DIA_IS_CLOSED && dia_peer_suspect(&b, &suspect) == DIA_IS_CLOSED && suspect == 99);
    EXPECT(open_modes(&b, 16) == DIA_BAD_ARGUMENT && open_modes(&b, DIA_MANNER_LIFE) == DIA_OK);
    EXPECT(dia_peer_event(&b, DIA_START, out, 0, 0) == DIA_OK && tell(&b, cer, LENGTH(cer)) == DIA_OK);
    EXPECT(sends(&b, one_cea, LENGTH(one_cea)));
    EXPECT(dia_peer_event(&b, DIA_TICK, out, 0, 0) == DIA_OK && sends(&b, own_dwr, LENGTH(own_dwr)));
    EXPECT(dia_peer_suspect(&b, &suspect) == DIA_OK && suspect == 0);
    EXPECT(dia_peer_event(&b, DIA_TICK, out, 0, 0) == DIA_OK && rests(&b, DIA_STATE_OPEN));
    EXPECT(dia_peer_suspect(&b, &suspect) == DIA_OK && suspect == 1);
    EXPECT(dia_peer_heard(&b) == DIA_OK && dia_peer_suspect(&b, &suspect) == DIA_OK && suspect == 0);
    EXPECT(dia_peer_event(&b, DIA_TICK, out, 0, 0) == DIA_OK && rests(&b, DIA_STATE_OPEN));
    EXPECT(dia_peer_event(&b, DIA_TICK, out, 0, 0) == DIA_OK);
    EXPECT(closes(&b, DIA_WHY_WATCHDOG) && rests(&b, DIA_STATE_CLOSED));
    dia_peer_close(&b);
}

/* With DIA_MANNER_VALUES an end keeps what the other says of itself. */
static void values_of_the_other_are_kept(void) {
    dia_peer b = DIA_PEER_INIT;
    size_t count = 99;
    EXPECT(dia_peer_value(&b, DIA_VALUE_HOST, out, sizeof out, &count) == DIA_IS_CLOSED && count == 99);
    EXPECT(open_modes(&b, DIA_MANNER_VALUES | DIA_MANNER_LIFE) == DIA_OK);
    EXPECT(dia_peer_event(&b, DIA_START, out, 0, 0) == DIA_OK);
    EXPECT(dia_peer_value(&b, DIA_VALUE_HOST, out, sizeof out, &count) == DIA_NONE && count == 99);
    EXPECT(dia_peer_value(&b, 5, out, sizeof out, &count) == DIA_BAD_ARGUMENT && count == 99);
    EXPECT(tell(&b, cer, LENGTH(cer)) == DIA_OK && sends(&b, one_cea, LENGTH(one_cea)));
    EXPECT(says(&b, DIA_VALUE_HOST, "a.b", 3) && says(&b, DIA_VALUE_REALM, "b", 1) && says(&b, DIA_VALUE_PRODUCT, "p", 1));
    EXPECT(dia_peer_value(&b, DIA_VALUE_HOST, out, 2, &count) == DIA_NO_ROOM && count == 3);
    EXPECT(dia_peer_value(&b, DIA_VALUE_RESULT, out, sizeof out, &count) == DIA_NONE);
    EXPECT(dia_peer_value(&b, DIA_VALUE_CAUSE, out, sizeof out, &count) == DIA_NONE);
    EXPECT(tell(&b, dpr, LENGTH(dpr)) == DIA_OK && says(&b, DIA_VALUE_CAUSE, "\x00\x00\x00\x01", 4));
    dia_peer_close(&b);
}

/* Identifiers that the caller takes are never those of the end, and the timer goes by the states around an event. */
static void timers_and_identifiers(void) {
    dia_peer a = DIA_PEER_INIT;
    uint32_t hop = 99, e2e = 99, timer = 99;
    EXPECT(dia_peer_identifiers(&a, &hop, &e2e) == DIA_IS_CLOSED && hop == 99 && e2e == 99);
    EXPECT(open_initiator(&a) == DIA_OK && dia_peer_event(&a, DIA_START, out, 0, 0) == DIA_OK && sends(&a, cer, LENGTH(cer)));
    EXPECT(dia_peer_identifiers(&a, &hop, &e2e) == DIA_OK && hop == 2 && e2e == 2 && rests(&a, DIA_STATE_WAIT_CEA));
    EXPECT(dia_peer_identifiers(&a, &hop, &e2e) == DIA_OK && hop == 3 && e2e == 3);
    dia_peer_close(&a);
    EXPECT(dia_peer_timer(DIA_STATE_IDLE, DIA_START, DIA_STATE_WAIT_CER, &timer) == DIA_OK && timer == DIA_TIMER_REPLY);
    EXPECT(dia_peer_timer(DIA_STATE_WAIT_CER, DIA_BYTES, DIA_STATE_OPEN, &timer) == DIA_OK && timer == DIA_TIMER_QUIET);
    EXPECT(dia_peer_timer(DIA_STATE_OPEN, DIA_START, DIA_STATE_OPEN, &timer) == DIA_OK && timer == DIA_TIMER_KEEP);
    EXPECT(dia_peer_timer(DIA_STATE_OPEN, DIA_LOST, DIA_STATE_CLOSED, &timer) == DIA_OK && timer == DIA_TIMER_OFF);
    EXPECT(dia_peer_timer(6, DIA_LOST, DIA_STATE_CLOSED, &timer) == DIA_BAD_ARGUMENT && timer == DIA_TIMER_OFF);
    EXPECT(dia_peer_timer(DIA_STATE_OPEN, 5, DIA_STATE_CLOSED, &timer) == DIA_BAD_ARGUMENT);
    EXPECT(dia_peer_timer(DIA_STATE_OPEN, DIA_LOST, 6, &timer) == DIA_BAD_ARGUMENT);
    EXPECT(dia_peer_quiet_ms(30000, 0) == 28000 && dia_peer_quiet_ms(30000, 4000) == 32000 && dia_peer_quiet_ms(0, 4001) == 4000);
}

/* Outputs are taken one by one, and none is lost. What is no part of one isn't written. */
static void outputs_are_taken_in_order(void) {
    dia_peer a = DIA_PEER_INIT;
    dia_app app = {99, 99, 99, 99};
    uint32_t output = 99, why = 99;
    size_t count = 99;
    EXPECT(dia_peer_common(&a, 0, &app) == DIA_IS_CLOSED && app.id == 99);
    EXPECT(dia_peer_event(&a, DIA_START, out, 0, 0) == DIA_IS_CLOSED);
    EXPECT(dia_peer_output(&a, &output, out, sizeof out, &count, &why) == DIA_IS_CLOSED && count == 99);
    EXPECT(dia_peer_state(&a, &output) == DIA_IS_CLOSED && output == 99);
    dia_peer_close(&a);
    EXPECT(open_initiator(&a) == DIA_OK && open_initiator(&a) == DIA_IS_OPEN);
    EXPECT(dia_peer_event(&a, 5, out, 0, 0) == DIA_BAD_ARGUMENT && dia_peer_event(&a, DIA_STOP, out, 0, 3) == DIA_BAD_ARGUMENT);
    EXPECT(dia_peer_event(&a, DIA_START, out, 0, 0) == DIA_OK);
    EXPECT(dia_peer_event(&a, DIA_TICK, out, 0, 0) == DIA_OUTPUTS_LEFT);
    memset(out, FILLING, sizeof out);
    EXPECT(dia_peer_output(&a, &output, out, LENGTH(cer) - 1, &count, &why) == DIA_NO_ROOM);
    EXPECT(count == LENGTH(cer) && output == 99 && why == 99 && is_left(out, sizeof out));
    EXPECT(sends(&a, cer, LENGTH(cer)) && is_left(out + LENGTH(cer), sizeof out - LENGTH(cer)));
    memset(out, FILLING, sizeof out);
    EXPECT(dia_peer_output(&a, &output, out, sizeof out, &count, &why) == DIA_NONE && is_left(out, sizeof out));
    EXPECT(rests(&a, DIA_STATE_WAIT_CEA));
    EXPECT(dia_peer_event(&a, DIA_TICK, out, 0, 0) == DIA_OK && closes(&a, DIA_WHY_TIMEOUT) && rests(&a, DIA_STATE_CLOSED));
    dia_peer_close(&a);
    dia_peer_close(&a);
}

static void configurations_are_refused(void) {
    static char long_name[256];
    const dia_ip address = {7, {0}};
    const dia_app app = {1, 3, 1, 10415}, relay = {0, UINT32_MAX, 0, 0}, twice[] = {{0, 4, 0, 0}, {0, 4, 1, 10415}};
    const dia_numbers numbers = {10415, 1, 7, 1, 1};
    const uint8_t *name = (const uint8_t *)"x";
    dia_peer p = DIA_PEER_INIT;
    uint32_t fault = 99;
    memset(long_name, 'x', sizeof long_name);
    EXPECT(open_host(&p, 2, "x", 1, &fault) == DIA_BAD_ARGUMENT && fault == 99);
    EXPECT(open_host(&p, DIA_RESPONDER, "", 0, &fault) == DIA_REFUSED && fault == DIA_BAD_HOST);
    EXPECT(open_host(&p, DIA_RESPONDER, "a b", 3, &fault) == DIA_REFUSED && fault == DIA_BAD_HOST);
    EXPECT(open_host(&p, DIA_RESPONDER, "\xff", 1, &fault) == DIA_REFUSED && fault == DIA_BAD_HOST);
    EXPECT(open_host(&p, DIA_RESPONDER, long_name, 256, &fault) == DIA_REFUSED && fault == DIA_BAD_HOST);
    EXPECT(open_host(&p, DIA_RESPONDER, long_name, 255, &fault) == DIA_OK);
    dia_peer_close(&p);
#define OPEN(realm, realm_len, product, product_len, ips, ip_count, apps, app_count)                                         \
    dia_peer_open(DIA_RESPONDER, name, 1, (const uint8_t *)(realm), realm_len, (const uint8_t *)(product), product_len, ips, \
                  ip_count, apps, app_count, &numbers, &p, &fault)
    EXPECT(OPEN("", 0, "q", 1, &address, 1, &app, 1) == DIA_REFUSED && fault == DIA_BAD_REALM);
    EXPECT(OPEN("\xff", 1, "q", 1, &address, 1, &app, 1) == DIA_REFUSED && fault == DIA_BAD_REALM);
    EXPECT(OPEN("d", 1, "\xff", 1, &address, 1, &app, 1) == DIA_REFUSED && fault == DIA_BAD_PRODUCT);
    EXPECT(OPEN("d", 1, long_name, 256, &address, 1, &app, 1) == DIA_REFUSED && fault == DIA_BAD_PRODUCT);
    EXPECT(OPEN("d", 1, "q", 1, &address, 0, &app, 1) == DIA_REFUSED && fault == DIA_BAD_ADDRESS);
    EXPECT(OPEN("d", 1, "q", 1, &address, 1, &app, 0) == DIA_REFUSED && fault == DIA_BAD_APPLICATION);
    EXPECT(OPEN("d", 1, "q", 1, &address, 1, &relay, 1) == DIA_REFUSED && fault == DIA_BAD_APPLICATION);
    EXPECT(OPEN("d", 1, "q", 1, &address, 1, twice, 2) == DIA_REFUSED && fault == DIA_BAD_APPLICATION);
    EXPECT(p.dia_private == NULL && p.dia_state == 0);
    EXPECT(OPEN("d", 1, "", 0, &address, 1, &app, 1) == DIA_OK && rests(&p, DIA_STATE_IDLE));
    dia_peer_close(&p);
}

/* An IPv6 address, an application of a vendor, and Origin-State-Id (RFC 6733 sections 5.3.5, 6.11 and 8.16). */
static void a_configuration_is_told(void) {
    static const char wanted[] = "\x01\x00\x00\x8c\x80\x00\x01\x01" IDS("\x01", "\x02") OH OR
        "\x00\x00\x01\x01\x40\x00\x00\x1a\x00\x02\x20\x01\x0d\xb8\x00\x00\x00\x00\x00\x00\x00\x00\x00\x00\x00\x01\x00\x00"
        "\x00\x00\x01\x0a\x40\x00\x00\x0c\x00\x00\x28\xaf" PRODUCT "\x00\x00\x01\x16\x40\x00\x00\x0c\x00\x00\x00\x07"
        "\x00\x00\x01\x04\x40\x00\x00\x20\x00\x00\x01\x0a\x40\x00\x00\x0c\x00\x00\x28\xaf" ACCT3;
    const dia_ip address = {1, {0x20, 0x01, 0x0d, 0xb8, 0, 0, 0, 0, 0, 0, 0, 0, 0, 0, 0, 1}};
    const dia_app app = {1, 3, 1, 10415};
    const dia_numbers numbers = {10415, 1, 7, 1, 2};
    const dia_peer_options options = {
        .size = sizeof options, .role = DIA_INITIATOR, .host = (const uint8_t *)"a.b", .host_len = 3, .realm = (const uint8_t *)"b",
        .realm_len = 1, .product = (const uint8_t *)"p", .product_len = 1, .addresses = &address, .address_count = 1, .apps = &app,
        .app_count = 1, .numbers = numbers};
    dia_peer p = DIA_PEER_INIT;
    uint32_t fault;
    EXPECT(dia_peer_open(DIA_INITIATOR, (const uint8_t *)"a.b", 3, (const uint8_t *)"b", 1, (const uint8_t *)"p", 1, &address, 1,
                         &app, 1, &numbers, &p, &fault) == DIA_OK);
    EXPECT(dia_peer_event(&p, DIA_START, out, 0, 0) == DIA_OK && sends(&p, wanted, LENGTH(wanted)));
    dia_peer_close(&p);
    EXPECT(dia_peer_open_with(&options, &p, &fault) == DIA_OK);
    EXPECT(dia_peer_event(&p, DIA_START, out, 0, 0) == DIA_OK && sends(&p, wanted, LENGTH(wanted)));
    dia_peer_close(&p);
}

int main(void) {
    two_ends_open_watch_and_close();
    a_relay_has_what_the_other_names();
    a_watchdog_without_an_answer_closes();
    an_invalid_request_is_answered();
    a_silent_connection_is_suspect();
    values_of_the_other_are_kept();
    timers_and_identifiers();
    outputs_are_taken_in_order();
    configurations_are_refused();
    options_of_later_versions_are_refused();
    a_configuration_is_told();
    return tell_counts();
}
