/* Words, the AVPs of a message, checks of many messages, and NULL where a length is 0. The words are those of docs/FAULTS.md,
 * the rest is worked out by hand from RFC 6733. */
#include "tests.h"

static const dia_verdict untouched = {99, 99, 99, 99, 99, 99, 99, 99, {99, 99, 99, 99}};

/* ---- words ---- */

static void has_word(dia_status (*call)(uint32_t, uint8_t *, size_t, size_t *), uint32_t number, const char *wanted) {
    uint8_t word[DIA_MAX_WORD + 1];
    size_t count = 99, len = strlen(wanted);
    memset(word, FILLING, sizeof word);
    EXPECT(len <= DIA_MAX_WORD && call(number, word, len, &count) == DIA_OK && count == len && memcmp(word, wanted, len) == 0);
    EXPECT(is_left(word + len, sizeof word - len));
    memset(word, FILLING, sizeof word);
    count = 99;
    EXPECT(call(number, word, len - 1, &count) == DIA_NO_ROOM && count == len && is_left(word, sizeof word));
}

static void has_no_word(dia_status (*call)(uint32_t, uint8_t *, size_t, size_t *), uint32_t number) {
    uint8_t word[DIA_MAX_WORD];
    size_t count = 99;
    memset(word, FILLING, sizeof word);
    EXPECT(call(number, word, sizeof word, &count) == DIA_NONE && count == 99 && is_left(word, sizeof word));
}

static void numbers_have_words(void) {
    static const char *const reasons[] = {"version", "length", "bits", "command", "application", "proxiable", "avp-length", "unknown",
                                          "m-bit", "missing", "not-allowed", "too-many", "leaf-length", "leaf-value", "depth"};
    static const char *const statuses[] = {"ok", "refused", "none", "no memory", "no room", "is open", "is closed", "bad argument",
                                           "outputs left", "spent"};
    static const char *const first_kinds[] = {"not text", "syntax", "number", "limit"};
    static const char *const kinds[] = {"limit", "duplicate-name", "no-group-format", "header-mismatch", "duplicate-key",
                                        "duplicate-command", "undefined-name", "repeated-slot", "min-over-max", "required-min",
                                        "optional-min"};
    for (uint32_t i = 0; i < sizeof reasons / sizeof *reasons; i++) {
        has_word(dia_reason_word, i, reasons[i]);
    }
    has_no_word(dia_reason_word, 15);
    has_no_word(dia_reason_word, UINT32_MAX);
    for (uint32_t i = 0; i < sizeof statuses / sizeof *statuses; i++) {
        has_word(dia_status_word, i, statuses[i]);
    }
    has_no_word(dia_status_word, 10);
    for (uint32_t i = 0; i < sizeof first_kinds / sizeof *first_kinds; i++) {
        has_word(dia_kind_word, i, first_kinds[i]);
    }
    for (uint32_t i = 0; i < sizeof kinds / sizeof *kinds; i++) {
        has_word(dia_kind_word, 10 + i, kinds[i]);
    }
    has_word(dia_kind_word, DIA_NO_COMMANDS, "no commands");
    has_word(dia_kind_word, DIA_NO_COMMAND, "no command");
    has_no_word(dia_kind_word, 4);
    has_no_word(dia_kind_word, 21);
    has_no_word(dia_kind_word, 32);
}

/* ---- lines of verdicts ---- */

static void has_line(dia_dict *dict, const dia_verdict *verdict, const char *wanted) {
    uint8_t line[DIA_MAX_LINE];
    size_t count = 99, len = strlen(wanted);
    memset(line, FILLING, sizeof line);
    EXPECT(dia_verdict_text(dict, verdict, line, sizeof line, &count) == DIA_OK && count == len && memcmp(line, wanted, len) == 0);
    EXPECT(is_left(line + len, sizeof line - len));
    memset(line, FILLING, sizeof line);
    count = 99;
    EXPECT(dia_verdict_text(dict, verdict, line, len - 1, &count) == DIA_NO_ROOM && count == len && is_left(line, sizeof line));
}

static void has_no_line(dia_dict *dict, const dia_verdict *verdict) {
    uint8_t line[DIA_MAX_LINE];
    size_t count = 99;
    memset(line, FILLING, sizeof line);
    EXPECT(dia_verdict_text(dict, verdict, line, sizeof line, &count) == DIA_BAD_ARGUMENT && count == 99 && is_left(line, sizeof line));
}

static void verdicts_have_lines(void) {
    static const dia_verdict truncated = {DIA_TRUNCATED, 0, 0, 0, 0, 0, 0, 0, {0}}, trailing = {DIA_TRAILING, 0, 0, 0, 0, 0, 0, 0, {0}};
    static const dia_verdict about_nothing = {DIA_FAULT, 0, 5011, 0, DIA_R_VERSION, DIA_ABOUT_NOTHING, 0, 0, {0}};
    static const dia_verdict known = {DIA_FAULT, 0, 5009, 80, DIA_R_TOO_MANY, DIA_ABOUT_AVP, 264, 0, {0}};
    static const dia_verdict unknown = {DIA_FAULT, 0, 5001, 4294967295u, DIA_R_UNKNOWN, DIA_ABOUT_AVP, 9999, 10415, {0}};
    static const dia_verdict wildcard = {DIA_FAULT, 0, 5005, 20, DIA_R_MISSING, DIA_ABOUT_WILDCARD, 0, 0, {0}};
    static const dia_verdict no_reason = {DIA_FAULT, 0, 5005, 20, 15, DIA_ABOUT_WILDCARD, 0, 0, {0}};
    static const dia_verdict no_subject = {DIA_FAULT, 0, 5005, 20, DIA_R_MISSING, 3, 0, 0, {0}};
    static const dia_verdict no_command = {DIA_VALID, 4294967295u, 0, 0, 0, 0, 0, 0, {0}}, a_group = {DIA_VALID, 0, 0, 0, 0, 0, 0, 0, {0}};
    dia_dict dict = DIA_DICT_INIT;
    dia_verdict verdict = untouched;
    uint8_t line[DIA_MAX_LINE];
    size_t count = 99;
    EXPECT(dia_verdict_text(&dict, &truncated, line, sizeof line, &count) == DIA_IS_CLOSED && count == 99);
    EXPECT(dia_dict_open_base(&dict) == DIA_OK);
    has_line(&dict, &truncated, "truncated");
    has_line(&dict, &trailing, "trailing");
    has_line(&dict, &about_nothing, "fault 5011 at 0 version -");
    has_line(&dict, &known, "fault 5009 at 80 too-many Origin-Host");
    has_line(&dict, &unknown, "fault 5001 at 4294967295 unknown 9999:10415");
    has_line(&dict, &wildcard, "fault 5005 at 20 missing AVP");
    EXPECT(dia_check(&dict, DIA_KEPT, DIA_ANY_LEVELS, watchdog, sizeof watchdog, &verdict) == DIA_OK);
    has_line(&dict, &verdict, "valid DWR");
    has_no_line(&dict, &untouched);
    has_no_line(&dict, &no_reason);
    has_no_line(&dict, &no_subject);
    has_no_line(&dict, &no_command);
    has_no_line(&dict, &a_group);
    verdict.place = 1; /* a valid message has none */
    has_no_line(&dict, &verdict);
    verdict.place = 0;
    verdict.reserved[3] = 1; /* no field has this place */
    has_no_line(&dict, &verdict);
    dia_dict_close(&dict);
}

/* ---- AVPs ---- */

/* An AVP of the base dictionary without a Vendor-ID, with the M flag alone. */
static int is_avp(const dia_avp *avp, size_t place, size_t depth, size_t length, uint32_t code, uint32_t format,
                  const char *name) {
    static const uint8_t zeros[DIA_MAX_NAME];
    size_t len = strlen(name);
    return avp->place == place && avp->depth == depth && avp->length == length && avp->data_place == place + 8
        && avp->data_length == length - 8 && avp->code == code && avp->vendor == 0 && avp->flags == 0x40 && avp->format == format
        && avp->name_count == len && memcmp(avp->name, name, len) == 0 && memcmp(avp->name + len, zeros, sizeof zeros - len) == 0
        && memcmp(avp->reserved, zeros, sizeof avp->reserved) == 0;
}

static int are_left(const dia_avp *avps, size_t count) {
    return is_left((const uint8_t *)avps, count * sizeof *avps);
}

static void avps_are_delivered(void) {
    /* an AVP of a vendor, without the M flag and with three bytes of data, and its padding */
    static const uint8_t vendors[36] = {1, 0, 0, 36, 0x80, 0, 1, 0x18, 0, 0, 0, 4, 0, 0, 0, 7, 0, 0, 0, 9,
                                        0, 0, 0x27, 0x0f, 0x80, 0, 0, 15, 0, 0, 0x28, 0xaf, 'a', 'b', 'c', 0};
    dia_dict dict = DIA_DICT_INIT;
    dia_avp avps[4];
    dia_verdict verdict = untouched;
    size_t count = 99, bad = 99;
    memset(avps, FILLING, sizeof avps);
    EXPECT(dia_avps(&dict, grouped, sizeof grouped, avps, 4, &count, &bad, &verdict) == DIA_IS_CLOSED);
    EXPECT(dia_dict_open_base(&dict) == DIA_OK);
    EXPECT(dia_avps(&dict, grouped, sizeof grouped - 1, avps, 4, &count, &bad, &verdict) == DIA_REFUSED);
    EXPECT(verdict.outcome == DIA_TRUNCATED && count == 99 && bad == 99);
    verdict = untouched;
    EXPECT(dia_avps(&dict, grouped, sizeof grouped, avps, 0, &count, &bad, &verdict) == DIA_NO_ROOM && count == 3 && bad == 52);
    EXPECT(are_left(avps, 4));
    count = bad = 99;
    EXPECT(dia_avps(&dict, grouped, sizeof grouped, avps, 2, &count, &bad, &verdict) == DIA_NO_ROOM && count == 3 && bad == 52);
    EXPECT(is_avp(&avps[0], 20, 0, 32, 260, DIA_F_GROUPED, "Vendor-Specific-Application-Id"));
    EXPECT(is_avp(&avps[1], 28, 1, 12, 266, DIA_F_UNSIGNED32, "Vendor-Id") && are_left(avps + 2, 2));
    count = bad = 99;
    EXPECT(dia_avps(&dict, grouped, sizeof grouped, avps, 3, &count, &bad, &verdict) == DIA_OK && count == 3 && bad == 52);
    EXPECT(is_avp(&avps[2], 40, 1, 12, 258, DIA_F_UNSIGNED32, "Auth-Application-Id") && are_left(avps + 3, 1));
    EXPECT(dia_avps(&dict, vendors, sizeof vendors, avps, 4, &count, &bad, &verdict) == DIA_OK && count == 1 && bad == 36);
    EXPECT(avps[0].place == 20 && avps[0].length == 15 && avps[0].data_place == 32 && avps[0].data_length == 3);
    EXPECT(avps[0].code == 9999 && avps[0].vendor == 10415 && avps[0].flags == 0x80 && avps[0].depth == 0);
    EXPECT(avps[0].format == DIA_F_UNKNOWN && avps[0].name_count == 0 && avps[0].name[0] == 0);
    EXPECT(dia_avps(&dict, watchdog, 20, avps, 4, &count, &bad, &verdict) == DIA_REFUSED && verdict.outcome == DIA_TRUNCATED);
    dia_dict_close(&dict);
}

/* An AVP that follows a group is delivered after the members of the group, also where a bad AVP Length ends these. */
static void avps_follow_groups(void) {
    uint8_t bytes[sizeof grouped + 24];
    dia_dict dict = DIA_DICT_INIT;
    dia_avp avps[4];
    dia_verdict verdict = untouched;
    size_t count = 99, bad = 99;
    memcpy(bytes, grouped, sizeof grouped);
    memcpy(bytes + sizeof grouped, watchdog + 20, 24); /* Origin-Host */
    bytes[3] = sizeof bytes;
    EXPECT(dia_dict_open_base(&dict) == DIA_OK);
    EXPECT(dia_avps(&dict, bytes, sizeof bytes, avps, 4, &count, &bad, &verdict) == DIA_OK && count == 4 && bad == 76);
    EXPECT(is_avp(&avps[2], 40, 1, 12, 258, DIA_F_UNSIGNED32, "Auth-Application-Id"));
    EXPECT(is_avp(&avps[3], 52, 0, 24, 264, DIA_F_DIAMETER_IDENTITY, "Origin-Host"));
    bytes[47] = 7; /* the second member: an AVP has at least 8 bytes */
    EXPECT(dia_avps(&dict, bytes, sizeof bytes, avps, 4, &count, &bad, &verdict) == DIA_OK && count == 3 && bad == 40);
    EXPECT(is_avp(&avps[1], 28, 1, 12, 266, DIA_F_UNSIGNED32, "Vendor-Id"));
    EXPECT(is_avp(&avps[2], 52, 0, 24, 264, DIA_F_DIAMETER_IDENTITY, "Origin-Host"));
    bytes[47] = 16; /* and it ends with its group */
    EXPECT(dia_avps(&dict, bytes, sizeof bytes, avps, 4, &count, &bad, &verdict) == DIA_OK && count == 3 && bad == 40);
    EXPECT(is_avp(&avps[2], 52, 0, 24, 264, DIA_F_DIAMETER_IDENTITY, "Origin-Host"));
    bytes[59] = 25; /* Origin-Host would end after the message: the first of two bad lengths is reported */
    EXPECT(dia_avps(&dict, bytes, sizeof bytes, avps, 4, &count, &bad, &verdict) == DIA_OK && count == 2 && bad == 40);
    bytes[47] = 12;
    EXPECT(dia_avps(&dict, bytes, sizeof bytes, avps, 4, &count, &bad, &verdict) == DIA_OK && count == 3 && bad == 52);
    bytes[59] = 24;
    bytes[27] = 31; /* the group's data has 23 bytes, of which its second member would take 24 */
    EXPECT(dia_avps(&dict, bytes, sizeof bytes, avps, 4, &count, &bad, &verdict) == DIA_OK && count == 3 && bad == 40);
    EXPECT(is_avp(&avps[2], 52, 0, 24, 264, DIA_F_DIAMETER_IDENTITY, "Origin-Host"));
    bytes[27] = 7; /* the group itself: nothing of the body is read after it */
    EXPECT(dia_avps(&dict, bytes, sizeof bytes, avps, 4, &count, &bad, &verdict) == DIA_OK && count == 0 && bad == 20);
    EXPECT(memcmp(&verdict, &untouched, sizeof verdict) == 0);
    dia_dict_close(&dict);
}

/* Each AVP of the list is one of those that hold its first byte, whichever AVP Length is wrong elsewhere. */
static void both_lists_agree(void) {
    uint8_t bytes[sizeof grouped + 24];
    dia_dict dict = DIA_DICT_INIT;
    dia_avp avps[4], around[4];
    dia_verdict verdict = untouched;
    size_t count = 99, bad = 99, deep = 99;
    memcpy(bytes, grouped, sizeof grouped);
    memcpy(bytes + sizeof grouped, watchdog + 20, 24); /* Origin-Host */
    bytes[3] = sizeof bytes;
    EXPECT(dia_dict_open_base(&dict) == DIA_OK);
    for (size_t at = 0; at < 3; at++) {
        static const size_t lengths[3] = {27, 39, 47}; /* the last bytes of AVP Lengths: those of the group and of its members */
        for (int length = 0; length < 64; length++) {
            uint8_t was = bytes[lengths[at]];
            bytes[lengths[at]] = (uint8_t)length;
            EXPECT(dia_avps(&dict, bytes, sizeof bytes, avps, 4, &count, &bad, &verdict) == DIA_OK && count <= 4);
            for (size_t i = 0; i < count; i++) {
                EXPECT(dia_avps_at(&dict, bytes, sizeof bytes, avps[i].place, around, 4, &deep, &verdict) == DIA_OK);
                EXPECT(deep > avps[i].depth && memcmp(&around[avps[i].depth], &avps[i], sizeof *avps) == 0);
            }
            bytes[lengths[at]] = was;
        }
    }
    dia_dict_close(&dict);
}

static void first_avps_are_found(void) {
    uint8_t bytes[sizeof grouped + 24 + 24 + 20];
    dia_dict dict = DIA_DICT_INIT;
    dia_avp found, all[6];
    dia_verdict verdict = untouched;
    size_t count = 99, bad = 99;
    memcpy(bytes, grouped, sizeof grouped);
    memcpy(bytes + 52, watchdog + 20, 24); /* Origin-Host, twice */
    memcpy(bytes + 76, watchdog + 20, 24);
    /* Auth-Application-Id, with the Vendor-ID 0, and then its first 4 bytes again */
    memcpy(bytes + 100, (const uint8_t[20]){0, 0, 1, 2, 0x80, 0, 0, 16, 0, 0, 0, 0, 1, 0, 0, 0x23, 0, 0, 1, 2}, 20);
    bytes[3] = sizeof bytes;
    memset(&found, FILLING, sizeof found);
    EXPECT(dia_avp_find(&dict, bytes, sizeof bytes, 264, 0, &found, &verdict) == DIA_IS_CLOSED);
    EXPECT(dia_dict_open_base(&dict) == DIA_OK);
    EXPECT(dia_avp_find(&dict, bytes, sizeof bytes - 1, 264, 0, &found, &verdict) == DIA_REFUSED);
    EXPECT(verdict.outcome == DIA_TRUNCATED);
    verdict = untouched;
    /* Vendor-Id is in the group alone; no AVP has 9999; Origin-Host has no vendor; Origin-Realm is not there */
    EXPECT(dia_avp_find(&dict, bytes, sizeof bytes, 266, 0, &found, &verdict) == DIA_NONE);
    EXPECT(dia_avp_find(&dict, bytes, sizeof bytes, 9999, 0, &found, &verdict) == DIA_NONE);
    EXPECT(dia_avp_find(&dict, bytes, sizeof bytes, 264, 10415, &found, &verdict) == DIA_NONE);
    EXPECT(dia_avp_find(&dict, bytes, sizeof bytes, 296, 0, &found, &verdict) == DIA_NONE);
    EXPECT(is_left((const uint8_t *)&found, sizeof found));
    EXPECT(dia_avps(&dict, bytes, sizeof bytes, all, 6, &count, &bad, &verdict) == DIA_OK && count == 6 && bad == 116);
    EXPECT(dia_avp_find(&dict, bytes, sizeof bytes, 260, 0, &found, &verdict) == DIA_OK && memcmp(&found, &all[0], sizeof found) == 0);
    EXPECT(dia_avp_find(&dict, bytes, sizeof bytes, 264, 0, &found, &verdict) == DIA_OK && memcmp(&found, &all[3], sizeof found) == 0);
    EXPECT(found.place == 52);
    /* the one in the group comes first, and is passed over */
    EXPECT(dia_avp_find(&dict, bytes, sizeof bytes, 258, 0, &found, &verdict) == DIA_OK && memcmp(&found, &all[5], sizeof found) == 0);
    EXPECT(found.place == 100 && found.data_place == 112 && found.vendor == 0 && found.format == DIA_F_UNSIGNED32);
    bytes[47] = 7; /* what is wrong in the group hides nothing after it */
    EXPECT(dia_avp_find(&dict, bytes, sizeof bytes, 264, 0, &found, &verdict) == DIA_OK && found.place == 52);
    bytes[59] = 7; /* but in the body it ends what is read */
    EXPECT(dia_avp_find(&dict, bytes, sizeof bytes, 264, 0, &found, &verdict) == DIA_NONE);
    EXPECT(dia_avp_find(&dict, bytes, sizeof bytes, 258, 0, &found, &verdict) == DIA_NONE);
    EXPECT(dia_avp_find(&dict, bytes, sizeof bytes, 260, 0, &found, &verdict) == DIA_OK && found.place == 20);
    EXPECT(dia_avp_find(&dict, NULL, 0, 264, 0, &found, &verdict) == DIA_REFUSED && verdict.outcome == DIA_TRUNCATED);
    dia_dict_close(&dict);
}

/* Without an entry for the group its members are data. */
static void unknown_groups_are_data(void) {
    dia_dict dict = DIA_DICT_INIT;
    dia_problem problem;
    dia_avp avp;
    dia_verdict verdict = untouched;
    size_t count = 99, bad = 99;
    EXPECT(open_text(one_avp, &dict, &problem) == DIA_OK);
    EXPECT(dia_avps(&dict, grouped, sizeof grouped, &avp, 1, &count, &bad, &verdict) == DIA_OK && count == 1 && bad == 52);
    EXPECT(avp.code == 260 && avp.data_place == 28 && avp.data_length == 24 && avp.format == DIA_F_UNKNOWN);
    dia_dict_close(&dict);
}

/* ---- many messages ---- */

static void many_are_checked(void) {
    uint8_t bytes[sizeof watchdog + sizeof grouped + 1];
    size_t ends[4] = {sizeof watchdog, sizeof watchdog + sizeof grouped, sizeof watchdog + sizeof grouped, sizeof bytes};
    dia_verdict verdicts[5], one, zeros[5];
    dia_dict dict = DIA_DICT_INIT;
    size_t from = 0;
    memcpy(bytes, watchdog, sizeof watchdog);
    memcpy(bytes + sizeof watchdog, grouped, sizeof grouped);
    bytes[sizeof bytes - 1] = 1;
    memset(verdicts, FILLING, sizeof verdicts);
    memcpy(zeros, verdicts, sizeof zeros);
    EXPECT(dia_check_many(&dict, DIA_KEPT, 0, bytes, sizeof bytes, ends, 4, verdicts, 4) == DIA_IS_CLOSED);
    EXPECT(dia_dict_open_base(&dict) == DIA_OK);
    EXPECT(dia_check_many(&dict, 2, 0, bytes, sizeof bytes, ends, 4, verdicts, 4) == DIA_BAD_ARGUMENT);
    EXPECT(dia_check_many(&dict, DIA_KEPT, 0, bytes, sizeof bytes, ends, 4, verdicts, 5) == DIA_BAD_ARGUMENT);
    EXPECT(dia_check_many(&dict, DIA_KEPT, 0, bytes, sizeof bytes, ends, 4, verdicts, 3) == DIA_BAD_ARGUMENT);
    EXPECT(dia_check_many(&dict, DIA_KEPT, 0, bytes, sizeof bytes - 1, ends, 4, verdicts, 4) == DIA_BAD_ARGUMENT);
    ends[1]--;
    ends[2] -= 2;
    EXPECT(dia_check_many(&dict, DIA_KEPT, 0, bytes, sizeof bytes, ends, 4, verdicts, 4) == DIA_BAD_ARGUMENT);
    EXPECT(memcmp(verdicts, zeros, sizeof verdicts) == 0);
    ends[1]++;
    ends[2] += 2;
    EXPECT(dia_check_many(&dict, DIA_KEPT, 0, bytes, sizeof bytes, ends, 0, verdicts, 0) == DIA_OK);
    EXPECT(memcmp(verdicts, zeros, sizeof verdicts) == 0);
    EXPECT(dia_check_many(&dict, DIA_KEPT, DIA_ANY_LEVELS, bytes, sizeof bytes, ends, 4, verdicts, 4) == DIA_OK);
    for (size_t i = 0; i < 4; i++) {
        EXPECT(dia_check(&dict, DIA_KEPT, DIA_ANY_LEVELS, bytes + from, ends[i] - from, &one) == DIA_OK);
        EXPECT(memcmp(&one, &verdicts[i], sizeof one) == 0);
        from = ends[i];
    }
    EXPECT(verdicts[0].outcome == DIA_VALID && verdicts[1].outcome == DIA_FAULT && verdicts[1].code == 5005);
    EXPECT(verdicts[2].outcome == DIA_TRUNCATED && verdicts[3].outcome == DIA_TRUNCATED);
    EXPECT(memcmp(&verdicts[4], &zeros[4], sizeof *zeros) == 0);
    dia_dict_close(&dict);
}

/* ---- pointers whose length is 0 ---- */

static void nulls_are_no_bytes(void) {
    dia_dict dict = DIA_DICT_INIT, empty = DIA_DICT_INIT;
    dia_text text = DIA_TEXT_INIT;
    dia_faults faults = DIA_FAULTS_INIT;
    dia_problem problem;
    dia_verdict verdict = untouched;
    dia_head head;
    size_t count = 99, bad = 99;
    uint32_t number = 99;
    EXPECT(dia_dict_open_base(&dict) == DIA_OK && dia_dict_open(NULL, 0, &empty, &problem) == DIA_OK);
    EXPECT(dia_faults_open(NULL, 0, &faults, &count) == DIA_OK && count == 0);
    EXPECT(dia_avp_name(&dict, 264, 0, NULL, 0, &count) == DIA_NO_ROOM && count == 11);
    EXPECT(dia_status_word(DIA_SPENT, NULL, 0, &count) == DIA_NO_ROOM && count == 5);
    EXPECT(dia_check(&dict, DIA_KEPT, 0, NULL, 0, &verdict) == DIA_OK && verdict.outcome == DIA_TRUNCATED);
    EXPECT(dia_check_many(&dict, DIA_KEPT, 0, NULL, 0, NULL, 0, NULL, 0) == DIA_OK);
    EXPECT(dia_message_length(NULL, 0, &number, &verdict) == DIA_REFUSED && number == 99);
    EXPECT(dia_header(NULL, 0, &head, &verdict) == DIA_REFUSED && verdict.outcome == DIA_TRUNCATED);
    EXPECT(dia_avps(&dict, grouped, sizeof grouped, NULL, 0, &count, &bad, &verdict) == DIA_NO_ROOM && count == 3 && bad == 52);
    EXPECT(dia_avps(&dict, NULL, 0, NULL, 0, &count, &bad, &verdict) == DIA_REFUSED && verdict.outcome == DIA_TRUNCATED);
    EXPECT(dia_show(&dict, NULL, 0, &text, &number, &verdict) == DIA_REFUSED && verdict.outcome == DIA_TRUNCATED);
    EXPECT(dia_render(NULL, 0, &text, &problem) == DIA_OK && dia_text_read(&text, 0, NULL, 0, &count) == DIA_OK && count == 0);
    dia_text_close(&text);
    /* a table without pairs */
    EXPECT(dia_compare(&dict, &empty, DIA_KEPT, NULL, 0, &text, &number, &problem) == DIA_OK && number == 1);
    EXPECT(dia_table_place(NULL, 0, DIA_NOT_TEXT, 0) == 0);
    dia_text_close(&text);
    EXPECT(dia_breaking(&empty, &dict, DIA_SENDS_ANY, DIA_KEPT, 0, NULL, 0, NULL, 0, &text, &number, &problem) == DIA_REFUSED);
    EXPECT(problem.kind == DIA_NO_COMMANDS);
    dia_faults_close(&faults);
    dia_dict_close(&dict);
    dia_dict_close(&empty);
}

static void nulls_are_no_messages(void) {
    static const uint8_t name[1] = {'a'};
    static const dia_ip loopback = {0, {127, 0, 0, 1}};
    static const dia_app app = {0, 4, 0, 0};
    static const dia_numbers numbers = {0, 0, 0, 1, 1};
    static const dia_peer_options nothing = {.size = sizeof nothing, .role = DIA_INITIATOR};
    static const dia_peer_options unnamed = {
        .size = sizeof unnamed, .role = DIA_INITIATOR, .host = name, .host_len = 1, .realm = name, .realm_len = 1,
        .addresses = &loopback, .address_count = 1, .apps = &app, .app_count = 1};
    dia_dict dict = DIA_DICT_INIT;
    dia_text text = DIA_TEXT_INIT;
    dia_stream stream = DIA_STREAM_INIT;
    dia_peer peer = DIA_PEER_INIT;
    dia_verdict verdict = untouched;
    dia_fed fed;
    size_t count = 99;
    uint32_t number = 99, why;
    EXPECT(dia_dict_open_base(&dict) == DIA_OK);
    EXPECT(dia_answer(&dict, DIA_KEPT, 0, NULL, 0, name, 1, watchdog, 64, &text, &number, &verdict) == DIA_BAD_ARGUMENT);
    EXPECT(dia_answer(&dict, DIA_KEPT, 0, name, 1, name, 1, NULL, 0, &text, &number, &verdict) == DIA_NONE);
    EXPECT(dia_stream_open(&dict, DIA_KEPT, 0, &stream) == DIA_OK);
    EXPECT(dia_stream_feed(&stream, NULL, 0, &fed) == DIA_OK && fed.taken == 0 && fed.done == 0);
    EXPECT(dia_stream_finish(&stream, &verdict) == DIA_OK && verdict.outcome == DIA_TRUNCATED);
    EXPECT(dia_peer_open(DIA_INITIATOR, NULL, 0, NULL, 0, NULL, 0, NULL, 0, NULL, 0, &numbers, &peer, &number) == DIA_REFUSED);
    EXPECT(number == DIA_BAD_HOST);
    EXPECT(dia_peer_open(DIA_INITIATOR, name, 1, name, 1, NULL, 0, &loopback, 1, &app, 1, &numbers, &peer, &number) == DIA_OK);
    EXPECT(dia_peer_event(&peer, DIA_START, NULL, 0, 0) == DIA_OK);
    EXPECT(dia_peer_output(&peer, &number, NULL, 0, &count, &why) == DIA_NO_ROOM && count > 20);
    dia_peer_close(&peer);
    EXPECT(dia_peer_open_with(&nothing, &peer, &number) == DIA_REFUSED && number == DIA_BAD_HOST);
    EXPECT(dia_peer_open_with(&unnamed, &peer, &number) == DIA_OK);
    dia_peer_close(&peer);
    dia_dict_close(&dict);
}

int main(void) {
    numbers_have_words();
    verdicts_have_lines();
    avps_are_delivered();
    avps_follow_groups();
    both_lists_agree();
    first_avps_are_found();
    unknown_groups_are_data();
    many_are_checked();
    nulls_are_no_bytes();
    nulls_are_no_messages();
    return tell_counts();
}
