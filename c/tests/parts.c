/* The commands and the AVPs of a dictionary, the AVPs around a byte of a message, and the diagnostic of a message. What is expected
 * is worked out by hand from the texts and from RFC 6733. */
#include "tests.h"

static const dia_verdict untouched = {99, 99, 99, 99, 99, 99, 99, 99, {99, 99, 99, 99}};

/* Two declarations, a group without one, and commands of each class. */
static const char text[] = "%avp A 1 OctetString any\n%avp Vendors 2 vendor 10415 Enumerated mustnot\n"
                           "Bundle ::= < AVP Header: 3 10415 > *[ A ]\n"
                           "Ask ::= < Diameter Header: 316, REQ, PXY, 16777251 > *[ Bundle ]\n"
                           "Tell ::= < Diameter Header: 316, 16777251 > *[ A ]\n"
                           "Note ::= < Diameter Header: 317 > *[ A ]\n"
                           "Wrong ::= < Diameter Header: code, ERR [, PXY] > *[ A ]\n";

static int is_named(const uint8_t *name, size_t count, const char *wanted) {
    static const uint8_t zeros[DIA_MAX_NAME];
    size_t len = strlen(wanted);
    return count == len && memcmp(name, wanted, len) == 0 && memcmp(name + len, zeros, sizeof zeros - len) == 0;
}

static void commands_are_delivered(void) {
    static const struct {
        const char *name;
        uint32_t command, code, kind, proxy, has_app, app;
    } wanted[] = {{"Ask", 1, 316, DIA_CLASS_REQUEST, DIA_PROXY_SET, 1, 16777251},
                  {"Tell", 2, 316, DIA_CLASS_ANSWER, DIA_PROXY_CLEAR, 1, 16777251},
                  {"Note", 3, 317, DIA_CLASS_ANSWER, DIA_PROXY_CLEAR, 0, 0},
                  {"Wrong", 4, 0, DIA_CLASS_ERROR, DIA_PROXY_EITHER, 0, 0}};
    dia_dict dict = DIA_DICT_INIT;
    dia_problem problem;
    dia_command command;
    uint8_t name[DIA_MAX_NAME];
    size_t count = 99, len;
    memset(&command, FILLING, sizeof command);
    EXPECT(dia_dict_commands(&dict, &count) == DIA_IS_CLOSED && count == 99);
    EXPECT(dia_dict_command(&dict, 0, &command) == DIA_IS_CLOSED && is_left((const uint8_t *)&command, sizeof command));
    EXPECT(open_text(text, &dict, &problem) == DIA_OK);
    EXPECT(dia_dict_commands(&dict, &count) == DIA_OK && count == 4);
    EXPECT(dia_dict_command(&dict, 4, &command) == DIA_NONE && is_left((const uint8_t *)&command, sizeof command));
    EXPECT(dia_dict_command(&dict, SIZE_MAX, &command) == DIA_NONE);
    for (size_t i = 0; i < 4; i++) {
        EXPECT(dia_dict_command(&dict, i, &command) == DIA_OK && is_named(command.name, command.name_count, wanted[i].name));
        EXPECT(command.command == wanted[i].command && command.code == wanted[i].code && command.kind == wanted[i].kind);
        EXPECT(command.proxy == wanted[i].proxy && command.has_app == wanted[i].has_app && command.app == wanted[i].app);
        EXPECT(dia_command_name(&dict, command.command, name, sizeof name, &len) == DIA_OK && len == command.name_count);
        EXPECT(memcmp(name, command.name, len) == 0);
    }
    dia_dict_close(&dict);
}

static void entries_are_delivered(void) {
    static const struct {
        const char *name;
        uint32_t code, vendor, format, mandatory;
    } wanted[] = {{"A", 1, 0, DIA_F_OCTET_STRING, DIA_MANDATORY_ANY},
                  {"Vendors", 2, 10415, DIA_F_ENUMERATED, DIA_MANDATORY_MUST_NOT},
                  {"Bundle", 3, 10415, DIA_F_GROUPED, DIA_MANDATORY_ANY}};
    dia_dict dict = DIA_DICT_INIT;
    dia_problem problem;
    dia_entry avp;
    size_t count = 99;
    memset(&avp, FILLING, sizeof avp);
    EXPECT(dia_dict_avps(&dict, &count) == DIA_IS_CLOSED && count == 99);
    EXPECT(dia_dict_avp(&dict, 0, &avp) == DIA_IS_CLOSED && is_left((const uint8_t *)&avp, sizeof avp));
    EXPECT(open_text(text, &dict, &problem) == DIA_OK);
    EXPECT(dia_dict_avps(&dict, &count) == DIA_OK && count == 3);
    EXPECT(dia_dict_avp(&dict, 3, &avp) == DIA_NONE && is_left((const uint8_t *)&avp, sizeof avp));
    for (size_t i = 0; i < 3; i++) {
        EXPECT(dia_dict_avp(&dict, i, &avp) == DIA_OK && is_named(avp.name, avp.name_count, wanted[i].name));
        EXPECT(avp.code == wanted[i].code && avp.vendor == wanted[i].vendor && avp.format == wanted[i].format);
        EXPECT(avp.mandatory == wanted[i].mandatory);
    }
    dia_dict_close(&dict);
    /* User-Name is the first AVP of the base dictionary (code 1, RFC 6733 section 8.14); an empty dictionary has none */
    EXPECT(dia_dict_open_base(&dict) == DIA_OK && dia_dict_avp(&dict, 0, &avp) == DIA_OK);
    EXPECT(avp.code == 1 && avp.mandatory == DIA_MANDATORY_ANY && is_named(avp.name, avp.name_count, "User-Name"));
    dia_dict_close(&dict);
    EXPECT(dia_dict_open(NULL, 0, &dict, &problem) == DIA_OK && dia_dict_avps(&dict, &count) == DIA_OK && count == 0);
    EXPECT(dia_dict_commands(&dict, &count) == DIA_OK && count == 0);
    dia_dict_close(&dict);
}

/* ---- the AVPs around a byte ---- */

static int are_left(const dia_avp *avps, size_t count) {
    return is_left((const uint8_t *)avps, count * sizeof *avps);
}

/* The header ends at 20; the group is from 20 to 52, and its members begin at 28 and at 40. */
static void bytes_are_in_avps(void) {
    static const struct {
        size_t offset, count, last;
    } wanted[] = {{0, 0, 0},   {19, 0, 0},  {20, 1, 20}, {27, 1, 20},        {28, 2, 28},
                  {39, 2, 28}, {40, 2, 40}, {51, 2, 40}, {52, 0, 0}, {SIZE_MAX, 0, 0}};
    dia_dict dict = DIA_DICT_INIT;
    dia_avp avps[3], all[3];
    dia_verdict verdict = untouched;
    size_t count = 99, bad;
    memset(avps, FILLING, sizeof avps);
    EXPECT(dia_avps_at(&dict, grouped, sizeof grouped, 28, avps, 3, &count, &verdict) == DIA_IS_CLOSED && count == 99);
    EXPECT(dia_dict_open_base(&dict) == DIA_OK);
    EXPECT(dia_avps_at(&dict, grouped, sizeof grouped - 1, 28, avps, 3, &count, &verdict) == DIA_REFUSED && count == 99);
    EXPECT(verdict.outcome == DIA_TRUNCATED && are_left(avps, 3));
    verdict = untouched;
    EXPECT(dia_avps_at(&dict, grouped, sizeof grouped, 28, avps, 1, &count, &verdict) == DIA_NO_ROOM && count == 2);
    EXPECT(avps[0].place == 20 && are_left(avps + 1, 2));
    EXPECT(dia_avps_at(&dict, grouped, sizeof grouped, 28, NULL, 0, &count, &verdict) == DIA_NO_ROOM && count == 2);
    EXPECT(dia_avps(&dict, grouped, sizeof grouped, all, 3, &count, &bad, &verdict) == DIA_OK && count == 3);
    for (size_t i = 0; i < sizeof wanted / sizeof *wanted; i++) {
        memset(avps, FILLING, sizeof avps);
        count = 99;
        EXPECT(dia_avps_at(&dict, grouped, sizeof grouped, wanted[i].offset, avps, 3, &count, &verdict) == DIA_OK);
        EXPECT(count == wanted[i].count && are_left(avps + count, 3 - count));
        EXPECT(count == 0 || memcmp(&avps[0], &all[0], sizeof *all) == 0);
        EXPECT(count < 2 || memcmp(&avps[1], &all[wanted[i].last == 28 ? 1 : 2], sizeof *all) == 0);
        EXPECT(count == 0 || avps[count - 1].place == wanted[i].last);
    }
    EXPECT(memcmp(&verdict, &untouched, sizeof verdict) == 0);
    dia_dict_close(&dict);
}

/* A group whose second member is wrong, and after it Origin-Realm with padding: no AVP holds the padding, and what is wrong in the
 * group hides no AVP after it. */
static void wrong_bytes_are_in_none(void) {
    uint8_t bytes[sizeof grouped + 20];
    dia_dict dict = DIA_DICT_INIT;
    dia_avp avps[3];
    dia_verdict verdict = untouched;
    size_t count = 99;
    memcpy(bytes, grouped, sizeof grouped);
    memcpy(bytes + sizeof grouped, watchdog + 44, 20); /* Origin-Realm, of 19 bytes and one of padding */
    bytes[3] = sizeof bytes;
    bytes[47] = 7; /* the second member: an AVP has at least 8 bytes */
    EXPECT(dia_dict_open_base(&dict) == DIA_OK);
    EXPECT(dia_check(&dict, DIA_KEPT, DIA_ANY_LEVELS, bytes, sizeof bytes, &verdict) == DIA_OK);
    EXPECT(verdict.outcome == DIA_FAULT && verdict.reason == DIA_R_AVP_LENGTH && verdict.place == 40);
    verdict = untouched;
    EXPECT(dia_avps_at(&dict, bytes, sizeof bytes, 40, avps, 3, &count, &verdict) == DIA_OK && count == 1);
    EXPECT(avps[0].place == 20);
    EXPECT(dia_avps_at(&dict, bytes, sizeof bytes, 52, avps, 3, &count, &verdict) == DIA_OK && count == 1);
    EXPECT(avps[0].place == 52 && avps[0].code == 296 && avps[0].length == 19 && avps[0].depth == 0);
    EXPECT(dia_avps_at(&dict, bytes, sizeof bytes, 70, avps, 3, &count, &verdict) == DIA_OK && count == 1);
    EXPECT(dia_avps_at(&dict, bytes, sizeof bytes, 71, avps, 3, &count, &verdict) == DIA_OK && count == 0);
    EXPECT(memcmp(&verdict, &untouched, sizeof verdict) == 0);
    dia_dict_close(&dict);
}

/* ---- diagnostics ---- */

static int has_words(dia_text *note, const char *words) {
    const uint8_t *bytes = NULL;
    size_t count = 0, len = strlen(words);
    if (dia_text_view(note, &bytes, &count) != DIA_OK)
        return 0;
    for (size_t at = 0; at + len <= count; at++) {
        if (memcmp(bytes + at, words, len) == 0)
            return 1;
    }
    return 0;
}

static dia_status explain(const char *dictionary, const uint8_t *message, size_t len, dia_text *note) {
    return dia_explain((const uint8_t *)dictionary, strlen(dictionary), DIA_KEPT, DIA_ANY_LEVELS, message, len, note);
}

/* A note has the offset and the names of both texts, and is empty for a valid message. The words are those of docs/FAULTS.md. */
static void messages_are_explained(void) {
    /* Note (317) with the AVP 9, which has no rule, and the same with the AVP 1 */
    static const uint8_t wrong[28] = {1, 0, 0, 28, 0, 0, 1, 0x3d, 0, 0, 0, 0, 0, 0, 0, 1, 0, 0, 0, 2, 0, 0, 0, 9, 0, 0, 0, 8};
    static const uint8_t right[28] = {1, 0, 0, 28, 0, 0, 1, 0x3d, 0, 0, 0, 0, 0, 0, 0, 1, 0, 0, 0, 2, 0, 0, 0, 1, 0, 0, 0, 8};
    dia_text note = DIA_TEXT_INIT;
    size_t count = 99;
    EXPECT(dia_explain((const uint8_t *)text, strlen(text), 2, 0, wrong, sizeof wrong, &note) == DIA_BAD_ARGUMENT);
    EXPECT(explain(text, wrong, sizeof wrong, &note) == DIA_OK && has_words(&note, "byte 20: ") && has_words(&note, "message:1:"));
    EXPECT(has_words(&note, "hint: ") && explain(text, wrong, sizeof wrong, &note) == DIA_IS_OPEN);
    dia_text_close(&note);
    EXPECT(explain(text, right, sizeof right, &note) == DIA_OK && dia_text_length(&note, &count) == DIA_OK && count == 0);
    dia_text_close(&note);
    EXPECT(explain("%avp A", right, sizeof right, &note) == DIA_OK && has_words(&note, "dictionary:1:"));
    dia_text_close(&note);
    EXPECT(explain(text, right, sizeof right - 1, &note) == DIA_OK && has_words(&note, "message: 27 bytes"));
    dia_text_close(&note);
}

int main(void) {
    commands_are_delivered();
    entries_are_delivered();
    bytes_are_in_avps();
    wrong_bytes_are_in_none();
    messages_are_explained();
    return tell_counts();
}
