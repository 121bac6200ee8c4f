/* What `show` writes. The lines are those of docs/FORMATS.md, worked out by hand. */
#include "tests.h"

/* Whether the text is this; it is closed. */
static int is_text(dia_text *text, const char *wanted) {
    uint8_t told[512];
    size_t count = 0, length = 0;
    EXPECT(dia_text_length(text, &length) == DIA_OK && dia_text_read(text, 0, told, sizeof told, &count) == DIA_OK);
    dia_text_close(text);
    return length == count && count == strlen(wanted) && memcmp(told, wanted, count) == 0;
}

static void messages_are_shown(void) {
    static const char lines[] = "header flags 80 code 280 app 0 hop 1 end 2 length 64\n"
                                "20 0 264 - 40 24 Origin-Host \"host.example.com\"\n"
                                "44 0 296 - 40 19 Origin-Realm \"example.com\"\n";
    static const char cut[] = "header flags 80 code 280 app 0 hop 1 end 2 length 64\n"
                              "20 0 264 - 40 24 Origin-Host \"host.example.com\"\n"
                              "fault 5014 at 44 avp-length -\n";
    uint8_t bytes[sizeof watchdog];
    dia_dict dict = DIA_DICT_INIT;
    dia_text text = DIA_TEXT_INIT;
    dia_verdict verdict = {99, 99, 99, 99, 99, 99, 99, 99, {99, 99, 99, 99}};
    uint32_t whole = 99;
    EXPECT(dia_show(&dict, watchdog, sizeof watchdog, &text, &whole, &verdict) == DIA_IS_CLOSED);
    EXPECT(dia_dict_open_base(&dict) == DIA_OK);
    EXPECT(dia_show(&dict, watchdog, sizeof watchdog, &text, &whole, &verdict) == DIA_OK && whole == 1);
    EXPECT(dia_show(&dict, watchdog, sizeof watchdog, &text, &whole, &verdict) == DIA_IS_OPEN && verdict.outcome == 99);
    EXPECT(is_text(&text, lines));
    memcpy(bytes, watchdog, sizeof bytes);
    bytes[51] = 7; /* an AVP has at least 8 bytes */
    EXPECT(dia_show(&dict, bytes, sizeof bytes, &text, &whole, &verdict) == DIA_OK && whole == 0);
    EXPECT(is_text(&text, cut));
    whole = 99;
    EXPECT(dia_show(&dict, bytes, 19, &text, &whole, &verdict) == DIA_REFUSED && verdict.outcome == DIA_TRUNCATED);
    EXPECT(dia_show(&dict, bytes, 63, &text, &whole, &verdict) == DIA_REFUSED && verdict.outcome == DIA_TRUNCATED);
    bytes[3] = 60;
    EXPECT(dia_show(&dict, bytes, 64, &text, &whole, &verdict) == DIA_REFUSED && verdict.outcome == DIA_TRAILING);
    bytes[3] = 62;
    EXPECT(dia_show(&dict, bytes, 64, &text, &whole, &verdict) == DIA_REFUSED);
    EXPECT(verdict.outcome == DIA_FAULT && verdict.code == 5015 && verdict.place == 1 && verdict.reason == DIA_R_LENGTH);
    bytes[0] = 0;
    EXPECT(dia_show(&dict, bytes, 64, &text, &whole, &verdict) == DIA_REFUSED);
    EXPECT(verdict.outcome == DIA_FAULT && verdict.code == 5011 && verdict.place == 0 && verdict.reason == DIA_R_VERSION);
    EXPECT(whole == 99 && text.dia_state == 0);
    dia_dict_close(&dict);
}

int main(void) {
    messages_are_shown();
    return tell_counts();
}
