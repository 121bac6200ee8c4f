/* What the tests share: a count of what passed and failed, and messages and texts written by hand from RFC 6733. */
#ifndef TESTS_H
#define TESTS_H

#include "dia.h"
#include <stdio.h>
#include <string.h>

static int passed, failed;

#define EXPECT(what) expect(what, #what, __FILE__, __LINE__)

static inline void expect(int holds, const char *what, const char *file, int line) {
    if (holds) {
        passed++;
    } else {
        failed++;
        printf("%s:%d: not so: %s\n", file, line, what);
    }
}

static inline int tell_counts(void) {
    printf("%d passed, %d failed\n", passed, failed);
    return failed != 0;
}

/* A Device-Watchdog-Request (RFC 6733 section 5.5.1): the header, Origin-Host at 20, Origin-Realm at 44. */
static const uint8_t watchdog[64] = {
    0x01, 0x00, 0x00, 0x40, 0x80, 0x00, 0x01, 0x18, 0x00, 0x00, 0x00, 0x00, 0x00, 0x00, 0x00, 0x01, 0x00, 0x00, 0x00, 0x02,
    0x00, 0x00, 0x01, 0x08, 0x40, 0x00, 0x00, 0x18,
    'h', 'o', 's', 't', '.', 'e', 'x', 'a', 'm', 'p', 'l', 'e', '.', 'c', 'o', 'm',
    0x00, 0x00, 0x01, 0x28, 0x40, 0x00, 0x00, 0x13,
    'e', 'x', 'a', 'm', 'p', 'l', 'e', '.', 'c', 'o', 'm', 0x00};

/* A Capabilities-Exchange-Request (section 5.3.1) that has a group alone, Vendor-Specific-Application-Id (section 6.11). */
static const uint8_t grouped[52] = {
    0x01, 0x00, 0x00, 0x34, 0x80, 0x00, 0x01, 0x01, 0x00, 0x00, 0x00, 0x00, 0x00, 0x00, 0x00, 0x01, 0x00, 0x00, 0x00, 0x02,
    0x00, 0x00, 0x01, 0x04, 0x40, 0x00, 0x00, 0x20,
    0x00, 0x00, 0x01, 0x0a, 0x40, 0x00, 0x00, 0x0c, 0x00, 0x00, 0x28, 0xaf,
    0x00, 0x00, 0x01, 0x02, 0x40, 0x00, 0x00, 0x0c, 0x01, 0x00, 0x00, 0x23};

/* A dictionary of one declaration. */
static const char one_avp[] = "%avp A 1 OctetString any";

static inline dia_status open_text(const char *text, dia_dict *dict, dia_problem *problem) {
    return dia_dict_open((const uint8_t *)text, strlen(text), dict, problem);
}

/* What buffers are filled with, of which a call has to leave what it doesn't write. */
#define FILLING 0x5a

static inline int is_left(const uint8_t *at, size_t count) {
    while (count > 0 && at[count - 1] == FILLING) {
        count--;
    }
    return count == 0;
}

#endif
