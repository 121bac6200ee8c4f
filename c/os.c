/* What diacmd asks the system for, beside the C library's own functions, where Rattle's kit has no object with it: on ARM64. */
#define _GNU_SOURCE
#include <errno.h>
#include <stddef.h>
#include <stdint.h>
#include <stdlib.h>
#include <string.h>
#include <sys/types.h>
#include <unistd.h>

static int count;
static char **words;

/* glibc calls it before main, with the arguments of main. */
__attribute__((constructor)) static void note_words(int argc, char **argv) {
    count = argc;
    words = argv;
}

int32_t rattle_errno(void);
void rattle_set_errno(int32_t error);
size_t rattle_arg_count(void);
ssize_t rattle_arg(size_t i, uint8_t *out, size_t room);
ssize_t rattle_env(const char *name, uint8_t *out, size_t room);
ssize_t rattle_env_at(size_t i, uint8_t *out, size_t room);

int32_t rattle_errno(void) {
    return errno;
}

void rattle_set_errno(int32_t error) {
    errno = error;
}

/* Copies a word: its length; -1 where there is none, or -2 where it has more bytes than there is room for, and then `out` is full. */
static ssize_t copy(const char *word, uint8_t *out, size_t room) {
    size_t length;
    if (word == NULL) {
        return -1;
    }
    length = strlen(word);
    memcpy(out, word, length < room ? length : room);
    return length <= room ? (ssize_t)length : -2;
}

size_t rattle_arg_count(void) {
    return (size_t)count;
}

ssize_t rattle_arg(size_t i, uint8_t *out, size_t room) {
    return copy(i < (size_t)count ? words[i] : NULL, out, room);
}

ssize_t rattle_env(const char *name, uint8_t *out, size_t room) {
    return copy(getenv(name), out, room);
}

ssize_t rattle_env_at(size_t i, uint8_t *out, size_t room) {
    size_t at = 0;
    while (at < i && environ[at] != NULL) {
        at++;
    }
    return copy(environ[at], out, room);
}
