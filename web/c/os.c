/* The operating system of the program in a web page: files, arguments and streams are those of the host, page/worker.js. Elsewhere this
 * is c/os.c and the C library. An answer below 0 of the host is the number of an error. */
typedef __SIZE_TYPE__ size_t;
typedef __PTRDIFF_TYPE__ ssize_t;
typedef __INT32_TYPE__ int32_t;
typedef __UINT8_TYPE__ uint8_t;

#define HOST(name) __attribute__((import_module("host"), import_name(#name)))

HOST(open) extern int32_t host_open(const char *name, size_t length);
HOST(read) extern ssize_t host_read(int32_t stream, uint8_t *out, size_t room);
HOST(write) extern ssize_t host_write(int32_t stream, const uint8_t *bytes, size_t count);
HOST(argument_count) extern size_t host_argument_count(void);
HOST(argument) extern ssize_t host_argument(size_t index, uint8_t *out, size_t room);

enum { NO_SUCH_FILE = 2, NO_SEEK = 29, NO_ROOM = 34 };

static int32_t error;

size_t strlen(const char *text);
void *memcpy(void *restrict to, const void *restrict from, size_t count);
int32_t rattle_errno(void);
void rattle_set_errno(int32_t number);
size_t rattle_arg_count(void);
ssize_t rattle_arg(size_t index, uint8_t *out, size_t room);
ssize_t rattle_env(const char *name, uint8_t *out, size_t room);
ssize_t rattle_env_at(size_t index, uint8_t *out, size_t room);
int open(const char *name, int flags, ...);
ssize_t read(int stream, void *out, size_t room);
ssize_t write(int stream, const void *bytes, size_t count);
int close(int stream);
int __xpg_strerror_r(int number, char *out, size_t room);
ssize_t lseek(int stream, ssize_t offset, int from);
void *__sysv_signal(int number, void *handler);

int32_t rattle_errno(void) {
    return error;
}

void rattle_set_errno(int32_t number) {
    error = number;
}

size_t rattle_arg_count(void) {
    return host_argument_count();
}

ssize_t rattle_arg(size_t index, uint8_t *out, size_t room) {
    return host_argument(index, out, room);
}

/* There is no environment. */
ssize_t rattle_env(const char *name, uint8_t *out, size_t room) {
    (void)name, (void)out, (void)room;
    return -1;
}

ssize_t rattle_env_at(size_t index, uint8_t *out, size_t room) {
    (void)index, (void)out, (void)room;
    return -1;
}

static ssize_t answer(ssize_t found) {
    if (found >= 0) {
        return found;
    }
    error = (int32_t)-found;
    return -1;
}

int open(const char *name, int flags, ...) {
    (void)flags;
    return (int)answer(host_open(name, strlen(name)));
}

ssize_t read(int stream, void *out, size_t room) {
    return answer(host_read(stream, out, room));
}

ssize_t write(int stream, const void *bytes, size_t count) {
    return answer(host_write(stream, bytes, count));
}

/* A stream holds nothing that has to be given back. */
int close(int stream) {
    (void)stream;
    return 0;
}

int __xpg_strerror_r(int number, char *out, size_t room) {
    const char *text = number == NO_SUCH_FILE ? "No such file or directory" : "Input/output error";
    size_t size = strlen(text) + 1;
    if (size > room) {
        return NO_ROOM;
    }
    memcpy(out, text, size);
    return 0;
}

/* Streams are read from the start to the end. */
ssize_t lseek(int stream, ssize_t offset, int from) {
    (void)stream, (void)offset, (void)from;
    return answer(-NO_SEEK);
}

/* There are no signals. */
void *__sysv_signal(int number, void *handler) {
    (void)number, (void)handler;
    return 0;
}
