/* node [-l PORT] [-c ADDRESS:PORT] [-h HOST] [-r REALM] [-a ID].. [-A ID].. [-w SECONDS] [-R] [DICTIONARY]: Diameter connections over
 * TCP. It accepts them on loopback (-l; 0 takes any free port) and opens one (-c). Each message is checked against the dictionary, or
 * the built-in one, and each request that has a fault is answered. -a is an Auth-Application-Id (4 where none is given), -A an
 * Acct-Application-Id; -w is Tw, 30 or at least 6 (RFC 3539 section 3.4.1). With -R it accepts that a peer relays all applications.
 * Standard output has a line for each message and each state. SIGTERM or SIGINT gives up all connections.
 * Status 0: all connections are over, and no more are accepted; 2: it couldn't begin; 3: no memory.
 *     cc node.c $(pkg-config --cflags --libs dia) */
#define _GNU_SOURCE
#include <arpa/inet.h>
#include <dia.h>
#include <errno.h>
#include <signal.h>
#include <stdarg.h>
#include <stdio.h>
#include <stdlib.h>
#include <string.h>
#include <sys/epoll.h>
#include <sys/random.h>
#include <sys/signalfd.h>
#include <sys/timerfd.h>
#include <time.h>
#include <unistd.h>

#define HEADER 20
#define LONGEST 65536 /* this node takes no longer message */
#define CONNECTIONS 32
#define APPLICATIONS 64
#define ANSWER_SECONDS 10 /* how long an answer to a CER or a DPR may take */
#define LINGER_SECONDS 2  /* how long the other end may take to close */
#define LEAST_TW 6

typedef enum { FREE, CONNECTING, RUNNING, CLOSING } phase;

typedef struct {
    phase phase;
    int socket, timer;
    uint32_t role, state; /* DIA_INITIATOR or DIA_RESPONDER; DIA_STATE_.. */
    dia_peer peer;
    size_t in_count, out_count;
    uint8_t in[LONGEST], out[4 * LONGEST]; /* what came and isn't read, and what isn't sent */
} connection;

/* What epoll answers with: twice the index of a connection for its socket, one more for its timer, and these. */
enum { ON_LISTENER = 2 * CONNECTIONS, ON_SIGNAL };

static const uint8_t none[1];
static connection connections[CONNECTIONS];
static dia_dict dict = DIA_DICT_INIT;
static const char *host = "node.example.com", *realm = "example.com";
static dia_app applications[APPLICATIONS];
static size_t application_count;
static uint32_t manner;
static long tw = 30;
static int poll_fd, listener = -1, busy; /* busy: connections, and the listener */

static void say(const connection *c, const char *form, ...) {
    va_list more;
    va_start(more, form);
    printf("%s: #%td ", host, c - connections);
    vprintf(form, more);
    putchar('\n');
    va_end(more);
}

/* Checks a message, and writes the verdict. */
static void look(const connection *c, const char *way, const uint8_t *message, size_t len) {
    dia_text line = DIA_TEXT_INIT;
    uint8_t json[1024]; /* names have at most 128 bytes each */
    size_t count = 1;
    if (dia_check_json(&dict, DIA_KEPT, DIA_ANY_LEVELS, message, len, &line) != DIA_OK) {
        exit(3);
    }
    dia_text_read(&line, 0, json, sizeof json, &count);
    dia_text_close(&line);
    say(c, "%s %zu bytes: %.*s", way, len, (int)count - 1, (const char *)json);
}

static int watch(int action, int fd, uint32_t events, uint32_t number) {
    struct epoll_event event = {.events = events, .data.u32 = number};
    return epoll_ctl(poll_fd, action, fd, &event);
}

/* Tw with its jitter, or the time that an answer, a connection or the other end's close may take. */
static void set_timer(const connection *c) {
    long ms = c->phase == CLOSING ? LINGER_SECONDS * 1000
        : c->state == DIA_STATE_OPEN ? (long)dia_peer_quiet_ms((uint32_t)tw * 1000, (uint32_t)rand()) : ANSWER_SECONDS * 1000;
    struct itimerspec when = {{0, 0}, {ms / 1000, ms % 1000 * 1000000}};
    timerfd_settime(c->timer, 0, &when, NULL);
}

/* Sends what the socket takes, and answers how much is left. Nothing more is read while the other end doesn't read. */
static size_t flush(connection *c) {
    ssize_t sent = c->out_count > 0 ? send(c->socket, c->out, c->out_count, MSG_NOSIGNAL) : 0;
    if (sent > 0) {
        c->out_count -= (size_t)sent;
        memmove(c->out, c->out + sent, c->out_count);
    }
    if (c->phase == CLOSING && c->out_count == 0) {
        shutdown(c->socket, SHUT_WR);
    }
    watch(EPOLL_CTL_MOD, c->socket,
          (c->phase == CLOSING || c->out_count <= LONGEST ? EPOLLIN : 0u) | (c->out_count > 0 ? EPOLLOUT : 0u),
          2 * (uint32_t)(c - connections));
    return c->out_count;
}

/* Sends what is to be sent. Where that was the last, the other end gets a little time to close: a close with bytes unread would reset
 * the connection, and what was sent might be lost. */
static void go_on(connection *c, int goes_on) {
    if (!goes_on && c->phase == RUNNING) {
        c->phase = CLOSING;
        set_timer(c);
    }
    flush(c);
}

static void drop(connection *c) {
    say(c, "over");
    close(c->socket);
    close(c->timer);
    dia_peer_close(&c->peer);
    c->phase = FREE;
    busy--;
}

/* Whether a message is valid. A request that isn't gets the answer that says why (RFC 6733 sections 6.2 and 7). */
static int is_valid(connection *c, const uint8_t *message, size_t len) {
    dia_verdict v;
    dia_text answer = DIA_TEXT_INIT;
    uint32_t form;
    size_t count = 0;
    dia_status status = dia_answer(&dict, DIA_KEPT, DIA_ANY_LEVELS, (const uint8_t *)host, strlen(host), (const uint8_t *)realm,
                                   strlen(realm), message, len, &answer, &form, &v);
    if (status == DIA_OK) {
        dia_text_read(&answer, 0, c->out + c->out_count, sizeof c->out - c->out_count, &count);
        dia_text_close(&answer);
        look(c, "->", c->out + c->out_count, count);
        c->out_count += count;
    }
    return status == DIA_NONE && v.outcome == DIA_VALID;
}

/* Delivers an event to the end, and does what it asks for. Answers whether the connection goes on. */
static int deliver(connection *c, uint32_t event, const uint8_t *bytes, size_t len, uint32_t cause) {
    static const char *const states[] = {"IDLE", "WAIT_CEA", "WAIT_CER", "OPEN", "WAIT_DPA", "CLOSED"};
    static const char *const whys[] = {"INVALID", "NO_COMMON", "REFUSED", "WATCHDOG", "TIMEOUT", "PEER_STOPPED", "STOPPED"};
    uint32_t output, why, before = c->state;
    size_t count;
    dia_status status = dia_peer_event(&c->peer, event, bytes, len, cause);
    int goes_on = 1;
    while (status == DIA_OK) {
        uint8_t *to = c->out + c->out_count;
        status = dia_peer_output(&c->peer, &output, to, sizeof c->out - c->out_count, &count, &why);
        if (status == DIA_OK && output == DIA_SEND) {
            look(c, "->", to, count);
            c->out_count += count;
        } else if (status == DIA_OK) {
            say(c, "closes: %s", whys[why]);
            goes_on = 0;
            if (event == DIA_BYTES && why == DIA_WHY_INVALID) {
                is_valid(c, bytes, len);
            }
        }
    }
    dia_peer_state(&c->peer, &c->state);
    if (c->state != before) {
        say(c, "%s", states[c->state]);
    }
    if (c->state != before || event == DIA_TICK) {
        set_timer(c);
    }
    return goes_on && status == DIA_NONE; /* there may be no memory, or no room where the other end doesn't read */
}

/* A message, or bytes that begin none, which close the connection. Answers whether it goes on. */
static int on_message(connection *c, const uint8_t *message, size_t len, int is_whole) {
    uint32_t serves = 0, code = (uint32_t)message[5] << 16 | (uint32_t)message[6] << 8 | message[7];
    uint32_t application = (uint32_t)message[8] << 24 | (uint32_t)message[9] << 16 | (uint32_t)message[10] << 8 | message[11];
    look(c, "<-", message, len);
    if (c->state == DIA_STATE_OPEN) {
        set_timer(c);
    }
    if (!is_whole || code == 257 || code == 280 || code == 282) {
        return deliver(c, DIA_BYTES, message, len, 0);
    }
    if (c->state == DIA_STATE_OPEN && is_valid(c, message, len)
        && dia_peer_serves(&c->peer, application, &serves) == DIA_OK && serves) {
        say(c, "for the application"); /* which is not part of this example */
    }
    return 1;
}

/* Takes the messages that came, while there is room for answers. Answers whether the connection goes on. */
static int take_messages(connection *c) {
    size_t at = 0;
    int goes_on = 1;
    while (goes_on && c->in_count - at >= HEADER && (c->out_count <= LONGEST || flush(c) <= LONGEST)) {
        uint32_t length = 0;
        dia_verdict v;
        int is_whole = dia_message_length(c->in + at, HEADER, &length, &v) == DIA_OK && length <= LONGEST;
        length = is_whole ? length : HEADER;
        if (length > c->in_count - at) {
            break;
        }
        goes_on = on_message(c, c->in + at, length, is_whole);
        at += length;
    }
    c->in_count -= at;
    memmove(c->in, c->in + at, c->in_count);
    return goes_on;
}

/* The transport connection is there. Answers whether it goes on. */
static int start(connection *c) {
    const uint32_t now = (uint32_t)time(NULL);
    uint32_t drawn[2];
    const int is_drawn = getrandom(drawn, sizeof drawn, 0) == sizeof drawn;
    struct sockaddr_in here = {0};
    socklen_t size = sizeof here;
    dia_ip address = {0, {0}};
    const dia_peer_options options = {
        .size = sizeof options,
        .role = c->role,
        .manner = manner,
        .host = (const uint8_t *)host,
        .host_len = strlen(host),
        .realm = (const uint8_t *)realm,
        .realm_len = strlen(realm),
        .product = (const uint8_t *)"node.c",
        .product_len = 6,
        .addresses = &address,
        .address_count = 1,
        .apps = applications,
        .app_count = application_count,
        /* RFC 6733 section 3 */
        .numbers = {.has_state_id = 1, .state_id = now, .hop = drawn[0], .e2e = now << 20 | (drawn[1] & 0xfffff)},
    };
    uint32_t fault = 0;
    dia_status status;
    getsockname(c->socket, (struct sockaddr *)&here, &size);
    memcpy(address.bytes, &here.sin_addr, sizeof here.sin_addr);
    status = dia_peer_open_with(&options, &c->peer, &fault);
    if (status != DIA_OK || !is_drawn) {
        fprintf(stderr, "the names or the applications are refused: status %u, fault %u\n", (unsigned)status, (unsigned)fault);
        exit(2);
    }
    c->phase = RUNNING;
    return deliver(c, DIA_START, none, 0, 0);
}

/* Takes a place for a connection, or closes the socket where there is none. */
static connection *begin(int socket, uint32_t role) {
    connection *c = connections;
    for (; c < connections + CONNECTIONS && c->phase != FREE; c++) {
    }
    if (c == connections + CONNECTIONS) {
        close(socket);
        return NULL;
    }
    memset(c, 0, offsetof(connection, in));
    busy++;
    c->phase = CONNECTING;
    c->role = role;
    c->socket = socket;
    c->timer = timerfd_create(CLOCK_MONOTONIC, TFD_NONBLOCK);
    watch(EPOLL_CTL_ADD, c->socket, EPOLLOUT, 2 * (uint32_t)(c - connections));
    watch(EPOLL_CTL_ADD, c->timer, EPOLLIN, 2 * (uint32_t)(c - connections) + 1);
    set_timer(c);
    return c;
}

/* Reads what came. Answers whether the socket can be read on. */
static int receive(connection *c) {
    ssize_t had;
    c->in_count = c->phase == CLOSING ? 0 : c->in_count;
    had = recv(c->socket, c->in + c->in_count, sizeof c->in - c->in_count, 0);
    c->in_count += had > 0 ? (size_t)had : 0;
    return had > 0 || (had < 0 && (errno == EAGAIN || errno == EINTR));
}

static void on_socket(connection *c, uint32_t events) {
    int wrong = 0;
    socklen_t size = sizeof wrong;
    if (c->phase == CONNECTING) {
        if (getsockopt(c->socket, SOL_SOCKET, SO_ERROR, &wrong, &size) != 0 || wrong != 0) {
            say(c, "can't connect: %s", strerror(wrong));
            drop(c);
        } else {
            go_on(c, start(c));
        }
    } else if (events & (EPOLLIN | EPOLLHUP | EPOLLERR) && !receive(c)) {
        if (c->phase == RUNNING) {
            deliver(c, DIA_LOST, none, 0, 0);
        }
        drop(c);
    } else {
        flush(c);
        go_on(c, c->phase == RUNNING && take_messages(c));
    }
}

/* Gives up all connections, and accepts no more. */
static void stop(void) {
    for (connection *c = connections; c < connections + CONNECTIONS; c++) {
        if (c->phase == RUNNING) {
            go_on(c, deliver(c, DIA_STOP, none, 0, DIA_CAUSE_REBOOTING));
        } else if (c->phase == CONNECTING) {
            drop(c);
        }
    }
    if (listener >= 0) {
        close(listener);
        listener = -1;
        busy--;
    }
}

static int listen_on(uint16_t port) {
    struct sockaddr_in at = {.sin_family = AF_INET, .sin_port = htons(port), .sin_addr.s_addr = htonl(INADDR_LOOPBACK)};
    socklen_t size = sizeof at;
    listener = socket(AF_INET, SOCK_STREAM | SOCK_NONBLOCK, 0);
    setsockopt(listener, SOL_SOCKET, SO_REUSEADDR, &(int){1}, sizeof(int));
    if (bind(listener, (struct sockaddr *)&at, size) != 0 || listen(listener, CONNECTIONS) != 0) {
        return 0;
    }
    getsockname(listener, (struct sockaddr *)&at, &size);
    printf("%s: listens on %u\n", host, (unsigned)ntohs(at.sin_port));
    busy++;
    return watch(EPOLL_CTL_ADD, listener, EPOLLIN, ON_LISTENER) == 0;
}

static int connect_to(const char *to) {
    struct sockaddr_in at = {.sin_family = AF_INET};
    char address[INET_ADDRSTRLEN] = "";
    unsigned port = 0;
    int opened = socket(AF_INET, SOCK_STREAM | SOCK_NONBLOCK, 0);
    if (sscanf(to, "%15[0-9.]:%u", address, &port) != 2 || inet_pton(AF_INET, address, &at.sin_addr) != 1) {
        return 0;
    }
    at.sin_port = htons((uint16_t)port);
    return (connect(opened, (struct sockaddr *)&at, sizeof at) == 0 || errno == EINPROGRESS) && begin(opened, DIA_INITIATOR) != NULL;
}

static int open_dictionary(const char *path) {
    static uint8_t text[DIA_MAX_TEXT + 1];
    FILE *file = path != NULL ? fopen(path, "rb") : NULL;
    dia_problem problem;
    if (file == NULL) {
        return path == NULL && dia_dict_open_base(&dict) == DIA_OK;
    }
    return dia_dict_open(text, fread(text, 1, sizeof text, file), &dict, &problem) == DIA_OK && fclose(file) == 0;
}

static void on_event(const struct epoll_event *event, int signals) {
    const uint32_t number = event->data.u32;
    connection *c = number < ON_LISTENER ? connections + number / 2 : NULL;
    uint8_t what[sizeof(struct signalfd_siginfo)];
    if (number == ON_SIGNAL && read(signals, what, sizeof what) > 0) {
        stop();
    } else if (number == ON_LISTENER && listener >= 0) {
        int accepted = accept4(listener, NULL, NULL, SOCK_NONBLOCK);
        c = accepted >= 0 ? begin(accepted, DIA_RESPONDER) : NULL;
        if (c != NULL) {
            go_on(c, start(c));
        }
    } else if (c != NULL && c->phase != FREE && number % 2 == 0) {
        on_socket(c, event->events);
    } else if (c != NULL && c->phase != FREE && read(c->timer, what, sizeof what) > 0) {
        c->phase == RUNNING ? go_on(c, deliver(c, DIA_TICK, none, 0, 0)) : drop(c);
    }
}

int main(int argc, char **argv) {
    const char *port = NULL, *to = NULL;
    struct epoll_event event;
    sigset_t set;
    int option, signals;
    while (application_count < APPLICATIONS && (option = getopt(argc, argv, "l:c:h:r:a:A:w:R")) != -1) {
        switch (option) {
        case 'l': port = optarg; break;
        case 'c': to = optarg; break;
        case 'h': host = optarg; break;
        case 'r': realm = optarg; break;
        case 'a': case 'A': applications[application_count++] = (dia_app){option == 'A', (uint32_t)atoll(optarg), 0, 0}; break;
        case 'w': tw = atol(optarg) > LEAST_TW ? atol(optarg) : LEAST_TW; break;
        case 'R': manner = DIA_MANNER_RELAYS; break;
        default: return 2;
        }
    }
    if (application_count == 0) {
        applications[application_count++] = (dia_app){0, 4, 0, 0}; /* credit control (RFC 8506) */
    }
    setvbuf(stdout, NULL, _IOLBF, 0);
    srand((unsigned)time(NULL) ^ (unsigned)getpid());
    sigemptyset(&set);
    sigaddset(&set, SIGTERM);
    sigaddset(&set, SIGINT);
    sigprocmask(SIG_BLOCK, &set, NULL);
    poll_fd = epoll_create1(0);
    signals = signalfd(-1, &set, SFD_NONBLOCK);
    if (dia_abi_version() != DIA_ABI_VERSION || !open_dictionary(argv[optind])
        || watch(EPOLL_CTL_ADD, signals, EPOLLIN, ON_SIGNAL) != 0 || (port && !listen_on((uint16_t)atoi(port))) || (to && !connect_to(to))) {
        fputs("the dictionary can't be read, or the address can't be used\n", stderr);
        return 2;
    }
    while (busy > 0) {
        if (epoll_wait(poll_fd, &event, 1, -1) == 1) {
            on_event(&event, signals);
        }
    }
    dia_dict_close(&dict);
    return 0;
}
