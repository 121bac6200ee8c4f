/* peer: two ends of a connection in one process, with a pipe each way. They open, the initiator watches, and then it goes.
 * Standard output shows what each end does. Status 0: both are closed at the end.
 *     cc peer.c $(pkg-config --cflags --libs dia) */
#define _POSIX_C_SOURCE 200809L
#include <dia.h>
#include <stdio.h>
#include <string.h>
#include <unistd.h>

#define HEADER 20
#define LONGEST 4096 /* these ends take no longer message */

typedef struct {
    const char *name;
    dia_peer peer;
    int from, to; /* the pipes of the other end's messages, and of its own */
} side;

static uint8_t message[LONGEST];

static int open_side(side *s, uint32_t role, const char *host, const char *realm, uint8_t last) {
    const dia_ip address = {0, {127, 0, 0, last}};
    const dia_app credit_control = {0, 4, 0, 0}; /* RFC 8506 */
    const dia_peer_options options = {
        .size = sizeof options,
        .role = role,
        .host = (const uint8_t *)host,
        .host_len = strlen(host),
        .realm = (const uint8_t *)realm,
        .realm_len = strlen(realm),
        .product = (const uint8_t *)"example",
        .product_len = 7,
        .addresses = &address,
        .address_count = 1,
        .apps = &credit_control,
        .app_count = 1,
        .numbers = {.hop = 1, .e2e = 1},
    };
    uint32_t fault = 0;
    dia_status status = dia_peer_open_with(&options, &s->peer, &fault);
    if (status != DIA_OK) {
        fprintf(stderr, "%s: status %u, fault %u\n", s->name, (unsigned)status, (unsigned)fault);
    }
    return status == DIA_OK;
}

/* Does all that an end wants done. */
static int do_outputs(side *s) {
    uint32_t output, why;
    size_t count;
    dia_status status;
    while ((status = dia_peer_output(&s->peer, &output, message, sizeof message, &count, &why)) == DIA_OK) {
        if (output == DIA_SEND) {
            printf("%s sends %u\n", s->name, (unsigned)message[5] << 16 | (unsigned)message[6] << 8 | message[7]);
            if (write(s->to, message, count) != (ssize_t)count) {
                return 0;
            }
        } else {
            printf("%s closes: %u\n", s->name, (unsigned)why);
            close(s->to);
        }
    }
    return status == DIA_NONE;
}

static int deliver(side *s, uint32_t event, size_t len, uint32_t cause) {
    return dia_peer_event(&s->peer, event, message, len, cause) == DIA_OK && do_outputs(s);
}

/* Reads so many bytes, and answers whether there were as many. */
static int read_all(int from, uint8_t *to, size_t wanted) {
    while (wanted > 0) {
        ssize_t had = read(from, to, wanted);
        if (had <= 0) {
            return 0;
        }
        to += had;
        wanted -= (size_t)had;
    }
    return 1;
}

/* Delivers the next message that the other has sent. Bytes that begin no message are delivered as they are, and then it closes. */
static int hear(side *s) {
    dia_verdict verdict;
    uint32_t length = HEADER;
    if (!read_all(s->from, message, HEADER)) {
        return deliver(s, DIA_LOST, 0, 0);
    }
    dia_message_length(message, HEADER, &length, &verdict);
    if (length > sizeof message || !read_all(s->from, message + HEADER, length - HEADER)) {
        return deliver(s, DIA_LOST, 0, 0);
    }
    return deliver(s, DIA_BYTES, length, 0);
}

static int are(side *a, side *b, uint32_t wanted, const char *told) {
    uint32_t one = 0, other = 0;
    int both = dia_peer_state(&a->peer, &one) == DIA_OK && dia_peer_state(&b->peer, &other) == DIA_OK && one == wanted
        && other == wanted;
    if (both) {
        puts(told);
    }
    return both;
}

int main(void) {
    side initiator = {"initiator", DIA_PEER_INIT, -1, -1}, responder = {"responder", DIA_PEER_INIT, -1, -1};
    int there[2], back[2], done;
    if (dia_abi_version() != DIA_ABI_VERSION || pipe(there) != 0 || pipe(back) != 0) {
        return 2;
    }
    initiator.from = back[0];
    initiator.to = there[1];
    responder.from = there[0];
    responder.to = back[1];
    done = open_side(&initiator, DIA_INITIATOR, "a.example.com", "example.com", 1)
        && open_side(&responder, DIA_RESPONDER, "b.example.net", "example.net", 2)
        /* the transport connection is there: capabilities are exchanged */
        && deliver(&responder, DIA_START, 0, 0) && deliver(&initiator, DIA_START, 0, 0) && hear(&responder) && hear(&initiator)
        && are(&initiator, &responder, DIA_STATE_OPEN, "both are open")
        /* no message came for a time: a watchdog and its answer */
        && deliver(&initiator, DIA_TICK, 0, 0) && hear(&responder) && hear(&initiator)
        /* the initiator goes */
        && deliver(&initiator, DIA_STOP, 0, DIA_CAUSE_REBOOTING) && hear(&responder) && hear(&initiator)
        && are(&initiator, &responder, DIA_STATE_CLOSED, "both are closed");
    dia_peer_close(&initiator.peer);
    dia_peer_close(&responder.peer);
    return !done;
}
