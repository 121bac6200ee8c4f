/* dia_guard.fdx: checks each message that freeDiameter 1.2 receives against a dictionary of libdia, and reports, drops or answers those
 * that have a fault. docs/INTEGRATIONS.md says how it is made and configured:
 *     LoadExtension = "/path/dia_guard.fdx" : "dictionary=FILE;action=log|drop|answer;valid=log"; */
#include <dia.h>
#include <freeDiameter/extension.h>
#include <freeDiameter/libfdcore.h>
#include <pthread.h>
#include <stdatomic.h>
#include <stdio.h>
#include <stdlib.h>
#include <string.h>

typedef enum { LOG, DROP, ANSWER } reaction;
static const char *const reactions[] = {"log", "drop", "answer"};

/* What goes with a message on its way through the daemon. */
struct fd_hook_permsgdata {
    dia_verdict verdict;
    uint8_t *bytes; /* as they came, of a message that has a fault; else NULL */
    size_t count;
    struct msg *message; /* what the daemon made of them */
    struct fd_hook_permsgdata *next, **link;
};

static dia_dict dictionary = DIA_DICT_INIT;
static pthread_key_t handles; /* each thread's handle of the dictionary */
static pthread_mutex_t lock = PTHREAD_MUTEX_INITIALIZER;
/* The messages that have a fault and are on their way. A callback of fd_rt_fwd_register isn't given what goes with its message, and
 * comes before HOOK_MESSAGE_ROUTING_FORWARD (freeDiameter 1.2.1), so that it looks for the message here. */
static struct fd_hook_permsgdata *faulty;
static reaction action = LOG;
static int logs_valid;
static char path[4096];
static atomic_ulong checked_count, fault_count;

/* ---- handles ---- */

static void close_handle(void *handle) {
    dia_dict_close(handle);
    free(handle);
}

/* This thread's handle of the dictionary, or NULL where there is no memory. */
static dia_dict *own_handle(void) {
    dia_dict *own = pthread_getspecific(handles);
    if (own == NULL && (own = calloc(1, sizeof *own)) != NULL) {
        pthread_mutex_lock(&lock);
        const dia_status status = dia_dict_share(&dictionary, own);
        pthread_mutex_unlock(&lock);
        if (status != DIA_OK || pthread_setspecific(handles, own) != 0) {
            close_handle(own);
            own = NULL;
        }
    }
    return own;
}

/* ---- what comes ---- */

static void forget(struct fd_hook_permsgdata *data) {
    pthread_mutex_lock(&lock);
    if (data->link != NULL) {
        *data->link = data->next;
        if (data->next != NULL) {
            data->next->link = data->link;
        }
    }
    pthread_mutex_unlock(&lock);
    free(data->bytes);
}

static void remember(struct fd_hook_permsgdata *data, struct msg *message) {
    pthread_mutex_lock(&lock);
    data->message = message;
    data->next = faulty;
    data->link = &faulty;
    if (faulty != NULL) {
        faulty->link = &data->next;
    }
    faulty = data;
    pthread_mutex_unlock(&lock);
}

static struct fd_hook_permsgdata *find(const struct msg *message) {
    struct fd_hook_permsgdata *found;
    pthread_mutex_lock(&lock);
    for (found = faulty; found != NULL && found->message != message; found = found->next) {
    }
    pthread_mutex_unlock(&lock);
    return found;
}

/* The bytes of a message came. */
static void on_bytes(enum fd_hook_type type, struct msg *message, struct peer_hdr *peer, void *other, struct fd_hook_permsgdata *data,
                     void *user) {
    const struct fd_cnx_rcvdata *came = other;
    dia_dict *dict = own_handle();
    (void)type, (void)message, (void)peer, (void)user;
    if (dict == NULL || data == NULL
        || dia_check(dict, DIA_KEPT, DIA_ANY_LEVELS, came->buffer, came->length, &data->verdict) != DIA_OK) {
        return;
    }
    atomic_fetch_add(&checked_count, 1);
    if (data->verdict.outcome == DIA_VALID) {
        return;
    }
    atomic_fetch_add(&fault_count, 1);
    data->bytes = malloc(came->length);
    if (data->bytes != NULL) {
        memcpy(data->bytes, came->buffer, came->length);
        data->count = came->length;
    }
}

/* The daemon has parsed the message, or couldn't. */
static void on_message(enum fd_hook_type type, struct msg *message, struct peer_hdr *peer, void *other, struct fd_hook_permsgdata *data,
                       void *user) {
    uint8_t line[DIA_MAX_LINE];
    size_t count;
    struct msg_hdr *header = NULL;
    dia_dict *dict = own_handle();
    (void)other, (void)user;
    if (data == NULL || dict == NULL) {
        return;
    }
    if (message != NULL && data->bytes != NULL && data->link == NULL) {
        remember(data, message);
    }
    /* HOOK_MESSAGE_RECEIVED has reported it, where the daemon fails at its AVPs only */
    if ((data->verdict.outcome == DIA_VALID && !logs_valid) || (type == HOOK_MESSAGE_PARSING_ERROR && message != NULL)) {
        return;
    }
    if (message != NULL) {
        fd_msg_hdr(message, &header);
    }
    if (dia_verdict_text(dict, &data->verdict, line, sizeof line, &count) != DIA_OK) {
        return;
    }
    fd_log(data->verdict.outcome == DIA_VALID ? FD_LOG_NOTICE : FD_LOG_ERROR, "dia_guard: %s: %u%s hop %08x: %.*s",
           peer != NULL ? peer->info.pi_diamid : "(no peer)", header != NULL ? header->msg_code : 0,
           header != NULL && header->msg_flags & CMD_FLAG_REQUEST ? " request" : "", header != NULL ? header->msg_hbhid : 0,
           (int)count, (const char *)line);
}

/* ---- what becomes of it ---- */

/* The bytes of the answer that reports the fault, which the caller frees, or NULL. */
static uint8_t *answer_bytes(const struct fd_hook_permsgdata *data, size_t *count) {
    const uint8_t *host = (const uint8_t *)fd_g_config->cnf_diamid, *realm = (const uint8_t *)fd_g_config->cnf_diamrlm;
    dia_dict *dict = own_handle();
    dia_text text = DIA_TEXT_INIT;
    dia_verdict verdict;
    uint32_t form;
    uint8_t *bytes = NULL;
    if (dict == NULL
        || dia_answer(dict, DIA_KEPT, DIA_ANY_LEVELS, host, fd_g_config->cnf_diamid_len, realm, fd_g_config->cnf_diamrlm_len, data->bytes,
                      data->count, &text, &form, &verdict) != DIA_OK) {
        return NULL;
    }
    if (dia_text_length(&text, count) == DIA_OK && (bytes = malloc(*count)) != NULL) {
        dia_text_read(&text, 0, bytes, *count, count);
    }
    dia_text_close(&text);
    return bytes;
}

/* Sends the answer that reports the fault of a request. Answers whether the request is answered. */
static int answer(const struct fd_hook_permsgdata *data, struct msg *request) {
    struct msg *made = NULL;
    struct msg_hdr *asked = NULL, *header = NULL;
    size_t count;
    uint8_t *bytes = answer_bytes(data, &count);
    if (bytes == NULL) {
        return 0;
    }
    if (fd_msg_parse_buffer(&bytes, count, &made) != 0) {
        free(bytes);
        return 0;
    }
    fd_msg_hdr(request, &asked);
    fd_msg_hdr(made, &header);
    header->msg_hbhid = asked->msg_hbhid;
    if (fd_msg_answ_associate(made, request) != 0 || fd_msg_send(&made, NULL, NULL) != 0) {
        fd_log(FD_LOG_ERROR, "dia_guard: an answer wasn't sent");
    }
    return 1;
}

/* Takes a message that has a fault off its way, where the configuration says so. */
static void stop(struct msg **message) {
    const struct fd_hook_permsgdata *data = action == LOG ? NULL : find(*message);
    struct msg_hdr *header = NULL;
    if (data == NULL) {
        return;
    }
    fd_msg_hdr(*message, &header);
    if (action == DROP) {
        fd_msg_free(*message);
        *message = NULL;
    } else if (header->msg_flags & CMD_FLAG_REQUEST && answer(data, *message)) {
        *message = NULL;
    }
}

static int on_forward(void *user, struct msg **message) {
    (void)user;
    stop(message);
    return 0;
}

static int on_local(struct msg **message, struct avp *avp, struct session *session, void *user, enum disp_action *next) {
    (void)avp, (void)session, (void)user;
    *next = DISP_ACT_CONT;
    stop(message);
    return 0;
}

/* ---- how it begins ---- */

static int read_word(const char *word) {
    if (strncmp(word, "dictionary=", 11) == 0) {
        return snprintf(path, sizeof path, "%s", word + 11) < (int)sizeof path;
    }
    if (strcmp(word, "valid=log") == 0) {
        return logs_valid = 1;
    }
    for (reaction it = LOG; it <= ANSWER; it++) {
        if (strncmp(word, "action=", 7) == 0 && strcmp(word + 7, reactions[it]) == 0) {
            action = it;
            return 1;
        }
    }
    fd_log(FD_LOG_ERROR, "dia_guard: \"%s\" is none of dictionary=FILE, action=log, action=drop, action=answer, valid=log", word);
    return 0;
}

static int read_words(const char *configuration) {
    char *words = strdup(configuration != NULL ? configuration : ""), *rest = words, *word;
    int is_right = words != NULL;
    while (is_right && (word = strsep(&rest, ";")) != NULL) {
        is_right = *word == '\0' || read_word(word);
    }
    free(words);
    return is_right;
}

static int open_dictionary(void) {
    static uint8_t text[DIA_MAX_TEXT + 1];
    dia_problem problem = {0, 0, 0};
    size_t count;
    FILE *file;
    if (*path == '\0') {
        return dia_dict_open_base(&dictionary) == DIA_OK;
    }
    file = fopen(path, "rb");
    if (file == NULL) {
        fd_log(FD_LOG_ERROR, "dia_guard: %s can't be read", path);
        return 0;
    }
    count = fread(text, 1, sizeof text, file);
    fclose(file);
    if (dia_dict_open(text, count, &dictionary, &problem) != DIA_OK) {
        fd_log(FD_LOG_ERROR, "dia_guard: %s is no dictionary: `diacmd render %s` says why", path, path);
        return 0;
    }
    return 1;
}

static int begin(char *configuration) {
    struct fd_hook_data_hdl *data = NULL;
    struct fd_hook_hdl *of_bytes, *of_message;
    struct fd_rt_fwd_hdl *of_forward;
    if (dia_abi_version() != DIA_ABI_VERSION || !read_words(configuration) || !open_dictionary()) {
        return EINVAL;
    }
    CHECK_POSIX(pthread_key_create(&handles, close_handle));
    CHECK_FCT(fd_hook_data_register(sizeof(struct fd_hook_permsgdata), NULL, forget, &data));
    CHECK_FCT(fd_hook_register(HOOK_MASK(HOOK_DATA_RECEIVED), on_bytes, NULL, data, &of_bytes));
    CHECK_FCT(fd_hook_register(HOOK_MASK(HOOK_MESSAGE_RECEIVED, HOOK_MESSAGE_PARSING_ERROR), on_message, NULL, data, &of_message));
    CHECK_FCT(fd_rt_fwd_register(on_forward, NULL, RT_FWD_ALL, &of_forward));
    CHECK_FCT(fd_disp_register(on_local, DISP_HOW_ANY, NULL, NULL, NULL));
    fd_log(FD_LOG_NOTICE, "dia_guard: %s, %s", *path != '\0' ? path : "the dictionary of RFC 6733", reactions[action]);
    return 0;
}

void fd_ext_fini(void) {
    fd_log(FD_LOG_NOTICE, "dia_guard: %lu messages, %lu of them with a fault", atomic_load(&checked_count), atomic_load(&fault_count));
}

EXTENSION_ENTRY("dia_guard", begin);
