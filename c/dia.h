/* libdia: dictionaries of Diameter (RFC 6733), what breaks between two of them, checks of messages, and connections, proved.
 *
 * docs/LIBRARY.md shows how a program begins. What each function answers is proved of its code: the comments say it
 * in words, the clauses of crates/dia_c/src say it exactly.
 *
 * WHAT A PROGRAM OWES
 *  1. A pointer is NULL only where its length is 0: that each function then reads no bytes and writes none is tested
 *     (c/tests/reading.c), and the proofs do not speak of NULL. Each pointer is aligned for its type. Nothing writes the memory
 *     of a const pointer during the call. Nothing else touches the memory of another pointer during the call, and it overlaps
 *     no other argument.
 *  2. A handle is all zero bytes before its first call (DIA_.._INIT), and only the library changes it. It may be moved as bytes,
 *     and then only one of the copies is used.
 *  3. One call at a time for each handle. Threads use different handles at once, also of one dictionary (dia_dict_share).
 *     A handle goes to another thread by a lock, or by a thread's start or join.
 *  4. No call from a signal handler, nor in the forked child of a process with threads. malloc, realloc and free are of one
 *     allocator, and align to 16.
 *  5. Nothing leaves a call by longjmp or by unwinding.
 *
 * WHAT HOLDS OF ALL FUNCTIONS
 *  - No pointer that is passed is used after the call. Lengths and offsets are in bytes. What a function delivers is copied into the
 *    program's memory; the one pointer into the library's is that of dia_text_view.
 *  - A function that may fail answers a status, DIA_OK or another. On any other than DIA_OK it has changed only what its comment
 *    names.
 *  - Where several statuses apply, DIA_BAD_ARGUMENT comes before DIA_IS_OPEN, this before DIA_IS_CLOSED, and these before all others.
 *    dia_verdict_text alone answers DIA_IS_CLOSED before DIA_BAD_ARGUMENT: the dictionary says which verdicts it has.
 *  - A function may answer DIA_NO_MEMORY, where malloc or realloc refused, unless its comment says "takes no memory".
 *  - No function waits, prints, calls back, reads a clock or a file, or has state outside its handles.
 *  - An open handle holds a pointer to what the library owns, and is closed once; closing a closed handle does nothing.
 */
#ifndef DIA_H
#define DIA_H

#include <stddef.h>
#include <stdint.h>

#ifdef __cplusplus
extern "C" {
#endif

/* The version of this header. Within a version no struct, value or meaning changes. Functions and values are only added, and fields
 * in the place of `reserved`. */
#define DIA_ABI_VERSION 1u

/* The version of the library, which a program compares with DIA_ABI_VERSION first. Takes no memory. */
uint32_t dia_abi_version(void);

typedef uint32_t dia_status;
enum {
    DIA_OK = 0,
    DIA_REFUSED = 1,     /* the input is not what the function reads, and the function says why */
    DIA_NONE = 2,        /* there is none */
    DIA_NO_MEMORY = 3,   /* memory was refused */
    DIA_NO_ROOM = 4,     /* there is less room than for *count bytes, or AVPs */
    DIA_IS_OPEN = 5,     /* the handle to be opened is open already */
    DIA_IS_CLOSED = 6,   /* the handle to be used is closed */
    DIA_BAD_ARGUMENT = 7, /* a number among the arguments has no meaning */
    DIA_OUTPUTS_LEFT = 8, /* outputs of the last event are left to be taken */
    DIA_SPENT = 9         /* the stream was refused memory before: close it, or begin again */
};

#define DIA_MAX_NAME 128u     /* the most bytes of a name */
#define DIA_MAX_TEXT 1048576u /* the most bytes of a dictionary's text */

/* ---- dictionaries ---- */

typedef struct dia_dict {
    void *dia_private;
    uint32_t dia_state;
} dia_dict;
#define DIA_DICT_INIT { NULL, 0 }

/* Why a text is no dictionary: the kind of its first fault. */
enum {
    DIA_NOT_TEXT = 0, /* the bytes are not UTF-8 */
    DIA_SYNTAX = 1,   /* the token of this number is not expected here */
    DIA_NUMBER = 2,   /* a number is out of range */
    DIA_LIMIT = 3,    /* a name is too long; on line 0, the text is */
    /* The kinds of docs/FAULTS.md, in its order. */
    DIA_TOO_MANY_PARTS = 10,
    DIA_DUPLICATE_NAME = 11,
    DIA_NO_GROUP_FORMAT = 12,
    DIA_HEADER_MISMATCH = 13,
    DIA_DUPLICATE_KEY = 14,
    DIA_DUPLICATE_COMMAND = 15,
    DIA_UNDEFINED_NAME = 16,
    DIA_REPEATED_SLOT = 17,
    DIA_MIN_OVER_MAX = 18,
    DIA_REQUIRED_MIN = 19,
    DIA_OPTIONAL_MIN = 20,
    /* Of dia_breaking alone. */
    DIA_NO_COMMANDS = 30, /* the first dictionary has no command */
    DIA_NO_COMMAND = 31   /* no command of it has the name on this line; on line 0, the names are not UTF-8 */
};

typedef struct dia_problem {
    uint32_t kind;
    uint32_t line;  /* from 1, of DIA_SYNTAX and DIA_NUMBER; of DIA_LIMIT and DIA_NO_COMMAND, or 0 for the whole text; else 0 */
    uint32_t token; /* from 1, of DIA_SYNTAX; else 0 */
} dia_problem;

/* Opens a closed handle with the dictionary of a text (docs/FORMATS.md), which may be the texts of several files after each
 * other.
 * DIA_REFUSED: *problem says why; it is written on no other status. */
dia_status dia_dict_open(const uint8_t *text, size_t text_len, dia_dict *dict, dia_problem *problem);

/* Opens a closed handle with the built-in dictionary of RFC 6733. */
dia_status dia_dict_open_base(dia_dict *dict);

/* Opens the closed handle `other` with the dictionary of `dict`; this is a call on both handles. It lives until the last of its
 * handles is closed.
 * The time and the memory of a share do not grow with the dictionary. */
dia_status dia_dict_share(dia_dict *dict, dia_dict *other);

/* Closes the handle. Takes no memory. */
void dia_dict_close(dia_dict *dict);

/* ---- all that is wrong with a dictionary's text ---- */

typedef struct dia_faults {
    void *dia_private;
    uint32_t dia_state;
} dia_faults;
#define DIA_FAULTS_INIT { NULL, 0 }

typedef struct dia_fault {
    size_t at;          /* its offset in the text; 0 where has_place is 0 */
    size_t name_count;  /* how many bytes `name` has, 0 where there is none; no zero follows them */
    size_t slot_count;  /* and `slot` */
    uint32_t kind;      /* a kind of dia_problem */
    uint32_t token;     /* from 1, of DIA_SYNTAX; else 0 */
    uint32_t has_place; /* 1; 0 where the text has the fault as a whole */
    uint8_t name[DIA_MAX_NAME]; /* the definition or the AVP that has the fault */
    uint8_t slot[DIA_MAX_NAME]; /* the AVP of the rule that has it, or AVP for the wildcard */
} dia_fault;

/* Opens a closed handle with all faults of a dictionary's text, in the order of docs/FAULTS.md: *count of them, 0 where the text
 * is a dictionary. A text that the grammar does not derive has one fault. */
dia_status dia_faults_open(const uint8_t *text, size_t text_len, dia_faults *faults, size_t *count);

/* Delivers a fault by its index, from 0. DIA_NONE: there are no more. Takes no memory. */
dia_status dia_faults_get(dia_faults *faults, size_t index, dia_fault *fault);

/* Closes the handle. Takes no memory. */
void dia_faults_close(dia_faults *faults);

/* The line and the column, both from 1, of an offset in a text. A column is a character of UTF-8. An offset after the
 * text counts as its end. Takes no memory, and time that grows with `at`. */
void dia_line_column(const uint8_t *text, size_t text_len, size_t at, size_t *line, size_t *column);

/* ---- names ---- */

/* The name of the command of a verdict of this dictionary, and the name of an AVP (vendor 0: none). *count bytes are written,
 * with no zero after them. DIA_NONE: there is no such command or AVP. DIA_NO_ROOM: the name has *count bytes, at most
 * DIA_MAX_NAME. Takes no memory. */
dia_status dia_command_name(dia_dict *dict, uint32_t command, uint8_t *out, size_t out_len, size_t *count);
dia_status dia_avp_name(dia_dict *dict, uint32_t code, uint32_t vendor, uint8_t *out, size_t out_len, size_t *count);

/* ---- the commands and the AVPs of a dictionary ---- */

/* The class of the messages of a command (RFC 6733 section 3). */
enum {
    DIA_CLASS_REQUEST = 0, /* R is set, and E is clear */
    DIA_CLASS_ANSWER = 1,  /* both are clear */
    DIA_CLASS_ERROR = 2    /* R is clear, and E is set: the error messages of all commands (section 7.2) */
};

/* What the P flag of its messages may be (RFC 6733 section 3). */
enum {
    DIA_PROXY_CLEAR = 0,
    DIA_PROXY_SET = 1,
    DIA_PROXY_EITHER = 2
};

/* What the M flag of an AVP may be (RFC 6733 section 4.1). */
enum {
    DIA_MANDATORY_ANY = 0,
    DIA_MANDATORY_MUST = 1,
    DIA_MANDATORY_MUST_NOT = 2
};

/* The data formats of docs/FORMATS.md, by the number that an AVP has. */
enum {
    DIA_F_UNKNOWN = 0, /* the dictionary does not have the AVP */
    DIA_F_OCTET_STRING = 1,
    DIA_F_INTEGER32 = 2,
    DIA_F_INTEGER64 = 3,
    DIA_F_UNSIGNED32 = 4,
    DIA_F_UNSIGNED64 = 5,
    DIA_F_FLOAT32 = 6,
    DIA_F_FLOAT64 = 7,
    DIA_F_GROUPED = 8,
    DIA_F_ADDRESS = 9,
    DIA_F_TIME = 10,
    DIA_F_UTF8STRING = 11,
    DIA_F_DIAMETER_IDENTITY = 12,
    DIA_F_DIAMETER_URI = 13,
    DIA_F_ENUMERATED = 14,
    DIA_F_IP_FILTER_RULE = 15,
    DIA_F_QOS_FILTER_RULE = 16
};

/* A command of a dictionary (RFC 6733 section 3.2). */
typedef struct dia_command {
    size_t name_count; /* how many bytes `name` has */
    uint32_t command;  /* its number in verdicts, and for dia_command_name */
    uint32_t code;     /* Command Code; 0 of DIA_CLASS_ERROR */
    uint32_t kind;     /* DIA_CLASS_.. */
    uint32_t proxy;    /* DIA_PROXY_.. */
    uint32_t has_app;  /* 1; 0 where it is of all applications that no other command of its code and class names */
    uint32_t app;      /* the Application-ID; 0 where has_app is 0 */
    uint8_t name[DIA_MAX_NAME]; /* its name, and zeros after it */
} dia_command;

/* An AVP of a dictionary. */
typedef struct dia_entry {
    size_t name_count;  /* how many bytes `name` has */
    uint32_t code;
    uint32_t vendor;    /* Vendor-ID; 0 without one */
    uint32_t format;    /* DIA_F_.., never DIA_F_UNKNOWN */
    uint32_t mandatory; /* DIA_MANDATORY_.. */
    uint8_t name[DIA_MAX_NAME]; /* its name, and zeros after it */
} dia_entry;

/* How many commands a dictionary has, and a command by its index, from 0, in the order of the dictionary. DIA_NONE: there are
 * no more. Takes no memory. */
dia_status dia_dict_commands(dia_dict *dict, size_t *count);
dia_status dia_dict_command(dia_dict *dict, size_t index, dia_command *command);

/* How many AVPs a dictionary has, and an AVP by its index, from 0: first those that are declared, in their order, and then the
 * groups without a declaration. DIA_NONE: there are no more. Takes no memory. */
dia_status dia_dict_avps(dia_dict *dict, size_t *count);
dia_status dia_dict_avp(dia_dict *dict, size_t index, dia_entry *avp);

/* ---- checks ---- */

/* What becomes of AVPs that the dictionary does not know. */
enum {
    DIA_KEPT = 0,           /* one is accepted if its M flag is clear, else a fault */
    DIA_UNKNOWN_REFUSED = 1 /* each is a fault */
};

/* How many grouped AVPs may be nested: a number, above which one has the fault DIA_R_DEPTH; or this, for no limit. */
#define DIA_ANY_LEVELS UINT32_MAX

/* DIA_TRUNCATED: fewer bytes than a header, or than the Message Length. DIA_TRAILING: more than the Message Length. */
enum { DIA_VALID = 0, DIA_FAULT = 1, DIA_TRUNCATED = 2, DIA_TRAILING = 3 };

/* The reasons of docs/FAULTS.md. */
enum {
    DIA_R_VERSION = 0,
    DIA_R_LENGTH = 1,
    DIA_R_BITS = 2,
    DIA_R_COMMAND = 3,
    DIA_R_APPLICATION = 4,
    DIA_R_PROXIABLE = 5,
    DIA_R_AVP_LENGTH = 6,
    DIA_R_UNKNOWN = 7,
    DIA_R_M_BIT = 8,
    DIA_R_MISSING = 9,
    DIA_R_NOT_ALLOWED = 10,
    DIA_R_TOO_MANY = 11,
    DIA_R_LEAF_LENGTH = 12,
    DIA_R_LEAF_VALUE = 13,
    DIA_R_DEPTH = 14
};

enum {
    DIA_ABOUT_NOTHING = 0,
    DIA_ABOUT_AVP = 1,
    DIA_ABOUT_WILDCARD = 2 /* AVPs that no rule lists are missing */
};

/* Fields that an outcome does not have are 0. A call that writes a verdict writes all its fields. */
typedef struct dia_verdict {
    uint32_t outcome;
    uint32_t command;    /* of DIA_VALID: for dia_command_name */
    uint32_t code;       /* of DIA_FAULT: the Result-Code (RFC 6733 section 7.1) */
    uint32_t place;      /* of DIA_FAULT: its offset in the message */
    uint32_t reason;     /* of DIA_FAULT: DIA_R_.. */
    uint32_t subject;    /* of DIA_FAULT: DIA_ABOUT_.. */
    uint32_t avp_code;   /* of DIA_ABOUT_AVP */
    uint32_t avp_vendor; /* of DIA_ABOUT_AVP; 0: none */
    uint32_t reserved[4]; /* each 0: the place of fields that are added within this version */
} dia_verdict;

/* Checks the bytes of one message. DIA_OK: *verdict is what `diacmd check` says; it is written on no other status.
 * DIA_BAD_ARGUMENT: `unknown` is neither of its two values. The handle holds the memory that the check took for open levels, 80
 * KB at most, until it is closed; so most checks take none. */
dia_status dia_check(dia_dict *dict, uint32_t unknown, uint32_t levels, const uint8_t *message, size_t message_len,
                     dia_verdict *verdict);

/* Checks the messages that follow one another in a buffer, as dia_check checks each: verdicts[i] is that on message i, of
 * `end_count` messages. Message i begins where the one before it ends, the first at offset 0, and ends before offset ends[i]; so
 * they are of any lengths, and bytes after the last one are not read. `verdict_count` is `end_count`.
 * The verdicts are written on DIA_OK alone. DIA_BAD_ARGUMENT: `unknown` is neither of its two values, `verdict_count` is another
 * number, an end is less than the one before it, or an end is more than `bytes_len`. It takes 48 bytes of memory for each
 * message, and frees them. */
dia_status dia_check_many(dia_dict *dict, uint32_t unknown, uint32_t levels, const uint8_t *bytes, size_t bytes_len, const size_t *ends,
                          size_t end_count, dia_verdict *verdicts, size_t verdict_count);

/* How many bytes the message has that begins with these, at least 20: its Message Length (RFC 6733 section 3).
 * DIA_REFUSED: no message begins so, and *verdict is what a check would say, or DIA_TRUNCATED of fewer than 20 bytes.
 * Takes no memory. */
dia_status dia_message_length(const uint8_t *header, size_t header_len, uint32_t *length, dia_verdict *verdict);

/* The fields of a header (RFC 6733 section 3). Its version is 1. */
typedef struct dia_head {
    uint32_t length; /* Message Length */
    uint32_t flags;  /* Command Flags, 8 bits */
    uint32_t code;   /* Command Code */
    uint32_t app;    /* Application-ID */
    uint32_t hop;    /* Hop-by-Hop Identifier */
    uint32_t e2e;    /* End-to-End Identifier */
} dia_head;

/* The header with which these bytes begin, at least 20; the bytes after it are not read. DIA_REFUSED: as of dia_message_length.
 * Takes no memory. */
dia_status dia_header(const uint8_t *bytes, size_t bytes_len, dia_head *head, dia_verdict *verdict);

/* ---- words ---- */

/* The word of a number: of a reason DIA_R_.., as lines of `diacmd check` have it; of a kind of problem, as answers in JSON have
 * it (docs/JSON.md); and of a status. *count bytes are written, with no zero after them. DIA_NONE: no such number is known, and
 * *count is not written. DIA_NO_ROOM: the word has *count bytes, at most DIA_MAX_WORD. Takes no memory. */
#define DIA_MAX_WORD 24u
dia_status dia_reason_word(uint32_t reason, uint8_t *out, size_t out_len, size_t *count);
dia_status dia_kind_word(uint32_t kind, uint8_t *out, size_t out_len, size_t *count);
dia_status dia_status_word(dia_status status, uint8_t *out, size_t out_len, size_t *count);

/* The line that `diacmd check` writes of a message with this verdict, without its line feed: *count bytes, with no zero after
 * them.
 * The names are those of the dictionary. DIA_NO_ROOM: the line has *count bytes, at most DIA_MAX_LINE.
 * DIA_BAD_ARGUMENT: no check with this dictionary has this verdict: a field has an unknown value, or is set though this outcome
 * does not use it; or the dictionary has no such command. *count is written on DIA_OK and DIA_NO_ROOM alone. */
#define DIA_MAX_LINE 192u
dia_status dia_verdict_text(dia_dict *dict, const dia_verdict *verdict, uint8_t *out, size_t out_len, size_t *count);

/* ---- the AVPs of a message ---- */

/* An AVP (RFC 6733 section 4.1). Offsets are in bytes from the first of the message. A call that delivers an AVP writes all its
 * fields. */
typedef struct dia_avp {
    size_t place;       /* where it begins */
    size_t depth;       /* how many groups are around it; 0: it is in the body */
    size_t length;      /* AVP Length: without the padding */
    size_t data_place;  /* where its data begins */
    size_t data_length; /* and how many bytes this has */
    size_t name_count;  /* how many bytes `name` has; 0 where the dictionary does not have the AVP */
    uint32_t code;
    uint32_t vendor;    /* Vendor-ID; 0 without one */
    uint32_t flags;     /* AVP Flags, 8 bits */
    uint32_t format;    /* DIA_F_.. */
    uint8_t name[DIA_MAX_NAME]; /* the dictionary's name, and zeros after it */
    uint64_t reserved[4]; /* each 0: the place of fields that are added within this version */
} dia_avp;

/* In each of these three calls an AVP Length that no AVP can have ends its own level: the body of the message, or the data of a
 * group. AVPs go on after the group. The message need not be valid. */

/* Delivers the AVPs of a message in the order of their bytes, each group that the dictionary has followed by its members. *count is
 * the number of all. The first of them, as many as there is room for, are in `avps`; the rest of `avps` is as before. *bad is the
 * offset at which the first AVP would begin whose AVP Length no AVP can have; or `message_len`, where there is none.
 * DIA_NO_ROOM: there are more than `avp_room`, and `avps` has the first of them. With `avp_room` 0 the AVPs are counted.
 * DIA_REFUSED: the bytes are no message. *verdict says why, and is written on no other status: DIA_TRUNCATED, DIA_TRAILING, or the
 * fault of the version or of the Message Length.
 * *count and *bad are written on DIA_OK and DIA_NO_ROOM alone. On DIA_NO_MEMORY `avps` may have some of the AVPs. The call takes
 * memory for the groups that are open at once, and frees it. */
dia_status dia_avps(dia_dict *dict, const uint8_t *message, size_t message_len, dia_avp *avps, size_t avp_room, size_t *count,
                    size_t *bad, dia_verdict *verdict);

/* Delivers those of the AVPs of a message that hold the byte at an offset, the outermost first: each but the last is a group that the
 * dictionary has, and holds the next one. *count is the number of all. The first of them, as many as there is room for, are in
 * `avps`; the rest of `avps` is as before. The bytes of the header are in no AVP, and padding and what begins no AVP are in the
 * groups around them alone.
 * Of a fault about an AVP, with its place as the offset, the last one is that AVP, whose `length` is how many bytes the fault
 * covers, and those before it are the groups around it. Of DIA_R_AVP_LENGTH no AVP begins at the place, and all are groups around
 * it. The place of DIA_R_MISSING is the end of the level: the groups that hold the byte before it are those around the end, of which
 * the innermost may lack nothing.
 * DIA_NO_ROOM: there are more than `avp_room`, and `avps` has the first of them. With `avp_room` 0 the AVPs are counted.
 * DIA_REFUSED: as of dia_avps. *count is written on DIA_OK and DIA_NO_ROOM alone. Takes no memory. */
dia_status dia_avps_at(dia_dict *dict, const uint8_t *message, size_t message_len, size_t offset, dia_avp *avps, size_t avp_room,
                       size_t *count, dia_verdict *verdict);

/* Delivers the first AVP of a message that has this code and this vendor, and is in no group. `vendor` 0 is an AVP without a
 * Vendor-ID, or with the Vendor-ID 0. *avp is written on DIA_OK alone. DIA_NONE: there is none.
 * DIA_REFUSED: as of dia_avps. Takes no memory. */
dia_status dia_avp_find(dia_dict *dict, const uint8_t *message, size_t message_len, uint32_t code, uint32_t vendor, dia_avp *avp,
                        dia_verdict *verdict);

/* ---- messages that come in pieces ---- */

/* A message that comes in pieces, and is checked while it comes. It holds its dictionary, whose handle may be closed, at most 20
 * bytes of the message, and the levels of grouped AVPs that are open. dia_answer needs the message in a buffer of your own. */
typedef struct dia_stream {
    void *dia_private;
    uint32_t dia_state;
} dia_stream;
#define DIA_STREAM_INIT { NULL, 0 }

typedef struct dia_fed {
    size_t taken;  /* how many of the piece's first bytes belong to the message */
    uint32_t done; /* 1 where the message takes no more, else 0 */
} dia_fed;

/* Opens a closed handle with a message of which no byte was taken yet. `unknown` and `levels` are those of dia_check.
 * DIA_BAD_ARGUMENT: `unknown` is neither of its two values. */
dia_status dia_stream_open(dia_dict *dict, uint32_t unknown, uint32_t levels, dia_stream *stream);

/* Takes the next piece of the message, as far as it belongs to it. It takes the whole message even after a fault; if the version
 * or the Message Length is wrong, only the 20 bytes of the header. The bytes that follow begin the next message.
 * DIA_NO_MEMORY: the stream is spent: close it, or begin again (dia_stream_again); its message can be checked again only from its
 * start. DIA_SPENT: it was before.
 * *fed is written on DIA_OK alone. */
dia_status dia_stream_feed(dia_stream *stream, const uint8_t *piece, size_t piece_len, dia_fed *fed);

/* How many levels are open: those that began at or before the last byte taken, and end after it. None are once the message takes
 * no more. Takes no memory. */
dia_status dia_stream_levels(dia_stream *stream, size_t *levels);

/* Says of all bytes that were taken what dia_check says of them, and closes the handle, on any status. Before the end of the
 * message it is DIA_TRUNCATED. DIA_SPENT: memory was refused before. Takes no memory. */
dia_status dia_stream_finish(dia_stream *stream, dia_verdict *verdict);

/* Says what dia_stream_finish says, and begins the next message in place of closing the handle: with the same dictionary, the
 * same `unknown` and `levels`, and no byte taken. DIA_SPENT: memory was refused before, *verdict is not written, and the next
 * message begins all the same. Takes no memory. */
dia_status dia_stream_again(dia_stream *stream, dia_verdict *verdict);

/* Closes the handle. Takes no memory. */
void dia_stream_close(dia_stream *stream);

/* ---- texts ---- */

typedef struct dia_text {
    void *dia_private;
    uint32_t dia_state;
} dia_text;
#define DIA_TEXT_INIT { NULL, 0 }

/* Opens a closed handle with the text that `diacmd render` writes of a dictionary's text. Definitions need not fit together.
 * DIA_REFUSED: *problem says why; it is written on no other status. */
dia_status dia_render(const uint8_t *source, size_t source_len, dia_text *text, dia_problem *problem);

/* Opens the closed handle `text` with the lines that `diacmd show` writes of a message, with the names of the dictionary. *whole
 * is 1 where they are all, and 0 where an AVP Length that no AVP can have ends them.
 * DIA_REFUSED: the bytes are no message. *verdict says why, and is written on no other status: DIA_TRUNCATED, DIA_TRAILING, or
 * the fault of the version or of the Message Length. */
dia_status dia_show(dia_dict *dict, const uint8_t *message, size_t message_len, dia_text *text, uint32_t *whole,
                    dia_verdict *verdict);

/* Checks the bytes of one message as dia_check does, and opens the closed handle `line` with the line that `diacmd check --json`
 * writes: a JSON object (docs/JSON.md) and a line feed. DIA_BAD_ARGUMENT: `unknown` is neither of its two values. */
dia_status dia_check_json(dia_dict *dict, uint32_t unknown, uint32_t levels, const uint8_t *message, size_t message_len,
                          dia_text *line);

/* Copies the text's bytes from offset `from` on, as many as there is room for: *count of them, 0 at the end.
 * Takes no memory. */
dia_status dia_text_read(dia_text *text, size_t from, uint8_t *out, size_t out_len, size_t *count);

/* How many bytes the text has. Takes no memory. */
dia_status dia_text_length(dia_text *text, size_t *length);

/* Delivers the text's bytes where they are, without a copy: *count of them from *bytes on, with no zero after them. The library owns
 * them: a program only reads them, and no longer than until dia_text_close. Of no bytes *bytes is no address to read from. Takes no
 * memory. */
dia_status dia_text_view(dia_text *text, const uint8_t **bytes, size_t *count);

/* Closes the handle. Takes no memory. */
void dia_text_close(dia_text *text);

/* Opens the closed handle `note` with what `diacmd check` writes on standard error for a message that is not valid: the place,
 * what is wrong there, where the dictionary says otherwise, and a hint; for a text that is no dictionary, why it is none; and no
 * bytes for a valid message. `text` is that of the dictionary, since a dia_dict holds no offsets of it. In the note its name is
 * `dictionary`, and that of the message's hexadecimal digits, on one line, is `message`. No clause says what the note has: it is for
 * people, and programs read the verdict.
 * DIA_BAD_ARGUMENT: `unknown` is neither of its two values.
 * It is in libdia.a, and in a shared object with dia_breaking, libdia-breaking. */
dia_status dia_explain(const uint8_t *text, size_t text_len, uint32_t unknown, uint32_t levels, const uint8_t *message,
                       size_t message_len, dia_text *note);

/* ---- answers to requests that have a fault ---- */

/* By which definition an answer is made (docs/FORMATS.md). */
enum {
    DIA_FORM_OWN = 1,   /* the command's own answer, with E clear; for faults of 5xxx alone */
    DIA_FORM_ERROR = 2, /* the error message of the dictionary for this command (a definition with ERR), with E set */
    DIA_FORM_BASE = 3   /* the error message of the built-in dictionary, with E set */
};

/* Opens the closed handle `bytes` with the answer to a request that reports its first fault (RFC 6733 sections 6.2, 7.1.5, 7.2
 * and 7.5): the bytes of a message, which `diacmd answer` writes as hexadecimal digits. `host` and `realm` are the answer's
 * Origin-Host and Origin-Realm; `unknown` and `levels` are those of dia_check. *form is DIA_FORM_..: the first in this order that
 * makes a valid message. *verdict is what dia_check says of the message, also on DIA_NONE.
 * The answer has the Command Code, the Application-ID, both identifiers and the P flag of the request. It is valid under the
 * dictionary (of DIA_FORM_BASE under the built-in one), where Failed-AVP is read as OctetString.
 * DIA_NONE: the message gets no answer. It has fewer than 20 bytes, is no request, has another length than its Message Length, or
 * is valid; or no answer to it has room in a message.
 * DIA_BAD_ARGUMENT: `unknown` is neither of its two values; or `host` or `realm` is no DiameterIdentity (section 4.3.1) of at
 * most 255 bytes: 1 to 255 bytes, each from '!' to '~'.
 * *form is written on DIA_OK alone, *verdict on DIA_OK and DIA_NONE. A request whose version or Message Length is at fault is
 * answered, too; then close the connection, since the stream has lost its bounds. */
dia_status dia_answer(dia_dict *dict, uint32_t unknown, uint32_t levels, const uint8_t *host, size_t host_len, const uint8_t *realm,
                      size_t realm_len, const uint8_t *message, size_t message_len, dia_text *bytes, uint32_t *form,
                      dia_verdict *verdict);

/* ---- two dictionaries ---- */

/* Compares two dictionaries by the text of a table of pairs (docs/FORMATS.md), and opens the closed handle `line` with the line
 * that `diacmd compare` writes. *holds is 1 where it is `yes`: each message that is valid under `a`, of a command that the table
 * lists, is then valid under `b`, as a message of a command beside it. Else *holds is 0, and the line names the first pair that
 * fails, and its test. `unknown` is that of dia_check. One dictionary takes two handles (dia_dict_share).
 * DIA_REFUSED: the text is no table. *problem says why, and is written on no other status: DIA_NOT_TEXT; DIA_SYNTAX, of the
 * line; or DIA_LIMIT, of the line, or of line 0 where the text is too long. Its token is 0.
 * DIA_BAD_ARGUMENT: `unknown` is neither of its two values. */
dia_status dia_compare(dia_dict *a, dia_dict *b, uint32_t unknown, const uint8_t *table, size_t table_len, dia_text *line,
                       uint32_t *holds, dia_problem *problem);

/* Where dia_compare refuses the text of a table, in bytes, by the kind and the line of its problem: of DIA_SYNTAX the first word
 * that cannot occur there; of DIA_LIMIT the name that is too long or, where none is, the pair that is one too many, and of line 0
 * the end of the text. 0 for DIA_NOT_TEXT. dia_line_column has the column. Takes no memory. */
size_t dia_table_place(const uint8_t *table, size_t table_len, uint32_t kind, uint32_t line);

/* Which messages a side sends that goes by its dictionary. */
enum {
    DIA_SENDS_ANY = 0,    /* also AVPs that the dictionary does not know, with M clear, where a rule lets any in */
    DIA_SENDS_KNOWN = 1,  /* AVPs that the dictionary knows */
    DIA_SENDS_LISTED = 2, /* AVPs that a rule of their level names */
    DIA_SENDS_FILLED = 3  /* these, and where [ AVP ] is all that a level allows, AVPs that the dictionary knows */
};

/* How what breaks is listed: options that are added up, or 0. */
enum {
    DIA_WITH_MESSAGES = 1, /* after each line a message that shows it */
    DIA_ONCE = 2,          /* one line for each cause */
    DIA_MEANING = 4        /* also a line for each AVP that is read as another format */
};

/* Lists all that can break where the side of `a` sends and the side of `b` reads, and opens the closed handle `text` with what
 * `diacmd breaking` writes. *safe is 1 where nothing breaks (with DIA_MEANING: nor is read as another format), or nothing but
 * what the list accepts, and the text says which: then each message that the side of `a` sends is valid under `b`, but for what
 * is accepted.
 * Else *safe is 0, and the text has a line for each way in which messages break.
 * `unknown` is that of dia_check, for the side of `b`. `commands` has a line with the name of each command that is asked for;
 * where it has no line, all are. `accepted` is the text of a list of accepted lines (docs/FORMATS.md), or empty.
 * One dictionary takes two handles (dia_dict_share). The time grows with what is listed, and so does the memory.
 * DIA_REFUSED: *problem says why, and is written on no other status. Of `accepted` it is DIA_NOT_TEXT; DIA_SYNTAX, of the line;
 * or DIA_LIMIT, of the line, or of line 0 where the text is too long. Else it is DIA_NO_COMMANDS or DIA_NO_COMMAND. Its token
 * is 0.
 * DIA_BAD_ARGUMENT: `sends`, `unknown` or `options` has none of its values.
 * It is in libdia.a, and in a shared object of its own, libdia-breaking. */
dia_status dia_breaking(dia_dict *a, dia_dict *b, uint32_t sends, uint32_t unknown, uint32_t options, const uint8_t *commands,
                        size_t commands_len, const uint8_t *accepted, size_t accepted_len, dia_text *text, uint32_t *safe,
                        dia_problem *problem);

/* ---- one end of a connection (RFC 6733 section 5; docs/CONNECTION.md) ---- */

/* An end has no socket and no clock. The program delivers events, and does what the end then asks for. It is of one transport
 * connection: after a reconnection open another. */
typedef struct dia_peer {
    void *dia_private;
    uint32_t dia_state;
} dia_peer;
#define DIA_PEER_INIT { NULL, 0 }

/* The end that opened the transport connection, and the one that accepted it. */
enum { DIA_INITIATOR = 0, DIA_RESPONDER = 1 };

/* An IP address, in network byte order. */
typedef struct dia_ip {
    uint32_t is_v6;    /* 0: IPv4, the first four bytes; else IPv6 */
    uint8_t bytes[16];
} dia_ip;

/* An application that an end advertises. */
typedef struct dia_app {
    uint32_t is_acct;    /* 0: Auth-Application-Id; else Acct-Application-Id */
    uint32_t id;         /* the Application-ID; that of relays, 4294967295, only with DIA_MANNER_RELAYS */
    uint32_t has_vendor; /* 0: an AVP of its own; else in a Vendor-Specific-Application-Id */
    uint32_t vendor;     /* whose Vendor-Id this is */
} dia_app;

typedef struct dia_numbers {
    uint32_t vendor;       /* Vendor-Id */
    uint32_t has_state_id; /* 0: Origin-State-Id is not sent */
    uint32_t state_id;
    uint32_t hop;          /* the Hop-by-Hop Identifier of the first request */
    uint32_t e2e;          /* the End-to-End Identifier of the first request */
} dia_numbers;

/* Why a configuration is refused. A name that is not UTF-8 comes first; then the first in this order. */
enum {
    DIA_BAD_HOST = 1,       /* Origin-Host has 1 to 255 bytes, each from '!' to '~' */
    DIA_BAD_REALM = 2,      /* and Origin-Realm */
    DIA_BAD_PRODUCT = 3,    /* Product-Name has at most 255 bytes of UTF-8 */
    DIA_BAD_ADDRESS = 4,    /* there are 1 to 64 addresses */
    DIA_BAD_APPLICATION = 5 /* there are 1 to 1,024 applications, each kind and number once; 4294967295 is one only with
                                DIA_MANNER_RELAYS */
};

/* Opens a closed handle with an end that is idle.
 * DIA_REFUSED: *fault is DIA_BAD_..; it is written on no other status. DIA_BAD_ARGUMENT: `role` is neither of its two values. */
dia_status dia_peer_open(uint32_t role, const uint8_t *host, size_t host_len, const uint8_t *realm, size_t realm_len,
                         const uint8_t *product, size_t product_len, const dia_ip *addresses, size_t address_count,
                         const dia_app *apps, size_t app_count, const dia_numbers *numbers, dia_peer *peer, uint32_t *fault);

/* The modes of an end, which can be joined by `|`. */
enum {
    DIA_MANNER_RELAYS = 1,  /* relay mode: 4294967295 means all applications (RFC 6733 section 2.4) */
    DIA_MANNER_ANSWERS = 2, /* a request that is no valid message is answered before the close, with its fault (dia_answer) */
    DIA_MANNER_LIFE = 4,    /* a DWR without answer makes the connection suspect before it closes it (RFC 3539 section 3.4.1) */
    DIA_MANNER_VALUES = 8   /* what the other end says of itself is kept (dia_peer_value) */
};

/* The same with modes, `manner`: 0 or DIA_MANNER_... DIA_BAD_ARGUMENT: `role` or `manner` is none of its values. */
dia_status dia_peer_open_as(uint32_t role, uint32_t manner, const uint8_t *host, size_t host_len, const uint8_t *realm,
                            size_t realm_len, const uint8_t *product, size_t product_len, const dia_ip *addresses,
                            size_t address_count, const dia_app *apps, size_t app_count, const dia_numbers *numbers,
                            dia_peer *peer, uint32_t *fault);

/* What an end is opened with: the arguments of dia_peer_open_as by name. With `{.size = sizeof options, ..}` the fields that are
 * not named are 0. */
typedef struct dia_peer_options {
    size_t size;             /* sizeof(dia_peer_options) */
    uint32_t role;           /* DIA_INITIATOR or DIA_RESPONDER */
    uint32_t manner;         /* 0 or DIA_MANNER_.. */
    const uint8_t *host;     /* Origin-Host */
    size_t host_len;
    const uint8_t *realm;    /* Origin-Realm */
    size_t realm_len;
    const uint8_t *product;  /* Product-Name */
    size_t product_len;
    const dia_ip *addresses; /* Host-IP-Address */
    size_t address_count;
    const dia_app *apps;     /* the applications that the end advertises */
    size_t app_count;
    dia_numbers numbers;
    uint64_t reserved[8];    /* each 0: the place of fields that are added within this version */
} dia_peer_options;

/* The same as dia_peer_open_as, with the fields of a struct as its arguments. A pointer in it is NULL only where its length is 0.
 * DIA_BAD_ARGUMENT: `role` or `manner` is none of its values; `size` is not sizeof(dia_peer_options); or one of `reserved` is not 0.
 * A field that is added takes a place of `reserved`: a library that does not have it refuses a program that sets it, and serves one
 * that leaves it 0. */
dia_status dia_peer_open_with(const dia_peer_options *options, dia_peer *peer, uint32_t *fault);

enum {
    DIA_START = 0, /* the transport connection is there */
    DIA_BYTES = 1, /* one whole message of command code 257, 280 or 282 came; an end ignores those of other codes */
    DIA_TICK = 2,  /* the connection's timer expired (dia_peer_timer) */
    DIA_STOP = 3,  /* the connection is to be given up */
    DIA_LOST = 4   /* the transport connection is gone */
};

/* Why a connection is given up: the values of Disconnect-Cause (RFC 6733 section 5.4.3). */
enum { DIA_CAUSE_REBOOTING = 0, DIA_CAUSE_BUSY = 1, DIA_CAUSE_DO_NOT_WANT = 2 };

/* Delivers an event. `bytes` are read of DIA_BYTES alone, and `cause` of DIA_STOP alone.
 * DIA_OUTPUTS_LEFT: first take the outputs of the last event. DIA_BAD_ARGUMENT: there is no such event, or no such cause. */
dia_status dia_peer_event(dia_peer *peer, uint32_t event, const uint8_t *bytes, size_t bytes_len, uint32_t cause);

enum {
    DIA_SEND = 0, /* send the bytes, which are one message, valid under the base dictionary */
    DIA_CLOSE = 1 /* close the transport connection, after what was sent */
};

/* Why an end closes the connection. */
enum {
    DIA_WHY_INVALID = 0,      /* what came is no message, or no valid one of the commands of connections; or more than 1,024
                               * applications would be common */
    DIA_WHY_NO_COMMON = 1,    /* the two ends have no application in common */
    DIA_WHY_REFUSED = 2,      /* the CEA has another Result-Code, or is an error message */
    DIA_WHY_WATCHDOG = 3,     /* a DWR was not answered in time */
    DIA_WHY_TIMEOUT = 4,      /* the peer did not answer in time */
    DIA_WHY_PEER_STOPPED = 5, /* a DPR came */
    DIA_WHY_STOPPED = 6       /* this end was stopped */
};

/* Takes the next thing that is to be done, in order. DIA_SEND: *count bytes are written, and *why is 0. DIA_CLOSE: *why is
 * DIA_WHY_.., and *count is 0. DIA_NONE: nothing is left. DIA_NO_ROOM: the message has *count bytes, and is still the next; only
 * an answer of DIA_MANNER_ANSWERS has more than 35,408, for it repeats AVPs of the request.
 * Takes no memory. */
dia_status dia_peer_output(dia_peer *peer, uint32_t *output, uint8_t *out, size_t out_len, size_t *count, uint32_t *why);

enum {
    DIA_STATE_IDLE = 0,
    DIA_STATE_WAIT_CEA = 1, /* a CER was sent */
    DIA_STATE_WAIT_CER = 2,
    DIA_STATE_OPEN = 3,
    DIA_STATE_WAIT_DPA = 4, /* a DPR was sent */
    DIA_STATE_CLOSED = 5    /* for good */
};

/* The state of the connection. Takes no memory. */
dia_status dia_peer_state(dia_peer *peer, uint32_t *state);

/* Delivers an application that both ends have in common by its index, from 0, the Auth ones first and then by number: *app with
 * has_vendor 0. Between two relays it is one, of the number 4294967295. There is none before the connection is open, and they
 * stay from then on. DIA_NONE: there are no more. Takes no memory. */
dia_status dia_peer_common(dia_peer *peer, size_t index, dia_app *app);

/* Delivers whether messages of an application are for this connection: *serves is 1 or 0. It is 1 for application 0, for those
 * that both ends have in common, and for all between two relays. Takes no memory. */
dia_status dia_peer_serves(dia_peer *peer, uint32_t id, uint32_t *serves);

/* Takes the next Hop-by-Hop and End-to-End Identifiers of this end, for a request of your own: the end uses them for none of its
 * requests. Takes no memory. */
dia_status dia_peer_identifiers(dia_peer *peer, uint32_t *hop, uint32_t *e2e);

enum {
    DIA_TIMER_OFF = 0,   /* no DIA_TICK is due */
    DIA_TIMER_QUIET = 1, /* restart, with the time of dia_peer_quiet_ms */
    DIA_TIMER_REPLY = 2, /* restart, with the time in which the other end is to answer: 10 to 30 seconds */
    DIA_TIMER_KEEP = 3   /* run on */
};

/* Delivers what the timer of a connection does after an event, by the states before and after it. After a message of another
 * code, which the end does not get, restart it yourself in DIA_STATE_OPEN, as with DIA_TIMER_QUIET. DIA_BAD_ARGUMENT: there is no
 * such event, or no such state. Takes no memory. */
dia_status dia_peer_timer(uint32_t before, uint32_t event, uint32_t after, uint32_t *timer);

/* How long a connection may be quiet before a watchdog, in milliseconds: `tw`, raised to 6,000 if lower, plus or minus up to
 * 2,000 at random (RFC 3539 section 3.4.1). `drawn` is a random number. */
uint64_t dia_peer_quiet_ms(uint32_t tw, uint32_t drawn);

/* Reports a message of an application, which is not delivered to the end: a sign of life. Takes no memory. */
dia_status dia_peer_heard(dia_peer *peer);

/* Delivers whether the connection is suspect: *suspect is 1 or 0. It is 1 only with DIA_MANNER_LIFE, in DIA_STATE_OPEN, from a
 * DIA_TICK at which a DWR is unanswered until bytes or dia_peer_heard: then send new requests elsewhere. Takes no memory. */
dia_status dia_peer_suspect(dia_peer *peer, uint32_t *suspect);

/* What the other end says of itself, with DIA_MANNER_VALUES. */
enum {
    DIA_VALUE_HOST = 0,    /* Origin-Host, of its CER, or of its answer to the CER of this end */
    DIA_VALUE_REALM = 1,   /* Origin-Realm, of the same message */
    DIA_VALUE_PRODUCT = 2, /* Product-Name, of the same message; an error message has none */
    DIA_VALUE_RESULT = 3,  /* Result-Code of its answer: 4 bytes, in network byte order */
    DIA_VALUE_CAUSE = 4    /* Disconnect-Cause of its DPR: 4 bytes, in network byte order */
};

/* Copies out such a value, the data of the first AVP of its code: *count bytes are written. DIA_NONE: the other end has not said
 * it, or without DIA_MANNER_VALUES. DIA_NO_ROOM: the value has *count bytes. DIA_BAD_ARGUMENT: there is no such value. Takes no
 * memory. */
dia_status dia_peer_value(dia_peer *peer, uint32_t which, uint8_t *out, size_t out_len, size_t *count);

/* Closes the handle, and sends nothing to the other end. Takes no memory. */
void dia_peer_close(dia_peer *peer);

#ifdef __cplusplus
}
#endif
#endif
