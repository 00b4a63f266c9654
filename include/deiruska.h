/*
 * deiruska.h: both ends of the milter protocol, versions 2 to 6, without input and output.
 *
 * The functions take bytes and have bytes to be sent: the socket, the thread and the event loop are the caller's. They
 * are compiled from Rattle, and each is proved to be memory safe, to return, and to do what its comment says, for every
 * caller that keeps the rules of this page. Their contracts stand in crates/milter_c/src; docs/C.md begins with a first
 * filter, and says what is proved and what the caller is trusted for.
 *
 * RULES FOR THE CALLER. Nothing checks them.
 *
 * 1. Handles. A handle is empty or has one object. Before its first use all its bytes are zero (DEIRUSKA_EMPTY). Its
 *    members are private: don't read or write them. A handle may be moved in memory, if the old place is not used
 *    again; it is never duplicated.
 * 2. Objects. A function that is given an empty handle, or one with an object of another kind, answers
 *    DEIRUSKA_WRONG_KIND and does nothing. An object is freed by deiruska_free, or where a function puts another one
 *    into its handle: one whose name ends in _new, deiruska_filter_new_by, deiruska_rules_read,
 *    deiruska_decoded_command or _reply.
 * 3. Bytes in. `at` points to `len` readable bytes, fewer than 2^63, which nobody writes during the call. It may be
 *    NULL where `len` is 0. What is kept of them is copied.
 * 4. Bytes out. A deiruska_bytes, deiruska_packet, deiruska_part or deiruska_edit is borrowed: its bytes are readable
 *    until the next call with the handle that it came from, or, where the function has no handle, until the caller's
 *    own bytes change. The caller neither writes nor frees them. They have no NUL at their end.
 * 5. Parameters. What a pointer points to is initialized before the call, also where it is only written:
 *    DEIRUSKA_NO_BYTES, DEIRUSKA_NO_PACKET, DEIRUSKA_NO_PART, DEIRUSKA_NO_EDIT, or 0 for a number. No pointer is NULL
 *    but one to bytes of which there are none. Two parameters never point to the same memory; in particular no handle
 *    is passed twice in one call.
 * 6. Threads. A handle is used by one thread at a time. It may go to another thread where the program orders this by a
 *    lock, or by the start or the end of a thread. Different handles may be used by different threads at once.
 * 7. No function is called from a signal handler, nor in the child of a fork of a process with several threads. No
 *    function calls back, starts a thread, takes a lock, waits, reads a clock, or does input or output.
 * 8. Memory comes from malloc, realloc and free, which are of one allocator. Each refused allocation is an answer.
 * 9. The processor is x86-64-v2 (SSE4.2, POPCNT), and the system is Linux. The code has no unwind tables.
 */
#ifndef DEIRUSKA_H
#define DEIRUSKA_H

#include <stdbool.h>
#include <stddef.h>
#include <stdint.h>

#ifdef __cplusplus
extern "C" {
#endif

/* ---- version ----------------------------------------------------------------------------------------------------- */

/* 65,536 times the major number, 256 times the minor number, and the patch. While the major number is 0, a new minor
   number may change anything. */
#define DEIRUSKA_VERSION 0x000100

/* Set in what deiruska_version answers where the library was built without its proof. */
#define DEIRUSKA_UNPROVED 0x80000000u

/* The DEIRUSKA_VERSION of the library that is linked, and DEIRUSKA_UNPROVED where that was built without its proof. */
uint32_t deiruska_version(void);

/* ---- answers of functions ---------------------------------------------------------------------------------------- */

/* Each function that has an int32_t answers DEIRUSKA_OK where it did all that its comment says. After any other number
   the objects are as they were, unless the comment says otherwise, and nothing was written through pointers. Treat a
   number that isn't here as a failure: later versions may have more. */
enum deiruska_result {
    DEIRUSKA_OK = 0,
    DEIRUSKA_NOTHING = 1,        /* what is asked for isn't there, or not yet */
    DEIRUSKA_WRONG_KIND = -1,    /* the handle is empty, or has an object of another kind */
    DEIRUSKA_NO_MEMORY = -2,     /* memory was refused */
    DEIRUSKA_BAD_ARGUMENT = -3,  /* a number is out of its range */

    /* A filter's end gives the connection up. */
    DEIRUSKA_FILTER_NOT_NEGOTIATED = 101,   /* a command came before the options */
    DEIRUSKA_FILTER_VERSION = 102,          /* the mail server offers a version below 2 */
    DEIRUSKA_FILTER_OUT_OF_ORDER = 103,     /* a command came after one of a later stage */
    DEIRUSKA_FILTER_TOO_MUCH = 104,         /* a connection and a message have more than 16,777,216 bytes of packets */
    DEIRUSKA_FILTER_WIRE = 105,             /* a packet can't be read */
    DEIRUSKA_FILTER_NEGOTIATED_TWICE = 106, /* the options came a second time */
    DEIRUSKA_FILTER_NO_MEMORY = 107,        /* memory was refused */

    /* A packet, or the length of one, can't be read. */
    DEIRUSKA_WIRE_ZERO_LENGTH = 201,
    DEIRUSKA_WIRE_TOO_LONG = 202,    /* above 65,536 */
    DEIRUSKA_WIRE_UNKNOWN_CODE = 203,
    DEIRUSKA_WIRE_MALFORMED = 204,   /* the payload isn't in the layout of the code */
    DEIRUSKA_WIRE_TRUNCATED = 205,
    DEIRUSKA_WIRE_NO_MEMORY = 206,

    /* An answer isn't taken. The question stays open. */
    DEIRUSKA_ANSWER_NOT_ASKED = 301,         /* no question is open */
    DEIRUSKA_ANSWER_EDITS_BEFORE_END = 302,  /* edits elsewhere than at the end of a message */
    DEIRUSKA_ANSWER_NOT_GIVEN_THERE = 303,   /* no verdict of this stage */
    DEIRUSKA_ANSWER_BAD_TEXT = 304,          /* a NUL, or a code without `4` or `5` and two digits at its beginning */
    DEIRUSKA_ANSWER_TOO_LONG = 305,          /* a reply has more bytes than a packet */
    DEIRUSKA_ANSWER_TOO_MUCH = 306,          /* the edits have more than 16,777,216 bytes of packets */
    DEIRUSKA_ANSWER_NOT_AT_END = 307,        /* the open question isn't about the end of a message */
    DEIRUSKA_ANSWER_NO_MEMORY = 308,

    /* What a filter wants breaks a rule. */
    DEIRUSKA_WANTS_VERSION = 401,  /* not from 2 to 6 */
    DEIRUSKA_WANTS_ACTION = 402,   /* an action bit that isn't known */
    DEIRUSKA_WANTS_PROTOCOL = 403, /* a protocol bit that isn't known */
    DEIRUSKA_WANTS_LISTS = 404,    /* symbol lists without the action for them */
    DEIRUSKA_WANTS_BAD_TEXT = 405, /* a NUL in the names of a symbol list */
    DEIRUSKA_WANTS_TOO_LONG = 406, /* more than a packet has room for */

    /* A rule file has no rules, by this fault of a line. */
    DEIRUSKA_RULES_UNKNOWN_WORD = 501,
    DEIRUSKA_RULES_BAD_STAGE = 502,
    DEIRUSKA_RULES_BAD_CONDITION = 503,
    DEIRUSKA_RULES_BAD_ACTION = 504,
    DEIRUSKA_RULES_ACTION_NOT_HERE = 505,
    DEIRUSKA_RULES_TOO_LARGE = 506,
    DEIRUSKA_RULES_NO_MEMORY = 507,
    DEIRUSKA_RULES_BAD_LIST = 508, /* the list of this line: a file with lists can't be read here */

    /* A call of a mail server's end is refused, and changes nothing. */
    DEIRUSKA_CALL_CLOSED = 601,       /* the connection has ended, or the filter was lost */
    DEIRUSKA_CALL_BUSY = 602,         /* the options have not come, something is to be sent, or a verdict is due */
    DEIRUSKA_CALL_OUT_OF_ORDER = 603, /* the command doesn't come here */
    DEIRUSKA_CALL_DOES_NOT_FIT = 604, /* the command or its macros are too long for a packet, or a text has a NUL */
    DEIRUSKA_CALL_NO_MEMORY = 605,

    /* The filter is lost. */
    DEIRUSKA_LOSS_RESET = 701,
    DEIRUSKA_LOSS_TIMEOUT = 702,
    DEIRUSKA_LOSS_NO_MEMORY = 703,
    DEIRUSKA_LOSS_WIRE = 711,                 /* a packet can't be read */
    DEIRUSKA_LOSS_VERSION = 712,              /* a version below 2, above 6 or above the offered one */
    DEIRUSKA_LOSS_ACTIONS_NOT_OFFERED = 713,
    DEIRUSKA_LOSS_PROTOCOL_NOT_OFFERED = 714,
    DEIRUSKA_LOSS_NOT_AT_THIS_STAGE = 715,    /* the reply is none to what was sent */
    DEIRUSKA_LOSS_EDIT_NOT_NEGOTIATED = 716,
    DEIRUSKA_LOSS_TOO_MANY_EDITS = 717,       /* more than 16,777,216 bytes of packets */
    DEIRUSKA_LOSS_EARLY = 718,                /* something came while no reply was owed */

    DEIRUSKA_MESSAGE_DOES_NOT_FIT = 801 /* a part of a message is too long for a packet, or has a NUL */
};

/* ---- types ------------------------------------------------------------------------------------------------------- */

/* Bytes that are borrowed (rule 4). */
typedef struct {
    const uint8_t *at;
    size_t len;
} deiruska_bytes;

/* A packet that is borrowed: its code, and the payload after the code. */
typedef struct {
    const uint8_t *at;
    size_t len;
    uint8_t code;
} deiruska_packet;

/* A part of a command or a reply that is borrowed: its texts and its numbers. What it doesn't have is empty, or 0. */
typedef struct {
    deiruska_bytes first;
    deiruska_bytes second;
    uint32_t kind;
    uint32_t number;
} deiruska_part;

/* An edit that is borrowed: its texts, which edit it is (a deiruska_edit_kind), and its index. */
typedef struct {
    deiruska_bytes first;
    deiruska_bytes second;
    uint32_t kind;
    uint32_t index;
} deiruska_edit;

#define DEIRUSKA_NO_BYTES {(const uint8_t *)"", 0}
#define DEIRUSKA_NO_PACKET {(const uint8_t *)"", 0, 0}
#define DEIRUSKA_NO_PART {DEIRUSKA_NO_BYTES, DEIRUSKA_NO_BYTES, 0, 0}
#define DEIRUSKA_NO_EDIT {DEIRUSKA_NO_BYTES, DEIRUSKA_NO_BYTES, 0, 0}

/* A handle (rules 1 and 2). Each kind of object has a type of its own, so that compilers distinguish them. */
typedef struct {
    void *private_at;
    bool private_full;
} deiruska_handle;

typedef struct { deiruska_handle handle; } deiruska_stream;
typedef struct { deiruska_handle handle; } deiruska_decoded;
typedef struct { deiruska_handle handle; } deiruska_trace;
typedef struct { deiruska_handle handle; } deiruska_filter;
typedef struct { deiruska_handle handle; } deiruska_answer;
typedef struct { deiruska_handle handle; } deiruska_rules;
typedef struct { deiruska_handle handle; } deiruska_mta;
typedef struct { deiruska_handle handle; } deiruska_message;

#define DEIRUSKA_EMPTY {{NULL, false}}

/* Frees the object of a handle of any kind; the handle is empty then. An empty one stays so.
   deiruska_free(&filter.handle). */
void deiruska_free(deiruska_handle *handle);

/* ---- stages, steps, verdicts ------------------------------------------------------------------------------------- */

/* The stages of a connection and of its messages, in their order. */
enum deiruska_stage {
    DEIRUSKA_STAGE_CONNECT = 1,
    DEIRUSKA_STAGE_HELO = 2,
    DEIRUSKA_STAGE_MAIL = 3,
    DEIRUSKA_STAGE_RCPT = 4,
    DEIRUSKA_STAGE_DATA = 5,
    DEIRUSKA_STAGE_HEADER = 6,
    DEIRUSKA_STAGE_EOH = 7,
    DEIRUSKA_STAGE_BODY = 8,
    DEIRUSKA_STAGE_EOB = 9
};

/* What the caller of a filter's end does next. */
enum deiruska_step {
    DEIRUSKA_STEP_FEED = 0,   /* deiruska_filter_feed, with bytes of the mail server */
    DEIRUSKA_STEP_SEND = 1,   /* send what deiruska_filter_pending has, and then deiruska_filter_sent */
    DEIRUSKA_STEP_ANSWER = 2, /* deiruska_filter_answer, when it can; deiruska_filter_asked has the stage */
    DEIRUSKA_STEP_DONE = 3    /* close: the mail server has quit, or the connection was given up */
};

enum deiruska_verdict {
    DEIRUSKA_CONTINUE = 0,
    DEIRUSKA_ACCEPT = 1,
    DEIRUSKA_REJECT = 2,
    DEIRUSKA_TEMPFAIL = 3,
    DEIRUSKA_DISCARD = 4, /* not at connect and helo */
    DEIRUSKA_SKIP = 5,    /* at body alone: no more of this body is sent */
    DEIRUSKA_CODE = 6     /* a refusal with a text: deiruska_answer_code gives it, deiruska_mta_verdict reads it */
};

/* The family of a client's address. */
enum deiruska_family {
    DEIRUSKA_FAMILY_UNKNOWN = 0,
    DEIRUSKA_FAMILY_UNIX = 1,
    DEIRUSKA_FAMILY_INET = 2,
    DEIRUSKA_FAMILY_INET6 = 3
};

/* What a filter may do (SMFIF_ of mfapi.h). */
#define DEIRUSKA_ACTION_ADDHDRS 0x01u
#define DEIRUSKA_ACTION_CHGBODY 0x02u
#define DEIRUSKA_ACTION_ADDRCPT 0x04u
#define DEIRUSKA_ACTION_DELRCPT 0x08u
#define DEIRUSKA_ACTION_CHGHDRS 0x10u
#define DEIRUSKA_ACTION_QUARANTINE 0x20u
#define DEIRUSKA_ACTION_CHGFROM 0x40u
#define DEIRUSKA_ACTION_ADDRCPT_PAR 0x80u
#define DEIRUSKA_ACTION_SETSYMLIST 0x100u

/* What isn't sent, what isn't answered, and how (SMFIP_ of mfapi.h). */
#define DEIRUSKA_PROTOCOL_NOCONNECT 0x000001u
#define DEIRUSKA_PROTOCOL_NOHELO 0x000002u
#define DEIRUSKA_PROTOCOL_NOMAIL 0x000004u
#define DEIRUSKA_PROTOCOL_NORCPT 0x000008u
#define DEIRUSKA_PROTOCOL_NOBODY 0x000010u
#define DEIRUSKA_PROTOCOL_NOHDRS 0x000020u
#define DEIRUSKA_PROTOCOL_NOEOH 0x000040u
#define DEIRUSKA_PROTOCOL_NR_HDR 0x000080u
#define DEIRUSKA_PROTOCOL_NOUNKNOWN 0x000100u
#define DEIRUSKA_PROTOCOL_NODATA 0x000200u
#define DEIRUSKA_PROTOCOL_SKIP 0x000400u
#define DEIRUSKA_PROTOCOL_NR_CONN 0x001000u
#define DEIRUSKA_PROTOCOL_NR_HELO 0x002000u
#define DEIRUSKA_PROTOCOL_NR_MAIL 0x004000u
#define DEIRUSKA_PROTOCOL_NR_RCPT 0x008000u
#define DEIRUSKA_PROTOCOL_NR_DATA 0x010000u
#define DEIRUSKA_PROTOCOL_NR_UNKN 0x020000u
#define DEIRUSKA_PROTOCOL_NR_EOH 0x040000u
#define DEIRUSKA_PROTOCOL_NR_BODY 0x080000u
#define DEIRUSKA_PROTOCOL_HDR_LEADSPC 0x100000u

/* ---- packets ----------------------------------------------------------------------------------------------------- */

/* The packet that the bytes begin with, where it is whole: out->len + 5 of them. DEIRUSKA_NOTHING: it isn't whole, or
   its length is at fault (a deiruska_stream says which). */
int32_t deiruska_packet_first(const uint8_t *at, size_t len, deiruska_packet *out);

/* An empty stream of packets. */
int32_t deiruska_stream_new(deiruska_stream *stream);
/* Takes bytes from the start of a piece, up to the end of the first packet that is whole then, and says how many. None
   are taken while a whole packet waits for deiruska_stream_next. */
int32_t deiruska_stream_feed(deiruska_stream *stream, const uint8_t *at, size_t len, size_t *taken);
/* Hands the next packet out, where it is whole, and else DEIRUSKA_NOTHING. DEIRUSKA_WIRE_ZERO_LENGTH and _TOO_LONG: the
   length of the next packet is at fault, now and from now on. */
int32_t deiruska_stream_next(deiruska_stream *stream, deiruska_packet *out);

/* Decodes a packet to a filter, of this code and this payload, or a packet of a filter, and keeps its command or reply.
   DEIRUSKA_WIRE_UNKNOWN_CODE, _MALFORMED, _TOO_LONG: it has none. DEIRUSKA_NO_MEMORY or DEIRUSKA_WIRE_NO_MEMORY: memory
   was refused. */
int32_t deiruska_decoded_command(deiruska_decoded *decoded, uint8_t code, const uint8_t *at, size_t len);
int32_t deiruska_decoded_reply(deiruska_decoded *decoded, uint8_t code, const uint8_t *at, size_t len);
/* The part at a place, from 0, in the order of the payload; DEIRUSKA_NOTHING after the last one. A packet of the code O
   has three numbers, the version, the actions and the protocol bits; in a reply the symbol lists follow, each with its
   names in `first` and the `number` of its stage. C has one part, the host in `first`, the address in `second`, its
   deiruska_family in `kind` and the port in `number`. D has the code of the command that its macros belong to, a
   `number`, and then for each macro its name and its value. M and R have the address, and then each ESMTP parameter. L,
   h, i and m have one part, the name and the value of a header field, for i and m with the index in `number`. 2 and e
   have one part, the address, and where `kind` is 1 its ESMTP parameters in `second`. H, U, B, E, +, -, b, q and y have
   one text in `first`, and other packets have no part. */
int32_t deiruska_decoded_part(deiruska_decoded *decoded, size_t place, deiruska_part *out);

/* Which end bytes go to. */
enum deiruska_direction {
    DEIRUSKA_TO_FILTER = 0,
    DEIRUSKA_TO_MTA = 1
};

/* A trace of a connection of which nothing has come: for each packet a line, as `milter_tool trace` prints it. */
int32_t deiruska_trace_new(deiruska_trace *trace);
/* Adds the lines of the packets that become whole with these bytes, which go to an end, a deiruska_direction, and may
   end within a packet. A number from 201: a packet can't be read, and the lines before it were added.
   DEIRUSKA_NO_MEMORY: there are no lines. After either nothing more is printed, and later calls answer the same. */
int32_t deiruska_trace_feed(deiruska_trace *trace, uint32_t direction, const uint8_t *at, size_t len);
/* The lines since the last deiruska_trace_clear, each with its line feed. */
int32_t deiruska_trace_text(deiruska_trace *trace, deiruska_bytes *out);
int32_t deiruska_trace_clear(deiruska_trace *trace);

/* ---- a filter's end of a connection ------------------------------------------------------------------------------ */

/* A connection of which nothing has come, of a filter that wants this version (2 to 6), these actions and protocol
   bits. It takes commands as Sendmail and Postfix send them: a command out of order is preceded by an abort. After a
   number from 401 the handle is as it was. */
int32_t deiruska_filter_new(deiruska_filter *filter, uint32_t version, uint32_t actions, uint32_t protocol);
/* Asks for macros before the commands of a stage, by their names with blanks between them, beside those that were asked
   for before; the filter's actions need DEIRUSKA_ACTION_SETSYMLIST. The connection begins again, so call it first.
   DEIRUSKA_BAD_ARGUMENT: no stage, or header or body, before which no macros are sent. */
int32_t deiruska_filter_ask_macros(deiruska_filter *filter, uint32_t stage, const uint8_t *at, size_t len);
/* Begins again, for another connection of the same filter; keeps memory. */
int32_t deiruska_filter_restart(deiruska_filter *filter);
/* A deiruska_step, or DEIRUSKA_WRONG_KIND. */
int32_t deiruska_filter_step(deiruska_filter *filter);
/* Takes bytes from the start of a piece of what the mail server sent, and says how many: up to the end of the first
   packet that has a reply or a question; none while a reply is pending or a question is open; all, and does nothing
   with them, after the mail server has quit. A number from 101: the connection is given up, now and from now on. */
int32_t deiruska_filter_feed(deiruska_filter *filter, const uint8_t *at, size_t len, size_t *taken);
/* The stage of the question that is open, a deiruska_stage; DEIRUSKA_NOTHING where none is open. */
int32_t deiruska_filter_asked(deiruska_filter *filter, uint32_t *stage);
/* The bytes that are to be sent; none where out->len is 0. */
int32_t deiruska_filter_pending(deiruska_filter *filter, deiruska_bytes *out);
/* The first `count` of these were sent. DEIRUSKA_BAD_ARGUMENT: there are fewer. */
int32_t deiruska_filter_sent(deiruska_filter *filter, size_t count);
/* How many bytes of a packet that isn't whole were taken. */
int32_t deiruska_filter_unread(deiruska_filter *filter, size_t *count);
/* DEIRUSKA_OK: it goes on. DEIRUSKA_NOTHING: the mail server has quit. A number from 101: why it was given up. */
int32_t deiruska_filter_state(deiruska_filter *filter);
/* Frees the 65,540 bytes for one packet where no packet has begun: for a connection that is idle. */
int32_t deiruska_filter_release(deiruska_filter *filter);
/* Answers the open question by what the answer's handle has, which is then Continue without edits. After a number from
   301 the question is still open; the answer's handle is then Continue without edits too. */
int32_t deiruska_filter_answer(deiruska_filter *filter, deiruska_answer *answer);
/* Reports progress, while the end of a message is asked about: the mail server waits anew for the answer. */
int32_t deiruska_filter_progress(deiruska_filter *filter);

/* ---- what a filter is shown -------------------------------------------------------------------------------------- */

/* Of the connection, and of the message up to the last command that came. DEIRUSKA_NOTHING: there is none, or not
   yet. */

/* The name of the client's host, as the mail server has it. */
int32_t deiruska_filter_host(deiruska_filter *filter, deiruska_bytes *out);
/* The client's address as text, its family (a deiruska_family) and its port. DEIRUSKA_NOTHING: none, or unknown. */
int32_t deiruska_filter_address(deiruska_filter *filter, deiruska_bytes *out, uint32_t *family, uint32_t *port);
/* The name that the client gave at HELO or EHLO. */
int32_t deiruska_filter_helo(deiruska_filter *filter, deiruska_bytes *out);
/* The address of the sender, with its angle brackets. */
int32_t deiruska_filter_sender(deiruska_filter *filter, deiruska_bytes *out);
/* How many recipients came, and the address of the one at a place, from 0. */
int32_t deiruska_filter_recipients(deiruska_filter *filter, size_t *count);
int32_t deiruska_filter_recipient(deiruska_filter *filter, size_t place, deiruska_bytes *out);
/* How many header fields came, and the name and the value of the one at a place, from 0. */
int32_t deiruska_filter_headers(deiruska_filter *filter, size_t *count);
int32_t deiruska_filter_header_name(deiruska_filter *filter, size_t place, deiruska_bytes *out);
int32_t deiruska_filter_header_value(deiruska_filter *filter, size_t place, deiruska_bytes *out);
/* The body so far; DEIRUSKA_OK without bytes where none came. */
int32_t deiruska_filter_body(deiruska_filter *filter, deiruska_bytes *out);
/* The last value of a macro, by its name as the mail server sends it: `i` or `{auth_authen}`. */
int32_t deiruska_filter_macro(deiruska_filter *filter, const uint8_t *at, size_t len, deiruska_bytes *out);

/* ---- answers ----------------------------------------------------------------------------------------------------- */

/* An answer: Continue, without edits. */
int32_t deiruska_answer_new(deiruska_answer *answer);
/* Sets the verdict, a deiruska_verdict. DEIRUSKA_BAD_ARGUMENT: no such verdict. */
int32_t deiruska_answer_verdict(deiruska_answer *answer, uint32_t verdict);
/* Sets the verdict to a refusal with this text: three digits, of which the first is 4 or 5, a blank, and more. Whether
   it has that form is checked by deiruska_filter_answer. */
int32_t deiruska_answer_code(deiruska_answer *answer, const uint8_t *at, size_t len);

/* Each of these asks for one edit more, after those before. Edits come at the end of a message alone, and those that
   were not negotiated aren't sent. Sources: smfi_addheader and the others of mfapi.h. */

/* A header field after the others. */
int32_t deiruska_answer_add_header(deiruska_answer *answer, const uint8_t *name, size_t name_len,
                                   const uint8_t *value, size_t value_len);
/* `index` is the number of header fields before it. */
int32_t deiruska_answer_insert_header(deiruska_answer *answer, uint32_t index, const uint8_t *name, size_t name_len,
                                      const uint8_t *value, size_t value_len);
/* `index` counts the header fields of this name from 1; an empty value deletes the field. */
int32_t deiruska_answer_change_header(deiruska_answer *answer, uint32_t index, const uint8_t *name, size_t name_len,
                                      const uint8_t *value, size_t value_len);
/* Another sender, without ESMTP parameters where there are none. */
int32_t deiruska_answer_change_sender(deiruska_answer *answer, const uint8_t *address, size_t address_len,
                                      const uint8_t *parameters, size_t parameters_len);
/* A recipient more, and one less: those whose address is this, as the mail server showed it. */
int32_t deiruska_answer_add_recipient(deiruska_answer *answer, const uint8_t *at, size_t len);
int32_t deiruska_answer_delete_recipient(deiruska_answer *answer, const uint8_t *at, size_t len);
/* A chunk of another body: the first one replaces the body, each later one is appended. */
int32_t deiruska_answer_replace_body(deiruska_answer *answer, const uint8_t *at, size_t len);
/* The message goes into quarantine, for this reason. */
int32_t deiruska_answer_quarantine(deiruska_answer *answer, const uint8_t *at, size_t len);

/* ---- rules ------------------------------------------------------------------------------------------------------- */

/* Reads the rules of a rule file. A number from 501: the file has none, and *line is the line at fault, from 1; or 0
   with DEIRUSKA_RULES_NO_MEMORY. A file that names lists can't be read here, by DEIRUSKA_RULES_BAD_LIST. */
int32_t deiruska_rules_read(deiruska_rules *rules, const uint8_t *at, size_t len, uint64_t *line);
/* A connection of which nothing has come, of a filter that wants what the rules do. */
int32_t deiruska_filter_new_by(deiruska_filter *filter, deiruska_rules *rules);
/* Answers the open question as the rules decide; where none is open it does nothing. Rules may be read again or freed
   while connections go on that were answered by them. */
int32_t deiruska_filter_answer_by(deiruska_filter *filter, deiruska_rules *rules);

/* ---- a mail server's end of a connection to a filter ------------------------------------------------------------- */

/* What the mail server does next. */
enum deiruska_want {
    DEIRUSKA_WANT_SEND = 0,    /* send what deiruska_mta_pending has, and then deiruska_mta_sent */
    DEIRUSKA_WANT_RECEIVE = 1, /* deiruska_mta_feed, with bytes of the filter */
    DEIRUSKA_WANT_COMMAND = 2, /* call with the client's next command, once there is one */
    DEIRUSKA_WANT_NOTHING = 3  /* close: the connection has ended, or the filter was lost */
};

/* What came of a call. */
enum deiruska_outcome {
    DEIRUSKA_OUTCOME_LEFT_OUT = 0,   /* nothing is sent, and no verdict comes */
    DEIRUSKA_OUTCOME_NO_REPLY = 1,   /* what is pending is to be sent, and no verdict comes */
    DEIRUSKA_OUTCOME_VERDICT_DUE = 2 /* what is pending is to be sent, and a verdict comes */
};

/* What the filter sent last. */
enum deiruska_event {
    DEIRUSKA_EVENT_NOTHING = 0,     /* no whole reply */
    DEIRUSKA_EVENT_IN_PROGRESS = 1, /* an edit, or progress: begin anew to wait for the verdict */
    DEIRUSKA_EVENT_NEGOTIATED = 2,  /* the options */
    DEIRUSKA_EVENT_VERDICT = 3      /* the verdict that was due */
};

/* Which edit it is. `first` and `second` are the name and the value of a header field, or an address and its ESMTP
   parameters; of the others `first` alone is used. */
enum deiruska_edit_kind {
    DEIRUSKA_EDIT_ADD_HEADER = 1,
    DEIRUSKA_EDIT_INSERT_HEADER = 2, /* `index` is the number of header fields before it */
    DEIRUSKA_EDIT_CHANGE_HEADER = 3, /* `index` counts the fields of this name from 1; an empty value deletes */
    DEIRUSKA_EDIT_ADD_RECIPIENT = 4,
    DEIRUSKA_EDIT_ADD_RECIPIENT_PARAMETERS = 5,
    DEIRUSKA_EDIT_DELETE_RECIPIENT = 6,
    DEIRUSKA_EDIT_CHANGE_SENDER = 7,
    DEIRUSKA_EDIT_REPLACE_BODY = 8, /* a chunk: the first one replaces the body, each later one is appended */
    DEIRUSKA_EDIT_QUARANTINE = 9,
    DEIRUSKA_EDIT_PROGRESS = 10 /* no change */
};

/* A connection that was just made: its offer, of this version, these actions and protocol bits, is pending. */
int32_t deiruska_mta_new(deiruska_mta *mta, uint32_t version, uint32_t actions, uint32_t protocol);
/* A deiruska_want, or DEIRUSKA_WRONG_KIND. */
int32_t deiruska_mta_want(deiruska_mta *mta);
/* The bytes that are to be sent; none where out->len is 0. */
int32_t deiruska_mta_pending(deiruska_mta *mta, deiruska_bytes *out);
/* The first `count` bytes of what is pending were sent. DEIRUSKA_BAD_ARGUMENT: there are fewer. */
int32_t deiruska_mta_sent(deiruska_mta *mta, size_t count);
/* Takes a piece of what the filter sent, all of it. A number from 701: the filter is lost; deiruska_mta_event has what
   came before that. */
int32_t deiruska_mta_feed(deiruska_mta *mta, const uint8_t *at, size_t len);
/* The last event of the last piece, a deiruska_event, or DEIRUSKA_WRONG_KIND. */
int32_t deiruska_mta_event(deiruska_mta *mta);
/* The verdict of the last event, a deiruska_verdict, and the text of DEIRUSKA_CODE. DEIRUSKA_NOTHING: it was none. */
int32_t deiruska_mta_verdict(deiruska_mta *mta, uint32_t *verdict, deiruska_bytes *text);
/* What was negotiated. DEIRUSKA_NOTHING: nothing yet. */
int32_t deiruska_mta_negotiated(deiruska_mta *mta, uint32_t *version, uint32_t *actions, uint32_t *protocol);
/* DEIRUSKA_OK where a message is under way that no verdict ended, and else DEIRUSKA_NOTHING: where the filter is lost
   the default action is for such a message. Ask before deiruska_mta_lost and _feed. */
int32_t deiruska_mta_is_under_way(deiruska_mta *mta);
/* The filter is lost, by a broken connection or a timeout: nothing is pending, and each call is refused. */
int32_t deiruska_mta_lost(deiruska_mta *mta);
/* Frees the 65,540 bytes for one packet where no packet has begun. */
int32_t deiruska_mta_release(deiruska_mta *mta);

/* Gives a macro for the next call, and an ESMTP parameter for the next sender or recipient. A call that isn't refused
   takes them, also where it has no use for them; after one that is refused they are still there. */
int32_t deiruska_mta_macro(deiruska_mta *mta, const uint8_t *name, size_t name_len, const uint8_t *value,
                           size_t value_len);
int32_t deiruska_mta_parameter(deiruska_mta *mta, const uint8_t *at, size_t len);

/* Drops the macros and the parameters that were given for the next call. */
int32_t deiruska_mta_clear(deiruska_mta *mta);

/* What the client did, each with its deiruska_outcome. A number from 601: the call is refused, and nothing changes. */

/* It has connected, from this host and address, whose family is a deiruska_family. DEIRUSKA_BAD_ARGUMENT: it isn't. */
int32_t deiruska_mta_connect(deiruska_mta *mta, const uint8_t *host, size_t host_len, uint32_t family, uint16_t port,
                             const uint8_t *address, size_t address_len, uint32_t *outcome);
/* It has sent HELO or EHLO, the sender of a message, a recipient, and DATA. */
int32_t deiruska_mta_helo(deiruska_mta *mta, const uint8_t *at, size_t len, uint32_t *outcome);
int32_t deiruska_mta_mail(deiruska_mta *mta, const uint8_t *at, size_t len, uint32_t *outcome);
int32_t deiruska_mta_rcpt(deiruska_mta *mta, const uint8_t *at, size_t len, uint32_t *outcome);
int32_t deiruska_mta_data(deiruska_mta *mta, uint32_t *outcome);
/* A header field, with the blank that its value begins with. */
int32_t deiruska_mta_header(deiruska_mta *mta, const uint8_t *name, size_t name_len, const uint8_t *value,
                            size_t value_len, uint32_t *outcome);
/* The header has ended. */
int32_t deiruska_mta_eoh(deiruska_mta *mta, uint32_t *outcome);
/* A chunk of the body, of at most 65,535 bytes. */
int32_t deiruska_mta_body(deiruska_mta *mta, const uint8_t *at, size_t len, uint32_t *outcome);
/* The message has ended. */
int32_t deiruska_mta_end(deiruska_mta *mta, uint32_t *outcome);
/* A command that the mail server doesn't know. */
int32_t deiruska_mta_unknown(deiruska_mta *mta, const uint8_t *at, size_t len, uint32_t *outcome);
/* The message is given up, and the connection goes on; and the client has ended the connection. */
int32_t deiruska_mta_abort(deiruska_mta *mta, uint32_t *outcome);
int32_t deiruska_mta_quit(deiruska_mta *mta, uint32_t *outcome);

/* How many edits the answer to the end of a message has, and the one at a place, from 0: until the next call for what
   the client did that isn't refused. */
int32_t deiruska_mta_edits(deiruska_mta *mta, size_t *count);
int32_t deiruska_mta_edit(deiruska_mta *mta, size_t place, deiruska_edit *out);

/* ---- messages ---------------------------------------------------------------------------------------------------- */

/* A message of this sender, with nothing else. DEIRUSKA_MESSAGE_DOES_NOT_FIT, here and below: the part is too long for
   a packet, or has a NUL. */
int32_t deiruska_message_new(deiruska_message *message, const uint8_t *address, size_t address_len);
/* Adds a recipient, without ESMTP parameters, and a header field, with the blank that its value begins with, after the
   others, and bytes of the body after those before. */
int32_t deiruska_message_add_recipient(deiruska_message *message, const uint8_t *at, size_t len);
int32_t deiruska_message_add_header(deiruska_message *message, const uint8_t *name, size_t name_len,
                                    const uint8_t *value, size_t value_len);
int32_t deiruska_message_add_body(deiruska_message *message, const uint8_t *at, size_t len);
/* Makes the edits of the answer to the end of the message, one after the other, as libmilter's documentation has them.
   It may be called until the next call for what the client did that isn't refused. */
int32_t deiruska_message_edit(deiruska_message *message, deiruska_mta *mta);

/* The address of the sender; how many recipients there are, and the address of the one at a place, from 0; the header
   fields; the body; and why the message goes into quarantine. DEIRUSKA_NOTHING: there is none. */
int32_t deiruska_message_sender(deiruska_message *message, deiruska_bytes *out);
int32_t deiruska_message_recipients(deiruska_message *message, size_t *count);
int32_t deiruska_message_recipient(deiruska_message *message, size_t place, deiruska_bytes *out);
int32_t deiruska_message_headers(deiruska_message *message, size_t *count);
int32_t deiruska_message_header_name(deiruska_message *message, size_t place, deiruska_bytes *out);
int32_t deiruska_message_header_value(deiruska_message *message, size_t place, deiruska_bytes *out);
int32_t deiruska_message_body(deiruska_message *message, deiruska_bytes *out);
int32_t deiruska_message_quarantine(deiruska_message *message, deiruska_bytes *out);

#ifdef __cplusplus
}
#endif
#endif
