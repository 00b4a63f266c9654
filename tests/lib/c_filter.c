/*
 * A filter's end of one connection on libdeiruska, which tests/test_c_library.py feeds and compares.
 *
 *     c_filter PIECE ACTIONS REFUSED <COMMANDS >REPLIES
 *
 * It reads what a mail server sends, and feeds it in pieces of PIECE bytes; the filter wants ACTIONS. It looks at all
 * that is shown at each question and answers Continue; where ACTIONS isn't 0 with an edit of each kind at the end of a
 * message, after it reported progress. The allocation of number REFUSED is refused, from 1; none where it is 0. What
 * failed for want of memory is done again, which shows that the first call changed nothing.
 *
 * Its last line on standard error has the state of the connection, and whether an allocation was refused. Its status is
 * 1 where something isn't as deiruska.h says. The linker has it call __wrap_malloc and __wrap_realloc.
 */
#include <deiruska.h>
#include <stdio.h>
#include <stdlib.h>
#include <string.h>

#define COMMANDS_MAX (1 << 25)

extern void *__real_malloc(size_t size);
extern void *__real_realloc(void *block, size_t size);
void *__wrap_malloc(size_t size);
void *__wrap_realloc(void *block, size_t size);

static unsigned long allocations, refused;

void *__wrap_malloc(size_t size) { return ++allocations == refused ? NULL : __real_malloc(size); }

void *__wrap_realloc(void *block, size_t size) {
    return ++allocations == refused ? NULL : __real_realloc(block, size);
}

static uint8_t commands[COMMANDS_MAX];
static unsigned int looked_at;

/* Ends the program where this isn't so. */
static void check(bool is_so, const char *what) {
    if (!is_so) {
        fprintf(stderr, "not so: %s\n", what);
        exit(1);
    }
}

/* Whether a call is to be made again, since memory was refused for it. */
static bool again(int32_t result) {
    bool is_memory = result == DEIRUSKA_NO_MEMORY || result == DEIRUSKA_ANSWER_NO_MEMORY;
    check(result == DEIRUSKA_OK || is_memory, "the call is done, or is refused memory");
    check(!is_memory || (refused != 0 && allocations >= refused), "an allocation was refused");
    return is_memory;
}

/* Makes a call again until it is done. */
#define DO(call)          \
    do {                  \
    } while (again(call))

#define TEXT(text) (const uint8_t *)(text), strlen(text)

/* Reads borrowed bytes, so that valgrind sees a read that isn't allowed. */
static void look_at(int32_t result, const deiruska_bytes *bytes) {
    check(result == DEIRUSKA_OK || result == DEIRUSKA_NOTHING, "what is shown is there, or isn't");
    for (size_t at = 0; result == DEIRUSKA_OK && at < bytes->len; at++)
        looked_at = looked_at * 31 + bytes->at[at];
}

static void look_at_lists(deiruska_filter *filter, size_t recipients, size_t headers) {
    deiruska_bytes out = DEIRUSKA_NO_BYTES;
    for (size_t at = 0; at < recipients; at++)
        look_at(deiruska_filter_recipient(filter, at, &out), &out);
    for (size_t at = 0; at < headers; at++) {
        look_at(deiruska_filter_header_name(filter, at, &out), &out);
        look_at(deiruska_filter_header_value(filter, at, &out), &out);
    }
    check(deiruska_filter_recipient(filter, recipients, &out) == DEIRUSKA_NOTHING, "there are no more recipients");
    check(deiruska_filter_header_name(filter, headers, &out) == DEIRUSKA_NOTHING, "there are no more header fields");
    check(deiruska_filter_header_value(filter, headers, &out) == DEIRUSKA_NOTHING, "there are no more values");
}

/* Looks at all that is shown. */
static void look(deiruska_filter *filter) {
    deiruska_bytes out = DEIRUSKA_NO_BYTES;
    uint32_t family = 0, port = 0;
    size_t recipients = 0, headers = 0;
    look_at(deiruska_filter_host(filter, &out), &out);
    look_at(deiruska_filter_address(filter, &out, &family, &port), &out);
    look_at(deiruska_filter_helo(filter, &out), &out);
    look_at(deiruska_filter_sender(filter, &out), &out);
    look_at(deiruska_filter_body(filter, &out), &out);
    look_at(deiruska_filter_macro(filter, TEXT("i"), &out), &out);
    check(deiruska_filter_recipients(filter, &recipients) == DEIRUSKA_OK, "recipients are counted");
    check(deiruska_filter_headers(filter, &headers) == DEIRUSKA_OK, "header fields are counted");
    look_at_lists(filter, recipients, headers);
}

/* Asks for an edit of each kind. */
static void edit(deiruska_answer *answer) {
    DO(deiruska_answer_add_header(answer, TEXT("X-Added"), TEXT("added")));
    DO(deiruska_answer_insert_header(answer, 0, TEXT("X-Top"), TEXT("inserted")));
    DO(deiruska_answer_change_header(answer, 1, TEXT("Subject"), TEXT("")));
    DO(deiruska_answer_change_sender(answer, TEXT("<changed@example.org>"), TEXT("RET=HDRS")));
    DO(deiruska_answer_add_recipient(answer, TEXT("<added@example.net>")));
    DO(deiruska_answer_delete_recipient(answer, TEXT("<bob@example.net>")));
    DO(deiruska_answer_replace_body(answer, TEXT("another body\r\n")));
    DO(deiruska_answer_replace_body(answer, TEXT("in two pieces\r\n")));
    DO(deiruska_answer_quarantine(answer, TEXT("looked at by a person")));
}

/* Answers the open question. */
static void decide(deiruska_filter *filter, bool edits) {
    deiruska_answer answer = DEIRUSKA_EMPTY;
    uint32_t stage = 0;
    int32_t result;
    check(deiruska_filter_asked(filter, &stage) == DEIRUSKA_OK, "a question is open");
    look(filter);
    if (edits && stage == DEIRUSKA_STAGE_EOB)
        DO(deiruska_filter_progress(filter));
    DO(deiruska_answer_new(&answer));
    do {
        DO(deiruska_answer_code(&answer, TEXT("550 5.7.1 No")));
        DO(deiruska_answer_verdict(&answer, DEIRUSKA_CONTINUE));
        if (edits && stage == DEIRUSKA_STAGE_EOB)
            edit(&answer);
        result = deiruska_filter_answer(filter, &answer);
    } while (again(result));
    check(deiruska_filter_answer(filter, &answer) == DEIRUSKA_ANSWER_NOT_ASKED, "no question is open any more");
    deiruska_free(&answer.handle);
    check(deiruska_answer_verdict(&answer, DEIRUSKA_CONTINUE) == DEIRUSKA_WRONG_KIND, "a freed handle is empty");
}

/* Writes what is pending, some bytes at a time. */
static void send_pending(deiruska_filter *filter, size_t piece) {
    deiruska_bytes out = DEIRUSKA_NO_BYTES;
    check(deiruska_filter_pending(filter, &out) == DEIRUSKA_OK && out.len > 0, "bytes are pending");
    size_t count = out.len < piece ? out.len : piece;
    check(fwrite(out.at, 1, count, stdout) == count, "standard output takes all");
    check(deiruska_filter_sent(filter, out.len + 1) == DEIRUSKA_BAD_ARGUMENT, "no more is sent than is pending");
    check(deiruska_filter_sent(filter, count) == DEIRUSKA_OK, "the bytes are sent");
}

/* Feeds a piece; how many bytes were taken, or none after a fault. */
static size_t feed(deiruska_filter *filter, const uint8_t *at, size_t len) {
    size_t taken = len + 1;
    int32_t result = deiruska_filter_feed(filter, at, len, &taken);
    check(result == deiruska_filter_state(filter) || result == DEIRUSKA_OK, "a fault is the state");
    check(taken <= len || result != DEIRUSKA_OK, "no more is taken than is there");
    check(result == DEIRUSKA_OK || taken == len + 1, "nothing is written after a fault");
    check(result != DEIRUSKA_FILTER_NO_MEMORY || (refused != 0 && allocations >= refused), "memory was refused");
    return result == DEIRUSKA_OK ? taken : 0;
}

/* Takes one step after the other, up to the end of the commands or of the connection. */
static void run(deiruska_filter *filter, size_t piece, size_t count, bool edits) {
    size_t at = 0;
    for (;;) {
        int32_t step = deiruska_filter_step(filter);
        if (step == DEIRUSKA_STEP_SEND) {
            send_pending(filter, piece);
        } else if (step == DEIRUSKA_STEP_ANSWER) {
            decide(filter, edits);
        } else if (step == DEIRUSKA_STEP_FEED && at < count) {
            at += feed(filter, commands + at, count - at < piece ? count - at : piece);
        } else {
            check(step == DEIRUSKA_STEP_DONE || step == DEIRUSKA_STEP_FEED, "the step is known");
            return;
        }
    }
}

int main(int words, char **word) {
    deiruska_filter filter = DEIRUSKA_EMPTY;
    check(words == 4, "there are three words");
    size_t piece = strtoul(word[1], NULL, 10), count = fread(commands, 1, COMMANDS_MAX, stdin);
    uint32_t actions = (uint32_t)strtoul(word[2], NULL, 0);
    refused = strtoul(word[3], NULL, 10);
    check(deiruska_filter_step(&filter) == DEIRUSKA_WRONG_KIND, "the handle is empty");
    DO(deiruska_filter_new(&filter, 6, actions, 0));
    run(&filter, piece, count, actions != 0);
    fflush(stdout);
    fprintf(stderr, "state %d%s\n", (int)deiruska_filter_state(&filter),
            refused != 0 && allocations >= refused ? ", an allocation was refused" : "");
    deiruska_free(&filter.handle);
    return 0;
}
