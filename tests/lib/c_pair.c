/*
 * A mail server's end and a filter's end on libdeiruska, which exchange packets in memory, for tests/test_c_library.py:
 * rules answer the filter's end.
 *
 *     c_pair RULES REFUSED
 *
 * RULES is a rule file. A message is shown to the filter, and its edits, the last verdict and the edited message are
 * printed. The allocation of number REFUSED is refused, from 1; none where it is 0. What failed for want of memory is
 * done again, which shows that the first call changed nothing, but where an end is given up for it.
 *
 * Its last line on standard error says how it ended, and whether an allocation was refused. Its status is 1 where
 * something isn't as deiruska.h says. The linker has it call __wrap_malloc and __wrap_realloc.
 */
#include <deiruska.h>
#include <stdio.h>
#include <stdlib.h>
#include <string.h>

#define TEXT(text) (const uint8_t *)(text), strlen(text)
#define RULES_MAX 65536
#define PIECE 7

extern void *__real_malloc(size_t size);
extern void *__real_realloc(void *block, size_t size);
void *__wrap_malloc(size_t size);
void *__wrap_realloc(void *block, size_t size);

static unsigned long allocations, refused;
static deiruska_rules rules = DEIRUSKA_EMPTY;
static deiruska_filter filter = DEIRUSKA_EMPTY;
static deiruska_mta mta = DEIRUSKA_EMPTY;
static deiruska_message message = DEIRUSKA_EMPTY;
static uint32_t outcome;

void *__wrap_malloc(size_t size) { return ++allocations == refused ? NULL : __real_malloc(size); }

void *__wrap_realloc(void *block, size_t size) {
    return ++allocations == refused ? NULL : __real_realloc(block, size);
}

static bool was_refused(void) { return refused != 0 && allocations >= refused; }

static int end(const char *how) {
    deiruska_free(&message.handle);
    deiruska_free(&mta.handle);
    deiruska_free(&filter.handle);
    deiruska_free(&rules.handle);
    fflush(stdout);
    fprintf(stderr, "%s%s\n", how, was_refused() ? ", an allocation was refused" : "");
    return strncmp(how, "not so", 6) == 0;
}

static void check(bool is_so, const char *what) {
    if (!is_so)
        exit(end(what));
}

/* Whether a call is to be made again, since memory was refused for it. */
static bool again(int32_t result) {
    bool is_memory = result == DEIRUSKA_NO_MEMORY || result == DEIRUSKA_RULES_NO_MEMORY ||
                     result == DEIRUSKA_CALL_NO_MEMORY;
    check(result == DEIRUSKA_OK || is_memory, "not so: the call is done, or is refused memory");
    check(!is_memory || was_refused(), "not so: an allocation was refused");
    return is_memory;
}

/* Makes a call again until it is done. */
#define DO(call)          \
    do {                  \
    } while (again(call))

/* Gives what one end has to send to the other one, some bytes at a time. */
static void send_to_filter(void) {
    deiruska_bytes out = DEIRUSKA_NO_BYTES;
    size_t taken = 0;
    DO(deiruska_mta_pending(&mta, &out));
    int32_t result = deiruska_filter_feed(&filter, out.at, out.len < PIECE ? out.len : PIECE, &taken);
    check(result != DEIRUSKA_FILTER_NO_MEMORY, "the filter's end is given up");
    check(result == DEIRUSKA_OK, "not so: the filter's end takes what the mail server's end sends");
    DO(deiruska_mta_sent(&mta, taken));
}

static void send_to_mta(void) {
    deiruska_bytes out = DEIRUSKA_NO_BYTES;
    DO(deiruska_filter_pending(&filter, &out));
    size_t count = out.len < PIECE ? out.len : PIECE;
    int32_t result = deiruska_mta_feed(&mta, out.at, count);
    check(result != DEIRUSKA_LOSS_NO_MEMORY, "the filter is lost");
    check(result == DEIRUSKA_OK, "not so: the mail server's end takes what the filter's end sends");
    DO(deiruska_filter_sent(&filter, count));
}

/* Goes on until the mail server's end wants the next call, or has ended. */
static void exchange(void) {
    int32_t want;
    while ((want = deiruska_mta_want(&mta)) == DEIRUSKA_WANT_SEND || want == DEIRUSKA_WANT_RECEIVE) {
        switch (deiruska_filter_step(&filter)) {
        case DEIRUSKA_STEP_SEND:
            send_to_mta();
            break;
        case DEIRUSKA_STEP_ANSWER:
            DO(deiruska_filter_answer_by(&filter, &rules));
            break;
        default:
            check(want == DEIRUSKA_WANT_SEND, "not so: the filter's end has what the mail server's end wants");
            send_to_filter();
        }
    }
}

/* Makes a call, and exchanges what it has to be sent. */
#define CALL(call)    \
    do {              \
        DO(call);     \
        exchange();   \
    } while (false)

static void show_message(void) {
    DO(deiruska_mta_macro(&mta, TEXT("j"), TEXT("mx.example.net")));
    CALL(deiruska_mta_connect(&mta, TEXT("mail.example.org"), DEIRUSKA_FAMILY_INET, 25, TEXT("192.0.2.17"), &outcome));
    CALL(deiruska_mta_helo(&mta, TEXT("mail.example.org"), &outcome));
    DO(deiruska_mta_macro(&mta, TEXT("i"), TEXT("4F1A2B3C")));
    DO(deiruska_mta_parameter(&mta, TEXT("SIZE=100")));
    DO(deiruska_mta_parameter(&mta, TEXT("BODY=8BITMIME")));
    CALL(deiruska_mta_mail(&mta, TEXT("<ada@example.org>"), &outcome));
    CALL(deiruska_mta_rcpt(&mta, TEXT("<bob@example.net>"), &outcome));
    CALL(deiruska_mta_data(&mta, &outcome));
    CALL(deiruska_mta_header(&mta, TEXT("Subject"), TEXT(" first"), &outcome));
    CALL(deiruska_mta_unknown(&mta, TEXT("XYZ"), &outcome));
    CALL(deiruska_mta_eoh(&mta, &outcome));
    CALL(deiruska_mta_body(&mta, TEXT("a body\r\n"), &outcome));
    CALL(deiruska_mta_end(&mta, &outcome));
}

static void print_answer(void) {
    deiruska_edit edit = DEIRUSKA_NO_EDIT;
    deiruska_bytes text = DEIRUSKA_NO_BYTES;
    uint32_t verdict = 0;
    for (size_t at = 0; deiruska_mta_edit(&mta, at, &edit) == DEIRUSKA_OK; at++)
        printf("%u %u \"%.*s\" \"%.*s\"\n", (unsigned)edit.kind, (unsigned)edit.index, (int)edit.first.len,
               (const char *)edit.first.at, (int)edit.second.len, (const char *)edit.second.at);
    check(deiruska_mta_verdict(&mta, &verdict, &text) == DEIRUSKA_OK, "not so: a verdict came");
    printf("%u \"%.*s\"\n", (unsigned)verdict, (int)text.len, (const char *)text.at);
}

static void print_text(const char *what, deiruska_bytes text) {
    printf("%s \"%.*s\"\n", what, (int)text.len, (const char *)text.at);
}

/* Prints the message that was shown, after the edits. */
static void print_edited(void) {
    deiruska_bytes text = DEIRUSKA_NO_BYTES;
    DO(deiruska_message_new(&message, TEXT("<ada@example.org>")));
    DO(deiruska_message_add_recipient(&message, TEXT("<bob@example.net>")));
    DO(deiruska_message_add_header(&message, TEXT("Subject"), TEXT(" first")));
    DO(deiruska_message_add_body(&message, TEXT("a body\r\n")));
    int32_t result = deiruska_message_add_recipient(&message, (const uint8_t *)"a NUL", 6);
    check(result == DEIRUSKA_MESSAGE_DOES_NOT_FIT || again(result), "not so: a recipient with a NUL isn't added");
    check(deiruska_message_quarantine(&message, &text) == DEIRUSKA_NOTHING, "not so: it isn't in quarantine yet");
    DO(deiruska_message_edit(&message, &mta));
    DO(deiruska_message_sender(&message, &text));
    print_text("sender", text);
    for (size_t at = 0; deiruska_message_recipient(&message, at, &text) == DEIRUSKA_OK; at++)
        print_text("recipient", text);
    for (size_t at = 0; deiruska_message_header_name(&message, at, &text) == DEIRUSKA_OK; at++) {
        print_text("name", text);
        DO(deiruska_message_header_value(&message, at, &text));
        print_text("value", text);
    }
    DO(deiruska_message_body(&message, &text));
    print_text("body", text);
    DO(deiruska_message_quarantine(&message, &text));
    print_text("quarantine", text);
}

int main(int words, char **word) {
    static uint8_t bytes[RULES_MAX];
    uint64_t line = 0;
    FILE *file = words == 3 ? fopen(word[1], "rb") : NULL;
    if (file == NULL)
        return 2;
    size_t len = fread(bytes, 1, RULES_MAX, file);
    fclose(file);
    allocations = 0;
    refused = strtoul(word[2], NULL, 10);
    DO(deiruska_rules_read(&rules, bytes, len, &line));
    DO(deiruska_filter_new_by(&filter, &rules));
    DO(deiruska_mta_new(&mta, 6, 0x1ff, 0x0ff7ff));
    exchange();
    show_message();
    print_answer();
    print_edited();
    DO(deiruska_mta_abort(&mta, &outcome));
    CALL(deiruska_mta_quit(&mta, &outcome));
    return end("all is shown");
}
