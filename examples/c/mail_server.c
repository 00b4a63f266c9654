/*
 * A mail server's side: it shows a message to a filter, and prints the edits and the verdict.
 *
 *     cc -O2 mail_server.c -o mail_server $(pkg-config --cflags --libs deiruska)
 *     ./mail_server 127.0.0.1 8891 '<ada@example.org>' '<bob@example.net>' <message
 *
 * The message is its header, an empty line and its body; a line ends with LF, or with CR LF. The status is 0 where the
 * filter lets the message pass, 1 where it refuses it, and 2 where the filter is lost.
 */
#include <arpa/inet.h>
#include <deiruska.h>
#include <stdio.h>
#include <stdlib.h>
#include <string.h>
#include <sys/socket.h>
#include <unistd.h>

#define READ_MAX 65536
#define CHUNK_MAX 65535
/* All actions, and all protocol bits but the one for the blanks of header fields. */
#define ACTIONS 0x1ffu
#define PROTOCOL 0x0ff7ffu
#define HOST "mail.example.org"
#define TEXT(text) (const uint8_t *)(text), strlen(text)

struct text {
    uint8_t *at;
    size_t len, room;
};

static deiruska_mta mta = DEIRUSKA_EMPTY;
static int filter;
static uint32_t outcome;
/* The header, whose lines end with LF, as mail servers show it, and the body, whose lines end with CR LF. */
static struct text header, body;

static void give_up(const char *what, int32_t result) {
    fprintf(stderr, "%s: %d\n", what, (int)result);
    exit(2);
}

static void append(struct text *text, const char *at, size_t len) {
    if (text->room - text->len < len) {
        text->room = 2 * (text->room + len);
        text->at = realloc(text->at, text->room);
        if (text->at == NULL)
            give_up("no memory", DEIRUSKA_NO_MEMORY);
    }
    if (len > 0)
        memcpy(text->at + text->len, at, len);
    text->len += len;
}

static void read_message(void) {
    char *line = NULL;
    size_t room = 0;
    bool is_in_body = false;
    for (ssize_t count; (count = getline(&line, &room, stdin)) > 0;) {
        size_t len = (size_t)count;
        len -= len > 0 && line[len - 1] == '\n';
        len -= len > 0 && line[len - 1] == '\r';
        if (is_in_body) {
            append(&body, line, len);
            append(&body, "\r\n", 2);
        } else if (len > 0) {
            append(&header, line, len);
            append(&header, "\n", 1);
        } else {
            is_in_body = true;
        }
    }
    free(line);
}

static void connect_to(const char *host, const char *port) {
    struct sockaddr_in there = {.sin_family = AF_INET, .sin_port = htons((uint16_t)atoi(port))};
    filter = socket(AF_INET, SOCK_STREAM, 0);
    if (filter < 0 || inet_pton(AF_INET, host, &there.sin_addr) != 1 ||
        connect(filter, (struct sockaddr *)&there, sizeof there) != 0)
        give_up("no connection to the filter", DEIRUSKA_LOSS_RESET);
}

static void send_pending(void) {
    deiruska_bytes pending = DEIRUSKA_NO_BYTES;
    ssize_t count = -1;
    if (deiruska_mta_pending(&mta, &pending) == DEIRUSKA_OK)
        count = send(filter, pending.at, pending.len, MSG_NOSIGNAL);
    if (count < 0 || deiruska_mta_sent(&mta, (size_t)count) != DEIRUSKA_OK)
        give_up("the filter is lost", DEIRUSKA_LOSS_RESET);
}

static void receive(void) {
    static uint8_t piece[READ_MAX];
    ssize_t count = recv(filter, piece, sizeof piece, 0);
    int32_t result = count > 0 ? deiruska_mta_feed(&mta, piece, (size_t)count) : DEIRUSKA_LOSS_RESET;
    if (result != DEIRUSKA_OK)
        give_up("the filter is lost", result);
}

/* Sends and receives until the client's next command is wanted, or the connection has ended. */
static void exchange(void) {
    for (;;) {
        switch (deiruska_mta_want(&mta)) {
        case DEIRUSKA_WANT_SEND:
            send_pending();
            break;
        case DEIRUSKA_WANT_RECEIVE:
            receive();
            break;
        default:
            return;
        }
    }
}

/* Exchanges what a call has to be sent; whether the filter is to be shown more of the message. */
static bool goes_on(int32_t result) {
    deiruska_bytes text = DEIRUSKA_NO_BYTES;
    uint32_t verdict = DEIRUSKA_CONTINUE;
    if (result != DEIRUSKA_OK)
        give_up("a call is refused", result);
    exchange();
    if (outcome == DEIRUSKA_OUTCOME_VERDICT_DUE)
        result = deiruska_mta_verdict(&mta, &verdict, &text);
    if (result != DEIRUSKA_OK)
        give_up("no verdict", result);
    return verdict == DEIRUSKA_CONTINUE || verdict == DEIRUSKA_SKIP;
}

static void give_macro(const char *name, const char *value) {
    int32_t result = deiruska_mta_macro(&mta, TEXT(name), TEXT(value));
    if (result != DEIRUSKA_OK)
        give_up("a macro is refused", result);
}

static bool show_client(void) {
    give_macro("j", "mx.example.net");
    return goes_on(deiruska_mta_connect(
               &mta, TEXT(HOST), DEIRUSKA_FAMILY_INET, 4025, TEXT("192.0.2.17"), &outcome)) &&
           goes_on(deiruska_mta_helo(&mta, TEXT(HOST), &outcome));
}

static bool show_envelope(const char *sender, const char *recipient) {
    give_macro("i", "4F1A2B3C");
    return goes_on(deiruska_mta_mail(&mta, TEXT(sender), &outcome)) &&
           goes_on(deiruska_mta_rcpt(&mta, TEXT(recipient), &outcome)) &&
           goes_on(deiruska_mta_data(&mta, &outcome));
}

/* The length of the header field at a place, without the line end after it: up to a line that doesn't begin with a
   blank. */
static size_t field_len(size_t from) {
    size_t at = from;
    while (header.at[at] != '\n' || (at + 1 < header.len && (header.at[at + 1] == ' ' || header.at[at + 1] == '\t')))
        at++;
    return at - from;
}

static bool show_header(void) {
    for (size_t from = 0, len; from < header.len; from += len + 1) {
        len = field_len(from);
        const uint8_t *name = header.at + from, *colon = memchr(name, ':', len);
        if (colon == NULL)
            continue;
        size_t name_len = (size_t)(colon - name);
        if (!goes_on(deiruska_mta_header(&mta, name, name_len, colon + 1, len - name_len - 1, &outcome)))
            return false;
    }
    return goes_on(deiruska_mta_eoh(&mta, &outcome));
}

static bool show_body(void) {
    for (size_t from = 0, len; from < body.len; from += len) {
        len = body.len - from < CHUNK_MAX ? body.len - from : CHUNK_MAX;
        if (!goes_on(deiruska_mta_body(&mta, body.at + from, len, &outcome)))
            return false;
    }
    return goes_on(deiruska_mta_end(&mta, &outcome));
}

static void print_edits(void) {
    deiruska_edit edit = DEIRUSKA_NO_EDIT;
    for (size_t at = 0; deiruska_mta_edit(&mta, at, &edit) == DEIRUSKA_OK; at++)
        printf("edit %u %u \"%.*s\" \"%.*s\"\n", (unsigned)edit.kind, (unsigned)edit.index, (int)edit.first.len,
               (const char *)edit.first.at, (int)edit.second.len, (const char *)edit.second.at);
}

/* Prints the last verdict; whether it refuses the message. */
static bool print_verdict(void) {
    static const char *const words[] = {"continue", "accept", "reject", "tempfail", "discard", "skip", "code"};
    deiruska_bytes text = DEIRUSKA_NO_BYTES;
    uint32_t verdict = DEIRUSKA_CONTINUE;
    deiruska_mta_verdict(&mta, &verdict, &text);
    printf("%s%s%.*s\n", words[verdict], text.len > 0 ? " " : "", (int)text.len, (const char *)text.at);
    return verdict == DEIRUSKA_REJECT || verdict == DEIRUSKA_TEMPFAIL || verdict == DEIRUSKA_CODE;
}

int main(int count, char **words) {
    if (count != 5) {
        fprintf(stderr, "usage: mail_server HOST PORT SENDER RECIPIENT <message\n");
        return 2;
    }
    read_message();
    connect_to(words[1], words[2]);
    int32_t result = deiruska_mta_new(&mta, 6, ACTIONS, PROTOCOL);
    if (result != DEIRUSKA_OK)
        give_up("no connection", result);
    exchange();
    if (show_client() && show_envelope(words[3], words[4]) && show_header())
        show_body();
    print_edits();
    bool is_refused = print_verdict();
    if (deiruska_mta_quit(&mta, &outcome) == DEIRUSKA_OK)
        exchange();
    deiruska_free(&mta.handle);
    close(filter);
    free(header.at);
    free(body.at);
    return is_refused ? 1 : 0;
}
