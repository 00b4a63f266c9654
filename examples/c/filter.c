/*
 * A filter for many connections at once, by poll: it refuses a recipient that takes no mail, and adds a header field
 * with the name of the mail server to what it lets pass.
 *
 *     cc -O2 filter.c -o filter $(pkg-config --cflags --libs deiruska)
 *     ./filter 127.0.0.1 8891
 */
#include <arpa/inet.h>
#include <deiruska.h>
#include <errno.h>
#include <poll.h>
#include <stdio.h>
#include <stdlib.h>
#include <string.h>
#include <sys/socket.h>
#include <unistd.h>

#define CLIENTS_MAX 500
#define READ_MAX 65536

static const char REFUSED[] = "<noreply@example.net>";
static const char REFUSAL[] = "550 5.1.1 This address takes no mail";
static const char FIELD[] = "X-Filtered";

/* A connection of a mail server: its socket, the filter's end of it, and of what was read the bytes that are still to
   be fed. */
struct client {
    int socket;
    deiruska_filter filter;
    uint8_t *read;
    size_t from, to;
};

/* What is polled: first the listener, and then the clients, in their order. */
static struct pollfd polled[1 + CLIENTS_MAX];
static struct client clients[CLIENTS_MAX];
static size_t client_count;

static const uint8_t *bytes(const char *text) { return (const uint8_t *)text; }

static bool is(deiruska_bytes given, const char *text) {
    return given.len == strlen(text) && memcmp(given.at, text, given.len) == 0;
}

/* Refuses the last recipient, where it is the one that takes no mail. */
static int32_t at_recipient(deiruska_filter *filter, deiruska_answer *answer) {
    deiruska_bytes address = DEIRUSKA_NO_BYTES;
    size_t count = 0;
    int32_t result = deiruska_filter_recipients(filter, &count);
    if (result == DEIRUSKA_OK && count > 0)
        result = deiruska_filter_recipient(filter, count - 1, &address);
    if (result == DEIRUSKA_OK && is(address, REFUSED))
        result = deiruska_answer_code(answer, bytes(REFUSAL), strlen(REFUSAL));
    return result;
}

/* Adds the header field. What is borrowed from the filter stays readable, since the answer is another handle. */
static int32_t at_end(deiruska_filter *filter, deiruska_answer *answer) {
    deiruska_bytes name = DEIRUSKA_NO_BYTES;
    if (deiruska_filter_macro(filter, bytes("j"), 1, &name) != DEIRUSKA_OK)
        name = (deiruska_bytes){bytes("unknown"), strlen("unknown")};
    return deiruska_answer_add_header(answer, bytes(FIELD), strlen(FIELD), name.at, name.len);
}

/* Answers the open question; false where that fails. */
static bool answer(deiruska_filter *filter) {
    deiruska_answer given = DEIRUSKA_EMPTY;
    uint32_t stage = 0;
    int32_t result = deiruska_answer_new(&given);
    if (result == DEIRUSKA_OK)
        result = deiruska_filter_asked(filter, &stage);
    if (result == DEIRUSKA_OK && stage == DEIRUSKA_STAGE_RCPT)
        result = at_recipient(filter, &given);
    else if (result == DEIRUSKA_OK && stage == DEIRUSKA_STAGE_EOB)
        result = at_end(filter, &given);
    if (result == DEIRUSKA_OK)
        result = deiruska_filter_answer(filter, &given);
    deiruska_free(&given.handle);
    return result == DEIRUSKA_OK;
}

/* Sends what the socket takes now of what is pending; false where it fails, with errno. */
static bool send_pending(struct client *client) {
    deiruska_bytes pending = DEIRUSKA_NO_BYTES;
    if (deiruska_filter_pending(&client->filter, &pending) != DEIRUSKA_OK)
        return false;
    ssize_t sent = send(client->socket, pending.at, pending.len, MSG_NOSIGNAL | MSG_DONTWAIT);
    return sent >= 0 && deiruska_filter_sent(&client->filter, (size_t)sent) == DEIRUSKA_OK;
}

/* Reads what is there; false where the far end has closed the connection, and where it fails, with errno. */
static bool read_more(struct client *client) {
    ssize_t count = recv(client->socket, client->read, READ_MAX, MSG_DONTWAIT);
    client->from = 0;
    client->to = count > 0 ? (size_t)count : 0;
    return count > 0;
}

static bool feed(struct client *client) {
    size_t taken = 0;
    int32_t result = deiruska_filter_feed(
        &client->filter, client->read + client->from, client->to - client->from, &taken);
    client->from += taken;
    return result == DEIRUSKA_OK;
}

/* Goes on until the socket would wait, or what one read gave is used up; false where the connection is over. */
static bool turn(struct client *client) {
    bool has_read = false, goes_on = true;
    while (goes_on) {
        errno = 0;
        switch (deiruska_filter_step(&client->filter)) {
        case DEIRUSKA_STEP_SEND:
            goes_on = send_pending(client);
            break;
        case DEIRUSKA_STEP_ANSWER:
            goes_on = answer(&client->filter);
            break;
        case DEIRUSKA_STEP_FEED:
            if (client->from < client->to) {
                goes_on = feed(client);
            } else if (has_read) {
                return true;
            } else {
                has_read = true;
                goes_on = read_more(client);
            }
            break;
        default:
            return false;
        }
    }
    return errno == EAGAIN || errno == EWOULDBLOCK || errno == EINTR;
}

static void remove_client(size_t at) {
    close(clients[at].socket);
    deiruska_free(&clients[at].filter.handle);
    free(clients[at].read);
    /* The handle moves with its client: its old place isn't used again. */
    clients[at] = clients[--client_count];
}

/* Takes a connection. The filter wants to add header fields, and no body. */
static void accept_client(int listener) {
    struct client client = {.socket = accept(listener, NULL, NULL), .filter = DEIRUSKA_EMPTY, .from = 0, .to = 0};
    if (client.socket < 0)
        return;
    client.read = malloc(READ_MAX);
    int32_t result = deiruska_filter_new(&client.filter, 6, DEIRUSKA_ACTION_ADDHDRS, DEIRUSKA_PROTOCOL_NOBODY);
    clients[client_count++] = client;
    if (client.read == NULL || result != DEIRUSKA_OK)
        remove_client(client_count - 1);
}

static int listener_at(const char *host, const char *port) {
    struct sockaddr_in here = {.sin_family = AF_INET, .sin_port = htons((uint16_t)atoi(port))};
    int listener = socket(AF_INET, SOCK_STREAM, 0), one = 1;
    if (listener < 0 || inet_pton(AF_INET, host, &here.sin_addr) != 1 ||
        setsockopt(listener, SOL_SOCKET, SO_REUSEADDR, &one, sizeof one) != 0 ||
        bind(listener, (struct sockaddr *)&here, sizeof here) != 0 || listen(listener, 64) != 0)
        return -1;
    return listener;
}

int main(int count, char **words) {
    int listener = count == 3 ? listener_at(words[1], words[2]) : -1;
    if (listener < 0) {
        fprintf(stderr, "usage: filter HOST PORT, where nothing else listens\n");
        return 1;
    }
    for (;;) {
        polled[0] = (struct pollfd){.fd = listener, .events = client_count < CLIENTS_MAX ? POLLIN : 0};
        for (size_t at = 0; at < client_count; at++) {
            bool sends = deiruska_filter_step(&clients[at].filter) == DEIRUSKA_STEP_SEND;
            polled[1 + at] = (struct pollfd){.fd = clients[at].socket, .events = sends ? POLLOUT : POLLIN};
        }
        if (poll(polled, 1 + client_count, -1) < 0)
            continue;
        for (size_t at = client_count; at-- > 0;)
            if (polled[1 + at].revents != 0 && !turn(&clients[at]))
                remove_client(at);
        if (polled[0].revents != 0)
            accept_client(listener);
    }
}
