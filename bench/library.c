/*
 * A filter on libdeiruska, as bench/filter.sh and bench/serve.sh measure it beside the one on Sendmail's libmilter
 * (bench/filter.c): it is asked about each command, lets it go on, keeps the body, and accepts at the end of each
 * message. Its word is the path of the Unix socket that it listens at. It serves one connection, and ends with it; with
 * a second word, `many`, it serves connections in one thread until it is ended.
 */
#define _GNU_SOURCE
#include <deiruska.h>
#include <stdlib.h>
#include <string.h>
#include <sys/epoll.h>
#include <sys/socket.h>
#include <sys/un.h>
#include <unistd.h>

enum { AT_ONCE_MAX = 10000, EVENTS_MAX = 1024, PIECE = 65536, LISTENER = AT_ONCE_MAX };

struct client {
	int socket;
	deiruska_filter filter;
};

static struct client clients[AT_ONCE_MAX];
/* the places of clients that are free: a stack */
static uint32_t places[AT_ONCE_MAX];
static int free_places, poller, is_for_many;
static deiruska_answer answer = DEIRUSKA_EMPTY;

static void watch(int socket, uint32_t place)
{
	struct epoll_event event = { .events = EPOLLIN, .data.u32 = place };

	if (epoll_ctl(poller, EPOLL_CTL_ADD, socket, &event) != 0)
		exit(2);
}

static int listening(const char *path)
{
	struct sockaddr_un name = { .sun_family = AF_UNIX };
	int listener = socket(AF_UNIX, SOCK_STREAM, 0);

	strncpy(name.sun_path, path, sizeof name.sun_path - 1);
	if (bind(listener, (struct sockaddr *)&name, sizeof name) || listen(listener, 1024))
		exit(2);
	return listener;
}

static void add(int connection)
{
	struct client *client;

	if (connection < 0 || free_places == 0)
		exit(2);
	client = &clients[places[--free_places]];
	client->socket = connection;
	if (deiruska_filter_new(&client->filter, 6, 0, 0) != DEIRUSKA_OK)
		exit(2);
	watch(connection, (uint32_t)(client - clients));
}

static void end(struct client *client)
{
	if (!is_for_many)
		exit(0);
	deiruska_free(&client->filter.handle);
	close(client->socket);
	places[free_places++] = (uint32_t)(client - clients);
}

static int send_pending(struct client *client)
{
	deiruska_bytes bytes = DEIRUSKA_NO_BYTES;
	ssize_t sent;

	deiruska_filter_pending(&client->filter, &bytes);
	sent = send(client->socket, bytes.at, bytes.len, MSG_NOSIGNAL);
	return sent > 0 && deiruska_filter_sent(&client->filter, (size_t)sent) == DEIRUSKA_OK;
}

static int answer_question(deiruska_filter *filter)
{
	uint32_t stage = 0;

	deiruska_filter_asked(filter, &stage);
	deiruska_answer_verdict(&answer, stage == DEIRUSKA_STAGE_EOB ? DEIRUSKA_ACCEPT : DEIRUSKA_CONTINUE);
	return deiruska_filter_answer(filter, &answer) == DEIRUSKA_OK;
}

/* takes what came on a connection, and answers whether it goes on */
static int serve(struct client *client)
{
	static uint8_t piece[PIECE];
	ssize_t came = recv(client->socket, piece, sizeof piece, 0);
	size_t at = 0, taken = 0;
	int is_well = came > 0;

	while (is_well) {
		switch (deiruska_filter_step(&client->filter)) {
		case DEIRUSKA_STEP_SEND:
			is_well = send_pending(client);
			break;
		case DEIRUSKA_STEP_ANSWER:
			is_well = answer_question(&client->filter);
			break;
		case DEIRUSKA_STEP_FEED:
			if (at == (size_t)came)
				return 1;
			is_well = deiruska_filter_feed(
				&client->filter, piece + at, (size_t)came - at, &taken) == DEIRUSKA_OK;
			at += taken;
			break;
		default:
			is_well = 0;
		}
	}
	return 0;
}

int main(int count, char **words)
{
	static struct epoll_event events[EVENTS_MAX];
	int listener;

	is_for_many = count == 3 && !strcmp(words[2], "many");
	if (count != 2 + is_for_many || deiruska_answer_new(&answer) != DEIRUSKA_OK)
		return 2;
	while (free_places < AT_ONCE_MAX) {
		places[free_places] = AT_ONCE_MAX - 1 - (uint32_t)free_places;
		free_places++;
	}
	poller = epoll_create1(0);
	listener = listening(words[1]);
	watch(listener, LISTENER);
	for (;;) {
		int ready = epoll_wait(poller, events, EVENTS_MAX, -1);

		for (int at = 0; at < ready; at++) {
			uint32_t place = events[at].data.u32;

			if (place == LISTENER)
				add(accept(listener, NULL, NULL));
			else if (!serve(&clients[place]))
				end(&clients[place]);
		}
	}
}
