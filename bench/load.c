/*
 * Plays many connections at once on a filter, as mail servers do that send nothing more before the reply has come:
 *
 *     load SOCKET SCRIPT OPENING AT_ONCE CONNECTIONS MESSAGES
 *
 * SCRIPT is a file of packets: the first OPENING bytes are sent once on each connection, and begin with the offer of
 * options; what follows is a message, up to its end. Packets that the filter negotiated away are left out. Each other
 * one is replied to by one packet, but where the filter negotiated that it doesn't reply: the next one follows at once
 * then. CONNECTIONS are made on the Unix socket, AT_ONCE of them at a time, with so many MESSAGES each, and are quit.
 * It prints the nanoseconds that this took. With MESSAGES 0 it plays the openings, prints `idle`, and keeps the
 * connections until its standard input ends.
 */
#define _GNU_SOURCE
#include <stdint.h>
#include <stdio.h>
#include <stdlib.h>
#include <string.h>
#include <sys/epoll.h>
#include <sys/socket.h>
#include <sys/un.h>
#include <time.h>
#include <unistd.h>

enum { AT_ONCE_MAX = 10000, PACKETS_MAX = 1000 };

struct link {
	int socket, next, left;
	uint32_t protocol;
	size_t have;
	unsigned char reply[64];
};

/* by the code of a packet, the protocol bit with which it isn't sent (SMFIP_NO..) */
static const uint32_t left_out[256] = {
	['C'] = 0x1, ['H'] = 0x2, ['M'] = 0x4, ['R'] = 0x8, ['B'] = 0x10, ['L'] = 0x20, ['N'] = 0x40, ['T'] = 0x200,
};
/* the same, with which it isn't replied to (SMFIP_NR_..) */
static const uint32_t not_replied_to[256] = {
	['L'] = 0x80, ['C'] = 0x1000, ['H'] = 0x2000, ['M'] = 0x4000, ['R'] = 0x8000, ['T'] = 0x10000, ['N'] = 0x40000,
	['B'] = 0x80000,
};

static unsigned char *script;
static int ends[PACKETS_MAX], packets, opening_packets;
static struct link links[AT_ONCE_MAX];
static struct sockaddr_un place = { .sun_family = AF_UNIX };
static int poller, messages;

static void fail(const char *what)
{
	perror(what);
	exit(1);
}

static uint32_t number_at(const unsigned char *bytes)
{
	return (uint32_t) bytes[0] << 24 | bytes[1] << 16 | bytes[2] << 8 | bytes[3];
}

static void read_script(const char *path, long opening)
{
	FILE *file = fopen(path, "rb");
	long size;

	if (!file)
		fail(path);
	fseek(file, 0, SEEK_END);
	size = ftell(file);
	rewind(file);
	script = malloc(size);
	if (!script || fread(script, 1, size, file) != (size_t) size)
		fail(path);
	for (long at = 0; at < size; packets++) {
		if (packets == PACKETS_MAX)
			fail("too many packets");
		at += 4 + number_at(script + at);
		ends[packets] = at;
		if (at == opening)
			opening_packets = packets + 1;
	}
	fclose(file);
}

/* sends what comes next, up to a packet that is replied to; whether there was one */
static int send_next(struct link *link)
{
	int end = messages ? packets : opening_packets;

	while (link->next < end) {
		int start = link->next ? ends[link->next - 1] : 0, size = ends[link->next++] - start;
		unsigned char code = script[start + 4];

		if (link->protocol & left_out[code])
			continue;
		if (send(link->socket, script + start, size, MSG_NOSIGNAL) != size)
			fail("send");
		if (!(link->protocol & not_replied_to[code]))
			return 1;
	}
	return 0;
}

static void start(struct link *link, int at)
{
	struct epoll_event event = { .events = EPOLLIN, .data.u32 = at };

	link->socket = socket(AF_UNIX, SOCK_STREAM, 0);
	if (link->socket < 0 || connect(link->socket, (struct sockaddr *) &place, sizeof place) != 0)
		fail("connect");
	if (epoll_ctl(poller, EPOLL_CTL_ADD, link->socket, &event) != 0)
		fail("epoll_ctl");
	link->next = 0;
	link->left = messages;
	link->protocol = 0;
	link->have = 0;
	send_next(link);
}

/* whether a whole reply has come, which is read; its code is one that lets the message go on */
static int has_reply(struct link *link)
{
	ssize_t count = recv(link->socket, link->reply + link->have, sizeof link->reply - link->have, 0);
	size_t size;

	if (count <= 0)
		fail("recv");
	link->have += count;
	if (link->have < 5)
		return 0;
	size = 4 + number_at(link->reply);
	if (link->have > size || !memchr("Oca", link->reply[4], 3)) {
		fputs("a reply is not as expected\n", stderr);
		exit(1);
	}
	if (link->have < size)
		return 0;
	if (link->reply[4] == 'O')
		link->protocol = number_at(link->reply + 13);
	return 1;
}

/* what follows a reply: 1 the next packet, 0 the end of the connection, -1 nothing */
static int go_on(struct link *link)
{
	static const unsigned char quit[] = { 0, 0, 0, 1, 'Q' };

	link->have = 0;
	if (messages && link->next == packets) {
		if (--link->left == 0) {
			if (send(link->socket, quit, sizeof quit, MSG_NOSIGNAL) != sizeof quit)
				fail("send");
			close(link->socket);
			return 0;
		}
		link->next = opening_packets;
	}
	return send_next(link) ? 1 : -1;
}

int main(int count, char **words)
{
	static struct epoll_event events[1024];
	struct timespec from, to;
	int at_once, connections, made = 0, open = 0;

	if (count != 7)
		return 2;
	strncpy(place.sun_path, words[1], sizeof place.sun_path - 1);
	read_script(words[2], atol(words[3]));
	at_once = atoi(words[4]);
	connections = atoi(words[5]);
	messages = atoi(words[6]);
	poller = epoll_create1(0);
	clock_gettime(CLOCK_MONOTONIC, &from);
	for (; made < at_once && made < connections; made++, open++)
		start(&links[made], made);
	while (open) {
		int ready = epoll_wait(poller, events, 1024, -1);

		for (int at = 0; at < ready; at++) {
			struct link *link = &links[events[at].data.u32];
			int next;

			if (!has_reply(link))
				continue;
			next = go_on(link);
			open -= next != 1;
			if (next == 0 && made < connections) {
				start(link, link - links);
				made++;
				open++;
			}
		}
	}
	clock_gettime(CLOCK_MONOTONIC, &to);
	if (messages == 0) {
		puts("idle");
		fflush(stdout);
		while (getchar() != EOF)
			;
		return 0;
	}
	printf("%lld\n", (to.tv_sec - from.tv_sec) * 1000000000LL + to.tv_nsec - from.tv_nsec);
	return 0;
}
