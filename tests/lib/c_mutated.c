/*
 * Plays packets that were changed at random to libdeiruska, for tests/test_c_library.py, which compiles it with
 * AddressSanitizer: packets of a captured conversation in any order, of which half have some bytes changed or cut off.
 * Those of the mail server are fed to a filter's end, whose questions are answered, and to a stream of packets, and
 * those of the filter to a mail server's end, whose client makes any calls.
 *
 *     c_mutated COMMANDS REPLIES COUNT SEED
 *
 * COMMANDS is a file of the packets that the mail server sent, and REPLIES one of those that the filter sent; COUNT
 * packets of each are played. It prints how often a filter's end was given up and a filter was lost, and how many
 * questions were answered and verdicts came. Its status is 1 where a function answers what deiruska.h doesn't say.
 */
#include <deiruska.h>
#include <stdio.h>
#include <stdlib.h>
#include <string.h>

#define FILE_MAX (1 << 20)
#define PACKETS_MAX 4096
#define CHANGES_MAX 4
/* Of so many packets one has a length that may be wrong. */
#define LENGTHS 1024
/* The bytes of a packet without a payload. */
#define HEAD 5
#define TEXT(text) (const uint8_t *)(text), strlen(text)

/* The packets of a file, and where each begins; after the last one where that ends. */
struct packets {
    uint8_t bytes[FILE_MAX];
    size_t starts[PACKETS_MAX + 1];
    size_t count;
};

static struct packets commands, replies;
static uint64_t state;
static unsigned int looked_at;
static unsigned long given_up, lost, answered, verdicts;

static uint64_t next_number(void) {
    state ^= state << 13;
    state ^= state >> 7;
    state ^= state << 17;
    return state;
}

static size_t below(size_t end) { return (size_t)(next_number() % end); }

static void check(bool is_so, const char *what, int32_t result) {
    if (!is_so) {
        fprintf(stderr, "%s answers %d\n", what, (int)result);
        exit(1);
    }
}

static void read_packets(struct packets *packets, const char *path) {
    FILE *opened = fopen(path, "rb");
    if (opened == NULL)
        exit(2);
    size_t len = fread(packets->bytes, 1, FILE_MAX, opened), at = 0;
    fclose(opened);
    while (len - at >= HEAD && packets->count < PACKETS_MAX) {
        const uint8_t *head = packets->bytes + at;
        packets->starts[packets->count++] = at;
        at += 4 + ((size_t)head[1] << 16 | (size_t)head[2] << 8 | head[3]);
    }
    packets->starts[packets->count] = at;
    if (packets->count == 0 || at != len)
        exit(2);
}

/* A packet of these, changed; in a block of its size, so that a read beyond it is seen. */
static uint8_t *changed(const struct packets *packets, size_t *len) {
    size_t which = below(packets->count), from = packets->starts[which];
    size_t size = packets->starts[which + 1] - from;
    uint8_t *packet = malloc(size);
    if (packet == NULL)
        exit(2);
    memcpy(packet, packets->bytes + from, size);
    /* Half of the packets are as they were. */
    for (size_t changes = below(2) * below(CHANGES_MAX); changes > 0; changes--) {
        size_t at = below(size);
        switch (below(8)) {
        case 0:
            packet[at] = (uint8_t)next_number();
            break;
        case 1:
        case 2:
        case 3:
            packet[at] ^= (uint8_t)(1u << below(8));
            break;
        case 4:
        case 5:
        case 6:
            packet[at] = packets->bytes[below(packets->starts[packets->count])];
            break;
        default:
            size = at + 1;
        }
    }
    /* Mostly with a length that is right, so that what comes after it is read as packets too. */
    if (below(LENGTHS) > 0) {
        size = size < HEAD ? HEAD : size;
        packet[0] = packet[1] = 0;
        packet[2] = (uint8_t)((size - 4) >> 8);
        packet[3] = (uint8_t)(size - 4);
    }
    *len = size;
    packet = realloc(packet, size);
    if (packet == NULL)
        exit(2);
    return packet;
}

/* Reads borrowed bytes. */
static void look_at(int32_t result, const deiruska_bytes *bytes) {
    check(result == DEIRUSKA_OK || result == DEIRUSKA_NOTHING, "what is borrowed", result);
    for (size_t at = 0; result == DEIRUSKA_OK && at < bytes->len; at++)
        looked_at = looked_at * 31 + bytes->at[at];
}

/* Looks at what the filter is shown. */
static void look(deiruska_filter *filter) {
    deiruska_bytes out = DEIRUSKA_NO_BYTES;
    uint32_t family = 0, port = 0;
    size_t count = 0;
    look_at(deiruska_filter_host(filter, &out), &out);
    look_at(deiruska_filter_address(filter, &out, &family, &port), &out);
    look_at(deiruska_filter_sender(filter, &out), &out);
    look_at(deiruska_filter_macro(filter, TEXT("i"), &out), &out);
    check(deiruska_filter_recipients(filter, &count) == DEIRUSKA_OK, "recipients", 0);
    look_at(deiruska_filter_recipient(filter, below(count + 1), &out), &out);
    check(deiruska_filter_headers(filter, &count) == DEIRUSKA_OK, "headers", 0);
    look_at(deiruska_filter_header_value(filter, below(count + 1), &out), &out);
    look_at(deiruska_filter_body(filter, &out), &out);
}

/* Answers the open question by any verdict; by Continue where the stage doesn't have that. */
static void answer_question(deiruska_filter *filter, deiruska_answer *answer) {
    uint32_t stage = 0;
    look(filter);
    check(deiruska_filter_asked(filter, &stage) == DEIRUSKA_OK, "asked", 0);
    if (stage == DEIRUSKA_STAGE_EOB)
        deiruska_answer_add_header(answer, TEXT("X-Seen"), TEXT("yes"));
    deiruska_answer_verdict(answer, (uint32_t)below(DEIRUSKA_CODE));
    int32_t result = deiruska_filter_answer(filter, answer);
    if (result != DEIRUSKA_OK) {
        check(result == DEIRUSKA_ANSWER_NOT_GIVEN_THERE, "answer", result);
        check(deiruska_filter_answer(filter, answer) == DEIRUSKA_OK, "a second answer", result);
    }
    answered++;
}

/* Gives bytes to a filter's end; it begins again where it ends. */
static void play_to_filter(deiruska_filter *filter, deiruska_answer *answer, const uint8_t *at, size_t len) {
    deiruska_bytes pending = DEIRUSKA_NO_BYTES;
    for (;;) {
        int32_t result = DEIRUSKA_OK, step = deiruska_filter_step(filter);
        size_t taken = 0;
        if (step == DEIRUSKA_STEP_SEND) {
            look_at(deiruska_filter_pending(filter, &pending), &pending);
            result = deiruska_filter_sent(filter, 1 + below(pending.len));
            check(result == DEIRUSKA_OK, "sent", result);
        } else if (step == DEIRUSKA_STEP_ANSWER) {
            answer_question(filter, answer);
        } else if (step == DEIRUSKA_STEP_FEED && len > 0) {
            result = deiruska_filter_feed(filter, at, len, &taken);
            check(result == DEIRUSKA_OK || (result > 100 && result < 107), "feed", result);
            check(taken <= len, "how many bytes were fed", (int32_t)taken);
            given_up += result != DEIRUSKA_OK;
            at += taken;
            len -= taken;
        } else {
            check(step == DEIRUSKA_STEP_FEED || step == DEIRUSKA_STEP_DONE, "step", step);
            return;
        }
    }
}

static void play_to_stream(deiruska_stream *stream, const uint8_t *at, size_t len) {
    deiruska_packet packet = DEIRUSKA_NO_PACKET;
    int32_t result = DEIRUSKA_NOTHING;
    for (size_t taken = 0; len > 0; at += taken, len -= taken) {
        result = deiruska_stream_feed(stream, at, len, &taken);
        check(result == DEIRUSKA_OK && taken <= len, "stream_feed", result);
        while ((result = deiruska_stream_next(stream, &packet)) == DEIRUSKA_OK)
            for (size_t place = 0; place < packet.len; place++)
                looked_at = looked_at * 31 + packet.at[place];
        if (result != DEIRUSKA_NOTHING)
            break;
    }
    if (result != DEIRUSKA_NOTHING) {
        check(result == DEIRUSKA_WIRE_ZERO_LENGTH || result == DEIRUSKA_WIRE_TOO_LONG, "stream_next", result);
        check(deiruska_stream_new(stream) == DEIRUSKA_OK, "stream_new", 0);
    }
}

/* Makes any call, so that each comes in order and out of it. */
static int32_t call(deiruska_mta *mta, uint32_t *outcome) {
    static const uint8_t host[] = "mail.example.org", address[] = "<ada@example.org>";
    /* What was given for a call that was refused isn't wanted for this one. */
    check(deiruska_mta_clear(mta) == DEIRUSKA_OK, "clear", 0);
    switch (below(12)) {
    case 0:
        return deiruska_mta_connect(mta, host, sizeof host - 1, (uint32_t)below(4), 25, TEXT("::1"), outcome);
    case 1:
        return deiruska_mta_helo(mta, host, sizeof host - below(2), outcome);
    case 2:
        deiruska_mta_macro(mta, TEXT("i"), TEXT("4F1A2B3C"));
        return deiruska_mta_mail(mta, address, sizeof address - 1, outcome);
    case 3:
        deiruska_mta_parameter(mta, TEXT("NOTIFY=NEVER"));
        return deiruska_mta_rcpt(mta, address, sizeof address - 1, outcome);
    case 4:
        return deiruska_mta_data(mta, outcome);
    case 5:
        return deiruska_mta_header(mta, TEXT("Subject"), TEXT(" first"), outcome);
    case 6:
        return deiruska_mta_eoh(mta, outcome);
    case 7:
        return deiruska_mta_body(mta, TEXT("a body\r\n"), outcome);
    case 8:
        return deiruska_mta_unknown(mta, TEXT("XYZ"), outcome);
    case 9:
        return below(8) > 0 ? deiruska_mta_abort(mta, outcome) : deiruska_mta_quit(mta, outcome);
    default:
        return deiruska_mta_end(mta, outcome);
    }
}

static void look_at_edits(deiruska_mta *mta) {
    deiruska_edit edit = DEIRUSKA_NO_EDIT;
    size_t count = 0;
    check(deiruska_mta_edits(mta, &count) == DEIRUSKA_OK, "edits", 0);
    for (size_t at = 0; at < count; at++) {
        int32_t result = deiruska_mta_edit(mta, at, &edit);
        check(result == DEIRUSKA_OK && edit.kind >= 1 && edit.kind <= DEIRUSKA_EDIT_PROGRESS, "edit", result);
        look_at(result, &edit.first);
        look_at(result, &edit.second);
    }
    check(deiruska_mta_edit(mta, count, &edit) == DEIRUSKA_NOTHING, "an edit beyond the last one", 0);
}

/* Gives bytes to a mail server's end, and looks at what came. */
static void feed_mta(deiruska_mta *mta, const uint8_t *at, size_t len) {
    deiruska_bytes text = DEIRUSKA_NO_BYTES;
    uint32_t verdict = 0;
    int32_t result = deiruska_mta_feed(mta, at, len);
    check(result == DEIRUSKA_OK || (result >= DEIRUSKA_LOSS_WIRE && result <= DEIRUSKA_LOSS_EARLY), "feed", result);
    lost += result != DEIRUSKA_OK;
    result = deiruska_mta_verdict(mta, &verdict, &text);
    check((result == DEIRUSKA_OK) == (deiruska_mta_event(mta) == DEIRUSKA_EVENT_VERDICT), "verdict", result);
    look_at(deiruska_mta_verdict(mta, &verdict, &text), &text);
    verdicts += result == DEIRUSKA_OK;
    look_at_edits(mta);
}

/* Goes on until bytes of the filter are wanted, and gives it these; another connection begins where one has ended. */
static void play_to_mta(deiruska_mta *mta, const uint8_t *at, size_t len) {
    deiruska_bytes pending = DEIRUSKA_NO_BYTES;
    uint32_t outcome = 0, version = 0, actions = 0, protocol = 0;
    int32_t want, result;
    while ((want = deiruska_mta_want(mta)) != DEIRUSKA_WANT_RECEIVE) {
        if (want == DEIRUSKA_WANT_SEND) {
            look_at(deiruska_mta_pending(mta, &pending), &pending);
            result = deiruska_mta_sent(mta, 1 + below(pending.len));
            check(result == DEIRUSKA_OK, "sent", result);
        } else if (want == DEIRUSKA_WANT_COMMAND) {
            result = call(mta, &outcome);
            check(result == DEIRUSKA_OK || (result >= DEIRUSKA_CALL_CLOSED && result < DEIRUSKA_CALL_NO_MEMORY),
                  "a call", result);
        } else {
            check(deiruska_mta_new(mta, 6, 0x1ff, 0x0fffff) == DEIRUSKA_OK, "mta_new", 0);
        }
    }
    /* Most connections get beyond their options, which are as they were. */
    if (deiruska_mta_negotiated(mta, &version, &actions, &protocol) == DEIRUSKA_NOTHING && below(LENGTHS) > 0)
        feed_mta(mta, replies.bytes, replies.starts[1]);
    else
        feed_mta(mta, at, len);
}

int main(int words, char **word) {
    deiruska_filter filter = DEIRUSKA_EMPTY;
    deiruska_answer answer = DEIRUSKA_EMPTY;
    deiruska_stream stream = DEIRUSKA_EMPTY;
    deiruska_mta mta = DEIRUSKA_EMPTY;
    if (words != 5)
        return 2;
    read_packets(&commands, word[1]);
    read_packets(&replies, word[2]);
    state = 2 * strtoull(word[4], NULL, 10) + 1;
    check(deiruska_filter_new(&filter, 6, 0x1f, 0) == DEIRUSKA_OK, "filter_new", 0);
    check(deiruska_answer_new(&answer) == DEIRUSKA_OK, "answer_new", 0);
    check(deiruska_stream_new(&stream) == DEIRUSKA_OK, "stream_new", 0);
    check(deiruska_mta_new(&mta, 6, 0x1ff, 0x0fffff) == DEIRUSKA_OK, "mta_new", 0);
    for (unsigned long left = strtoul(word[3], NULL, 10); left > 0; left--) {
        size_t len = 0;
        if (deiruska_filter_step(&filter) == DEIRUSKA_STEP_DONE) {
            /* Most connections get beyond their options, which are as they were. */
            check(deiruska_filter_restart(&filter) == DEIRUSKA_OK, "restart", 0);
            play_to_filter(&filter, &answer, commands.bytes, commands.starts[1]);
        }
        uint8_t *packet = changed(&commands, &len);
        play_to_filter(&filter, &answer, packet, len);
        play_to_stream(&stream, packet, len);
        free(packet);
        packet = changed(&replies, &len);
        play_to_mta(&mta, packet, len);
        free(packet);
    }
    deiruska_free(&filter.handle);
    deiruska_free(&answer.handle);
    deiruska_free(&stream.handle);
    deiruska_free(&mta.handle);
    printf("%lu given up, %lu lost, %lu answers, %lu verdicts\n", given_up, lost, answered, verdicts);
    return 0;
}
