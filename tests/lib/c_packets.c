/*
 * Packets as libdeiruska decodes and prints them, for tests/test_c_library.py.
 *
 *     c_packets DIRECTION REFUSED
 *
 * Reads packets on standard input, which go to the filter (0) or to the mail server (1), and prints a line for each
 * part of each: its numbers, and how many bytes its texts have; and then the lines of their trace. The allocation of
 * number REFUSED is refused, from 1; none where it is 0. What failed for want of memory is done again, which shows that
 * the first call changed nothing; but a trace prints nothing more then, and its lines are left out.
 *
 * Its last line on standard error says whether an allocation was refused. Its status is 1 where something isn't as
 * deiruska.h says. The linker has it call __wrap_malloc and __wrap_realloc.
 */
#include <deiruska.h>
#include <stdio.h>
#include <stdlib.h>
#include <string.h>

#define INPUT_MAX 1048576

extern void *__real_malloc(size_t size);
extern void *__real_realloc(void *block, size_t size);
void *__wrap_malloc(size_t size);
void *__wrap_realloc(void *block, size_t size);

static unsigned long allocations, refused;
static deiruska_decoded decoded = DEIRUSKA_EMPTY;
static deiruska_trace trace = DEIRUSKA_EMPTY;
static uint8_t input[INPUT_MAX];

void *__wrap_malloc(size_t size) { return ++allocations == refused ? NULL : __real_malloc(size); }

void *__wrap_realloc(void *block, size_t size) {
    return ++allocations == refused ? NULL : __real_realloc(block, size);
}

static void end(const char *how) {
    deiruska_free(&decoded.handle);
    deiruska_free(&trace.handle);
    fflush(stdout);
    fprintf(stderr, "%s%s\n", how, refused != 0 && allocations >= refused ? ", an allocation was refused" : "");
    exit(strncmp(how, "not so", 6) == 0);
}

static void check(bool is_so, const char *what) {
    if (!is_so)
        end(what);
}

/* Decodes a packet, or the same once more where memory was refused: the handle is as it was then. */
static void decode(uint32_t direction, deiruska_packet packet) {
    deiruska_part before = DEIRUSKA_NO_PART, after = DEIRUSKA_NO_PART;
    int32_t found = deiruska_decoded_part(&decoded, 0, &before), result;
    do {
        result = direction == DEIRUSKA_TO_FILTER
                     ? deiruska_decoded_command(&decoded, packet.code, packet.at, packet.len)
                     : deiruska_decoded_reply(&decoded, packet.code, packet.at, packet.len);
        if (result != DEIRUSKA_OK) {
            check(result == DEIRUSKA_NO_MEMORY || result == DEIRUSKA_WIRE_NO_MEMORY, "not so: it is decoded");
            check(deiruska_decoded_part(&decoded, 0, &after) == found, "not so: the handle is kept");
            check(found != DEIRUSKA_OK || (after.first.at == before.first.at && after.number == before.number),
                  "not so: what was decoded is kept");
        }
    } while (result != DEIRUSKA_OK);
}

int main(int count, char **words) {
    deiruska_packet packet = DEIRUSKA_NO_PACKET;
    deiruska_part part = DEIRUSKA_NO_PART;
    deiruska_bytes text = DEIRUSKA_NO_BYTES;
    check(count == 3, "not so: two words");
    uint32_t direction = (uint32_t)atoi(words[1]);
    refused = strtoul(words[2], NULL, 10);
    size_t len = fread(input, 1, INPUT_MAX, stdin), at = 0;
    while (deiruska_packet_first(input + at, len - at, &packet) == DEIRUSKA_OK) {
        decode(direction, packet);
        for (size_t place = 0; deiruska_decoded_part(&decoded, place, &part) == DEIRUSKA_OK; place++)
            printf("%c %zu %zu %u %u\n", packet.code, part.first.len, part.second.len, part.kind, part.number);
        at += packet.len + 5;
    }
    check(at == len, "not so: all is decoded");
    while (deiruska_trace_new(&trace) != DEIRUSKA_OK)
        check(refused != 0, "not so: there is a trace");
    int32_t result = deiruska_trace_feed(&trace, direction, input, len);
    check(deiruska_trace_text(&trace, &text) == DEIRUSKA_OK, "not so: the trace has a text");
    if (result == DEIRUSKA_OK) {
        fwrite(text.at, 1, text.len, stdout);
    } else {
        check(result == DEIRUSKA_NO_MEMORY && text.len == 0, "not so: a trace is stopped without lines");
        check(deiruska_trace_feed(&trace, direction, input, len) == result, "not so: it stays so");
    }
    end(result == DEIRUSKA_OK ? "printed" : "stopped");
}
