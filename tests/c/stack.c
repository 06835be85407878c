/* How much stack each call takes: on a stack of its own, which is filled before.
   Each call is measured three times, the first time in a process that has called
   nothing of the library, the third with IDs of 8 bits. So with the word `lazy`,
   of a program that is bound lazily, the first time holds what the dynamic linker
   takes to find memcpy and memset; without it, all hold to the header's bound. */

#define _DEFAULT_SOURCE

#include <stdio.h>
#include <stdlib.h>
#include <string.h>
#include <ucontext.h>

#include "kaiverohm.h"
#include "want.h"

enum { MTU = KAIVEROHM_LARGEST_MTU, ROOM = 1024, BOUND = 2048, LAZY_BOUND = 12288, FILL = 0xa7 };

static uint64_t state[KAIVEROHM_STATE_WORDS];
static uint8_t streams[KAIVEROHM_STREAM_MEMORY(ROOM)];
static uint8_t messages[KAIVEROHM_MESSAGE_MEMORY];
static uint8_t response[4 * KAIVEROHM_SLOT_BYTES];
static const struct kaiverohm_desk desk = KAIVEROHM_DESK(state, streams, messages, response);

static const uint8_t pdu[700];
static uint8_t packet[KAIVEROHM_LARGEST_PACKET];
static size_t packet_length;
static const uint8_t segments[2][7 + 256] = { { 0x1b, 0, 1, 0, 9, 0x1e, 0 },
                                              { 0x0b, 1, 9, 0x1e, 0 } };
static const char bursts[2][18] = {
    "\x00\x0f\x1b\x00\x01\x00\x09\x09\x60\x61\x62\x63\x64\x65\x66\x67\x68",
    "\x00\x0d\x0b\x01\x09\x09\x60\x61\x62\x63\x64\x65\x66\x67\x68",
};
static unsigned narrow; /* 0 or 1 */
static struct kaiverohm_report reports[4];

/* ---- the calls, each by itself; what they answer is looked at, so none is left out */

static uint64_t said;

static void setup(void)
{
    const struct kaiverohm_settings settings = { 1, MTU, ROOM, narrow };
    said = kaiverohm_desk_setup(&desk, settings).kind;
}

static void write_start(void)
{
    const struct kaiverohm_heading heading = { 1, 2, 3, 4, 0, narrow };
    struct kaiverohm_answer a =
        kaiverohm_write_segment(packet, sizeof packet, heading, MTU, pdu, sizeof pdu, 0);
    packet_length = a.number;
    said = a.kind;
}

static void read_start(void)
{
    said = kaiverohm_desk_read(&desk, packet, packet_length).kind;
}

static void read_segment(void)
{
    said = kaiverohm_desk_read(&desk, segments[narrow], 7 + 256 - 2 * narrow).kind;
}

static void read_burst(void)
{
    const uint8_t *burst = (const uint8_t *)bursts[narrow];
    said = kaiverohm_desk_read_burst(&desk, reports, 4, burst, 17 - 2 * narrow, 0).count;
}

static void write_record(void)
{
    static uint8_t record[sizeof pdu + 2];
    said = kaiverohm_write_record(record, sizeof record, pdu, sizeof pdu).kind;
}

static void find_room(void)
{
    said = kaiverohm_desk_message_room(&desk, 0, 1).length;
}

static void state_length(void)
{
    said = kaiverohm_state_length() + kaiverohm_interface();
}

static void lengths(void)
{
    said = kaiverohm_segment_count(32, sizeof pdu) + kaiverohm_record_length(sizeof pdu);
}

static void find_stream_room(void)
{
    said = kaiverohm_desk_stream_room(&desk, 0, 1).length;
}

static void stream_context(void)
{
    said = kaiverohm_desk_stream_context(&desk, 0).kind;
}

static void message_context(void)
{
    said = kaiverohm_desk_message_context(&desk, 0).kind;
}

static void abandon_stream(void)
{
    said = kaiverohm_desk_abandon_stream(&desk, 0).kind;
}

static void abandon_message(void)
{
    said = kaiverohm_desk_abandon_message(&desk, 0).kind;
}

static const struct {
    const char *name;
    void (*call)(void);
    uint64_t says;
} calls[] = {
    { "setup", setup, KAIVEROHM_READY },
    { "write_segment", write_start, KAIVEROHM_WRITTEN },
    { "read, type 9", read_start, KAIVEROHM_HELD },
    { "read, type 11", read_segment, KAIVEROHM_HELD },
    { "read_burst", read_burst, 2 },
    { "write_record", write_record, KAIVEROHM_WRITTEN },
    { "message_room", find_room, 1 },
    { "stream_room", find_stream_room, 1 },
    { "state_length, interface", state_length, KAIVEROHM_STATE_WORDS + KAIVEROHM_INTERFACE },
    { "segment_count, record_length", lengths, 22 + 702 }, /* of 700 bytes */
    { "stream_context", stream_context, KAIVEROHM_OPEN },
    { "message_context", message_context, KAIVEROHM_OPEN },
    { "abandon_stream", abandon_stream, KAIVEROHM_CLOSED },
    { "abandon_message", abandon_message, KAIVEROHM_CLOSED },
};

enum { CALLS = sizeof calls / sizeof calls[0] };

/* ---- measuring */

static uint8_t stack[65536];
static ucontext_t outside, inside;

/* The bytes of stack that a call takes. Byte by byte, so that nothing here calls memset. */
static size_t taken(void (*call)(void))
{
    volatile uint8_t *at = stack;
    for (size_t i = 0; i < sizeof stack; i++)
        at[i] = FILL;
    WANT(getcontext(&inside) == 0);
    inside.uc_stack.ss_sp = stack;
    inside.uc_stack.ss_size = sizeof stack;
    inside.uc_link = &outside;
    makecontext(&inside, call, 0);
    WANT(swapcontext(&outside, &inside) == 0);
    size_t used = sizeof stack;
    while (at[sizeof stack - used] == FILL)
        used--;
    return used;
}

/* Every call once; the most that one of them took. */
static size_t round_of_calls(size_t bound)
{
    size_t most = 0;
    for (size_t i = 0; i < CALLS; i++) {
        size_t used = taken(calls[i].call);
        WANT(said == calls[i].says);
        if (used > bound)
            fprintf(stderr, "stack: %s took %zu bytes\n", calls[i].name, used);
        WANT(used <= bound);
        most = used > most ? used : most;
    }
    return most;
}

int main(int argc, char **argv)
{
    int lazy = argc > 1 && strcmp(argv[1], "lazy") == 0;
    size_t first = round_of_calls(lazy ? LAZY_BOUND : BOUND);
    size_t later = round_of_calls(BOUND);
    narrow = 1;
    size_t eight = round_of_calls(BOUND);
    printf("stack: at most %zu bytes in a first call%s, %zu after, %zu with IDs of 8 bits\n", first,
           lazy ? ", bound lazily" : "", later, eight);
    return 0;
}
