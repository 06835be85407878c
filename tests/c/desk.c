/* The names of the header and its calls over one struct: each refusal is brought
   about and compared with its name, each call over a desk with the buffers that it
   must have been given. It is C of three ages, and C++. */

#include <stdio.h>
#include <stdlib.h>
#include <string.h>

#include "kaiverohm.h"
#include "want.h"

/* An R where the memories differ in size, and a room from a message's room. */
enum { DEVICE = 0x0102, MTU = KAIVEROHM_SMALLEST_MTU, ROOM = 100, PACKETS = 3 };

static uint64_t state[KAIVEROHM_STATE_WORDS];
static uint8_t streams[KAIVEROHM_STREAM_MEMORY(ROOM)];
static uint8_t messages[KAIVEROHM_MESSAGE_MEMORY];
static uint8_t response[PACKETS * KAIVEROHM_SLOT_BYTES];
static const struct kaiverohm_desk desk = KAIVEROHM_DESK(state, streams, messages, response);

static int is(struct kaiverohm_answer a, enum kaiverohm_kind kind, uint64_t number)
{
    return (enum kaiverohm_kind)a.kind == kind && a.number == number;
}

static int refused(struct kaiverohm_report r, enum kaiverohm_refusal number)
{
    return (enum kaiverohm_kind)r.kind == KAIVEROHM_REFUSED
           && (enum kaiverohm_refusal)r.number == number;
}

static struct kaiverohm_answer set_up(uint16_t device, uint64_t mtu, uint64_t room, uint64_t narrow)
{
    const struct kaiverohm_settings settings = { device, mtu, room, narrow };
    return kaiverohm_desk_setup(&desk, settings);
}

static void fresh(void)
{
    WANT(is(set_up(DEVICE, MTU, ROOM, 0), KAIVEROHM_READY, 0));
}

/* ---- packets */

static uint8_t packet[64];

/* A head of 7 bytes from that source, two more where they are given, then data. */
static struct kaiverohm_report came(uint8_t first, uint8_t source, uint8_t fifth, uint8_t sixth,
                                    const char *field, size_t data)
{
    const uint8_t head[7] = { first, DEVICE >> 8, DEVICE & 0xff, 0, source, fifth, sixth };
    size_t length = sizeof head + strlen(field);
    memcpy(packet, head, sizeof head);
    memcpy(packet + sizeof head, field, strlen(field));
    for (size_t i = 0; i < data; i++)
        packet[length + i] = (uint8_t)(i + 1);
    return kaiverohm_desk_read(&desk, packet, length + data);
}

static struct kaiverohm_report start_came(uint8_t source)
{
    return came(0x19, source, 5, 0x80, "\x07\x07", MTU);
}

static struct kaiverohm_report continuation_came(uint8_t source)
{
    return came(0x19, source, 5, 0x00, "", MTU);
}

/* An end of 2 bytes that says how many the PDU has. */
static struct kaiverohm_report end_came(uint8_t source, const char *length)
{
    return came(0x19, source, 5, 0x42, length, 2);
}

/* A message segment of 8 bytes: msglen and ssize, then letter, mbox and msgseg. */
static struct kaiverohm_report segment_came(uint8_t source, uint8_t sizes, uint8_t number)
{
    return came(0x1b, source, sizes, number, "", 8);
}

/* ---- each refusal by its name */

static void heads(void)
{
    fresh();
    WANT(refused(kaiverohm_desk_read(&desk, packet, 0), KAIVEROHM_REFUSAL_SHORT));
    WANT(refused(came(0x29, 9, 5, 0, "", MTU), KAIVEROHM_REFUSAL_ID_WIDTH));
    memcpy(packet, "\x19\x01\x03\x00\x09", 5);
    WANT(refused(kaiverohm_desk_read(&desk, packet, 5), KAIVEROHM_REFUSAL_OTHER_DEVICE));
    WANT(refused(came(0x15, 9, 5, 0, "", MTU), KAIVEROHM_REFUSAL_TYPE));
    WANT(refused(came(0x19, 9, 5, 0x04, "", MTU), KAIVEROHM_REFUSAL_EXTENDED));
}

/* With IDs of 8 bits: 2 for the other width, 47 for an ID that is too wide. */
static void eight_bits(void)
{
    WANT(is(set_up(DEVICE, MTU, ROOM, 1), KAIVEROHM_REFUSED, KAIVEROHM_REFUSAL_WIDE_ID));
    WANT(is(set_up(DEVICE & 0xff, MTU, ROOM, 1), KAIVEROHM_READY, 0));
    WANT(refused(start_came(9), KAIVEROHM_REFUSAL_ID_WIDTH));
    memcpy(packet, "\x0b\x02\x09\x09\x60\x61\x62\x63\x64\x65\x66\x67\x68", 13);
    struct kaiverohm_report r = kaiverohm_desk_read(&desk, packet, 13);
    WANT(r.kind == KAIVEROHM_MESSAGE && r.source == 9 && r.response == 5);
    WANT(memcmp(response, "\x4d\x09\x02\x10\x60", 5) == 0);
    WANT(memcmp(kaiverohm_desk_bytes(&desk, &r), "\x61\x62\x63\x64\x65\x66\x67\x68", 8) == 0);
    const struct kaiverohm_heading wide = { 256, 2, 3, 4, 0, 1 };
    WANT(is(kaiverohm_write_segment(packet, sizeof packet, wide, MTU, streams, 9, 0),
            KAIVEROHM_REFUSED, KAIVEROHM_REFUSAL_WIDE_ID));
}

static void segments(void)
{
    fresh();
    WANT(refused(came(0x19, 9, 5, 0, "", 0), KAIVEROHM_REFUSAL_FORM));
    WANT(refused(came(0x19, 9, 5, 0, "", MTU - 4), KAIVEROHM_REFUSAL_SIZE));
    WANT(refused(continuation_came(9), KAIVEROHM_REFUSAL_NOT_OPEN));
    start_came(9);
    continuation_came(9);
    continuation_came(9);
    WANT(refused(continuation_came(9), KAIVEROHM_REFUSAL_PAST_ROOM));
    start_came(9);
    WANT(refused(end_came(9, "\x7f\x7f"), KAIVEROHM_REFUSAL_END_LENGTH));
    for (uint8_t i = 0; i < KAIVEROHM_STREAM_CONTEXTS; i++)
        start_came((uint8_t)(0x10 + i));
    WANT(refused(start_came(9), KAIVEROHM_REFUSAL_STREAMS_FULL));
}

static void message_segments(void)
{
    fresh();
    WANT(refused(segment_came(9, 0x18, 0), KAIVEROHM_REFUSAL_SSIZE));
    WANT(refused(segment_came(9, 0x1a, 0), KAIVEROHM_REFUSAL_SEGMENT_LENGTH));
    WANT(refused(segment_came(9, 0x19, 2), KAIVEROHM_REFUSAL_PAST_LAST));
    segment_came(9, 0x19, 0);
    WANT(refused(segment_came(9, 0x29, 0), KAIVEROHM_REFUSAL_OTHER_MESSAGE));
    WANT(refused(segment_came(9, 0x19, 0), KAIVEROHM_REFUSAL_TWICE));
    for (uint8_t i = 1; i < KAIVEROHM_MESSAGE_CONTEXTS; i++)
        segment_came((uint8_t)(0x10 + i), 0x19, 0);
    WANT(refused(segment_came(8, 0x19, 0), KAIVEROHM_REFUSAL_MESSAGES_FULL));
}

static struct kaiverohm_answer written(size_t out, uint64_t mtu, uint8_t priority, size_t pdu,
                                       uint64_t number)
{
    static uint8_t bytes[100];
    const struct kaiverohm_heading heading = { DEVICE, 2, 3, 4, priority, 0 };
    return kaiverohm_write_segment(packet, out, heading, mtu, bytes, pdu, number);
}

static void writer(void)
{
    WANT(is(written(64, MTU, 0, 0, 0), KAIVEROHM_REFUSED, KAIVEROHM_REFUSAL_PDU));
    WANT(is(written(64, MTU, 0, 9, 1), KAIVEROHM_REFUSED, KAIVEROHM_REFUSAL_NO_SEGMENT));
    WANT(is(written(17, MTU, 0, 9, 0), KAIVEROHM_REFUSED, KAIVEROHM_REFUSAL_OUT));
    WANT(is(written(64, MTU, 4, 9, 0), KAIVEROHM_REFUSED, KAIVEROHM_REFUSAL_PRIORITY));
    WANT(is(written(64, MTU, 3, 9, 0), KAIVEROHM_WRITTEN, 19));
    WANT(is(written(64, 0, 0, 9, 0), KAIVEROHM_REFUSED, KAIVEROHM_REFUSAL_MTU));
}

/* The memories the other way round, a context past the last, and no state. */
static void faults_of_the_caller(void)
{
    const struct kaiverohm_desk swapped = KAIVEROHM_DESK(state, messages, streams, response);
    fresh();
    WANT(refused(kaiverohm_desk_read(&swapped, packet, 0), KAIVEROHM_REFUSAL_BUFFER));
    WANT(kaiverohm_desk_stream_context(&desk, KAIVEROHM_STREAM_CONTEXTS).number
         == KAIVEROHM_REFUSAL_NO_CONTEXT);
    WANT(kaiverohm_desk_message_context(&desk, KAIVEROHM_MESSAGE_CONTEXTS).number
         == KAIVEROHM_REFUSAL_NO_CONTEXT);
    WANT(is(kaiverohm_desk_abandon_stream(&desk, KAIVEROHM_STREAM_CONTEXTS), KAIVEROHM_REFUSED,
            KAIVEROHM_REFUSAL_NO_CONTEXT));
    WANT(is(kaiverohm_desk_abandon_message(&desk, KAIVEROHM_MESSAGE_CONTEXTS), KAIVEROHM_REFUSED,
            KAIVEROHM_REFUSAL_NO_CONTEXT));
    state[1] = 0;
    WANT(refused(kaiverohm_desk_read(&desk, packet, 0), KAIVEROHM_REFUSAL_STATE));
}

/* A word out of each number's words, so that no two are in each other's place. */
static void words(void)
{
    static const char *const some[] = {
        "no refusal",  "whole head",   "another width", "another device", "nor type",
        "extended",    "O wrong",      "the MTU",       "its flow",       "than a room",
        "16 stream",   "as it says",   "buffer",        "no such c",      "over 65",
        "no such s",   "out is short", "priority",      "the MTU is",     "state",
        "is reserved", "wrong length", "past the last", "than before",    "already",
        "8 message",
    };
    enum { COUNT = sizeof some / sizeof some[0] };
    WANT(COUNT == KAIVEROHM_REFUSAL_MESSAGES_FULL + 1);
    for (uint64_t n = 0; n < COUNT; n++)
        WANT(strstr(kaiverohm_refusal_words(n), some[n]) != NULL);
    for (uint64_t n = COUNT; n < 60; n++)
        if (n != KAIVEROHM_REFUSAL_WIDE_ID)
            WANT(strcmp(kaiverohm_refusal_words(n), some[0]) == 0);
    WANT(strstr(kaiverohm_refusal_words(KAIVEROHM_REFUSAL_WIDE_ID), "over 255") != NULL);
    WANT(strcmp(kaiverohm_refusal_words((UINT64_C(1) << 32) + 1), some[0]) == 0);
    WANT(strcmp(kaiverohm_refusal_words(UINT64_MAX), some[0]) == 0);
}

/* ---- the limits, each with one past it */

static void limits(void)
{
    const uint64_t least = KAIVEROHM_SMALLEST_MTU, most = KAIVEROHM_LARGEST_MTU;
    const uint64_t step = KAIVEROHM_MTU_STEP, room = KAIVEROHM_LARGEST_ROOM;
    WANT(set_up(1, least, room, 0).kind == KAIVEROHM_READY);
    WANT(set_up(1, least + step, room, 0).kind == KAIVEROHM_READY);
    WANT(set_up(1, most, room, 0).kind == KAIVEROHM_READY);
    WANT(set_up(1, least - step, room, 0).kind == KAIVEROHM_REFUSED);
    WANT(set_up(1, least + step / 2, room, 0).kind == KAIVEROHM_REFUSED);
    WANT(set_up(1, most + step, room, 0).kind == KAIVEROHM_REFUSED);
    WANT(is(set_up(1, most, room + 1, 0), KAIVEROHM_REFUSED, KAIVEROHM_REFUSAL_STATE));
}

/* ---- the desk */

static void made_of_arrays(void)
{
    WANT(desk.state == state && desk.state_words == KAIVEROHM_STATE_WORDS);
    WANT(desk.stream_memory == streams && desk.stream_length == 16 * ROOM);
    WANT(desk.message_memory == messages && desk.message_length == KAIVEROHM_MESSAGE_MEMORY);
    WANT(desk.response == response && desk.response_length == sizeof response);
    WANT(KAIVEROHM_STREAM_MEMORY(ROOM + 1) == 16 * (ROOM + 1));
    fresh();
    WANT(state[0] == DEVICE && state[1] == MTU && state[2] == ROOM && state[3] == 0);
}

/* The second of two flows ends: its bytes stand in the second room. */
static void stream_bytes(void)
{
    fresh();
    start_came(8);
    struct kaiverohm_report r = start_came(9);
    WANT(r.kind == KAIVEROHM_HELD && kaiverohm_desk_bytes(&desk, &r) == NULL);
    r = end_came(8, "\x7f\x7f");
    WANT(r.dropped == 1 && kaiverohm_desk_bytes(&desk, &r) == NULL);
    memcpy(packet, "\x19\x01\x02\x00\x09\x05\x42\x00\x22\x21\x22", 11);
    r = kaiverohm_desk_read(&desk, packet, 11);
    WANT(r.kind == KAIVEROHM_DELIVERED && r.context == 1 && r.length == MTU + 2);
    const uint8_t *bytes = kaiverohm_desk_bytes(&desk, &r);
    WANT(bytes == streams + ROOM && bytes[0] == 1 && bytes[MTU] == 0x21 && bytes[MTU + 1] == 0x22);
    r.length = ROOM + 1;
    WANT(kaiverohm_desk_bytes(&desk, &r) == NULL);
    r.length = ROOM;
    WANT(kaiverohm_desk_bytes(&desk, &r) == streams + ROOM);
    r.context = KAIVEROHM_STREAM_CONTEXTS;
    WANT(kaiverohm_desk_bytes(&desk, &r) == NULL);
}

/* A source and a cos at two priorities are two flows: the second's bytes stand in the second room. */
static void priorities(void)
{
    fresh();
    WANT(start_came(9).dropped == 0);
    WANT(came(0x59, 9, 5, 0x80, "\x08\x08", MTU).dropped == 0);
    WANT(kaiverohm_desk_stream_context(&desk, 0).priority == 0);
    WANT(kaiverohm_desk_stream_context(&desk, 1).priority == 1);
    memcpy(packet, "\x59\x01\x02\x00\x09\x05\x42\x00\x22\x21\x22", 11);
    struct kaiverohm_report r = kaiverohm_desk_read(&desk, packet, 11);
    WANT(r.kind == KAIVEROHM_DELIVERED && r.context == 1 && r.priority == 1);
    WANT(r.stream_or_mailbox == 0x0808 && kaiverohm_desk_bytes(&desk, &r) == streams + ROOM);
    WANT(kaiverohm_desk_stream_context(&desk, 0).stream == 0x0707);
    WANT(kaiverohm_desk_stream_context(&desk, 1).kind == KAIVEROHM_WAS_FREE);
}

static void message_bytes(void)
{
    fresh();
    segment_came(8, 0x19, 0);
    struct kaiverohm_report r = segment_came(9, 0x19, 1);
    WANT(r.kind == KAIVEROHM_HELD && kaiverohm_desk_bytes(&desk, &r) == NULL);
    r = segment_came(9, 0x19, 0);
    WANT(r.kind == KAIVEROHM_MESSAGE && r.context == 1 && r.length == 16);
    WANT(r.response == KAIVEROHM_RESPONSE_BYTES && response[0] == 0x5d && response[2] == 9);
    const uint8_t *bytes = kaiverohm_desk_bytes(&desk, &r);
    WANT(bytes == messages + KAIVEROHM_MESSAGE_ROOM && bytes[0] == 1 && bytes[15] == 8);
    r.kind = KAIVEROHM_HELD;
    WANT(kaiverohm_desk_bytes(&desk, &r) == NULL);
    r.kind = KAIVEROHM_MESSAGE;
    state[1] = 0;
    WANT(kaiverohm_desk_bytes(&desk, &r) == NULL);
}

static void rooms(void)
{
    fresh();
    struct kaiverohm_place p = kaiverohm_desk_stream_room(&desk, 3, 7);
    WANT(p.offset == 3 * ROOM && p.length == 7);
    p = kaiverohm_desk_message_room(&desk, 3, 7);
    WANT(p.offset == 3 * KAIVEROHM_MESSAGE_ROOM && p.length == 7);
}

static void abandons(void)
{
    fresh();
    start_came(9);
    WANT(kaiverohm_desk_stream_context(&desk, 0).kind == KAIVEROHM_OPEN);
    WANT(kaiverohm_desk_stream_context(&desk, 0).source == 9);
    WANT(kaiverohm_desk_message_context(&desk, 0).kind == KAIVEROHM_WAS_FREE);
    WANT(is(kaiverohm_desk_abandon_message(&desk, 0), KAIVEROHM_WAS_FREE, 0));
    WANT(is(kaiverohm_desk_abandon_stream(&desk, 0), KAIVEROHM_CLOSED, 0));
    segment_came(9, 0x19, 0);
    WANT(kaiverohm_desk_stream_context(&desk, 0).kind == KAIVEROHM_WAS_FREE);
    WANT(kaiverohm_desk_message_context(&desk, 0).kind == KAIVEROHM_OPEN);
    WANT(kaiverohm_desk_message_context(&desk, 0).msglen == 1);
    WANT(is(kaiverohm_desk_abandon_stream(&desk, 0), KAIVEROHM_WAS_FREE, 0));
    WANT(is(kaiverohm_desk_abandon_message(&desk, 0), KAIVEROHM_CLOSED, 0));
}

/* ---- a burst over a desk: a packet of no bytes, then two messages */

#define MESSAGE "\x0f\x1b\x01\x02\x00\x09\x09\x60\x61\x62\x63\x64\x65\x66\x67\x68"

static struct kaiverohm_burst burst(struct kaiverohm_report *reports, size_t count, uint64_t pause)
{
    static uint8_t records[] = "\x00" MESSAGE MESSAGE;
    memset(response, 0, sizeof response);
    return kaiverohm_desk_read_burst(&desk, reports, count, records, sizeof records - 1, pause);
}

static int stopped(struct kaiverohm_burst b, enum kaiverohm_stop stop, uint64_t count)
{
    return (enum kaiverohm_stop)b.stop == stop && b.count == count;
}

static void bursts(void)
{
    struct kaiverohm_report reports[PACKETS + 1];
    memset(reports, 0x77, sizeof reports);
    fresh();
    WANT(stopped(burst(reports, PACKETS + 1, 0), KAIVEROHM_BURST_END, PACKETS));
    WANT(refused(reports[0], KAIVEROHM_REFUSAL_SHORT) && reports[1].kind == KAIVEROHM_MESSAGE);
    WANT(reports[2].kind == KAIVEROHM_MESSAGE && reports[3].kind != KAIVEROHM_MESSAGE);
    WANT(response[0] == 0 && response[8] == 0x5d && response[16] == 0x5d);
    const uint8_t *bytes = kaiverohm_desk_bytes(&desk, &reports[2]);
    WANT(bytes == messages && memcmp(bytes, "\x61\x62\x63\x64\x65\x66\x67\x68", 8) == 0);
    WANT(stopped(burst(reports, PACKETS, 1), KAIVEROHM_BURST_DELIVERY, 2));
    WANT(stopped(burst(reports, 1, 0), KAIVEROHM_BURST_FULL, 1));
    WANT(stopped(burst(reports, 0, 0), KAIVEROHM_BURST_FULL, 0));
    state[1] = 0;
    WANT(stopped(burst(reports, PACKETS, 0), KAIVEROHM_BURST_REFUSED, 0));
    fresh();
    static const uint8_t bad[] = { 1 };
    WANT(stopped(kaiverohm_desk_read_burst(&desk, reports, 0, bad, 1, 0), KAIVEROHM_BURST_BAD, 0));
}

int main(void)
{
    made_of_arrays();
    heads();
    eight_bits();
    segments();
    message_segments();
    writer();
    faults_of_the_caller();
    words();
    limits();
    stream_bytes();
    priorities();
    message_bytes();
    rooms();
    abandons();
    bursts();
    printf("desk: %u checks\n", checks);
    return 0;
}
