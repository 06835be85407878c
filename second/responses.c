/* Message responses: one clean log, an answer and a response for each record. */

#include "make.h"

#include <stdlib.h>

static struct buffer log_bytes;

static void send(struct packet packet)
{
    append_record(&log_bytes, packet.bytes, packet.length);
}

static const struct flow flow = { .priority = 2, .source = 2, .cos = 5 };

/* Several sources and all priorities, in turn. */
static struct box box_of(unsigned number)
{
    static const unsigned wide[] = { 0, 2, 255, 256, 65535, 513 };
    static const unsigned narrow[] = { 0, 2, 255, 1, 254, 77 };
    const struct box box = {
        .priority = number % 4,
        .source = either(wide[number / 4 % 6], narrow[number / 4 % 6]),
        .letter = number / 3 % 4,
        .mbox = number / 5 % 4,
    };
    return box;
}

/* DONE for a delivered one: every byte 6. */
static void single_messages(void)
{
    for (unsigned byte = 0; byte < 256; byte++) {
        struct box box = box_of(byte);
        box.letter = byte / 64;
        box.mbox = byte / 16 % 4;
        send(message_packet(box, 0, 9, byte % 16, 8));
    }
}

/* DONE for held ones and for the last: every msgseg, backwards. */
static void whole_messages(void)
{
    for (unsigned i = 0; i < 24; i++)
        for (unsigned k = 0; k <= i % 15 + 1; k++) {
            struct box box = box_of(i);
            box.priority = (i + k) % 4;
            send(message_packet(box, i % 15 + 1, 9, i % 15 + 1 - k, 8));
        }
}

static void errors_20_to_22(void)
{
    static const unsigned reserved[] = { 0, 1, 2, 3, 4, 5, 6, 7, 8, 15 };
    static const size_t wrong[] = { 0, 4, 7, 12, 264 };
    for (unsigned i = 0; i < 40; i++)
        send(message_packet(box_of(i), i % 16, reserved[i % 10], i / 3 % 16, 8));
    for (unsigned i = 0; i < 40; i++)
        send(message_packet(box_of(i), i % 16, 9 + i % 6, i / 3 % 16, wrong[i % 5]));
    for (unsigned i = 0; i < 40; i++)
        send(message_packet(box_of(i), 1 + i % 14, 9, 15, 8));
}

static void errors_23_and_24(void)
{
    for (unsigned i = 0; i < 24; i++) {
        struct box box = box_of(i);
        send(message_packet(box, 2, 10, i % 2, 16));
        box.priority = (i + 1) % 4;
        send(message_packet(box, 3, 10, 2, 16));
        send(message_packet(box, 2, 9, i % 3, 8));
        send(message_packet(box, 2, 10, i % 2, 16));
        send(message_packet(box, 2, 10, 2, 8));
        send(message_packet(box, 2, 10, 2, 16));
        send(message_packet(box, 2, 10, 1 - i % 2, 16));
    }
}

static void retries(void)
{
    const unsigned others = either(1000, 100);
    for (unsigned i = 0; i < 8; i++) {
        const struct box box = { .priority = 1, .source = others + i, .letter = 2, .mbox = 3 };
        send(message_packet(box, 1, 9, 0, 8));
    }
    for (unsigned i = 0; i < 32; i++) {
        send(message_packet(box_of(i), 1 + i % 15, 9, i % 2, 8));
        send(message_packet(box_of(i), 0, 9, i % 16, 8));
        send(message_packet(box_of(i), 0, 15, i % 16, 8));
    }
    for (unsigned i = 0; i < 8; i++) {
        const struct box box = { .priority = 0, .source = others + i, .letter = 2, .mbox = 3 };
        send(message_packet(box, 1, 9, 1, 8));
    }
}

/* Nothing is written for these. */
static void no_response(void)
{
    send((struct packet){ .length = 0 });
    for (unsigned i = 0; i < 16; i++) {
        struct packet message = message_packet(box_of(i), 0, 9, i, 8);
        send(cut_to(message, i % at(7)));
        send(with_flipped(message, 0, 0x10));
        send(to_device(message, 2 + i));
        send(with_flipped(message, 0, 0x04));
        send(message);
        send(stream_packet(flow, START, i, 32));
        send(with_flipped(stream_packet(flow, END, 40, 8), at(6), BIT_XH));
        send(stream_packet(flow, CONTINUATION, 0, 32));
        send(message_packet(box_of(i), 0, 9, i, 9));
        send(stream_packet(flow, END, 72, 8));
        send(stream_packet(flow, END, 72, 8));
        send(stream_packet(flow, SINGLE, i, 34));
    }
}

/* Twelve messages at once, each with its own number of segments. */
static void mixed(void)
{
    struct random random = seeded(5);
    for (unsigned i = 0; i < 700; i++) {
        unsigned which = below(&random, 12);
        const struct box box = {
            .priority = below(&random, 4),
            .source = either(250, 244) + which,
            .letter = which % 4,
            .mbox = which / 4,
        };
        unsigned msglen = one_in(&random, 12) ? below(&random, 16) : which % 4;
        unsigned ssize = one_in(&random, 12) ? below(&random, 16) : 9;
        unsigned msgseg = one_in(&random, 12) ? below(&random, 16) : below(&random, msglen + 1);
        size_t bytes = one_in(&random, 12) ? below(&random, 40) : 8;
        if (one_in(&random, 6))
            send(stream_packet(flow, one_in(&random, 2) ? START : SINGLE, i, 32));
        send(message_packet(box, msglen, ssize, msgseg, bytes));
    }
}

struct buffer responses_log(void)
{
    log_bytes = (struct buffer){ 0 };
    single_messages();
    whole_messages();
    errors_20_to_22();
    errors_23_and_24();
    retries();
    no_response();
    mixed();
    return log_bytes;
}

struct vectors responses(void)
{
    struct vectors made = { .in = responses_log() };
    bool clean = run_responses(&made.out, eight_bits, made.in.bytes, made.in.length);
    if (!clean || made.in.length > LARGEST_LOG) {
        fputs("the responses' log is not clean\n", stderr);
        exit(1);
    }
    return made;
}
