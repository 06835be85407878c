/* The logs of the README. */

#include "make.h"

static struct vectors with_output(struct buffer log)
{
    struct vectors made = { .in = log };
    run_log(&made.out, log.bytes, log.length);
    return made;
}

static void must_print(const char *name, const struct vectors *made, const char *lines)
{
    struct buffer wanted = lines_text(lines);
    must_be_same(name, &made->out, &wanted);
    release(&wanted);
}

/* The paper's own log. */
struct vectors paper(void)
{
    static const uint8_t bytes[] = {
        0x0D, 0x19, 0x00, 0x01, 0x00, 0x02, 0x05, 0xC1, 0x00, 0x07, 0xAA, 0xBB, 0xCC, 0x00, 0x0F,
        0x1B, 0x00, 0x01, 0x00, 0x02, 0x09, 0x60, 0x11, 0x12, 0x13, 0x14, 0x15, 0x16, 0x17, 0x18,
    };
    struct buffer log = { 0 };
    append(&log, bytes, sizeof bytes);
    struct vectors made = with_output(log);
    must_print("logs/paper", &made, "pdu 2 5 7 3, msg 2 1 2 8, end 2");
    return made;
}

/* Three probe boards, 21, 22 and 23, send two wheels each, under cos 1.
   The stream is the wheel. A wheel is 100 bytes: four packets. */

static void send(struct buffer *log, struct packet packet)
{
    append_record(log, packet.bytes, packet.length);
}

static void wheel(struct buffer *log, unsigned board, unsigned number, unsigned part)
{
    const struct pdu scan = {
        .flow = { .priority = 0, .source = board, .cos = 1 },
        .stream = number,
        .length = 100,
    };
    send(log, packet_of(scan, part));
}

/* The parts of the three boards' wheels, in turn. */
static void three_parts(struct buffer *log, unsigned number, unsigned part)
{
    wheel(log, 21, number, part);
    wheel(log, 22, number + 10, part);
    wheel(log, 23, number + 20, part);
}

struct vectors wheels(void)
{
    const struct box status = { .priority = 1, .source = 21, .letter = 0, .mbox = 2 };
    const struct flow stranger = { .priority = 0, .source = 24, .cos = 1 };
    struct buffer log = { 0 };

    three_parts(&log, 1, 0);
    three_parts(&log, 1, 1);
    /* Board 21 sends a message, its last segment first. */
    send(&log, message_packet(status, 1, 10, 1, 8));
    three_parts(&log, 1, 2);
    /* The end of board 22's wheel is lost. */
    wheel(&log, 21, 1, 3);
    wheel(&log, 23, 21, 3);
    send(&log, message_packet(status, 1, 10, 0, 16));
    /* So its next start gives that wheel up. */
    three_parts(&log, 2, 0);
    three_parts(&log, 2, 1);
    /* A packet for device 4. */
    send(&log, to_device(stream_packet(stranger, SINGLE, 9, 20), 4));
    three_parts(&log, 2, 2);
    three_parts(&log, 2, 3);

    struct vectors made = with_output(log);
    must_print("logs/wheels", &made,
               "held, held, held, held, held, held, held, held, held, held, "
               "pdu 21 1 1 100, pdu 23 1 21 100, msg 21 0 2 24, "
               "held, held dropped, held, held, held, held, refused 3, held, held, held, "
               "pdu 21 1 2 100, pdu 22 1 12 100, pdu 23 1 22 100, end 26");
    return made;
}

/* The same boards send three wheels each. Of the second wheel board 21
   loses the start, board 22 a packet of the middle, board 23 the end. */
struct vectors lost(void)
{
    struct buffer log = { 0 };

    for (unsigned part = 0; part < 4; part++)
        three_parts(&log, 1, part);
    wheel(&log, 22, 12, 0);
    wheel(&log, 23, 22, 0);
    wheel(&log, 21, 2, 1);
    wheel(&log, 23, 22, 1);
    three_parts(&log, 2, 2);
    wheel(&log, 21, 2, 3);
    wheel(&log, 22, 12, 3);
    for (unsigned part = 0; part < 4; part++)
        three_parts(&log, 3, part);

    struct vectors made = with_output(log);
    must_print("logs/lost", &made,
               "held, held, held, held, held, held, held, held, held, "
               "pdu 21 1 1 100, pdu 22 1 11 100, pdu 23 1 21 100, "
               "held, held, refused 8, held, refused 8, held, held, refused 8, refused 11 dropped, "
               "held, held, held dropped, held, held, held, held, held, held, "
               "pdu 21 1 3 100, pdu 22 1 13 100, pdu 23 1 23 100, end 33");
    return made;
}
