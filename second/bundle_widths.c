/* At an endpoint with IDs of 8 bits: packets of the other width, and the log of
   the responses. */

#include "make.h"

static const struct flow flow = { .priority = 0, .source = 2, .cos = 5 };
static const struct box box = { .priority = 0, .source = 2, .letter = 1, .mbox = 2 };

/* A refusal that leaves all: once nothing is open, once the flow's PDU and the
   message are. */
static void leaves_all(const char *name, unsigned number, struct packet other)
{
    char lines[100];
    begin(name);
    put(other);
    put(stream_packet(flow, START, 7, 32));
    put(message_packet(box, 1, 9, 0, 8));
    put(other);
    put(stream_packet(flow, END, 40, 8));
    put(message_packet(box, 1, 9, 1, 8));
    snprintf(lines, sizeof lines,
             "refused %u, held, held, refused %u, pdu 2 5 7 40, msg 2 1 2 16, end 6", number,
             number);
    wants(lines);
}

static void other_width(void)
{
    static const enum segment_kind kinds[4] = { CONTINUATION, END, START, SINGLE };
    static const unsigned devices[] = { 0, 1, 255, 256, 257, 65535 };
    const struct packet single = widened(message_packet(box, 0, 9, 0, 8));
    section("packets with IDs of 16 bits");
    for (int i = 0; i < 4; i++)
        leaves_all("2: type 9 with IDs of 16 bits", 2,
                   widened(stream_packet(flow, kinds[i], 40, 8)));
    leaves_all("2: type 11 with IDs of 16 bits", 2, single);
    leaves_all("2: a segment of the open message", 2, widened(message_packet(box, 1, 9, 1, 8)));
    for (size_t i = 0; i < sizeof devices / sizeof devices[0]; i++) {
        struct packet other = with_byte(single, 1, devices[i] >> 8);
        leaves_all("2: for any device", 2, with_byte(other, 2, devices[i] & 255));
    }
    for (unsigned tt = 1; tt <= 3; tt++)
        for (size_t length = 0; length < 10; length++)
            leaves_all("1 before 2, by our own limit", length < 3 ? 1 : 2,
                       cut_to(with_byte(single, 0, tt << 4 | 11), length));
}

/* Two boards, one of each width, send the same PDU and the same message. */
static void both_widths(void)
{
    const struct pdu pdu = { .flow = flow, .stream = 7, .length = 80 };
    begin("both widths side by side");
    for (unsigned i = 0; i < packets_of(pdu); i++) {
        put(widened(packet_of(pdu, i)));
        put(packet_of(pdu, i));
    }
    for (unsigned i = 0; i < 2; i++) {
        put(message_packet(box, 1, 9, i, 8));
        put(widened(message_packet(box, 1, 9, i, 8)));
    }
    wants("refused 2, held, refused 2, held, refused 2, pdu 2 5 7 80, "
          "held, refused 2, msg 2 1 2 16, refused 2, end 10");
}

static void all_responses(void)
{
    struct buffer log = responses_log();
    section("message responses");
    begin("the log of the responses");
    put_raw(log.bytes, log.length);
    finish();
    release(&log);
}

void bundle_widths(void)
{
    other_width();
    both_widths();
    all_responses();
}
