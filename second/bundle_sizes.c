/* Sizes at their edges, bits that are ignored, priorities, many contexts. */

#include "bundle.h"

static const struct flow flow = { .priority = 0, .source = 2, .cos = 5 };

/* ---- Lengths of PDUs ----------------------------------------------------- */

/* The lines of a PDU that is delivered whole. */
static void wants_whole(struct pdu pdu)
{
    struct buffer lines = { 0 };
    for (unsigned i = 1; i < packets_of(pdu); i++)
        append_text(&lines, "held, ");
    char last[100];
    snprintf(last, sizeof last, "pdu %u %u %u %zu, end %u", pdu.flow.source, pdu.flow.cos,
             pdu.stream, pdu.length, packets_of(pdu));
    append_text(&lines, last);
    append_byte(&lines, 0);
    wants((const char *)lines.bytes);
    release(&lines);
}

static void whole(size_t length)
{
    const struct pdu pdu = { .flow = flow, .stream = (unsigned)length % 1000, .length = length };
    begin("a whole PDU");
    put_pdu(pdu);
    wants_whole(pdu);
}

static void lengths(void)
{
    section("PDU lengths at their edges");
    for (size_t length = 1; length <= 8; length++)
        whole(length);
    for (size_t length = 28; length <= 36; length++)
        whole(length);
    for (size_t length = 62; length <= 68; length++)
        whole(length);
    whole(95);
    whole(96);
    whole(97);
    whole(1023);
    whole(2047);
    whole(2048);

    const struct pdu too_long = { .flow = flow, .stream = 7, .length = 2049 };
    begin("2,049 bytes pass R");
    put_pdu(too_long);
    finish();
}

/* ---- What is ignored on reading ------------------------------------------ */

static struct packet last_byte_set(struct packet packet)
{
    return with_byte(packet, packet.length - 1, 0xFF);
}

static void ignored(void)
{
    section("reserved bits and pad bytes set");
    for (unsigned bits = 0x08; bits <= RESERVED_BITS; bits += 0x08) {
        begin("reserved bits");
        put(with_flipped(stream_packet(flow, SINGLE, 7, 3), at(6), bits));
        put(with_flipped(stream_packet(flow, START, 8, 32), at(6), bits));
        put(with_flipped(stream_packet(flow, CONTINUATION, 0, 32), at(6), bits));
        put(with_flipped(stream_packet(flow, END, 69, 5), at(6), bits));
        wants("pdu 2 5 7 3, held, held, pdu 2 5 8 69, end 4");
    }

    begin("pad bytes");
    put(last_byte_set(stream_packet(flow, SINGLE, 7, 1)));
    put(last_byte_set(stream_packet(flow, SINGLE, 7, 31)));
    put(stream_packet(flow, START, 8, 32));
    put(last_byte_set(stream_packet(flow, END, 33, 1)));
    put(stream_packet(flow, START, 9, 32));
    put(last_byte_set(stream_packet(flow, END, 63, 31)));
    wants("pdu 2 5 7 1, pdu 2 5 7 31, held, pdu 2 5 8 33, held, pdu 2 5 9 63, end 6");

    begin("both");
    put(with_flipped(last_byte_set(stream_packet(flow, SINGLE, 65535, 7)), at(6), RESERVED_BITS));
    put(with_flipped(stream_packet(flow, START, 0, 32), at(6), RESERVED_BITS));
    put(with_flipped(last_byte_set(stream_packet(flow, END, 41, 9)), at(6), RESERVED_BITS));
    wants("pdu 2 5 65535 7, held, pdu 2 5 0 41, end 3");
}

/* ---- Priorities and IDs -------------------------------------------------- */

static void priorities(void)
{
    static const unsigned wide[] = { 0, 1, 2, 255, 256, 65535 };
    static const unsigned narrow[] = { 0, 1, 2, 127, 128, 255 };
    section("priorities and extreme fields");

    begin("the packets of one PDU at four priorities: four flows, of which one has a start");
    for (unsigned i = 0; i < 4; i++) {
        struct pdu pdu = { .flow = flow, .stream = 7, .length = 100 };
        pdu.flow.priority = 3 - i;
        put(packet_of(pdu, i));
    }
    wants("held, refused 8, refused 8, refused 8, end 4");

    begin("a start at another priority leaves the older PDU");
    for (unsigned i = 0; i < 4; i++) {
        struct pdu pdu = { .flow = flow, .stream = i, .length = 40 };
        pdu.flow.priority = i;
        put(packet_of(pdu, 0));
    }
    put(stream_packet(flow, END, 40, 8));
    wants("held, held, held, held, pdu 2 5 0 40, end 5");

    begin("the segments of a message at four priorities");
    for (unsigned i = 0; i < 4; i++) {
        const struct box box = { .priority = i, .source = 2, .letter = 3, .mbox = 3 };
        put(message_packet(box, 3, 9, i, 8));
    }
    wants("held, held, held, msg 2 3 3 32, end 4");

    for (unsigned i = 0; i < sizeof wide / sizeof wide[0]; i++) {
        unsigned source = either(wide[i], narrow[i]);
        const struct flow of = { .priority = i % 4, .source = source, .cos = 255 };
        const struct box box = { .priority = 3, .source = source, .letter = 0, .mbox = 0 };
        begin("extreme sources, cos and streams");
        put_pdu((struct pdu){ .flow = of, .stream = 65535, .length = 33 });
        put_pdu((struct pdu){ .flow = of, .stream = 256, .length = 32 });
        put(message_packet(box, 0, 10, 15, 16));
        put(message_packet(box, 1, 10, 1, 16));
        put(message_packet(box, 1, 10, 0, 16));
        finish();
    }
}

/* ---- Flows side by side -------------------------------------------------- */

static void flows(void)
{
    section("flows side by side");

    begin("sixteen flows in turn, then a seventeenth");
    for (unsigned round = 0; round < 3; round++)
        for (unsigned i = 0; i < 17; i++) {
            const struct flow of = { .priority = 1, .source = 10 + i / 4, .cos = i % 4 };
            put(packet_of((struct pdu){ .flow = of, .stream = i, .length = 80 }, round));
        }
    finish();

    begin("a lost start on a full endpoint, another flow's end makes room");
    for (unsigned i = 0; i < 16; i++)
        put(stream_packet((struct flow){ 0, i, i }, START, i, 32));
    put(stream_packet((struct flow){ 0, 16, 16 }, START, 16, 32));
    put(stream_packet((struct flow){ 0, 16, 16 }, END, 33, 1));
    put(stream_packet((struct flow){ 0, 9, 9 }, END, 33, 1));
    put(stream_packet((struct flow){ 0, 17, 17 }, SINGLE, 17, 1));
    put(stream_packet((struct flow){ 0, 18, 18 }, START, 18, 32));
    put(stream_packet((struct flow){ 0, 19, 19 }, SINGLE, 19, 1));
    wants("held, held, held, held, held, held, held, held, "
          "held, held, held, held, held, held, held, held, "
          "refused 10, refused 8, pdu 9 9 9 33, pdu 17 17 17 1, held, refused 10, end 22");

    begin("a start, a single and wrong ones on one flow");
    put(stream_packet(flow, START, 1, 32));
    put(stream_packet(flow, START, 2, 32));
    put(stream_packet(flow, SINGLE, 3, 32));
    put(stream_packet(flow, SINGLE, 4, 31));
    put(stream_packet(flow, START, 5, 32));
    put(stream_packet(flow, START, 6, 30));
    put(stream_packet(flow, START, 7, 30));
    put(stream_packet(flow, START, 8, 32));
    put(stream_packet(flow, SINGLE, 9, 0));
    put(stream_packet(flow, SINGLE, 10, 0));
    wants("held, held dropped, pdu 2 5 3 32 dropped, pdu 2 5 4 31, held, refused 7 dropped, "
          "refused 7, held, refused 6 dropped, refused 6, end 10");

    begin("an end without data gives the PDU up");
    put(stream_packet(flow, START, 1, 32));
    put(stream_packet(flow, END, 0, 0));
    put(stream_packet(flow, END, 0, 0));
    wants("held, refused 6 dropped, refused 6, end 3");
}

void bundle_contexts(void)
{
    flows();
}

void bundle_sizes(void)
{
    lengths();
    ignored();
    priorities();
}
