/* The paper's own logs and its worked examples, at MTU 32. */

#include "bundle.h"

static const struct flow flow = { .priority = 0, .source = 2, .cos = 5 };

static struct pdu pdu(size_t length)
{
    struct pdu made = { .flow = flow, .stream = 7, .length = length };
    return made;
}

static void sample(void)
{
    static const uint8_t wide[] = {
        0x0D, 0x19, 0x00, 0x01, 0x00, 0x02, 0x05, 0xC1, 0x00, 0x07, 0xAA, 0xBB, 0xCC, 0x00, 0x0F,
        0x1B, 0x00, 0x01, 0x00, 0x02, 0x09, 0x60, 0x11, 0x12, 0x13, 0x14, 0x15, 0x16, 0x17, 0x18,
    };
    static const uint8_t narrow[] = {
        0x0B, 0x09, 0x01, 0x02, 0x05, 0xC1, 0x00, 0x07, 0xAA, 0xBB, 0xCC, 0x00, 0x0D,
        0x0B, 0x01, 0x02, 0x09, 0x60, 0x11, 0x12, 0x13, 0x14, 0x15, 0x16, 0x17, 0x18,
    };
    begin("the sample log");
    if (eight_bits)
        put_raw(narrow, sizeof narrow);
    else
        put_raw(wide, sizeof wide);
    wants("pdu 2 5 7 3, msg 2 1 2 8, end 2");

    begin("the empty log");
    wants("end 0");
}

static void examples_1_to_4(void)
{
    begin("example 1: L=32, one packet");
    put_pdu(pdu(32));
    wants("pdu 2 5 7 32, end 1");

    begin("example 2: L=33, two packets");
    put_pdu(pdu(33));
    wants("held, pdu 2 5 7 33, end 2");

    begin("example 3: L=64");
    put_pdu(pdu(64));
    wants("held, pdu 2 5 7 64, end 2");

    begin("example 4: L=65, with a continuation");
    put_pdu(pdu(65));
    wants("held, held, pdu 2 5 7 65, end 3");
}

static void examples_6_to_9(void)
{
    begin("example 6: L=96, middle lost");
    put_pdu_without(pdu(96), 1);
    wants("held, refused 11 dropped, end 2");

    begin("example 7: L=96, start lost");
    put_pdu_without(pdu(96), 0);
    wants("refused 8, refused 8, end 2");

    begin("example 8: two 40-byte PDUs, first end lost");
    put_pdu_without(pdu(40), 1);
    put_pdu(pdu(40));
    wants("held, held dropped, pdu 2 5 7 40, end 3");

    begin("example 9: first end and second start lost, the joint");
    put_pdu_without(pdu(40), 1);
    put_pdu_without(pdu(40), 0);
    wants("held, pdu 2 5 7 40, end 2");
}

/* Flow i is source 100 + i. */
static struct pdu of_source(unsigned i)
{
    struct pdu made = pdu(40);
    made.flow.source = 100 + i;
    return made;
}

static void example_10(void)
{
    begin("example 10: seventeen starts, a delivery, an eighteenth");
    for (unsigned i = 0; i < 17; i++)
        put(packet_of(of_source(i), 0));
    put(packet_of(of_source(3), 1));
    put(packet_of(of_source(17), 0));
    wants("held, held, held, held, held, held, held, held, "
          "held, held, held, held, held, held, held, held, "
          "refused 10, pdu 103 5 7 40, held, end 19");
}

static void examples_11_to_13(void)
{
    const struct box box = { .priority = 0, .source = 2, .letter = 1, .mbox = 2 };

    begin("example 11: ssize 64, segment 1 with 8 bytes first");
    put(message_packet(box, 1, 12, 1, 8));
    put(message_packet(box, 1, 12, 0, 64));
    wants("held, msg 2 1 2 72, end 2");

    begin("example 12: a segment twice while open");
    put(message_packet(box, 1, 12, 0, 64));
    put(message_packet(box, 1, 12, 0, 64));
    wants("held, refused 24, end 2");

    begin("example 13: the empty packet");
    put_record(NULL, 0);
    wants("refused 1, end 1");
}

void bundle_paper(void)
{
    section("the paper's sample and examples");
    sample();
    examples_1_to_4();
    examples_6_to_9();
    example_10();
    examples_11_to_13();
}
