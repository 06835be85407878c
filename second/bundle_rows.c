/* Every row of the refusal table that reading a log can give. */

#include "bundle.h"

static const struct flow flow = { .priority = 0, .source = 2, .cos = 5 };
static const struct box box = { .priority = 0, .source = 2, .letter = 1, .mbox = 2 };

static const enum segment_kind kinds[4] = { CONTINUATION, END, START, SINGLE };

/* The flow's PDU has 40 bytes: a start of 32 and an end of 8. */

static struct packet start(void)
{
    return stream_packet(flow, START, 7, 32);
}

static struct packet end(void)
{
    return stream_packet(flow, END, 40, 8);
}

/* A segment of each kind that holds as much as it may. */
static struct packet full(enum segment_kind kind)
{
    return stream_packet(flow, kind, kind == END ? 64 : 7, 32);
}

static void wants_refused(const char *before, unsigned number, const char *after)
{
    char lines[200];
    snprintf(lines, sizeof lines, "%srefused %u%s", before, number, after);
    wants(lines);
}

/* A refusal of a packet. Once the flow is not open, once it is.
   The end behind it shows whether the context is still there. */
static void stream_refused(const char *name, unsigned number, struct packet bad,
                           const char *after_open)
{
    begin(name);
    put(bad);
    put(end());
    wants_refused("", number, ", refused 8, end 2");

    begin(name);
    put(start());
    put(bad);
    put(end());
    wants_refused("held, ", number, after_open);
}

/* A refusal that leaves all. */
static void leaves_all(const char *name, unsigned number, struct packet bad)
{
    stream_refused(name, number, bad, ", pdu 2 5 7 40, end 3");
}

/* A refusal that closes the flow's context. */
static void closes(const char *name, unsigned number, struct packet bad)
{
    stream_refused(name, number, bad, " dropped, refused 8, end 3");
}

/* A refused message packet. Once the message is not open, once it is. */
static void message_refused(const char *name, unsigned number, struct packet bad)
{
    begin(name);
    put(bad);
    wants_refused("", number, ", end 1");

    begin(name);
    put(message_packet(box, 3, 10, 3, 8));
    put(message_packet(box, 3, 10, 0, 16));
    put(bad);
    put(message_packet(box, 3, 10, 2, 16));
    put(message_packet(box, 3, 10, 1, 16));
    wants_refused("held, held, ", number, ", held, msg 2 1 2 56, end 5");
}

/* ---- Rows 1 to 5 --------------------------------------------------------- */

static void row_1(void)
{
    section("row 1");
    for (size_t length = 0; length < at(5); length++) {
        leaves_all("1: a start under 5 bytes", 1, cut_to(start(), length));
        leaves_all("1: a message under 5 bytes", 1,
                   cut_to(message_packet(box, 0, 9, 0, 8), length));
    }
    for (size_t length = at(5); length < at(7); length++) {
        for (int i = 0; i < 4; i++)
            leaves_all("1: type 9 under 7 bytes", 1, cut_to(full(kinds[i]), length));
        leaves_all("1: type 11 under 7 bytes", 1, cut_to(message_packet(box, 0, 9, 0, 8), length));
    }
    for (size_t length = at(7); length < at(9); length++) {
        leaves_all("1: start under 9 bytes", 1, cut_to(full(START), length));
        leaves_all("1: single under 9 bytes", 1, cut_to(full(SINGLE), length));
        leaves_all("1: end under 9 bytes", 1, cut_to(full(END), length));
    }

    begin("1: the missing bytes of the head stand in the next record");
    put(start());
    put(cut_to(start(), at(4)));
    put_record((const uint8_t[]){ 0x05, 0xC0 }, 2);
    put(end());
    wants("held, refused 1, refused 1, pdu 2 5 7 40, end 4");
}

/* tt is 01, or 00; flipping its bits gives the three others. */
static void row_2(void)
{
    static const unsigned flips[3] = { 0x10, 0x20, 0x30 };
    section("row 2");
    for (int i = 0; i < 3; i++) {
        for (int k = 0; k < 4; k++)
            leaves_all("2: type 9", 2, with_flipped(full(kinds[k]), 0, flips[i]));
        message_refused("2: type 11", 2,
                        with_flipped(message_packet(box, 3, 10, 1, 16), 0, flips[i]));
    }
}

static void row_3(void)
{
    static const unsigned wide[8] = { 0, 2, 3, 256, 257, 0x8001, 65534, 65535 };
    static const unsigned narrow[8] = { 0, 2, 3, 16, 17, 129, 254, 255 };
    section("row 3");
    for (int i = 0; i < 8; i++) {
        unsigned other = either(wide[i], narrow[i]);
        leaves_all("3: a start for another", 3, to_device(start(), other));
        message_refused("3: a message for another", 3,
                        to_device(message_packet(box, 3, 10, 1, 16), other));
    }
}

static void row_4(void)
{
    section("row 4");
    for (unsigned type = 0; type < 16; type++) {
        if (type == 9 || type == 11)
            continue;
        leaves_all("4: another type", 4, with_type(start(), 0, type));
        message_refused("4: another type", 4, bare_packet(our_tt(), type, 1, at(5) + type));
    }
}

static void row_5(void)
{
    section("row 5");
    for (int i = 0; i < 4; i++) {
        struct packet bad = with_flipped(full(kinds[i]), at(6), BIT_XH);
        leaves_all("5: xh", 5, bad);
        leaves_all("5: xh with reserved bits", 5, with_flipped(bad, at(6), RESERVED_BITS));
        leaves_all("5: xh, 7 bytes", 5, cut_to(bad, at(7)));
    }
}

/* ---- Rows 6 to 11 -------------------------------------------------------- */

static void row_6(void)
{
    section("row 6");
    for (int i = 0; i < 4; i++) {
        struct packet none = stream_packet(flow, kinds[i], 40, 0);
        struct packet good = full(kinds[i]);
        closes("6: no data", 6, none);
        closes("6: no data, P set", 6, with_flipped(none, at(6), BIT_P));
        closes("6: no data, O set", 6, with_flipped(none, at(6), BIT_O));
        closes("6: one byte of data", 6, longer_by(none, 1));
        closes("6: odd bytes, one less", 6, cut_to(good, good.length - 1));
        closes("6: odd bytes, one more", 6, longer_by(good, 1));
        closes("6: odd bytes, one less, P set", 6,
               with_flipped(cut_to(good, good.length - 1), at(6), BIT_P));
        closes("6: O is 1, an even number of half-words", 6, with_flipped(good, at(6), BIT_O));
        closes("6: O is 0, an odd number of half-words", 6,
               with_flipped(stream_packet(flow, kinds[i], 34, 2), at(6), BIT_O));
        closes("6: O and P are 1, an even number of half-words", 6,
               with_flipped(good, at(6), BIT_O | BIT_P));
    }
}

static void row_7(void)
{
    static const size_t not_mtu[] = { 1, 2, 8, 28, 30, 31, 33, 34, 36, 64, 256 };
    static const size_t over_mtu[] = { 33, 34, 35, 36, 40, 64, 256 };
    section("row 7");
    for (size_t i = 0; i < sizeof not_mtu / sizeof not_mtu[0]; i++) {
        closes("7: start not MTU", 7, stream_packet(flow, START, 7, not_mtu[i]));
        closes("7: continuation not MTU", 7, stream_packet(flow, CONTINUATION, 0, not_mtu[i]));
    }
    closes("7: start with a pad", 7, with_flipped(start(), at(6), BIT_P));
    closes("7: continuation with a pad", 7, with_flipped(full(CONTINUATION), at(6), BIT_P));
    for (size_t i = 0; i < sizeof over_mtu / sizeof over_mtu[0]; i++) {
        unsigned length = 32 + (unsigned)over_mtu[i];
        closes("7: end over MTU", 7, stream_packet(flow, END, length, over_mtu[i]));
        closes("7: single over MTU", 7, stream_packet(flow, SINGLE, 7, over_mtu[i]));
    }
}

static void row_8(void)
{
    const struct flow other_cos = { .priority = 0, .source = 2, .cos = 6 };
    const struct flow other_source = { .priority = 0, .source = 3, .cos = 5 };
    section("row 8");

    begin("8: nothing open");
    put(full(CONTINUATION));
    put(end());
    wants("refused 8, refused 8, end 2");

    begin("8: another cos and another source are open");
    put(stream_packet(other_cos, START, 8, 32));
    put(stream_packet(other_source, START, 9, 32));
    put(end());
    put(full(CONTINUATION));
    put(stream_packet(other_cos, END, 40, 8));
    put(stream_packet(other_source, END, 40, 8));
    wants("held, held, refused 8, refused 8, pdu 2 6 8 40, pdu 3 5 9 40, end 6");

    begin("8: delivered before");
    put(start());
    put(end());
    put(end());
    put(full(CONTINUATION));
    wants("held, pdu 2 5 7 40, refused 8, refused 8, end 4");

    begin("8: a single leaves nothing open");
    put(full(SINGLE));
    put(end());
    wants("pdu 2 5 7 32, refused 8, end 2");

    begin("8: closed by 11 before");
    put(start());
    put(stream_packet(flow, END, 41, 8));
    put(stream_packet(flow, END, 41, 9));
    wants("held, refused 11 dropped, refused 8, end 3");
}

/* A start and 63 continuations fill the room of 2,048. */
static void begin_full_room(const char *name)
{
    begin(name);
    put(start());
    for (int i = 0; i < 63; i++)
        put(full(CONTINUATION));
}

static void wants_after_full_room(const char *lines)
{
    wants_after_held(64, lines);
}

static void row_9(void)
{
    section("row 9");

    begin_full_room("9: a continuation on a full room");
    put(full(CONTINUATION));
    put(full(CONTINUATION));
    wants_after_full_room("refused 9 dropped, refused 8, end 66");

    begin_full_room("9: an end on a full room, its length right");
    put(stream_packet(flow, END, 2080, 32));
    put(stream_packet(flow, END, 2080, 32));
    wants_after_full_room("refused 9 dropped, refused 8, end 66");

    begin_full_room("9: an end of one byte, 2,049 in all");
    put(stream_packet(flow, END, 2049, 1));
    put(start());
    put(end());
    wants_after_full_room("refused 9 dropped, held, pdu 2 5 7 40, end 67");

    begin_full_room("9: a start and a single on a full room are taken");
    put(start());
    put(full(SINGLE));
    wants_after_full_room("held dropped, pdu 2 5 7 32 dropped, end 66");
}

static unsigned first_source(void)
{
    return either(300, 240);
}

static void put_sixteen_starts(void)
{
    for (unsigned i = 0; i < 16; i++) {
        const struct flow of = { .priority = i % 4, .source = first_source() + i, .cos = i };
        put(stream_packet(of, START, i, 32));
    }
}

static void wants_after_sixteen(const char *lines)
{
    wants_after_held(16, lines);
}

static void row_10(void)
{
    const struct flow first = { .priority = 0, .source = first_source(), .cos = 0 };
    section("row 10");

    begin("10: a start and a single, no context free");
    put_sixteen_starts();
    put(start());
    put(full(SINGLE));
    put(start());
    wants_after_sixteen("refused 10, refused 10, refused 10, end 19");

    begin("10: not for a flow that is open");
    put_sixteen_starts();
    put(stream_packet(first, START, 70, 32));
    put(stream_packet(first, SINGLE, 71, 9));
    put(start());
    put(stream_packet(first, SINGLE, 72, 9));
    put(end());
    put(stream_packet(first, SINGLE, 73, 9));
    wants_after_sixteen(eight_bits ? "held dropped, pdu 240 0 71 9 dropped, held, refused 10, "
                                     "pdu 2 5 7 40, pdu 240 0 73 9, end 22"
                                   : "held dropped, pdu 300 0 71 9 dropped, held, refused 10, "
                                     "pdu 2 5 7 40, pdu 300 0 73 9, end 22");

    begin("10: no more after a context is closed by 6");
    put_sixteen_starts();
    put(start());
    put(stream_packet(first, CONTINUATION, 0, 0));
    put(start());
    put(stream_packet(first, START, 70, 32));
    wants_after_sixteen("refused 10, refused 6 dropped, held, refused 10, end 20");
}

static void row_11(void)
{
    static const unsigned wrong[] = { 0, 1, 8, 32, 38, 39, 41, 42, 64, 65535 };
    section("row 11");
    for (size_t i = 0; i < sizeof wrong / sizeof wrong[0]; i++) {
        begin("11: another length");
        put(start());
        put(stream_packet(flow, END, wrong[i], 8));
        put(end());
        wants("held, refused 11 dropped, refused 8, end 3");
    }

    begin("11: the pad is not counted");
    put(start());
    put(stream_packet(flow, END, 40, 7));
    put(start());
    put(stream_packet(flow, END, 39, 7));
    wants("held, refused 11 dropped, held, pdu 2 5 7 39, end 4");

    begin("11: a packet twice");
    put(start());
    put(full(CONTINUATION));
    put(full(CONTINUATION));
    put(stream_packet(flow, END, 72, 8));
    wants("held, held, held, refused 11 dropped, end 4");
}

/* ---- Rows 20 to 25 ------------------------------------------------------- */

static void row_20(void)
{
    static const unsigned reserved[] = { 0, 1, 2, 3, 4, 5, 6, 7, 8, 15 };
    section("row 20");
    for (size_t i = 0; i < sizeof reserved / sizeof reserved[0]; i++) {
        message_refused("20: single", 20, message_packet(box, 0, reserved[i], 0, 8));
        message_refused("20: segment", 20, message_packet(box, 3, reserved[i], 1, 16));
    }
    message_refused("20: no data", 20, message_packet(box, 3, 0, 1, 0));
}

static void row_21(void)
{
    static const size_t not_16[] = { 0, 1, 8, 15, 17, 24, 32, 40 };
    static const size_t not_last[] = { 0, 1, 4, 7, 9, 12, 15, 17, 24, 32 };
    section("row 21");
    for (size_t i = 0; i < sizeof not_16 / sizeof not_16[0]; i++) {
        message_refused("21: not the last", 21, message_packet(box, 3, 10, 1, not_16[i]));
        message_refused("21: past msglen", 21, message_packet(box, 3, 10, 9, not_16[i]));
    }
    for (size_t i = 0; i < sizeof not_last / sizeof not_last[0]; i++) {
        message_refused("21: the last", 21, message_packet(box, 3, 10, 3, not_last[i]));
        message_refused("21: the only one", 21, message_packet(box, 0, 10, 5, not_last[i]));
    }
    for (unsigned code = 9; code <= 14; code++) {
        size_t ssize = (size_t)8 << (code - 9);
        message_refused("21: the only one, over ssize", 21,
                        message_packet(box, 0, code, 0, ssize + 8));
        message_refused("21: first, over ssize", 21, message_packet(box, 2, code, 0, ssize + 8));
        message_refused("21: first, under ssize", 21, message_packet(box, 2, code, 0, ssize - 8));
        message_refused("21: last, over ssize", 21, message_packet(box, 2, code, 2, ssize + 8));
    }
}

static void row_22(void)
{
    section("row 22");
    for (unsigned msglen = 1; msglen < 15; msglen++) {
        message_refused("22: one past", 22, message_packet(box, msglen, 10, msglen + 1, 16));
        message_refused("22: far past", 22, message_packet(box, msglen, 9, 15, 8));
    }
}

static void row_23(void)
{
    section("row 23");

    begin("23: another msglen");
    put(message_packet(box, 3, 10, 1, 16));
    put(message_packet(box, 2, 10, 0, 16));
    put(message_packet(box, 4, 10, 0, 16));
    put(message_packet(box, 1, 10, 0, 16));
    put(message_packet(box, 15, 10, 0, 16));
    put(message_packet(box, 3, 10, 0, 16));
    put(message_packet(box, 3, 10, 2, 16));
    put(message_packet(box, 3, 10, 3, 16));
    wants("held, refused 23, refused 23, refused 23, refused 23, held, held, msg 2 1 2 64, end 8");

    begin("23: another ssize");
    put(message_packet(box, 1, 10, 1, 8));
    put(message_packet(box, 1, 9, 0, 8));
    put(message_packet(box, 1, 11, 0, 32));
    put(message_packet(box, 1, 14, 0, 256));
    put(message_packet(box, 1, 10, 0, 16));
    wants("held, refused 23, refused 23, refused 23, msg 2 1 2 24, end 5");

    begin("23: both, and never for a single one");
    put(message_packet(box, 1, 10, 1, 8));
    put(message_packet(box, 2, 9, 0, 8));
    put(message_packet(box, 0, 9, 0, 8));
    put(message_packet(box, 1, 10, 0, 16));
    put(message_packet(box, 2, 9, 0, 8));
    wants("held, refused 23, msg 2 1 2 8, msg 2 1 2 24, held, end 5");
}

static void row_24(void)
{
    section("row 24");
    for (unsigned msgseg = 0; msgseg < 4; msgseg++) {
        begin("24: each of four segments twice");
        put(message_packet(box, 3, 10, msgseg, 16));
        put(message_packet(box, 3, 10, msgseg, 16));
        put(message_packet(box, 3, 10, (msgseg + 1) % 4, 16));
        put(message_packet(box, 3, 10, msgseg, 16));
        wants("held, refused 24, held, refused 24, end 4");
    }

    begin("24: the last one again with another length");
    put(message_packet(box, 1, 10, 1, 8));
    put(message_packet(box, 1, 10, 1, 16));
    put(message_packet(box, 1, 10, 0, 16));
    wants("held, refused 24, msg 2 1 2 24, end 3");

    begin("24: no more once delivered, a repeat begins anew");
    put(message_packet(box, 1, 10, 1, 8));
    put(message_packet(box, 1, 10, 0, 16));
    put(message_packet(box, 1, 10, 0, 16));
    put(message_packet(box, 1, 10, 0, 16));
    put(message_packet(box, 1, 10, 1, 16));
    wants("held, msg 2 1 2 24, held, refused 24, msg 2 1 2 32, end 5");
}

static void put_eight_messages(void)
{
    for (unsigned i = 0; i < 8; i++) {
        const struct box of = { .priority = 0, .source = 40 + i, .letter = i % 4, .mbox = i / 4 };
        put(message_packet(of, 1, 9, i % 2, 8));
    }
}

static void row_25(void)
{
    const struct box third = { .priority = 0, .source = 42, .letter = 2, .mbox = 0 };
    section("row 25");

    begin("25: a ninth message");
    put_eight_messages();
    put(message_packet(box, 1, 9, 0, 8));
    put(message_packet(third, 1, 9, 1, 8));
    put(message_packet(box, 1, 9, 0, 8));
    put(message_packet(third, 1, 9, 1, 8));
    wants("held, held, held, held, held, held, held, held, "
          "refused 25, msg 42 2 0 16, held, refused 25, end 12");

    begin("25: single ones, of any source, with any xmbox");
    put_eight_messages();
    put(message_packet(box, 0, 9, 0, 8));
    put(message_packet(third, 0, 14, 15, 256));
    put(message_packet(third, 1, 9, 1, 8));
    put(message_packet(third, 0, 14, 15, 256));
    put(message_packet(box, 0, 9, 3, 8));
    wants("held, held, held, held, held, held, held, held, "
          "refused 25, refused 25, msg 42 2 0 16, msg 42 2 60 256, msg 2 1 14 8, end 13");

    begin("25: type 9 goes on");
    put_eight_messages();
    put(start());
    put(message_packet(box, 15, 9, 3, 8));
    put(end());
    wants("held, held, held, held, held, held, held, held, "
          "held, refused 25, pdu 2 5 7 40, end 11");
}

void bundle_rows(void)
{
    row_1();
    row_2();
    row_3();
    row_4();
    row_5();
    row_6();
    row_7();
    row_8();
    row_9();
    row_10();
    row_11();
    row_20();
    row_21();
    row_22();
    row_23();
    row_24();
    row_25();
}

/* ---- Two rows at once: the upper one counts ------------------------------ */

static struct packet for_another(struct packet packet)
{
    return to_device(packet, 9);
}

static void order_of_heads(void)
{
    section("two rows at once: rows 1 to 5");
    leaves_all("1 before 2", 1, cut_to(with_flipped(start(), 0, 0x10), at(4)));
    leaves_all("1 before 3", 1, cut_to(for_another(start()), at(4)));
    leaves_all("1 before 4", 1, bare_packet(our_tt(), 5, 1, at(4)));
    leaves_all("2 before 3", 2, with_flipped(for_another(start()), 0, 0x10));
    leaves_all("2 before 4", 2, bare_packet(2, 5, 1, 20));
    leaves_all("2 before 1", 2, cut_to(with_flipped(start(), 0, 0x30), at(5)));
    leaves_all("2 before 3, 4 and 1", 2, bare_packet(other_tt(), 5, 9, at(5)));
    leaves_all("3 before 4", 3, bare_packet(our_tt(), 5, 9, 20));
    leaves_all("3 before 1", 3, cut_to(for_another(start()), at(6)));
    leaves_all("3 before 5", 3, for_another(with_flipped(start(), at(6), BIT_XH)));
    leaves_all("3 before 6", 3, for_another(with_flipped(start(), at(6), BIT_O)));
    message_refused("3 before 20", 3, for_another(message_packet(box, 0, 0, 0, 8)));
    leaves_all("4 before 1", 4, bare_packet(our_tt(), 5, 1, at(5)));
    leaves_all("4 before 1", 4, bare_packet(our_tt(), 13, 1, at(6)));
    for (int i = 0; i < 4; i++) {
        struct packet extended = with_flipped(full(kinds[i]), at(6), BIT_XH);
        leaves_all("1 before 5", 1, cut_to(extended, at(6)));
        leaves_all("5 before 1", 5, cut_to(extended, at(8)));
        leaves_all("5 before 6, O wrong", 5, with_flipped(extended, at(6), BIT_O));
        leaves_all("5 before 6, odd bytes", 5, longer_by(extended, 1));
        leaves_all("5 before 6, no data", 5,
                   with_flipped(stream_packet(flow, kinds[i], 40, 0), at(6), BIT_XH));
        leaves_all("5 before 7", 5,
                   with_flipped(stream_packet(flow, kinds[i], 40, 64), at(6), BIT_XH));
    }
}

static void order_of_6_and_7(void)
{
    section("two rows at once: rows 6 and 7");
    for (int i = 0; i < 4; i++) {
        closes("6 before 7: O wrong, over MTU", 6,
               with_flipped(stream_packet(flow, kinds[i], 40, 34), at(6), BIT_O));
        closes("6 before 7: odd bytes, over MTU", 6,
               longer_by(stream_packet(flow, kinds[i], 40, 64), 1));
        closes("7 before 8 or 11", 7, stream_packet(flow, kinds[i], 5, 66));
    }

    begin_full_room("7 before 9");
    put(stream_packet(flow, CONTINUATION, 0, 30));
    put(stream_packet(flow, CONTINUATION, 0, 32));
    wants_after_full_room("refused 7 dropped, refused 8, end 66");

    begin_full_room("6 before 9");
    put(with_flipped(full(END), at(6), BIT_O));
    put(full(END));
    wants_after_full_room("refused 6 dropped, refused 8, end 66");

    begin_full_room("9 before 11");
    put(stream_packet(flow, END, 5, 2));
    put(stream_packet(flow, END, 5, 2));
    wants_after_full_room("refused 9 dropped, refused 8, end 66");
}

static void order_of_8_10_and_11(void)
{
    section("two rows at once: rows 8, 10 and 11");

    begin("6 before 10, 7 before 10");
    put_sixteen_starts();
    put(with_flipped(start(), at(6), BIT_O));
    put(stream_packet(flow, SINGLE, 7, 34));
    put(stream_packet(flow, START, 7, 31));
    put(start());
    wants_after_sixteen("refused 6, refused 7, refused 7, refused 10, end 20");

    begin("8 with no context free");
    put_sixteen_starts();
    put(full(CONTINUATION));
    put(full(END));
    wants_after_sixteen("refused 8, refused 8, end 18");

    begin("8 before 11");
    put(stream_packet(flow, END, 9000, 8));
    put(stream_packet(flow, END, 0, 1));
    wants("refused 8, refused 8, end 2");
}

static void order_of_messages(void)
{
    section("two rows at once: messages");
    message_refused("20 before 21", 20, message_packet(box, 3, 8, 1, 9));
    message_refused("20 before 22", 20, message_packet(box, 3, 15, 7, 16));
    message_refused("20 before 24", 20, message_packet(box, 3, 0, 0, 16));
    message_refused("21 before 22", 21, message_packet(box, 3, 10, 4, 8));
    message_refused("21 before 22", 21, message_packet(box, 3, 10, 15, 24));
    message_refused("21 before 23", 21, message_packet(box, 2, 10, 1, 8));
    message_refused("21 before 23 by its own ssize", 21, message_packet(box, 3, 11, 1, 16));
    message_refused("21 before 24", 21, message_packet(box, 3, 10, 0, 8));
    message_refused("21 before 24, the last", 21, message_packet(box, 3, 10, 3, 12));
    message_refused("22 before 23", 22, message_packet(box, 1, 10, 2, 16));
    message_refused("22 before 23 and 24", 22, message_packet(box, 2, 10, 3, 16));

    begin("23 before 24");
    put(message_packet(box, 3, 10, 1, 16));
    put(message_packet(box, 2, 10, 1, 16));
    put(message_packet(box, 3, 9, 1, 8));
    put(message_packet(box, 3, 10, 1, 16));
    wants("held, refused 23, refused 23, refused 24, end 4");

    begin("20 to 24 before 25");
    put_eight_messages();
    put(message_packet(box, 0, 15, 0, 8));
    put(message_packet(box, 0, 9, 0, 16));
    put(message_packet(box, 2, 9, 3, 8));
    struct box first = { .priority = 0, .source = 40, .letter = 0, .mbox = 0 };
    put(message_packet(first, 2, 9, 0, 8));
    put(message_packet(first, 1, 9, 0, 8));
    put(message_packet(first, 0, 9, 0, 8));
    first.mbox = 1;
    put(message_packet(first, 1, 9, 0, 8));
    wants("held, held, held, held, held, held, held, held, "
          "refused 20, refused 21, refused 22, refused 23, refused 24, refused 25, refused 25, "
          "end 15");
}

void bundle_order(void)
{
    order_of_heads();
    order_of_6_and_7();
    order_of_8_10_and_11();
    order_of_messages();
}
