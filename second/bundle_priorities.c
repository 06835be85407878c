/* Flows that differ in their priority alone: a flow is source ID, priority and
   cos (M-103). Messages, whose segments may come at different priorities. */

#include "bundle.h"

static struct flow of_priority(unsigned priority)
{
    const struct flow flow = { .priority = priority, .source = 2, .cos = 5 };
    return flow;
}

static struct pdu pdu_at(unsigned priority, unsigned stream, size_t length)
{
    const struct pdu pdu = { .flow = of_priority(priority), .stream = stream, .length = length };
    return pdu;
}

/* Every two different priorities, either way round. */
static void each_pair(void (*logs_of)(unsigned one, unsigned other))
{
    for (unsigned one = 0; one < 4; one++)
        for (unsigned other = 0; other < 4; other++)
            if (one != other)
                logs_of(one, other);
}

/* ---- Example 8 ------------------------------------------------------------ */

/* The end of the first PDU comes late: it shows what context 0 still holds. */
static void put_example_8(unsigned one, unsigned other)
{
    const struct pdu first = pdu_at(one, 7, 40);
    put(packet_of(first, 0));
    put_pdu(pdu_at(other, 8, 40));
    put(packet_of(first, 1));
}

static void example_8(unsigned one, unsigned other)
{
    begin("example 8, the second PDU at another priority");
    put_example_8(one, other);
    wants("held, held, pdu 2 5 8 40, pdu 2 5 7 40, end 4");
}

static void examples_8(void)
{
    section("example 8 at another priority");
    each_pair(example_8);
    for (unsigned priority = 0; priority < 4; priority++) {
        begin("example 8, both at one priority");
        put_example_8(priority, priority);
        wants("held, held dropped, pdu 2 5 8 40, refused 8, end 4");
    }
}

/* ---- Two at once ------------------------------------------------------------ */

/* A packet of the one, a packet of the other, until both have none left. */
static void put_in_turn(struct pdu one, struct pdu other)
{
    for (unsigned i = 0; i < packets_of(one) || i < packets_of(other); i++) {
        if (i < packets_of(one))
            put(packet_of(one, i));
        if (i < packets_of(other))
            put(packet_of(other, i));
    }
}

static void in_turn(unsigned one, unsigned other)
{
    static const struct {
        size_t length, other_length;
        const char *lines;
    } cuts[] = {
        { 33, 64, "held, held, pdu 2 5 7 33, pdu 2 5 8 64, end 4" },
        { 40, 65, "held, held, pdu 2 5 7 40, held, pdu 2 5 8 65, end 5" },
        { 68, 34, "held, held, held, pdu 2 5 8 34, pdu 2 5 7 68, end 5" },
        { 35, 3, "held, pdu 2 5 8 3, pdu 2 5 7 35, end 3" },
    };
    for (size_t i = 0; i < sizeof cuts / sizeof cuts[0]; i++) {
        begin("two PDUs in turn that differ in priority alone");
        put_in_turn(pdu_at(one, 7, cuts[i].length), pdu_at(other, 8, cuts[i].other_length));
        wants(cuts[i].lines);
    }
}

/* An urgent PDU overtakes: it comes whole between two packets of another. */
static void overtaking(void)
{
    static const char *const pdus[] = {
        "held, held, pdu 2 5 8 40, held, held, pdu 2 5 7 100, end 6",
        "held, held, held, pdu 2 5 8 40, held, pdu 2 5 7 100, end 6",
        "held, held, held, held, pdu 2 5 8 40, pdu 2 5 7 100, end 6",
    };
    static const char *const singles[] = {
        "held, pdu 2 5 8 9, held, held, pdu 2 5 7 100, end 5",
        "held, held, pdu 2 5 8 9, held, pdu 2 5 7 100, end 5",
        "held, held, held, pdu 2 5 8 9, pdu 2 5 7 100, end 5",
    };
    for (unsigned before = 1; before <= 3; before++)
        for (unsigned urgent = 1; urgent <= 3; urgent++) {
            const struct pdu scan = pdu_at(0, 7, 100);
            const bool single = urgent == 2;
            begin("an urgent PDU between two packets of another");
            for (unsigned i = 0; i < 4; i++) {
                if (i == before)
                    put_pdu(pdu_at(urgent, 8, single ? 9 : 40));
                put(packet_of(scan, i));
            }
            wants((single ? singles : pdus)[before - 1]);
        }
}

/* ---- Four at once ----------------------------------------------------------- */

/* Streams 10 to 13, by the priority. */
static void put_four_starts(void)
{
    for (unsigned i = 0; i < 4; i++)
        put(packet_of(pdu_at(i, 10 + i, 40), 0));
}

static void put_four_ends(void)
{
    for (unsigned i = 0; i < 4; i++)
        put(packet_of(pdu_at(i, 10 + i, 40), 1));
}

/* The packet comes while all four are open, and has to get this line. What the
   four ends behind it get: each delivers its own PDU, but the one of that
   priority gets another line. */
static void one_of_four(const char *name, unsigned priority, struct packet packet, const char *line,
                        const char *its_end)
{
    struct buffer lines = { 0 };
    append_text(&lines, "held, held, held, held, ");
    append_text(&lines, line);
    for (unsigned i = 0; i < 4; i++) {
        char own[100];
        snprintf(own, sizeof own, "pdu 2 5 %u 40", 10 + i);
        append_text(&lines, ", ");
        append_text(&lines, i == priority ? its_end : own);
    }
    append_text(&lines, ", end 9");
    append_byte(&lines, 0);
    begin(name);
    put_four_starts();
    put(packet);
    put_four_ends();
    wants((const char *)lines.bytes);
    release(&lines);
}

static void one_of_four_each(unsigned priority)
{
    const struct flow flow = of_priority(priority);
    one_of_four("of four, the start gives up the one of its priority", priority,
                stream_packet(flow, START, 20, 32), "held dropped", "pdu 2 5 20 40");
    one_of_four("of four, the single gives up the one of its priority", priority,
                stream_packet(flow, SINGLE, 20, 9), "pdu 2 5 20 9 dropped", "refused 8");
    one_of_four("of four, 6 closes the one of its priority", priority,
                stream_packet(flow, END, 32, 0), "refused 6 dropped", "refused 8");
    one_of_four("of four, 7 closes the one of its priority", priority,
                stream_packet(flow, CONTINUATION, 0, 30), "refused 7 dropped", "refused 8");
    one_of_four("of four, 11 closes the one of its priority", priority,
                stream_packet(flow, END, 41, 8), "refused 11 dropped", "refused 8");
}

/* Starts and ends in one order of the priorities, continuations in the other. */
static void put_four(bool downwards)
{
    for (unsigned number = 0; number < 3; number++)
        for (unsigned i = 0; i < 4; i++) {
            bool down = number == 1 ? !downwards : downwards;
            unsigned priority = down ? 3 - i : i;
            put(packet_of(pdu_at(priority, 10 + priority, 65 + priority), number));
        }
}

static void four_at_once(void)
{
    section("four priorities of one source at once");

    begin("four at once, three packets each");
    put_four(false);
    wants("held, held, held, held, held, held, held, held, "
          "pdu 2 5 10 65, pdu 2 5 11 66, pdu 2 5 12 67, pdu 2 5 13 68, end 12");

    begin("four at once, the other way round");
    put_four(true);
    wants("held, held, held, held, held, held, held, held, "
          "pdu 2 5 13 68, pdu 2 5 12 67, pdu 2 5 11 66, pdu 2 5 10 65, end 12");

    for (unsigned priority = 0; priority < 4; priority++)
        one_of_four_each(priority);

    begin("of two, 9 closes the one of its priority");
    put(packet_of(pdu_at(0, 7, 72), 0));
    for (unsigned i = 0; i <= 64; i++)
        put(packet_of(pdu_at(1, 8, 3000), i));
    put(packet_of(pdu_at(0, 7, 72), 1));
    put(packet_of(pdu_at(0, 7, 72), 2));
    wants_after_held(65, "refused 9 dropped, held, pdu 2 5 7 72, end 68");
}

/* ---- Sixteen flows ---------------------------------------------------------- */

/* Flow i of sixteen: sources 30 to 33 and four priorities each. */
static struct pdu of_sixteen(unsigned i)
{
    const struct flow flow = { .priority = i % 4, .source = 30 + i / 4, .cos = 5 };
    const struct pdu pdu = { .flow = flow, .stream = i, .length = 40 };
    return pdu;
}

static void put_sixteen(unsigned packet)
{
    for (unsigned i = 0; i < 16; i++)
        put(packet_of(of_sixteen(i), packet));
}

static void sixteen_flows(void)
{
    const struct pdu seventeenth = of_sixteen(16);
    section("sixteen flows: four sources, four priorities");

    begin("a seventeenth gets 10, and is held after a delivery");
    put_sixteen(0);
    put(packet_of(seventeenth, 0));
    put(packet_of(of_sixteen(6), 1));
    put(packet_of(seventeenth, 0));
    put(packet_of(of_sixteen(6), 0));
    put(packet_of(seventeenth, 1));
    wants_after_held(16, "refused 10, pdu 31 5 6 40, held, refused 10, pdu 34 5 16 40, end 21");

    begin("10 for another source, priority or cos, and not for a flow that is open");
    put_sixteen(0);
    put(stream_packet((struct flow){ .priority = 1, .source = 34, .cos = 5 }, SINGLE, 70, 9));
    put(stream_packet((struct flow){ .priority = 1, .source = 31, .cos = 6 }, START, 71, 32));
    put(stream_packet((struct flow){ .priority = 1, .source = 31, .cos = 5 }, START, 72, 32));
    put(stream_packet((struct flow){ .priority = 1, .source = 31, .cos = 5 }, SINGLE, 73, 9));
    put(stream_packet((struct flow){ .priority = 1, .source = 31, .cos = 6 }, START, 74, 32));
    wants_after_held(16, "refused 10, refused 10, held dropped, pdu 31 5 73 9 dropped, held, "
                         "end 21");

    begin("each of sixteen is delivered");
    put_sixteen(0);
    put_sixteen(1);
    wants_after_held(16, "pdu 30 5 0 40, pdu 30 5 1 40, pdu 30 5 2 40, pdu 30 5 3 40, "
                         "pdu 31 5 4 40, pdu 31 5 5 40, pdu 31 5 6 40, pdu 31 5 7 40, "
                         "pdu 32 5 8 40, pdu 32 5 9 40, pdu 32 5 10 40, pdu 32 5 11 40, "
                         "pdu 33 5 12 40, pdu 33 5 13 40, pdu 33 5 14 40, pdu 33 5 15 40, end 32");
}

/* ---- One PDU at two priorities ---------------------------------------------- */

static void start_and_end(unsigned one, unsigned other)
{
    begin("a start and an end at different priorities, then the right end");
    put(packet_of(pdu_at(one, 7, 40), 0));
    put(packet_of(pdu_at(other, 7, 40), 1));
    put(packet_of(pdu_at(one, 7, 40), 1));
    wants("held, refused 8, pdu 2 5 7 40, end 3");
}

static void continuation(unsigned one, unsigned other)
{
    begin("a continuation at another priority: it lacks");
    put(packet_of(pdu_at(one, 7, 72), 0));
    put(packet_of(pdu_at(other, 7, 72), 1));
    put(packet_of(pdu_at(one, 7, 72), 2));
    put(packet_of(pdu_at(one, 7, 72), 2));
    wants("held, refused 8, refused 11 dropped, refused 8, end 4");

    begin("a continuation at another priority, then the right one");
    put(packet_of(pdu_at(one, 7, 72), 0));
    put(packet_of(pdu_at(other, 7, 72), 1));
    put(packet_of(pdu_at(one, 7, 72), 1));
    put(packet_of(pdu_at(one, 7, 72), 2));
    wants("held, refused 8, held, pdu 2 5 7 72, end 4");
}

/* A packet that closes its flow's context leaves those of other priorities. */
static void leaves_others(unsigned one, unsigned other)
{
    static const enum segment_kind kinds[4] = { CONTINUATION, END, START, SINGLE };
    const enum segment_kind kind = kinds[(one + other) % 4];
    const struct packet bad[] = {
        stream_packet(of_priority(other), kind, 40, 0),
        stream_packet(of_priority(other), kind, 40, 34),
    };
    static const char *const lines[] = {
        "held, refused 6, pdu 2 5 7 40, end 3",
        "held, refused 7, pdu 2 5 7 40, end 3",
    };
    for (unsigned i = 0; i < 2; i++) {
        begin("6 and 7 at another priority leave the PDU");
        put(packet_of(pdu_at(one, 7, 40), 0));
        put(bad[i]);
        put(packet_of(pdu_at(one, 7, 40), 1));
        wants(lines[i]);
    }
}

/* ---- Messages at mixed priorities ------------------------------------------- */

static struct box box_at(unsigned priority)
{
    const struct box box = { .priority = priority, .source = 2, .letter = 1, .mbox = 2 };
    return box;
}

static void joined_messages(void)
{
    begin("a message, each segment at its own priority");
    for (unsigned i = 0; i < 4; i++)
        put(message_packet(box_at(i), 3, 9, i, 8));
    responds("held, 5d000200011060, held, 9d000200011061, held, dd000200011062, "
             "msg 2 1 2 32, dd000200011063",
             "held, 4d02011060, held, 8d02011061, held, cd02011062, msg 2 1 2 32, cd02011063");
    wants("held, held, held, msg 2 1 2 32, end 4");

    begin("backwards, the priorities too");
    for (unsigned i = 0; i < 4; i++)
        put(message_packet(box_at(3 - i), 3, 9, 3 - i, 8));
    responds("held, dd000200011063, held, dd000200011062, held, 9d000200011061, "
             "msg 2 1 2 32, 5d000200011060",
             "held, cd02011063, held, cd02011062, held, 8d02011061, msg 2 1 2 32, 4d02011060");
    wants("held, held, held, msg 2 1 2 32, end 4");

    begin("23 and 24 do not look at priorities");
    put(message_packet(box_at(0), 1, 9, 0, 8));
    put(message_packet(box_at(1), 1, 9, 0, 8));
    put(message_packet(box_at(2), 2, 9, 1, 8));
    put(message_packet(box_at(3), 1, 10, 1, 16));
    put(message_packet(box_at(1), 1, 9, 1, 8));
    responds("held, 5d000200011060, refused 24, 9d000200011760, refused 23, dd000200011761, "
             "refused 23, dd000200011761, msg 2 1 2 16, 9d000200011061",
             "held, 4d02011060, refused 24, 8d02011760, refused 23, cd02011761, "
             "refused 23, cd02011761, msg 2 1 2 16, 8d02011061");
    wants("held, refused 24, refused 23, refused 23, msg 2 1 2 16, end 5");
}

static void full_messages(void)
{
    begin("25 at each priority; an open message takes its segment at any");
    for (unsigned i = 0; i < 8; i++) {
        const struct box box = { .priority = i % 4, .source = 40 + i, .letter = 0, .mbox = 0 };
        put(message_packet(box, 1, 9, 0, 8));
    }
    for (unsigned i = 0; i < 4; i++)
        put(message_packet(box_at(i), 1, 9, 0, 8));
    const struct box first = { .priority = 3, .source = 40, .letter = 0, .mbox = 0 };
    put(message_packet(first, 1, 9, 1, 8));
    put(message_packet(box_at(3), 1, 9, 0, 8));
    put(message_packet(box_at(0), 1, 9, 1, 8));
    responds("held, 5d002800011000, held, 9d002900011000, held, dd002a00011000, "
             "held, dd002b00011000, held, 5d002c00011000, held, 9d002d00011000, "
             "held, dd002e00011000, held, dd002f00011000, "
             "refused 25, 5d000200011360, refused 25, 9d000200011360, "
             "refused 25, dd000200011360, refused 25, dd000200011360, "
             "msg 40 0 0 16, dd002800011001, held, dd000200011060, msg 2 1 2 16, 5d000200011061",
             "held, 4d28011000, held, 8d29011000, held, cd2a011000, held, cd2b011000, "
             "held, 4d2c011000, held, 8d2d011000, held, cd2e011000, held, cd2f011000, "
             "refused 25, 4d02011360, refused 25, 8d02011360, "
             "refused 25, cd02011360, refused 25, cd02011360, "
             "msg 40 0 0 16, cd28011001, held, cd02011060, msg 2 1 2 16, 4d02011061");
    wants("held, held, held, held, held, held, held, held, refused 25, refused 25, refused 25, "
          "refused 25, msg 40 0 0 16, held, msg 2 1 2 16, end 15");
}

static void messages(void)
{
    section("messages at mixed priorities");
    joined_messages();
    full_messages();

    begin("a message and two PDUs of one source, at two priorities");
    put(packet_of(pdu_at(0, 7, 40), 0));
    put(message_packet(box_at(0), 1, 9, 0, 8));
    put(packet_of(pdu_at(1, 8, 40), 0));
    put(message_packet(box_at(1), 1, 9, 1, 8));
    put(packet_of(pdu_at(0, 7, 40), 1));
    put(packet_of(pdu_at(1, 8, 40), 1));
    wants("held, held, held, msg 2 1 2 16, pdu 2 5 7 40, pdu 2 5 8 40, end 6");
}

void bundle_priorities(void)
{
    examples_8();
    section("two PDUs that differ in priority alone");
    each_pair(in_turn);
    overtaking();
    four_at_once();
    sixteen_flows();
    section("the packets of one PDU at two priorities");
    each_pair(start_and_end);
    each_pair(continuation);
    each_pair(leaves_others);
    messages();
}
