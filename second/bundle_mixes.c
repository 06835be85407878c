/* Losses, damage and many flows at once. */

#include "bundle.h"

static const struct flow flow = { .priority = 0, .source = 2, .cos = 5 };

/* ---- Two neighbours that both lose a packet ------------------------------ */

/* The joint: the first has two packets and loses its end, the second has
   two or more and loses its start. The parts fit, and a PDU is delivered
   that nobody sent: the first one's stream, the second one's length. */
static bool is_joint(unsigned first_packets, unsigned first_lost, unsigned second_packets,
                     unsigned second_lost)
{
    return first_packets == 2 && first_lost == 1 && second_packets >= 2 && second_lost == 0;
}

static void two_neighbours(unsigned packets, unsigned lost, unsigned next_packets,
                           unsigned next_lost)
{
    const struct pdu first = { .flow = flow, .stream = 1, .length = 32 * packets - 24 };
    const struct pdu second = { .flow = flow, .stream = 2, .length = 32 * next_packets - 23 };
    const struct pdu third = { .flow = flow, .stream = 3, .length = 40 };
    struct buffer pdus = { 0 };
    if (is_joint(packets, lost, next_packets, next_lost)) {
        struct pdu joint = second;
        joint.stream = first.stream;
        append_pdu(&pdus, joint);
    }
    append_pdu(&pdus, third);
    begin("two neighbours both lose a packet");
    put_pdu_without(first, lost);
    put_pdu_without(second, next_lost);
    put_pdu(third);
    finish_delivering(&pdus);
    release(&pdus);
}

static void neighbours(void)
{
    section("two neighbours both lose a packet, every way");
    for (unsigned first = 1; first <= 4; first++)
        for (unsigned second = 1; second <= 3; second++)
            for (unsigned i = 0; i < first; i++)
                for (unsigned k = 0; k < second; k++)
                    two_neighbours(first, i, second, k);
}

/* ---- A flow that sends PDU after PDU ------------------------------------- */

struct sender {
    struct pdu pdu;
    unsigned next;    /* the packet that comes next */
    unsigned lost;    /* the packet that will be lost */
    bool lost_before; /* the PDU before lost one */
    unsigned left;    /* PDUs still to send */
};

static size_t random_length(struct random *random)
{
    if (one_in(random, 20))
        return between(random, 1, 600);
    if (!one_in(random, 3))
        return between(random, 1, 140);
    size_t packets = between(random, 1, 3);
    return 32 * packets + between(random, 0, 2) - 1;
}

/* At most one packet is lost, and no two neighbours lose one. */
static void next_pdu(struct random *random, struct sender *sender, bool losses)
{
    bool loses = losses && !sender->lost_before && one_in(random, 3);
    sender->pdu.stream = below(random, 65536);
    sender->pdu.length = random_length(random);
    sender->next = 0;
    sender->lost = packets_of(sender->pdu);
    if (loses)
        sender->lost = below(random, sender->lost);
    sender->lost_before = loses;
    sender->left--;
}

static bool has_packet(const struct sender *sender)
{
    return sender->next < packets_of(sender->pdu) || sender->left > 0;
}

/* Sends the next packet of a flow, or loses it. */
static void send_next(struct random *random, struct sender *sender, struct buffer *pdus)
{
    if (sender->next == packets_of(sender->pdu))
        next_pdu(random, sender, true);
    unsigned packets = packets_of(sender->pdu);
    if (sender->next != sender->lost)
        put(packet_of(sender->pdu, sender->next));
    sender->next++;
    if (sender->next == packets && sender->lost == packets)
        append_pdu(pdus, sender->pdu);
}

static struct packet random_segment(struct random *random)
{
    struct box box;
    box.priority = below(random, 4);
    box.source = below(random, 4);
    box.letter = below(random, 4);
    box.mbox = below(random, 2);
    unsigned msglen = below(random, 4);
    unsigned ssize = 9 + below(random, 2);
    unsigned msgseg = below(random, msglen + 2);
    size_t bytes = one_in(random, 6) ? between(random, 0, 40) : (size_t)8 << (ssize - 9);
    return message_packet(box, msglen, ssize, msgseg, bytes);
}

/* ---- Losses as demand 3 allows them -------------------------------------- */

/* Which flows there are: the i-th of them. */
typedef struct flow flow_by_number(unsigned i);

/* No two have one source and cos. */
static struct flow by_source_and_cos(unsigned i)
{
    const struct flow of = { .priority = i % 4, .source = i / 3, .cos = i % 3 };
    return of;
}

/* Each four have one source and cos, and differ in their priority alone. */
static struct flow by_priority(unsigned i)
{
    const struct flow of = { .priority = i % 4, .source = i / 8, .cos = i / 4 % 2 };
    return of;
}

static void start_senders(struct sender *senders, flow_by_number *flow_of, unsigned flows,
                          unsigned pdus)
{
    for (unsigned i = 0; i < flows; i++) {
        senders[i] = (struct sender){ .left = pdus };
        senders[i].pdu.flow = flow_of(i);
    }
}

static unsigned remaining(const struct sender *senders, unsigned flows)
{
    unsigned count = 0;
    for (unsigned i = 0; i < flows; i++)
        if (has_packet(&senders[i]))
            count++;
    return count;
}

/* With IDs of 8 bits, now and then a packet with IDs of 16: a segment of a
   message, or of the PDU that the flow is sending. */
static void put_other_width(struct random *random, const struct sender *sender)
{
    if (!eight_bits || !one_in(random, 4))
        return;
    if (one_in(random, 2))
        put(widened(random_segment(random)));
    else if (sender->next < packets_of(sender->pdu))
        put(widened(packet_of(sender->pdu, sender->next)));
}

static void allowed_losses(struct random *random, flow_by_number *flow_of, unsigned flows,
                           unsigned each)
{
    struct sender senders[16];
    struct buffer pdus = { 0 };
    start_senders(senders, flow_of, flows, each);
    begin("losses as demand 3 allows them");
    while (remaining(senders, flows) > 0) {
        struct sender *sender = &senders[below(random, flows)];
        if (one_in(random, 8))
            put(random_segment(random));
        put_other_width(random, sender);
        if (has_packet(sender))
            send_next(random, sender, &pdus);
    }
    finish_delivering(&pdus);
    release(&pdus);
}

/* ---- Any losses, any damage ---------------------------------------------- */

static struct packet damaged(struct random *random, struct packet packet)
{
    unsigned way = below(random, 8);
    unsigned bit = 1u << below(random, 8);
    if (way == 0)
        return cut_to(packet, below(random, (uint32_t)packet.length));
    if (way == 1)
        return cut_to(packet, packet.length - 1);
    if (way == 2)
        return longer_by(packet, between(random, 1, 40));
    if (way == 3)
        return with_flipped(packet, below(random, (uint32_t)packet.length), bit);
    if (way == 4)
        return with_flipped(packet, 0, bit);
    return with_flipped(packet, at(between(random, 5, 8)), bit);
}

static void put_damaged(struct random *random, struct packet packet, unsigned chance)
{
    if (one_in(random, chance))
        packet = damaged(random, packet);
    if (!one_in(random, chance))
        put(packet);
    if (one_in(random, 2 * chance))
        put(packet);
}

/* Lost, damaged and doubled packets, on more flows than contexts. */
static void damage(struct random *random, flow_by_number *flow_of, unsigned flows, unsigned packets,
                   unsigned chance)
{
    struct sender senders[24];
    start_senders(senders, flow_of, flows, packets);
    begin("damage");
    for (unsigned i = 0; i < packets; i++) {
        struct sender *sender = &senders[below(random, flows)];
        if (sender->next == packets_of(sender->pdu))
            next_pdu(random, sender, false);
        put_damaged(random, packet_of(sender->pdu, sender->next), chance);
        sender->next++;
        if (one_in(random, 4))
            put_damaged(random, random_segment(random), chance);
    }
    finish();
}

/* Bytes without any plan, behind a head that is often right. */
static void noise(struct random *random, unsigned packets)
{
    begin("noise");
    for (unsigned i = 0; i < packets; i++) {
        struct packet packet = { .length = below(random, 50) };
        for (size_t k = 0; k < sizeof packet.bytes; k++)
            packet.bytes[k] = (uint8_t)any(random);
        if (!one_in(random, 8))
            packet = with_type(packet, 0, one_in(random, 2) ? 9 : 11);
        if (!one_in(random, 8))
            packet = to_device(packet, LOG_DEVICE);
        if (!one_in(random, 8))
            packet = from_device(packet, 3);
        put(packet);
    }
    finish();
}

void bundle_mixes(void)
{
    struct random random = seeded(3);
    neighbours();

    section("random losses as demand 3 allows them");
    for (unsigned flows = 1; flows <= 16; flows += 3)
        allowed_losses(&random, by_source_and_cos, flows, 24 / flows + 1);

    section("random losses and damage");
    for (unsigned i = 0; i < 2; i++) {
        damage(&random, by_source_and_cos, 3, 60, 6);
        damage(&random, by_source_and_cos, 16, 70, 10);
        damage(&random, by_source_and_cos, 24, 70, 12);
    }

    section("random bytes");
    for (unsigned i = 0; i < 4; i++)
        noise(&random, 60);
}

/* ---- Flows that differ in their priority alone ---------------------------- */

static struct pdu pdu_at(unsigned priority, unsigned stream, size_t length)
{
    struct pdu made = { .flow = flow, .stream = stream, .length = length };
    made.flow.priority = priority;
    return made;
}

/* Each of two PDUs loses a packet, and they are at two priorities, so on two
   flows: they are no neighbours, and there is no joint. */
static void no_neighbours(unsigned packets, unsigned lost, unsigned other_packets,
                          unsigned other_lost)
{
    const unsigned one = (packets + lost) % 4;
    const unsigned other = (one + 1 + (other_packets + other_lost) % 3) % 4;
    const struct pdu third = pdu_at(one, 3, 40);
    const struct pdu fourth = pdu_at(other, 4, 40);
    struct buffer pdus = { 0 };
    append_pdu(&pdus, third);
    append_pdu(&pdus, fourth);
    begin("two PDUs at two priorities both lose a packet");
    put_pdu_without(pdu_at(one, 1, 32 * packets - 24), lost);
    put_pdu_without(pdu_at(other, 2, 32 * other_packets - 23), other_lost);
    put_pdu(third);
    put_pdu(fourth);
    finish_delivering(&pdus);
    release(&pdus);
}

/* Two neighbours on one flow both lose a packet, and a PDU at another priority has
   its packets before, between and behind them. It changes nothing for them. */
static void neighbours_and_another(unsigned packets, unsigned lost, unsigned next_lost)
{
    const unsigned priority = (packets + lost + 2 * next_lost) % 4;
    const struct pdu first = pdu_at(priority, 1, 32 * packets - 24);
    const struct pdu second = pdu_at(priority, 2, 41);
    const struct pdu third = pdu_at(priority, 3, 40);
    const struct pdu another = pdu_at((priority + 1 + lost) % 4, 4, 70);
    struct buffer pdus = { 0 };
    if (is_joint(packets, lost, 2, next_lost))
        append_pdu(&pdus, pdu_at(priority, 1, 41));
    append_pdu(&pdus, another);
    append_pdu(&pdus, third);
    begin("two neighbours both lose a packet, a PDU at another priority between");
    put(packet_of(another, 0));
    put_pdu_without(first, lost);
    put(packet_of(another, 1));
    put_pdu_without(second, next_lost);
    put(packet_of(another, 2));
    put_pdu(third);
    finish_delivering(&pdus);
    release(&pdus);
}

/* Packets are lost, and some come at another priority, where another flow may be
   under way. */
static void wrong_priorities(struct random *random, unsigned flows, unsigned packets)
{
    struct sender senders[8];
    start_senders(senders, by_priority, flows, packets);
    begin("wrong priorities");
    for (unsigned i = 0; i < packets; i++) {
        struct sender *sender = &senders[below(random, flows)];
        if (sender->next == packets_of(sender->pdu))
            next_pdu(random, sender, false);
        struct packet packet = packet_of(sender->pdu, sender->next++);
        if (one_in(random, 5))
            packet = with_flipped(packet, 0, 0x40u << below(random, 2));
        if (!one_in(random, 8))
            put(packet);
    }
    finish();
}

void bundle_priority_mixes(void)
{
    struct random random = seeded(8);

    section("two priorities both lose a packet, every way");
    for (unsigned first = 1; first <= 3; first++)
        for (unsigned second = 1; second <= 2; second++)
            for (unsigned i = 0; i < first; i++)
                for (unsigned k = 0; k < second; k++)
                    no_neighbours(first, i, second, k);

    section("two neighbours, another priority between");
    for (unsigned first = 1; first <= 3; first++)
        for (unsigned i = 0; i < first; i++)
            for (unsigned k = 0; k < 2; k++)
                neighbours_and_another(first, i, k);

    section("random losses, by priority");
    allowed_losses(&random, by_priority, 2, 5);
    allowed_losses(&random, by_priority, 4, 3);
    allowed_losses(&random, by_priority, 16, 2);

    section("random losses and damage, by priority");
    damage(&random, by_priority, 24, 40, 12);
    wrong_priorities(&random, 2, 30);
    wrong_priorities(&random, 8, 40);
}
