#include "cases.h"

/* ---- Random numbers: splitmix64 ----------------------------------------- */

struct random seeded(uint64_t seed)
{
    struct random random = { .state = seed };
    return random;
}

uint32_t any(struct random *random)
{
    random->state += 0x9E3779B97F4A7C15u;
    uint64_t z = random->state;
    z = (z ^ z >> 30) * 0xBF58476D1CE4E5B9u;
    z = (z ^ z >> 27) * 0x94D049BB133111EBu;
    return (uint32_t)((z ^ z >> 31) >> 32);
}

uint32_t below(struct random *random, uint32_t bound)
{
    return any(random) % bound;
}

uint32_t between(struct random *random, uint32_t low, uint32_t high)
{
    return low + below(random, high - low + 1);
}

bool one_in(struct random *random, uint32_t chance)
{
    return below(random, chance) == 0;
}

void shuffle(struct random *random, unsigned *numbers, unsigned count)
{
    for (unsigned i = count; i > 1; i--) {
        unsigned other = below(random, i);
        unsigned kept = numbers[i - 1];
        numbers[i - 1] = numbers[other];
        numbers[other] = kept;
    }
}

/* ---- The width of the IDs ------------------------------------------------ */

bool eight_bits = false;

size_t at(size_t place)
{
    return eight_bits ? place - 2 : place;
}

unsigned either(unsigned of_16_bits, unsigned of_8_bits)
{
    return eight_bits ? of_8_bits : of_16_bits;
}

unsigned our_tt(void)
{
    return either(1, 0);
}

unsigned other_tt(void)
{
    return either(0, 1);
}

/* ---- Packets ------------------------------------------------------------ */

static void add(struct packet *packet, unsigned byte)
{
    packet->bytes[packet->length++] = (uint8_t)byte;
}

static void add_half_word(struct packet *packet, unsigned value)
{
    add(packet, value >> 8);
    add(packet, value & 255);
}

static void add_id(struct packet *packet, unsigned id)
{
    if (!eight_bits)
        add(packet, id >> 8);
    add(packet, id & 255);
}

static void add_data(struct packet *packet, size_t bytes)
{
    for (size_t i = 0; i < bytes; i++)
        add(packet, (unsigned)(packet->bytes[at(5)] + 7 * i + 1));
}

/* Priority, tt and type; from a source to our device. */
static struct packet head_of(unsigned priority, unsigned type, unsigned source)
{
    struct packet packet = { .length = 0 };
    add(&packet, priority << 6 | our_tt() << 4 | type);
    add_id(&packet, LOG_DEVICE);
    add_id(&packet, source);
    return packet;
}

struct packet stream_packet(struct flow flow, enum segment_kind kind, unsigned third, size_t bytes)
{
    struct packet packet = head_of(flow.priority, 9, flow.source);
    bool odd_bytes = bytes % 2 == 1;
    bool odd_half_words = (bytes + 1) / 2 % 2 == 1;
    add(&packet, flow.cos);
    add(&packet, kind | (odd_half_words ? BIT_O : 0u) | (odd_bytes ? BIT_P : 0u));
    if (kind != CONTINUATION)
        add_half_word(&packet, third);
    add_data(&packet, bytes);
    if (odd_bytes)
        add(&packet, 0);
    return packet;
}

unsigned packets_of(struct pdu pdu)
{
    return (unsigned)second_segment_count(LOG_MTU, pdu.length);
}

struct packet packet_of(struct pdu pdu, unsigned number)
{
    static uint8_t bytes[SECOND_LARGEST_PDU];
    struct packet packet = { .length = 0 };
    struct second_heading heading = {
        .priority = pdu.flow.priority,
        .destination = LOG_DEVICE,
        .source = (uint16_t)pdu.flow.source,
        .cos = (uint8_t)pdu.flow.cos,
        .stream_id = (uint16_t)pdu.stream,
        .eight_bits = eight_bits,
    };
    for (size_t i = 0; i < pdu.length; i++)
        bytes[i] = (uint8_t)(pdu.stream + 7 * i);
    struct second_answer written = second_write_segment(packet.bytes, sizeof packet.bytes, heading,
                                                        LOG_MTU, bytes, pdu.length, number);
    packet.length = written.length;
    return packet;
}

struct packet message_packet(struct box box, unsigned msglen, unsigned ssize, unsigned msgseg,
                             size_t bytes)
{
    struct packet packet = head_of(box.priority, 11, box.source);
    add(&packet, msglen << 4 | ssize);
    add(&packet, box.letter << 6 | box.mbox << 4 | msgseg);
    add_data(&packet, bytes);
    return packet;
}

struct packet bare_packet(unsigned tt, unsigned type, unsigned destination, size_t length)
{
    struct packet packet = { .length = 0 };
    add(&packet, tt << 4 | type);
    add_id(&packet, destination);
    add_id(&packet, 2);
    packet.length = length;
    return packet;
}

/* ---- Changes of a packet ------------------------------------------------ */

struct packet with_flipped(struct packet packet, size_t place, unsigned bits)
{
    packet.bytes[place] ^= (uint8_t)bits;
    return packet;
}

struct packet with_byte(struct packet packet, size_t place, unsigned value)
{
    packet.bytes[place] = (uint8_t)value;
    return packet;
}

struct packet with_type(struct packet packet, unsigned priority, unsigned type)
{
    return with_byte(packet, 0, priority << 6 | our_tt() << 4 | type);
}

static struct packet with_id(struct packet packet, size_t place, unsigned id)
{
    if (eight_bits)
        return with_byte(packet, place, id);
    return with_byte(with_byte(packet, place, id >> 8), place + 1, id & 255);
}

struct packet to_device(struct packet packet, unsigned destination)
{
    return with_id(packet, 1, destination);
}

struct packet from_device(struct packet packet, unsigned source)
{
    return with_id(packet, either(3, 2), source);
}

struct packet cut_to(struct packet packet, size_t length)
{
    packet.length = length;
    return packet;
}

struct packet longer_by(struct packet packet, size_t bytes)
{
    for (size_t i = 0; i < bytes; i++)
        add(&packet, 0xEE);
    return packet;
}

struct packet widened(struct packet packet)
{
    struct packet wide = { .length = 0 };
    add(&wide, packet.bytes[0] | 1 << 4);
    add_half_word(&wide, packet.bytes[1]);
    add_half_word(&wide, packet.bytes[2]);
    for (size_t i = 3; i < packet.length; i++)
        add(&wide, packet.bytes[i]);
    return wide;
}
