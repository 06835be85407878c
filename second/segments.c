/* The segment writer: cases of 21 bytes, and what it says for each. Those with
   IDs of 16 bits come first, then the same kinds with IDs of 8. */

#include "make.h"

#include <stdlib.h>

static struct buffer cases;

struct segment_case {
    uint32_t mtu;
    unsigned priority;
    unsigned destination;
    unsigned source;
    unsigned cos;
    unsigned stream;
    uint32_t length;
    unsigned seed;
    uint32_t room;
    unsigned width; /* 0: IDs of 16 bits; anything else: 8 */
};

enum { CASE_BYTES = 21 };

static void put_bytes(uint32_t number, int bytes)
{
    for (int shift = 8 * (bytes - 1); shift >= 0; shift -= 8)
        append_byte(&cases, number >> shift & 255);
}

/* All numbers have their most significant byte first. */
static void keep(struct segment_case c)
{
    put_bytes(c.mtu, 4);
    put_bytes(c.priority, 1);
    put_bytes(c.destination, 2);
    put_bytes(c.source, 2);
    put_bytes(c.cos, 1);
    put_bytes(c.stream, 2);
    put_bytes(c.length, 4);
    put_bytes(c.seed, 1);
    put_bytes(c.room, 3);
    put_bytes(c.width, 1);
}

static uint32_t get_bytes(const uint8_t *bytes, int count)
{
    uint32_t number = 0;
    for (int i = 0; i < count; i++)
        number = number << 8 | bytes[i];
    return number;
}

/* ---- The cases ----------------------------------------------------------- */

/* A case with fields that are all different. */
static struct segment_case plain(uint32_t mtu, uint32_t length)
{
    const struct segment_case made = {
        .mtu = mtu,
        .priority = 1,
        .destination = 1,
        .source = 2,
        .cos = 5,
        .stream = 7,
        .length = length,
        .seed = 0xA0,
        .room = 300,
        .width = eight_bits,
    };
    return made;
}

static void examples(void)
{
    keep(plain(32, 32));
    keep(plain(32, 33));
    keep(plain(32, 64));
    keep(plain(32, 65));
    keep(plain(256, 65536));
    keep(plain(32, 0));
    keep(plain(32, 96));
    keep(plain(32, 40));
}

/* Lengths around one, two and three packets, odd and even. */
static void lengths(void)
{
    static const uint32_t mtus[] = { 32, 36, 64, 100, 252, 256 };
    for (size_t i = 0; i < sizeof mtus / sizeof mtus[0]; i++) {
        uint32_t mtu = mtus[i];
        keep(plain(mtu, 1));
        keep(plain(mtu, 2));
        keep(plain(mtu, 3));
        for (uint32_t length = mtu - 2; length <= mtu + 2; length++)
            keep(plain(mtu, length));
        for (uint32_t length = 2 * mtu - 1; length <= 2 * mtu + 1; length++)
            keep(plain(mtu, length));
        keep(plain(mtu, 3 * mtu - 5));
        keep(plain(mtu, 3 * mtu + 1));
    }
    for (uint32_t length = 4; length <= 31; length++)
        keep(plain(32, length));
}

static void headings(void)
{
    static const unsigned wide[] = { 0, 1, 255, 256, 32768, 65535 };
    static const unsigned narrow[] = { 0, 1, 2, 127, 128, 255 };
    const unsigned *ids = eight_bits ? narrow : wide;
    for (unsigned priority = 0; priority <= 3; priority++)
        for (unsigned i = 0; i < 6; i++) {
            struct segment_case c = plain(32, 33 + priority);
            c.priority = priority;
            c.destination = ids[i];
            c.source = ids[(i + 1) % 6];
            c.stream = wide[(i + 2) % 6];
            c.cos = 51 * i;
            c.seed = 40 * i + priority;
            keep(c);
        }
}

/* IDs over 255, with everything else right and wrong. Any width but 0 is 8 bits;
   with 16 there is no such refusal. */
static void refusal_47(void)
{
    static const unsigned ids[] = { 0, 255, 256, 65535 };
    static const unsigned widths[] = { 0, 1, 2, 8, 16, 255 };
    for (unsigned i = 0; i < 16; i++)
        for (size_t k = 0; k < sizeof widths / sizeof widths[0]; k++) {
            struct segment_case c = plain(32, 33);
            c.destination = ids[i / 4];
            c.source = ids[i % 4];
            c.width = widths[k];
            keep(c);
        }
    for (unsigned i = 0; i < 2; i++) {
        struct segment_case c = plain(32, 33);
        c.destination = i == 0 ? 256 : 255;
        c.source = i == 0 ? 255 : 256;
        c.room = 0;
        keep(c);
        c.length = 0;
        keep(c);
        c.length = 65537;
        keep(c);
        c.priority = 4;
        keep(c);
        c.mtu = 33;
        keep(c);
    }
}

/* MTUs that are not allowed, with everything else right and wrong. */
static void refusal_18(void)
{
    static const uint32_t mtus[] = {
        0,   1,   4,   28,  30,  31,  33,    34,    35,          38,          254,
        255, 257, 258, 260, 288, 512, 65536, 65568, 4294967040u, 4294967292u, 4294967295u,
    };
    for (size_t i = 0; i < sizeof mtus / sizeof mtus[0]; i++) {
        struct segment_case c = plain(mtus[i], 40);
        keep(c);
        c.priority = 4;
        keep(c);
        c.length = 0;
        c.room = 0;
        keep(c);
    }
}

static void refusal_17(void)
{
    static const unsigned priorities[] = { 4, 5, 64, 128, 255 };
    for (size_t i = 0; i < sizeof priorities / sizeof priorities[0]; i++) {
        struct segment_case c = plain(32, 40);
        c.priority = priorities[i];
        keep(c);
        c.room = 0;
        keep(c);
        c.length = 0;
        keep(c);
        c.length = 65537;
        c.room = 300;
        keep(c);
    }
}

static void refusal_14(void)
{
    static const uint32_t mtus[] = { 32, 100, 256 };
    for (size_t i = 0; i < sizeof mtus / sizeof mtus[0]; i++) {
        struct segment_case c = plain(mtus[i], 0);
        keep(c);
        c.length = 65537;
        keep(c);
        c.room = 0;
        keep(c);
        c.length = 0;
        keep(c);
    }
}

/* A room of so many bytes, where the packet has IDs of 16 bits. */
static uint32_t room_of(uint32_t length)
{
    return length < 2 ? length : (uint32_t)at(length);
}

/* Rooms around the lengths of the packets. 15 comes before 16: the last
   number of each case is past the count. */
static void refusal_16(void)
{
    static const uint32_t single[] = { 0, 1, 8, 9, 10, 11, 12, 40, 41, 42 };
    for (size_t i = 0; i < sizeof single / sizeof single[0]; i++)
        for (uint32_t length = 31; length <= 33; length++) {
            struct segment_case c = plain(32, length);
            c.room = room_of(single[i]);
            keep(c);
            c.length = 1;
            keep(c);
            c.length = 2;
            keep(c);
        }
    for (uint32_t room = 38; room <= 41; room++) {
        struct segment_case c = plain(32, 96);
        c.room = room_of(room);
        keep(c);
        c.length = 125;
        keep(c);
    }
    for (uint32_t room = 262; room <= 265; room++) {
        struct segment_case c = plain(256, 600);
        c.room = room_of(room);
        keep(c);
    }
}

/* 65,536 bytes, and few that fit: the end shows length 0000. */
static void largest(void)
{
    struct segment_case c = plain(252, 65536);
    c.room = room_of(25);
    keep(c);
    c = plain(100, 65536);
    c.room = room_of(45);
    keep(c);
    c = plain(100, 65535);
    c.room = room_of(45);
    keep(c);
    c = plain(32, 65536);
    c.room = room_of(38);
    keep(c);
    c = plain(256, 65281);
    c.room = room_of(11);
    keep(c);
}

static void random_cases(void)
{
    struct random random = seeded(6);
    for (unsigned i = 0; i < 120; i++) {
        struct segment_case c = { .room = 300, .width = eight_bits };
        c.mtu = 32 + 4 * below(&random, 57);
        c.priority = below(&random, 4);
        c.destination = below(&random, either(65536, 256));
        c.source = below(&random, either(65536, 256));
        c.cos = below(&random, 256);
        c.stream = below(&random, 65536);
        c.length = between(&random, 1, 300);
        c.seed = below(&random, 256);
        if (one_in(&random, 8))
            c.room = below(&random, 300);
        if (one_in(&random, 20))
            c.priority = below(&random, 256);
        if (one_in(&random, 20))
            c.mtu = below(&random, 300);
        if (one_in(&random, 20))
            c.length = 300 + below(&random, 600);
        if (eight_bits && one_in(&random, 12))
            c.destination = below(&random, 65536);
        if (eight_bits && one_in(&random, 12))
            c.source = below(&random, 65536);
        keep(c);
    }
}

/* ---- What the writer says ------------------------------------------------ */

static void run_number(struct buffer *out, struct second_heading heading, uint32_t mtu,
                       const uint8_t *pdu, uint32_t length, uint32_t room, uint64_t number)
{
    uint8_t *packet = malloc(room);
    struct second_answer answer =
        second_write_segment(packet, room, heading, mtu, pdu, length, number);
    if (answer.kind == SECOND_WRITTEN) {
        append_hex(out, packet, answer.length);
    } else {
        append_text(out, "refused ");
        append_number(out, answer.refusal);
    }
    append_text(out, "\n");
    free(packet);
}

static void run_case(struct buffer *out, const uint8_t *bytes)
{
    static uint8_t pdu[65537];
    uint32_t mtu = get_bytes(bytes, 4);
    uint32_t length = get_bytes(bytes + 12, 4);
    uint32_t seed = bytes[16];
    uint32_t room = get_bytes(bytes + 17, 3);
    const struct second_heading heading = {
        .priority = bytes[4],
        .destination = (uint16_t)get_bytes(bytes + 5, 2),
        .source = (uint16_t)get_bytes(bytes + 7, 2),
        .cos = bytes[9],
        .stream_id = (uint16_t)get_bytes(bytes + 10, 2),
        .eight_bits = bytes[20],
    };
    for (uint32_t i = 0; i < length; i++)
        pdu[i] = (uint8_t)(seed + 7 * i + i / 256);

    uint64_t count = second_segment_count(mtu, length);
    append_text(out, "case ");
    append_number(out, count);
    append_text(out, "\n");
    for (uint64_t number = 0; number <= count; number++)
        run_number(out, heading, mtu, pdu, length, room, number);
}

/* What cases of either width have. */
static void both(void)
{
    examples();
    lengths();
    headings();
    refusal_18();
    refusal_17();
    refusal_14();
    refusal_16();
    largest();
    random_cases();
}

struct vectors segments(void)
{
    struct vectors made = { 0 };
    both();
    eight_bits = true;
    both();
    refusal_47();
    eight_bits = false;
    made.in = cases;
    for (size_t place = 0; place < made.in.length; place += CASE_BYTES)
        run_case(&made.out, made.in.bytes + place);
    return made;
}
