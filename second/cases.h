/* Packets for test logs, of either width, right ones and wrong ones, and random
   numbers. */

#ifndef SECOND_CASES_H
#define SECOND_CASES_H

#include "logs.h"

/* ---- Random numbers, the same on every machine ----
   Draw one in a statement: C does not fix the order of two in one. */

struct random {
    uint64_t state;
};

struct random seeded(uint64_t seed);
uint32_t any(struct random *random);
uint32_t below(struct random *random, uint32_t bound);
uint32_t between(struct random *random, uint32_t low, uint32_t high);
bool one_in(struct random *random, uint32_t chance);
void shuffle(struct random *random, unsigned *numbers, unsigned count);

/* ---- The width of the IDs ---- */

/* Packets are made with IDs of 16 bits, or of 8. */
extern bool eight_bits;

/* A place or a length of document 01 in such a packet: all that stands behind
   the IDs stands two bytes earlier with IDs of 8 bits. */
size_t at(size_t place);

/* One of two numbers, by the width. */
unsigned either(unsigned of_16_bits, unsigned of_8_bits);

/* ---- Packets ---- */

struct packet {
    uint8_t bytes[640];
    size_t length;
};

struct flow {
    unsigned priority;
    unsigned source;
    unsigned cos;
};

/* Byte 6 of the four kinds: S and E. Bytes are counted as in document 01. */
enum segment_kind { CONTINUATION = 0x00, END = 0x40, START = 0x80, SINGLE = 0xC0 };

/* Places in byte 6 of type 9. */
enum { BIT_P = 0x01, BIT_O = 0x02, BIT_XH = 0x04, RESERVED_BITS = 0x38 };

/* Type 9 with right O, P and pad, for any number of data bytes. The third
   number is the streamID or the PDU length; a continuation has none. */
struct packet stream_packet(struct flow flow, enum segment_kind kind, unsigned third, size_t bytes);

struct pdu {
    struct flow flow;
    unsigned stream;
    size_t length;
};

/* The number of packets of a PDU at MTU 32. */
unsigned packets_of(struct pdu pdu);

/* A packet of a PDU, as our own writer makes it. */
struct packet packet_of(struct pdu pdu, unsigned number);

struct box {
    unsigned priority;
    unsigned source;
    unsigned letter;
    unsigned mbox;
};

/* Type 11, for any number of data bytes. The ssize is the code. */
struct packet message_packet(struct box box, unsigned msglen, unsigned ssize, unsigned msgseg,
                             size_t bytes);

/* Byte 0 and two IDs with any fields, and zeros behind them. */
struct packet bare_packet(unsigned tt, unsigned type, unsigned destination, size_t length);

/* tt of the width: 01 or 00. */
unsigned our_tt(void);

/* tt of the other width. */
unsigned other_tt(void);

/* ---- Changes of a packet ---- */

struct packet with_flipped(struct packet packet, size_t place, unsigned bits);
struct packet with_byte(struct packet packet, size_t place, unsigned value);
struct packet with_type(struct packet packet, unsigned priority, unsigned type);
struct packet to_device(struct packet packet, unsigned destination);
struct packet from_device(struct packet packet, unsigned source);
struct packet cut_to(struct packet packet, size_t length);
struct packet longer_by(struct packet packet, size_t bytes);

/* A packet with IDs of 8 bits as it is with IDs of 16. */
struct packet widened(struct packet packet);

#endif
