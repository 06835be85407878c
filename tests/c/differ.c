/* The library against the second program (second/endpoint.c), call by call:
   the same calls on the same bytes must give the same answers, and leave the
   same state and the same bytes in every lent memory. Every buffer of the
   library has guard bytes on both sides.

   Random, from a seed that is printed: differ [SEED [PACKETS]]. The width of the
   IDs is random too, anew at each setup; each of the two reads at least that many
   packets. Now and then a packet has the other one. Most flows have beside them
   one that differs in its priority alone, and one that differs in its cos alone.

   One difference is expected. A context's open word may hold any number but 0.
   On an accepted segment the library writes 1 there, the second program leaves
   what it was; both follow docs/DECISIONS.md. So open words are compared as
   open or not. */

#include <stdarg.h>
#include <stdio.h>
#include <stdlib.h>
#include <string.h>

#include "../../second/endpoint.h"
#include "kaiverohm.h"

enum { GUARD = 64, WORDS = KAIVEROHM_STATE_WORDS, PACKET = 700, BURST = 40 };

/* The words of a state before the priority came into it. */
enum { BEFORE = 148 };

/* The words of a context, and the words of a state where the contexts begin. */
enum { STREAM_WORDS = 6, MESSAGE_WORDS = 8 };
enum { STREAMS = 4, MESSAGES = STREAMS + 16 * STREAM_WORDS };

/* The bytes of a report. */
enum { REPORT = 8 * KAIVEROHM_REPORT_WORDS };

_Static_assert(8 * WORDS == sizeof(struct second_endpoint), "both states have as many words");
_Static_assert(REPORT == sizeof(struct kaiverohm_report), "a report");

static uint64_t seed;
static unsigned long long packets, bursts, calls, states19, twins;
static unsigned long long beside_priority, beside_cos; /* packets: see count_beside */
static unsigned long long refusals[48], kinds[8], stops[5];
static unsigned long long read_at[2]; /* packets, by the width: 16 bits, 8 bits */

static void fail(const char *format, ...)
{
    va_list list;
    va_start(list, format);
    fprintf(stderr, "differ: seed %llu, packet %llu, burst %llu: ", (unsigned long long)seed,
            packets, bursts);
    vfprintf(stderr, format, list);
    fprintf(stderr, "\n");
    va_end(list);
    exit(1);
}

/* ---- random numbers: splitmix64 */

static uint64_t random_state;

static uint64_t draw(void)
{
    uint64_t z = (random_state += 0x9e3779b97f4a7c15u);
    z = (z ^ (z >> 30)) * 0xbf58476d1ce4e5b9u;
    z = (z ^ (z >> 27)) * 0x94d049bb133111ebu;
    return z ^ (z >> 31);
}

static uint64_t below(uint64_t n)
{
    return draw() % n;
}

static int one_in(uint64_t n)
{
    return below(n) == 0;
}

static void scatter(uint8_t *bytes, size_t length)
{
    for (size_t i = 0; i < length; i++)
        bytes[i] = (uint8_t)draw();
}

/* ---- buffers with guards. The room for one byte or word more than asked for
   lets a test lend a buffer that is too long. */

struct guarded {
    uint8_t *whole;
    uint8_t *bytes;
    size_t length;
};

static struct guarded guarded(size_t length)
{
    struct guarded g = { malloc(length + 2 * GUARD), NULL, length };
    if (g.whole == NULL)
        fail("no memory");
    g.bytes = g.whole + GUARD;
    memset(g.whole, 0xa5, GUARD);
    memset(g.bytes + length, 0x5a, GUARD);
    return g;
}

static void unharmed(const struct guarded *g, const char *name)
{
    for (size_t i = 0; i < GUARD; i++) {
        if (g->whole[i] != 0xa5)
            fail("a byte before %s was written", name);
        if (g->bytes[g->length + i] != 0x5a)
            fail("a byte behind %s was written", name);
    }
}

/* ---- a board of the library's, and one of the second program's */

struct board {
    struct guarded state, streams, messages, response, packet;
    struct second_endpoint second;
    uint8_t *second_streams, *second_messages, *second_response;
    uint16_t device;
    uint64_t mtu, room, narrow;
};

static uint64_t *words(struct board *b)
{
    return (uint64_t *)(void *)b->state.bytes;
}

static void guards(const struct board *b)
{
    unharmed(&b->state, "the state");
    unharmed(&b->streams, "the stream memory");
    unharmed(&b->messages, "the message memory");
    unharmed(&b->response, "the response");
    unharmed(&b->packet, "the packet");
}

static struct board board(uint64_t mtu, uint64_t room)
{
    struct board b;
    memset(&b, 0, sizeof b);
    b.device = 1;
    b.mtu = mtu;
    b.room = room;
    b.state = guarded(8 * (WORDS + 1));
    b.streams = guarded(16 * room + 1);
    b.messages = guarded(KAIVEROHM_MESSAGE_MEMORY + 1);
    b.response = guarded(16);
    b.packet = guarded(PACKET);
    b.second_streams = malloc(b.streams.length);
    b.second_messages = malloc(b.messages.length);
    b.second_response = malloc(b.response.length);
    scatter(b.state.bytes, b.state.length);
    scatter(b.streams.bytes, b.streams.length);
    scatter(b.messages.bytes, b.messages.length);
    scatter(b.response.bytes, b.response.length);
    memcpy(b.second_streams, b.streams.bytes, b.streams.length);
    memcpy(b.second_messages, b.messages.bytes, b.messages.length);
    memcpy(b.second_response, b.response.bytes, b.response.length);
    return b;
}

static void no_board(struct board *b)
{
    free(b->state.whole);
    free(b->streams.whole);
    free(b->messages.whole);
    free(b->response.whole);
    free(b->packet.whole);
    free(b->second_streams);
    free(b->second_messages);
    free(b->second_response);
}

/* What is no state: one word less or more, none, or as many as it had before. */
static size_t some_no_state(void)
{
    static const size_t some[] = { WORDS - 1, WORDS + 1, 0, BEFORE };
    return some[below(4)];
}

/* The second program's state is a struct; NULL stands for what is no state. */
static struct second_endpoint *second_lent_as(struct board *b, size_t count)
{
    return count == WORDS ? &b->second : NULL;
}

/* A word of the second program's state by its place in the library's. */
static uint64_t *second_word(struct second_endpoint *s, size_t i)
{
    if (i == 0)
        return &s->device;
    if (i == 1)
        return &s->mtu;
    if (i == 2)
        return &s->room;
    if (i == 3)
        return &s->eight_bits;
    if (i < MESSAGES) {
        struct second_stream *c = &s->stream[(i - STREAMS) / STREAM_WORDS];
        uint64_t *field[] = {
            &c->open, &c->source, &c->priority, &c->cos, &c->stream_id, &c->held
        };
        return field[(i - STREAMS) % STREAM_WORDS];
    }
    struct second_message *c = &s->message[(i - MESSAGES) / MESSAGE_WORDS];
    uint64_t *field[] = { &c->open,   &c->source, &c->letter, &c->mbox,
                          &c->msglen, &c->ssize,  &c->marks,  &c->last };
    return field[(i - MESSAGES) % MESSAGE_WORDS];
}

static int is_open_word(size_t i)
{
    if (i < STREAMS)
        return 0;
    return i < MESSAGES ? (i - STREAMS) % STREAM_WORDS == 0 : (i - MESSAGES) % MESSAGE_WORDS == 0;
}

/* Any number but 0 says that a context is open. The library writes 1 into a
   context that it goes on with, the second program leaves what stood there. */
static void same_words(const uint64_t *ours, struct second_endpoint *theirs, const char *call)
{
    for (size_t i = 0; i < WORDS; i++) {
        uint64_t a = ours[i], b = *second_word(theirs, i);
        if (a != b && !(is_open_word(i) && a == 1 && b != 0))
            fail("%s: word %zu of the state is %llx and %llx", call, i, (unsigned long long)a,
                 (unsigned long long)b);
    }
}

static void same_bytes(const uint8_t *ours, const uint8_t *theirs, size_t length, const char *what)
{
    if (memcmp(ours, theirs, length) == 0)
        return;
    size_t i = 0;
    while (ours[i] == theirs[i])
        i++;
    fail("byte %zu of %s is %02x and %02x", i, what, ours[i], theirs[i]);
}

static void same_board(struct board *b, const char *call)
{
    same_words(words(b), &b->second, call);
    same_bytes(b->streams.bytes, b->second_streams, b->streams.length, "the stream memory");
    same_bytes(b->messages.bytes, b->second_messages, b->messages.length, "the message memory");
    same_bytes(b->response.bytes, b->second_response, b->response.length, "the response");
    guards(b);
}

/* ---- answers */

static uint64_t kind_of(enum second_kind kind)
{
    switch (kind) {
    case SECOND_REFUSED: return KAIVEROHM_REFUSED;
    case SECOND_HELD: return KAIVEROHM_HELD;
    case SECOND_PDU: return KAIVEROHM_DELIVERED;
    case SECOND_MESSAGE: return KAIVEROHM_MESSAGE;
    case SECOND_READY: return KAIVEROHM_READY;
    case SECOND_ABANDONED: return KAIVEROHM_CLOSED;
    case SECOND_WAS_FREE: return KAIVEROHM_WAS_FREE;
    case SECOND_WRITTEN: return KAIVEROHM_WRITTEN;
    }
    fail("the second program gives no kind");
    return 0;
}

static void same_answer(struct kaiverohm_answer a, struct second_answer b, const char *call)
{
    uint64_t number = b.kind == SECOND_WRITTEN ? b.length : b.refusal;
    calls++;
    kinds[kind_of(b.kind)]++;
    if (b.kind == SECOND_REFUSED)
        refusals[b.refusal % 48]++;
    if (a.kind != kind_of(b.kind) || a.number != number)
        fail("%s: %llu %llu and %llu %llu", call, (unsigned long long)a.kind,
             (unsigned long long)a.number, (unsigned long long)kind_of(b.kind),
             (unsigned long long)number);
}

/* `clear` says that the response's first byte was 0 before. No response begins
   with 0, so then the bytes tell whether one was written. */
static void same_report(const struct kaiverohm_report *a, struct second_answer b, int clear,
                        const uint8_t *response)
{
    kinds[kind_of(b.kind)]++;
    if (b.kind == SECOND_REFUSED)
        refusals[b.refusal % 48]++;
    if (a->kind != kind_of(b.kind) || a->number != b.refusal || a->dropped != b.dropped
        || a->context != b.context || a->source != b.source || a->cos_or_letter != b.cos_or_letter
        || a->stream_or_mailbox != b.stream_or_mailbox || a->length != b.length
        || a->priority != b.priority)
        fail("report %llu %llu %llu, %llu %llu %llu %llu %llu at %llu "
             "and answer %d %u %d, %llu %llu %llu %llu %llu at %llu",
             (unsigned long long)a->kind, (unsigned long long)a->number,
             (unsigned long long)a->dropped, (unsigned long long)a->context,
             (unsigned long long)a->source, (unsigned long long)a->cos_or_letter,
             (unsigned long long)a->stream_or_mailbox, (unsigned long long)a->length,
             (unsigned long long)a->priority, b.kind, b.refusal, b.dropped,
             (unsigned long long)b.context, (unsigned long long)b.source,
             (unsigned long long)b.cos_or_letter, (unsigned long long)b.stream_or_mailbox,
             (unsigned long long)b.length, (unsigned long long)b.priority);
    if (a->response != b.response)
        fail("report says %llu bytes of response, answer %llu", (unsigned long long)a->response,
             (unsigned long long)b.response);
    if (clear && (response[0] != 0) != (a->response != 0))
        fail("the response was written, and the report says not, or the other way");
}

/* ---- traffic: flows that send PDUs, messages in any order, losses, damage */

struct sending {
    struct kaiverohm_heading heading;
    uint8_t pdu[3000];
    size_t length;
    uint64_t next;
};

struct posting {
    unsigned source, letter, mbox, msglen, ssize, last, sent;
};

static struct sending sendings[24];
static struct posting postings[11];

/* A number that says 8 bits: any but 0. */
static uint64_t some_narrow(void)
{
    static const uint64_t some[] = { 1, 2, 8, 16, 255, 256, 1ull << 32, UINT64_MAX - UINT32_MAX };
    switch (below(4)) {
    case 0: return UINT64_MAX - below(3);
    case 1: return draw() | 1;
    default: return some[below(sizeof some / sizeof some[0])];
    }
}

/* The width of a packet that a board sends to ours: now and then the other one. */
static uint64_t some_width(const struct board *b)
{
    int narrow = (b->narrow != 0) != one_in(25);
    return narrow ? some_narrow() : 0;
}

/* Where the fields of a type begin. */
static size_t header(uint64_t narrow)
{
    return narrow ? 3 : 5;
}

/* Byte 0 and the IDs. Answers where the fields of the type begin. */
static size_t put_head(uint8_t *packet, uint64_t narrow, unsigned type, unsigned destination,
                       unsigned source)
{
    const uint8_t wide[] = { (uint8_t)(destination >> 8), (uint8_t)destination,
                             (uint8_t)(source >> 8), (uint8_t)source };
    packet[0] = (uint8_t)(below(4) << 6 | (narrow ? 0 : 1) << 4 | type);
    memcpy(packet + 1, wide, 4);
    if (narrow) {
        packet[1] = (uint8_t)destination;
        packet[2] = (uint8_t)source;
    }
    return header(narrow);
}

static size_t same_segment(uint8_t *packet, size_t room, struct kaiverohm_heading h, uint64_t mtu,
                           const uint8_t *pdu, size_t pdu_length, uint64_t number)
{
    struct guarded out = guarded(room);
    uint8_t *theirs = malloc(room + 1);
    scatter(out.bytes, room);
    memcpy(theirs, out.bytes, room);
    struct second_heading heading = {
        h.priority, h.destination, h.source, h.cos, h.stream, h.narrow
    };
    struct kaiverohm_answer a =
        kaiverohm_write_segment(out.bytes, room, h, mtu, pdu, pdu_length, number);
    same_answer(a, second_write_segment(theirs, room, heading, mtu, pdu, pdu_length, number),
                "write_segment");
    if (kaiverohm_segment_count(mtu, pdu_length) != second_segment_count(mtu, pdu_length))
        fail("segment_count");
    same_bytes(out.bytes, theirs, room, "a segment");
    unharmed(&out, "the segment's buffer");
    size_t length = a.kind == KAIVEROHM_WRITTEN ? a.number : 0;
    memcpy(packet, out.bytes, length);
    free(out.whole);
    free(theirs);
    return length;
}

/* The writer's refusals: any numbers, any room for the packet. */
static void any_segment(void)
{
    uint8_t packet[400], pdu[600];
    struct kaiverohm_heading h;
    scatter((uint8_t *)&h, sizeof h);
    h.priority %= 6;
    if (one_in(2))
        h.narrow = 0;
    if (!one_in(4))
        h.destination &= 0x1ff >> below(2);
    if (!one_in(4))
        h.source &= 0x1ff >> below(2);
    scatter(pdu, sizeof pdu);
    uint64_t mtu = one_in(4) ? below(300) : 32 + 4 * below(57);
    size_t room = one_in(2) ? below(300) : mtu + 4 + below(6); /* full ones need 5, 7 or 9 more */
    same_segment(packet, room, h, mtu, pdu, one_in(20) ? 0 : below(sizeof pdu), below(20));
}

/* Another PDU. Of eight sendings of one source, two by two differ in their priority
   alone and two by two in their cos alone; the first four are the busiest. Now and
   then a PDU is sent on the flow of another sending. */
static void next_pdu(struct sending *s, uint64_t mtu, uint64_t room)
{
    const unsigned i = (unsigned)(s - sendings);
    s->heading.source = (uint16_t)(1 + i / 8);
    s->heading.cos = (uint8_t)(i / 2 % 2);
    s->heading.priority = (uint8_t)(i % 2 + i / 4 % 2 * 2);
    if (one_in(8))
        s->heading.priority = (uint8_t)below(4);
    s->heading.stream = (uint16_t)draw();
    s->length = one_in(8) ? 1 + below(sizeof s->pdu) : 1 + below(room < 4 * mtu ? room : 4 * mtu);
    if (s->length > sizeof s->pdu)
        s->length = sizeof s->pdu;
    scatter(s->pdu, s->length);
    s->next = 0;
}

static size_t stream_packet(uint8_t *packet, const struct board *b)
{
    const uint64_t mtu = b->mtu;
    struct sending *s = &sendings[one_in(4) ? below(24) : below(4)];
    size_t length;
    if (s->next >= kaiverohm_segment_count(mtu, s->length))
        next_pdu(s, mtu, b->room);
    if (one_in(10))
        s->next++;
    s->heading.destination = b->device;
    s->heading.narrow = some_width(b);
    if (s->heading.narrow)
        s->heading.destination &= 0xff;
    length = same_segment(packet, mtu + header(s->heading.narrow) + 4 + below(8), s->heading, mtu,
                          s->pdu, s->length, s->next);
    s->next++;
    return length;
}

static size_t message_packet(uint8_t *packet, const struct board *b)
{
    struct posting *p = &postings[one_in(3) ? below(11) : below(3)];
    unsigned number = 0, size;
    size_t at;
    if (p->ssize == 0 || p->sent == (1u << (p->msglen + 1)) - 1 || one_in(30)) {
        p->source = (unsigned)(1 + (p - postings) % 6);
        p->letter = (unsigned)below(4);
        p->mbox = (unsigned)below(4);
        p->msglen = (unsigned)(one_in(3) ? 0 : 1 + below(one_in(4) ? 15 : 3));
        p->ssize = (unsigned)(9 + below(one_in(4) ? 6 : 3));
        p->last = (unsigned)(8 * (1 + below((1u << (p->ssize - 6)) / 8)));
        p->sent = 0;
    }
    do
        number = (unsigned)below(p->msglen + 1);
    while ((p->sent >> number & 1) != 0 && !one_in(4));
    p->sent |= 1u << number;
    size = number == p->msglen ? p->last : 1u << (p->ssize - 6);
    at = put_head(packet, some_width(b), 11, b->device, p->source);
    packet[at] = (uint8_t)(p->msglen << 4 | p->ssize);
    packet[at + 1] =
        (uint8_t)(p->letter << 6 | p->mbox << 4 | (p->msglen == 0 ? below(16) : number));
    scatter(packet + at + 2, size);
    return at + 2 + size;
}

static size_t damaged(uint8_t *packet, size_t length, const struct board *b)
{
    switch (below(8)) {
    case 0:
        /* a bit of the head */
        packet[below(9)] ^= (uint8_t)(1 << below(8));
        return length;
    case 1:
        /* a byte of the fields */
        packet[header(b->narrow) + below(4)] = (uint8_t)draw();
        return length;
    case 2:
        /* cut */
        return below(length + 1);
    case 3:
        /* longer by a little */
        scatter(packet + length, 9);
        return length + below(9);
    case 4:
        /* any bytes at all */
        scatter(packet, PACKET);
        return below(one_in(2) ? 20 : PACKET);
    case 5:
        /* any fields, ours, of type 9 or 11 */
        scatter(packet, PACKET);
        return put_head(packet, some_width(b), one_in(2) ? 9 : 11, b->device, (unsigned)draw())
               + below(40);
    case 6:
        /* another priority */
        packet[0] ^= (uint8_t)((1 + below(3)) << 6);
        return length;
    default:
        /* cut to an even length */
        return length & ~(size_t)1;
    }
}

/* Now and then seventeen starts on seventeen flows, of five sources and four
   priorities, so that no context is free. */
static size_t flood_packet(uint8_t *packet, const struct board *b, unsigned number)
{
    struct kaiverohm_heading h = {
        .destination = b->device,
        .source = (uint16_t)(100 + number / 4),
        .stream = 7,
        .cos = 200,
        .priority = (uint8_t)(number % 4),
        .narrow = b->narrow,
    };
    uint8_t pdu[512];
    scatter(pdu, sizeof pdu);
    return same_segment(packet, b->mtu + 9, h, b->mtu, pdu, 2 * b->mtu, 0);
}

static size_t some_packet(uint8_t *packet, const struct board *b)
{
    static unsigned flood;
    size_t length;
    memset(packet, 0, PACKET);
    if (flood == 0 && one_in(300))
        flood = 17;
    if (flood > 0)
        return flood_packet(packet, b, flood--);
    length = below(5) < 3 ? stream_packet(packet, b) : message_packet(packet, b);
    return one_in(5) ? damaged(packet, length, b) : length;
}

/* ---- setup, on both boards */

static void set_up(struct board *b, struct kaiverohm_settings s, const char *call)
{
    same_answer(kaiverohm_setup(words(b), WORDS, s),
                second_setup(&b->second, s.device, s.mtu, s.room, s.narrow), call);
    same_words(words(b), &b->second, call);
}

static struct kaiverohm_settings right_settings(const struct board *b)
{
    return (struct kaiverohm_settings){ b->device, b->mtu, b->room, b->narrow };
}

static void set_up_well(struct board *b)
{
    set_up(b, right_settings(b), "setup");
}

/* A width, and an ID that it has: 0, 1, 255, and with 16 bits more. */
static void choose_width(struct board *b, int narrow)
{
    static const uint16_t ids[] = { 0, 1, 1, 1, 255, 256, 257, 65535 };
    b->narrow = narrow ? some_narrow() : 0;
    b->device = ids[below(narrow ? 5 : 8)];
}

/* What is no state stays as it is. */
static void no_set_up(struct board *b, size_t count, const char *call)
{
    const struct kaiverohm_settings s = right_settings(b);
    same_answer(kaiverohm_setup(words(b), count, s),
                second_setup(NULL, s.device, s.mtu, s.room, s.narrow), call);
    same_words(words(b), &b->second, call);
}

/* A device that is too wide, an MTU and an R that are off, one and then two of
   them; a state that is too long or too short. Then all is right. */
static void setups(struct board *b)
{
    struct kaiverohm_settings s = right_settings(b);
    s.device = (uint16_t)draw();
    s.narrow = one_in(2) ? some_narrow() : 0;
    set_up(b, s, "setup, any device");
    s.mtu = one_in(2) ? b->mtu + 2 : 4 * below(80);
    set_up(b, s, "setup, MTU off");
    s.room = 65537;
    set_up(b, s, "setup, MTU and R off");
    s = right_settings(b);
    s.room = 65537;
    set_up(b, s, "setup, R off");
    no_set_up(b, WORDS + 1, "setup of a long state");
    no_set_up(b, BEFORE, "setup of a state of before the priority");
    set_up_well(b);
    same_board(b, "setup");
}

/* ---- one packet */

/* With what lengths the buffers are lent. */
struct lengths {
    size_t words, streams, messages, response;
};

static struct lengths right_lengths(const struct board *b, size_t response)
{
    return (struct lengths){ WORDS, 16 * b->room, KAIVEROHM_MESSAGE_MEMORY, response };
}

static void make_one_wrong(struct lengths *l)
{
    switch (below(4)) {
    case 0: l->words = some_no_state(); break;
    case 1: l->streams = one_in(4) ? 0 : l->streams + 1 - 2 * below(2); break;
    case 2: l->messages = one_in(4) ? 0 : l->messages + 1 - 2 * below(2); break;
    default: l->response = below(7); break;
    }
}

/* Counts the packets of type 9 beside whose flow another is open that differs in its
   priority alone, or in its cos alone. */
static void count_beside(const struct board *b, const uint8_t *packet, size_t length)
{
    const size_t fields = header(b->second.eight_bits);
    if (length < fields + 2 || (packet[0] & 63) != (b->second.eight_bits ? 9 : 25))
        return;
    const uint64_t source = b->second.eight_bits ? packet[2] : packet[3] * 256u + packet[4];
    int other_priority = 0, other_cos = 0;
    for (size_t i = 0; i < 16; i++) {
        const struct second_stream *c = &b->second.stream[i];
        if (!c->open || c->source != source)
            continue;
        other_priority |= c->cos == packet[fields] && c->priority != packet[0] >> 6;
        other_cos |= c->cos != packet[fields] && c->priority == packet[0] >> 6;
    }
    beside_priority += (unsigned)other_priority;
    beside_cos += (unsigned)other_cos;
}

static struct second_answer second_reads(struct board *b, struct lengths l, uint8_t *response,
                                         const uint8_t *packet, size_t length)
{
    struct second_lent lent = {
        .stream_memory = b->second_streams,
        .stream_length = l.streams,
        .message_memory = b->second_messages,
        .message_length = l.messages,
        .response = response,
        .response_length = l.response,
    };
    packets++;
    read_at[b->second.eight_bits != 0]++;
    count_beside(b, packet, length);
    return second_read(second_lent_as(b, l.words), lent, packet, length);
}

static void read_one(struct board *b, struct lengths l, const uint8_t *packet, size_t length)
{
    int clear = one_in(2);
    if (clear) {
        memset(b->response.bytes, 0, 16);
        memset(b->second_response, 0, 16);
    }
    memcpy(b->packet.bytes, packet, length);
    struct kaiverohm_report here =
        kaiverohm_read(words(b), l.words, b->streams.bytes, l.streams, b->messages.bytes,
                       l.messages, b->response.bytes, l.response, b->packet.bytes, length);
    struct second_answer there = second_reads(b, l, b->second_response, packet, length);
    same_report(&here, there, clear, b->response.bytes);
    same_bytes(b->packet.bytes, packet, length, "the packet");
    same_board(b, "read");
}

/* ---- what is open */

/* What a call on context n of so many is refused with, or 0, where the state is lent
   with so many words. */
static uint64_t refused(const struct board *b, size_t count, uint64_t n, uint64_t contexts)
{
    if (count != WORDS)
        return 12;
    return second_refusal19(&b->second) ? 19 : n >= contexts ? 13 : 0;
}

static uint64_t kind_asked(uint64_t number, uint64_t open)
{
    return number ? KAIVEROHM_REFUSED : open ? KAIVEROHM_OPEN : KAIVEROHM_WAS_FREE;
}

static void same_stream(struct board *b, size_t count, uint64_t n)
{
    struct kaiverohm_open_stream here = kaiverohm_stream_context(words(b), count, n), there = { 0 };
    struct second_stream c = { 0 };
    there.number = refused(b, count, n, 16);
    if (!there.number)
        c = b->second.stream[n];
    there.kind = kind_asked(there.number, c.open);
    if (c.open) {
        there.source = c.source;
        there.priority = c.priority;
        there.cos = c.cos;
        there.stream = c.stream_id;
        there.held = c.held;
    }
    if (memcmp(&here, &there, sizeof here) != 0)
        fail("stream_context %llu", (unsigned long long)n);
}

static void same_message(struct board *b, size_t count, uint64_t n)
{
    struct kaiverohm_open_message here = kaiverohm_message_context(words(b), count, n),
                                  there = { 0 };
    struct second_message c = { 0 };
    there.number = refused(b, count, n, 8);
    if (!there.number)
        c = b->second.message[n];
    there.kind = kind_asked(there.number, c.open);
    if (c.open) {
        there.source = c.source;
        there.letter = c.letter;
        there.mbox = c.mbox;
        there.msglen = c.msglen;
        there.size = UINT64_C(8) << (c.ssize - 9); /* codes 9 to 14 are 8 to 256 bytes */
        there.marks = c.marks;
        there.last = c.last;
    }
    if (memcmp(&here, &there, sizeof here) != 0)
        fail("message_context %llu", (unsigned long long)n);
}

static void what_is_open(struct board *b)
{
    const size_t count = one_in(8) ? some_no_state() : WORDS;
    same_stream(b, count, one_in(8) ? draw() : below(18));
    same_message(b, count, one_in(8) ? draw() : below(10));
    calls += 2;
    same_board(b, "context");
}

/* ---- the other calls */

static void other_calls(struct board *b)
{
    const size_t count = one_in(8) ? some_no_state() : WORDS;
    struct second_endpoint *second = second_lent_as(b, count);
    what_is_open(b);
    uint64_t n = one_in(8) ? draw() : below(18);
    uint64_t l = one_in(8) ? draw() : below(b->room + 2);
    size_t size = 16 * b->room + (one_in(8) ? 1 : 0);
    struct kaiverohm_place p = kaiverohm_stream_room(words(b), count, size, n, l);
    struct second_part part = second_stream_room(second, b->second_streams, size, n, l);
    if (p.length != part.length || p.offset != (uint64_t)(part.bytes - b->second_streams))
        fail("stream_room");
    l = one_in(8) ? draw() : below(4098);
    size = KAIVEROHM_MESSAGE_MEMORY + (one_in(8) ? 1 : 0);
    n = one_in(8) ? draw() : below(10);
    p = kaiverohm_message_room(words(b), count, size, n, l);
    part = second_message_room(second, b->second_messages, size, n, l);
    if (p.length != part.length || p.offset != (uint64_t)(part.bytes - b->second_messages))
        fail("message_room");
    calls += 2;
    n = one_in(8) ? draw() : below(18);
    if (one_in(2))
        same_answer(kaiverohm_abandon_stream(words(b), count, n), second_abandon_stream(second, n),
                    "abandon_stream");
    else
        same_answer(kaiverohm_abandon_message(words(b), count, n % 11),
                    second_abandon_message(second, n % 11), "abandon_message");
    same_board(b, "abandon");
}

/* Numbers near every bound that the state's fields have. */
static uint64_t odd_number(const struct board *b)
{
    static const uint64_t bounds[] = { 0,   1,    2,    3,     7,     8,     9,       14,
                                       15,  16,   31,   32,    33,    64,    128,     255,
                                       256, 2047, 2048, 65535, 65536, 65537, 1u << 31 };
    switch (below(7)) {
    case 0: return draw();
    case 1: return UINT64_MAX - below(3);
    case 2: return b->room + below(3) - 1;
    case 3: return b->mtu + below(3) - 1;
    case 4: return (draw() << 32) + below(20); /* small in its low half alone */
    default: return bounds[below(sizeof bounds / sizeof bounds[0])];
    }
}

/* Two open contexts of one flow or one message: the lower number counts. Of streams
   half the twins have any priority, also one that no packet has. */
static void twin_contexts(struct board *b)
{
    int streams = one_in(2);
    size_t count = streams ? 16 : 8, width = streams ? STREAM_WORDS : MESSAGE_WORDS;
    size_t first = streams ? STREAMS : MESSAGES;
    size_t from = first + width * below(count), to = first + width * below(count);
    if (from == to || words(b)[from] == 0)
        return;
    for (size_t i = 0; i < width; i++)
        words(b)[to + i] = *second_word(&b->second, to + i) = words(b)[from + i];
    if (streams && one_in(2))
        words(b)[to + 2] = *second_word(&b->second, to + 2) = below(6);
    twins++;
}

/* Any words may stand in a state. Both boards get the same ones. */
static void odd_state(struct board *b)
{
    if (one_in(3)) {
        twin_contexts(b);
        return;
    }
    for (uint64_t k = 1 + below(3); k > 0; k--) {
        size_t i = one_in(6) ? below(STREAMS) : STREAMS + below(WORDS - STREAMS);
        words(b)[i] = *second_word(&b->second, i) = odd_number(b);
    }
    if (one_in(4)) /* an open message, nearly right */ {
        size_t c = MESSAGES + MESSAGE_WORDS * below(8);
        uint64_t values[] = {
            1 + below(2),           below(6),     below(4), below(4), below(17), 8 + below(8),
            below(1u << below(17)), 8 * below(34)
        };
        for (size_t i = 0; i < MESSAGE_WORDS; i++)
            words(b)[c + i] = *second_word(&b->second, c + i) = values[i];
    }
    if (second_refusal19(&b->second))
        states19++;
}

/* ---- a round of single calls on one board */

struct kept {
    uint64_t words[WORDS];
    struct second_endpoint second;
};

static struct kept keep(struct board *b)
{
    struct kept kept = { .second = b->second };
    memcpy(kept.words, words(b), sizeof kept.words);
    return kept;
}

static void put_back(struct board *b, const struct kept *kept)
{
    memcpy(words(b), kept->words, sizeof kept->words);
    b->second = kept->second;
}

/* Some odd states are gone on from, with what our own setup fixed. */
static void go_on(struct board *b, int odd, const struct kept *kept)
{
    b->second.device = words(b)[0] = b->device;
    b->second.mtu = words(b)[1] = b->mtu;
    b->second.room = words(b)[2] = b->room;
    b->second.eight_bits = words(b)[3] = b->narrow;
    if (odd && (!one_in(4) || second_refusal19(&b->second)))
        put_back(b, kept);
}

/* Some packet, now and then lent a wrong length or an odd state; then other calls. */
static void single(struct board *b)
{
    uint8_t packet[PACKET + 16];
    size_t length = some_packet(packet, b);
    size_t reply = b->narrow ? 5 : 7;
    struct lengths lengths = right_lengths(b, one_in(2) ? reply : reply + below(10));
    struct kept kept = keep(b);
    int odd = one_in(6);
    if (one_in(12))
        make_one_wrong(&lengths);
    if (odd)
        odd_state(b);
    read_one(b, lengths, packet, length);
    if (one_in(10))
        other_calls(b);
    if (one_in(10))
        any_segment();
    go_on(b, odd, &kept);
}

/* So many packets at each width. */
static void singles(uint64_t mtu, uint64_t room, unsigned long long count)
{
    struct board b = board(mtu, room);
    unsigned long long left[2] = { count, count };
    setups(&b);
    while (left[0] + left[1] > 0) {
        int narrow = b.narrow != 0;
        if (left[narrow] == 0 || one_in(150)) {
            narrow = left[0] == 0 || (left[1] > 0 && one_in(2));
            choose_width(&b, narrow);
            setups(&b);
        }
        single(&b);
        left[narrow]--;
    }
    no_board(&b);
}

/* ---- bursts */

/* Packets as records, `bad` with one behind them that is none; what is lent for
   them, and the second program's copies of it. */
struct burst {
    size_t count, length; /* of packets, of bytes */
    uint64_t pause;
    int bad, clear;
    uint8_t packets[BURST][PACKET + 16];
    size_t lengths[BURST], starts[BURST + 1];
    uint8_t bytes[BURST * (PACKET + 20)];
    struct guarded lent, reports, replies;
    uint8_t *their_reports, *their_replies;
    size_t words, streams, replies_length;
};

static void put_byte(struct burst *u, size_t byte)
{
    u->bytes[u->length++] = (uint8_t)byte;
}

/* The library's record is the one that stands here. */
static void same_record(const uint8_t *theirs, size_t size, const uint8_t *packet, size_t length)
{
    struct guarded ours = guarded(size);
    struct kaiverohm_answer a = kaiverohm_write_record(ours.bytes, size, packet, length);
    if (a.kind != KAIVEROHM_WRITTEN || a.number != size || kaiverohm_record_length(length) != size
        || memcmp(ours.bytes, theirs, size) != 0)
        fail("the record of a packet of %zu bytes", length);
    unharmed(&ours, "the record");
    free(ours.whole);
}

static void put_record(struct burst *u, const uint8_t *packet, size_t length)
{
    size_t start = u->length;
    if (length < 128) {
        put_byte(u, length);
    } else {
        put_byte(u, 128 + length % 128);
        put_byte(u, length / 128);
    }
    memcpy(u->bytes + u->length, packet, length);
    u->length += length;
    same_record(u->bytes + start, u->length - start, packet, length);
}

static void put_no_record(struct burst *u)
{
    static const struct {
        size_t length;
        uint8_t bytes[3];
    } none[] = {
        { 2, { 5, 1 } },        /* cut */
        { 1, { 130 } },         /* a cut length */
        { 2, { 130, 0 } },      /* a second byte of 0 */
        { 3, { 130, 129, 1 } }, /* a third byte */
    };
    size_t which = below(4);
    for (size_t i = 0; i < none[which].length; i++)
        put_byte(u, none[which].bytes[i]);
}

static void some_records(struct burst *u, const struct board *b)
{
    u->length = 0;
    u->count = below(BURST);
    u->pause = one_in(2) ? below(3) : 0;
    u->bad = one_in(6);
    u->clear = one_in(2);
    for (size_t k = 0; k < u->count; k++) {
        u->lengths[k] = some_packet(u->packets[k], b);
        u->starts[k] = u->length;
        put_record(u, u->packets[k], u->lengths[k]);
    }
    u->starts[u->count] = u->length;
    if (u->bad)
        put_no_record(u);
}

/* Reports and responses for all packets or for fewer, now and then wrong lengths. */
static void lend(struct burst *u, const struct board *b)
{
    size_t room_reports = one_in(2) ? BURST + 2 : below(u->count + 2);
    size_t room_replies = one_in(2) ? BURST + 2 : 1 + below(u->count + 2);
    u->lent = guarded(u->length);
    u->reports = guarded(REPORT * room_reports + 8 * below(KAIVEROHM_REPORT_WORDS));
    u->replies = guarded(8 * room_replies + below(8));
    u->their_reports = malloc(u->reports.length + 1);
    u->their_replies = malloc(u->replies.length);
    u->replies_length = one_in(20) ? below(9) : u->replies.length;
    u->words = one_in(20) ? some_no_state() : WORDS;
    u->streams = 16 * b->room - (one_in(20) ? 1 : 0);
    memcpy(u->lent.bytes, u->bytes, u->length);
    scatter(u->reports.bytes, u->reports.length);
    scatter(u->replies.bytes, u->replies.length);
    if (u->clear)
        memset(u->replies.bytes, 0, u->replies.length);
    memcpy(u->their_reports, u->reports.bytes, u->reports.length);
    memcpy(u->their_replies, u->replies.bytes, u->replies.length);
}

static void give_back(struct burst *u)
{
    free(u->lent.whole);
    free(u->reports.whole);
    free(u->replies.whole);
    free(u->their_reports);
    free(u->their_replies);
}

static struct kaiverohm_burst read_burst(struct board *b, struct burst *u)
{
    return kaiverohm_read_burst(words(b), u->words, b->streams.bytes, u->streams, b->messages.bytes,
                                KAIVEROHM_MESSAGE_MEMORY, u->replies.bytes, u->replies_length,
                                (uint64_t *)(void *)u->reports.bytes, u->reports.length / 8,
                                u->lent.bytes, u->length, u->pause);
}

/* Packet k, read by the second program, has that report. Says whether it delivers. */
static int same_packet(struct board *b, struct burst *u, size_t k)
{
    struct lengths l = { WORDS, u->streams, KAIVEROHM_MESSAGE_MEMORY, 8 };
    struct second_answer there =
        second_reads(b, l, u->their_replies + 8 * k, u->packets[k], u->lengths[k]);
    struct kaiverohm_report report;
    memcpy(&report, u->reports.bytes + REPORT * k, REPORT);
    same_report(&report, there, u->clear, u->replies.bytes + 8 * k);
    memcpy(u->their_reports + REPORT * k, &report, REPORT);
    return there.kind == SECOND_PDU || there.kind == SECOND_MESSAGE;
}

static struct kaiverohm_burst stopped(const struct burst *u, unsigned stop, size_t count)
{
    return (struct kaiverohm_burst){ stop, 0, count, u->starts[count] };
}

/* What the burst must say: the packets one after another. */
static struct kaiverohm_burst one_after_another(struct board *b, struct burst *u)
{
    if (u->words != WORDS)
        return (struct kaiverohm_burst){ KAIVEROHM_BURST_REFUSED, 12, 0, 0 };
    if (second_refusal19(&b->second))
        return (struct kaiverohm_burst){ KAIVEROHM_BURST_REFUSED, 19, 0, 0 };
    if (u->streams != 16 * b->second.room || u->replies_length < (b->second.eight_bits ? 5u : 7u))
        return (struct kaiverohm_burst){ KAIVEROHM_BURST_REFUSED, 12, 0, 0 };
    for (size_t k = 0; k < u->count; k++) {
        if (k == u->reports.length / REPORT || k == u->replies_length / 8)
            return stopped(u, KAIVEROHM_BURST_FULL, k);
        if (same_packet(b, u, k) && u->pause != 0)
            return stopped(u, KAIVEROHM_BURST_DELIVERY, k + 1);
    }
    return stopped(u, u->bad ? KAIVEROHM_BURST_BAD : KAIVEROHM_BURST_END, u->count);
}

static void same_burst(struct kaiverohm_burst a, struct kaiverohm_burst b)
{
    bursts++;
    stops[b.stop]++;
    if (a.stop != b.stop || a.number != b.number || a.count != b.count || a.next != b.next)
        fail("burst %llu %llu %llu %llu and %llu %llu %llu %llu", (unsigned long long)a.stop,
             (unsigned long long)a.number, (unsigned long long)a.count, (unsigned long long)a.next,
             (unsigned long long)b.stop, (unsigned long long)b.number, (unsigned long long)b.count,
             (unsigned long long)b.next);
}

static void burst(struct board *b)
{
    static struct burst u;
    some_records(&u, b);
    lend(&u, b);
    if (one_in(8))
        odd_state(b);
    struct kaiverohm_burst here = read_burst(b, &u);
    same_burst(here, one_after_another(b, &u));
    same_bytes(u.reports.bytes, u.their_reports, u.reports.length, "the reports");
    same_bytes(u.replies.bytes, u.their_replies, u.replies.length, "the responses");
    same_bytes(u.lent.bytes, u.bytes, u.length, "the burst");
    unharmed(&u.reports, "the reports");
    unharmed(&u.replies, "the responses");
    unharmed(&u.lent, "the burst");
    same_board(b, "read_burst");
    give_back(&u);
}

static void many_bursts(uint64_t mtu, uint64_t room, unsigned count)
{
    struct board b = board(mtu, room);
    set_up_well(&b);
    while (count-- > 0) {
        burst(&b);
        if (one_in(8)) {
            choose_width(&b, one_in(2));
            set_up_well(&b);
        }
        if (second_refusal19(&b.second) || b.second.mtu != mtu || b.second.room != room)
            set_up_well(&b);
        b.second.device = words(&b)[0] = b.device;
        b.second.eight_bits = words(&b)[3] = b.narrow;
    }
    no_board(&b);
}

/* The longest PDU: 65,536 bytes, whose length is written as 0. One byte more is refused. */
static void longest(uint64_t narrow)
{
    enum { LONGEST = KAIVEROHM_LARGEST_PDU };
    static uint8_t pdu[LONGEST + 1];
    struct board b = board(256, LONGEST);
    struct kaiverohm_heading h = {
        .destination = 1, .source = 9, .stream = 3, .cos = 1, .priority = 1, .narrow = narrow
    };
    uint8_t packet[PACKET];
    b.narrow = narrow;
    set_up_well(&b);
    scatter(pdu, LONGEST + 1);
    unsigned long long before = kinds[KAIVEROHM_DELIVERED];
    for (uint64_t k = 0; k < 256; k++) {
        size_t length = same_segment(packet, 265, h, 256, pdu, LONGEST, k);
        read_one(&b, right_lengths(&b, 7), packet, length);
    }
    if (kinds[KAIVEROHM_DELIVERED] != before + 1)
        fail("the longest PDU is not delivered");
    same_bytes(b.streams.bytes, pdu, LONGEST, "the longest PDU");
    if (same_segment(packet, 265, h, 256, pdu, LONGEST + 1, 0) != 0)
        fail("a PDU that is too long is written");
    no_board(&b);
}

/* ---- the whole */

static void print_counts(void)
{
    printf("packets %llu (%llu with IDs of 16 bits, %llu of 8), bursts %llu, other calls %llu, ",
           packets, read_at[0], read_at[1], bursts, calls);
    printf("states that 19 names %llu, with twins %llu\n", states19, twins);
    printf("type 9 beside an open flow that differs in priority alone %llu, in cos alone %llu\n",
           beside_priority, beside_cos);
    printf("held %llu, delivered %llu, messages %llu, refused:", kinds[KAIVEROHM_HELD],
           kinds[KAIVEROHM_DELIVERED], kinds[KAIVEROHM_MESSAGE]);
    for (unsigned n = 0; n < 48; n++)
        if (refusals[n] > 0)
            printf(" %u %llux", n, refusals[n]);
    printf("\nbursts: refused %llu, end %llu, bad %llu, full %llu, delivery %llu\n", stops[0],
           stops[1], stops[2], stops[3], stops[4]);
}

/* Every answer has to occur, or the traffic is too tame. */
static void all_occurred(void)
{
    for (unsigned n = 1; n <= 47; n += n == 25 ? 22 : 1)
        if (refusals[n] == 0)
            fail("refusal %u did not occur", n);
    for (size_t i = 0; i < sizeof kinds / sizeof kinds[0]; i++)
        if (kinds[i] == 0)
            fail("answer %zu did not occur", i);
    for (size_t i = 0; i < sizeof stops / sizeof stops[0]; i++)
        if (stops[i] == 0)
            fail("no burst stopped by %zu", i);
    if (beside_priority < packets / 20 || beside_cos < packets / 20)
        fail("too few flows that differ in their priority alone, or in their cos alone");
}

int main(int argc, char **argv)
{
    static const struct {
        uint64_t mtu, room;
        unsigned share; /* of 100 */
    } sizes[] = { { 32, 2048, 30 }, { 32, 32, 10 },    { 36, 100, 10 },   { 64, 4095, 15 },
                  { 128, 128, 5 },  { 252, 1024, 10 }, { 256, 2048, 18 }, { 256, 65536, 2 } };
    seed = argc > 1 ? strtoull(argv[1], NULL, 0) : 20261115;
    unsigned long long total = argc > 2 ? strtoull(argv[2], NULL, 0) : 20000;
    random_state = seed;
    printf("differ: seed %llu\n", (unsigned long long)seed);
    for (size_t i = 0; i < sizeof sizes / sizeof sizes[0]; i++) {
        memset(sendings, 0, sizeof sendings);
        memset(postings, 0, sizeof postings);
        singles(sizes[i].mtu, sizes[i].room, total * sizes[i].share / 100);
        many_bursts(sizes[i].mtu, sizes[i].room, (unsigned)(total * sizes[i].share / 100 / 15));
    }
    longest(0);
    longest(1);
    print_counts();
    if (total >= 10000)
        all_occurred();
    printf("no difference\n");
    return 0;
}
