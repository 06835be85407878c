/* The header's sentences, tried at their edges: every refusal in its order,
   what it leaves in every buffer, numbers of 64 bits, lengths that are one off,
   at both widths of the IDs. Every buffer ends at a page that nobody may touch, so
   a byte read or written behind its end stops the program. */

#define _DEFAULT_SOURCE

#include <stdio.h>
#include <stdlib.h>
#include <string.h>
#include <sys/mman.h>
#include <unistd.h>

#include "kaiverohm.h"
#include "want.h"

enum {
    DEVICE = 0x0102,
    MTU = 32,
    ROOM = 100,
    MOST = 70000,
    WORDS = KAIVEROHM_STATE_WORDS,
    HEAD = 4,          /* words of a state before its contexts */
    STREAM_WORDS = 6,  /* of a stream context: open, source, priority, cos, streamID, held */
    MESSAGE_WORDS = 8, /* of a message context */
    OLD_WORDS = 148,   /* of a state without priorities, of interface 2 */
    REPLY = KAIVEROHM_RESPONSE_BYTES,
    SLOT = KAIVEROHM_SLOT_BYTES,
    REPORT = KAIVEROHM_REPORT_WORDS,
    REPORTS = 3 * REPORT,
    STREAM_MEMORY = KAIVEROHM_STREAM_CONTEXTS * ROOM
};

/* A number whose low 32 bits are 0. */
#define FAR (UINT64_C(1) << 32)

/* The width in use: 0 is 16 bits, any other number 8. */
static uint64_t narrow;

static const uint64_t widths[] = { 0, 1, FAR, UINT64_MAX };

/* With IDs of 8 bits packets and responses have 2 bytes less. */
static size_t reply(void)
{
    return narrow ? REPLY - 2 : REPLY;
}

static uint16_t own_id(void)
{
    return narrow ? DEVICE & 0xff : DEVICE;
}

/* ---- buffers that end at a closed page */

static uint8_t *fenced(size_t length)
{
    size_t page = (size_t)sysconf(_SC_PAGESIZE), whole = (length + page - 1) / page * page;
    uint8_t *at =
        mmap(NULL, whole + page, PROT_READ | PROT_WRITE, MAP_PRIVATE | MAP_ANONYMOUS, -1, 0);
    if (at == MAP_FAILED || mprotect(at + whole, page, PROT_NONE) != 0) {
        perror("edges: no memory");
        exit(1);
    }
    return at + whole - length;
}

/* Where each buffer ends. A buffer of n bytes begins n bytes before it. */
static uint8_t *state_end, *streams_end, *messages_end, *response_end, *packet_end, *reports_end;
static uint8_t *records_end;

enum { STATE = 1, STREAMS = 2, MESSAGES = 4, RESPONSE = 8 };

static uint64_t *state(size_t words)
{
    return (uint64_t *)(void *)(state_end - 8 * words);
}

static uint64_t *stream_context(size_t n)
{
    return state(WORDS) + HEAD + STREAM_WORDS * n;
}

static uint64_t *message_context(size_t n)
{
    return stream_context(KAIVEROHM_STREAM_CONTEXTS) + MESSAGE_WORDS * n;
}

/* The buffers as they stood, with the longest lengths that are lent. */
static struct {
    uint8_t state[8 * (WORDS + 1)], streams[STREAM_MEMORY + 1],
        messages[KAIVEROHM_MESSAGE_MEMORY + 1], response[64];
} kept;

static void keep(void)
{
    memcpy(kept.state, state_end - sizeof kept.state, sizeof kept.state);
    memcpy(kept.streams, streams_end - sizeof kept.streams, sizeof kept.streams);
    memcpy(kept.messages, messages_end - sizeof kept.messages, sizeof kept.messages);
    memcpy(kept.response, response_end - sizeof kept.response, sizeof kept.response);
}

static int differs(const uint8_t *before, const uint8_t *end, size_t length, int name)
{
    return memcmp(before, end - length, length) != 0 ? name : 0;
}

static int changed(void)
{
    return differs(kept.state, state_end, sizeof kept.state, STATE)
           | differs(kept.streams, streams_end, sizeof kept.streams, STREAMS)
           | differs(kept.messages, messages_end, sizeof kept.messages, MESSAGES)
           | differs(kept.response, response_end, sizeof kept.response, RESPONSE);
}

static int all(const void *at, size_t length, uint8_t byte)
{
    const uint8_t *bytes = at;
    for (size_t i = 0; i < length; i++)
        if (bytes[i] != byte)
            return 0;
    return 1;
}

static int zeros(const void *at, size_t length)
{
    return all(at, length, 0);
}

static void fresh(void)
{
    memset(state_end - sizeof kept.state, 0xe7, sizeof kept.state);
    memset(streams_end - sizeof kept.streams, 0xe1, sizeof kept.streams);
    memset(messages_end - sizeof kept.messages, 0xe2, sizeof kept.messages);
    memset(response_end - sizeof kept.response, 0xe3, sizeof kept.response);
    const struct kaiverohm_settings settings = { own_id(), MTU, ROOM, narrow };
    struct kaiverohm_answer a = kaiverohm_setup(state(WORDS), WORDS, settings);
    WANT(a.kind == KAIVEROHM_READY && a.number == 0);
}

/* ---- packets */

static uint8_t packet[MOST];

/* With IDs of 8 bits the packet is the same but for tt's last bit and the first
   byte of each ID, which is left out. */
static size_t at_our_width(size_t length)
{
    if (!narrow)
        return length;
    packet[0] ^= 0x10;
    packet[1] = packet[2];
    packet[2] = packet[4];
    memmove(packet + 3, packet + 5, length > 5 ? length - 5 : 0);
    return length - 2;
}

/* The first bytes are given, with IDs of 16 bits; the rest of the data count up. */
static size_t made(const char *head, size_t head_length, size_t data)
{
    memcpy(packet, head, head_length);
    for (size_t i = 0; i < data; i++)
        packet[head_length + i] = (uint8_t)(i + 1);
    return at_our_width(head_length + data);
}

static void set_source(unsigned source)
{
    packet[narrow ? 2 : 4] = (uint8_t)source;
}

static size_t at_priority(unsigned priority, size_t length)
{
    packet[0] = (uint8_t)(priority << 6 | (packet[0] & 0x3f));
    return length;
}

#define MADE(head, data) made(head, sizeof head - 1, data)
#define START(source) MADE("\x19\x01\x02\x00" source "\x05\x80\x00\x07", MTU)

static struct kaiverohm_report lent(size_t words, size_t streams, size_t messages, size_t response,
                                    size_t length)
{
    memcpy(packet_end - length, packet, length);
    keep();
    return kaiverohm_read(state(words), words, streams_end - streams, streams,
                          messages_end - messages, messages, response_end - response, response,
                          packet_end - length, length);
}

static struct kaiverohm_report read_it(size_t length)
{
    return lent(WORDS, STREAM_MEMORY, KAIVEROHM_MESSAGE_MEMORY, reply(), length);
}

/* The packet is refused by that number, and just these buffers are changed. */
static void refuses(size_t length, unsigned number, unsigned dropped, int changes, int line)
{
    struct kaiverohm_report r = read_it(length);
    want(r.kind == KAIVEROHM_REFUSED && r.number == number && r.dropped == dropped, "refusal",
         line);
    want(r.response == (number >= 20 ? reply() : 0), "response", line);
    want(r.context == 0 && r.source == 0 && r.cos_or_letter == 0 && r.stream_or_mailbox == 0
             && r.length == 0 && r.priority == 0,
         "fields that a refusal does not name are 0", line);
    want(changed() == changes, "what is left", line);
    want(memcmp(packet_end - length, packet, length) == 0, "the packet", line);
}

#define REFUSES(length, number, dropped, changes) \
    refuses(length, number, dropped, changes, __LINE__)

/* The response that stands at the buffer's beginning. It is given with IDs of 16
   bits, ours as source; with 8 bits tt and the IDs' first bytes fall away. */
static int replied(size_t lent_length, const char *wide)
{
    const uint8_t *is = response_end - lent_length, *w = (const uint8_t *)wide;
    const uint8_t short_one[] = { w[0] ^ 0x10, w[2], w[4], w[5], w[6] };
    return memcmp(is, narrow ? short_one : w, reply()) == 0;
}

/* ---- setup */

static int setup_says(size_t words, uint16_t device, uint64_t mtu, uint64_t room)
{
    fresh();
    memset(state_end - sizeof kept.state, 0xe7, sizeof kept.state);
    keep();
    const struct kaiverohm_settings settings = { device, mtu, room, narrow };
    struct kaiverohm_answer a = kaiverohm_setup(state(words), words, settings);
    WANT(memcmp(kept.state, state_end - sizeof kept.state, 8) == 0); /* the word before it */
    if (a.kind == KAIVEROHM_READY) {
        WANT(a.number == 0 && changed() == STATE);
        WANT(state(WORDS)[0] == device && state(WORDS)[1] == mtu && state(WORDS)[2] == room);
        WANT(state(WORDS)[3] == narrow);
        WANT(zeros(state(WORDS - HEAD), 8 * (WORDS - HEAD)));
        return 0;
    }
    WANT(a.kind == KAIVEROHM_REFUSED);
    if (a.number == 12)
        WANT(changed() == 0);
    else
        WANT(changed() == STATE && zeros(state(WORDS), 8 * WORDS));
    return (int)a.number;
}

static void setups(void)
{
    WANT(setup_says(0, 1, 33, 0) == 12);
    WANT(setup_says(WORDS - 1, 1, MTU, ROOM) == 12);
    WANT(setup_says(WORDS + 1, 1, MTU, ROOM) == 12);
    for (uint64_t mtu = 0; mtu < 300; mtu++)
        WANT(setup_says(WORDS, 1, mtu, 65536) == (mtu < 32 || mtu > 256 || mtu % 4 ? 18 : 0));
    WANT(setup_says(WORDS, 1, FAR + MTU, ROOM) == 18);
    WANT(setup_says(WORDS, 1, UINT64_MAX - 3, UINT64_MAX) == 18);
    WANT(setup_says(WORDS, 1, 33, 0) == 18);
    WANT(setup_says(WORDS, 1, MTU, MTU - 1) == 19);
    WANT(setup_says(WORDS, 0, MTU, MTU) == 0);
    WANT(setup_says(WORDS, 0xff, 256, 65536) == 0);
    WANT(setup_says(WORDS, 1, 256, 65537) == 19);
    WANT(setup_says(WORDS, 1, MTU, FAR + ROOM) == 19);
    WANT(setup_says(WORDS, 1, MTU, UINT64_MAX) == 19);
    /* 12; then 47, with IDs of 8 bits alone; then 18 and 19 */
    static const uint16_t over[] = { 0x100, 0x101, 0xff00, 0xffff };
    for (size_t i = 0; i < 4; i++) {
        WANT(setup_says(WORDS - 1, over[i], 33, 0) == 12);
        WANT(setup_says(WORDS, over[i], 33, 0) == (narrow ? 47 : 18));
        WANT(setup_says(WORDS, over[i], MTU, 0) == (narrow ? 47 : 19));
        WANT(setup_says(WORDS, over[i], MTU, ROOM) == (narrow ? 47 : 0));
    }
    WANT(setup_says(WORDS, 0xff, 33, 0) == 18);
}

/* ---- reading: 19, 12, then the packet's rows, each with the later ones true as well */

static void lengths(void)
{
    const size_t s = STREAM_MEMORY, m = KAIVEROHM_MESSAGE_MEMORY;
    const size_t enough = reply();
    const size_t wrong[][4] = { { WORDS - 1, s, m, enough }, { WORDS + 1, s, m, enough },
                                { 0, s, m, enough },         { WORDS, s - 1, m, enough },
                                { WORDS, s + 1, m, enough }, { WORDS, 0, m, enough },
                                { WORDS, s, m - 1, enough }, { WORDS, s, m + 1, enough },
                                { WORDS, s, 0, enough },     { WORDS, s, m, enough - 1 },
                                { WORDS, s, m, 0 },          { 0, 0, 0, 0 } };
    for (size_t i = 0; i < sizeof wrong / sizeof wrong[0]; i++) {
        fresh();
        size_t length = i % 2 ? START("\x09") : 0;
        struct kaiverohm_report r =
            lent(wrong[i][0], wrong[i][1], wrong[i][2], wrong[i][3], length);
        WANT(r.kind == KAIVEROHM_REFUSED && r.number == 12 && changed() == 0);
        /* A state of another length comes first, then one that is none, then the other buffers. */
        memset(state_end - sizeof kept.state, 0, sizeof kept.state);
        r = lent(wrong[i][0], wrong[i][1], wrong[i][2], wrong[i][3], length);
        WANT(r.kind == KAIVEROHM_REFUSED && changed() == 0);
        WANT(r.number == (wrong[i][0] == WORDS ? 19 : 12));
    }
    /* A longer response buffer is as good; the bytes behind the response stay. */
    fresh();
    struct kaiverohm_report r = lent(WORDS, s, m, 64, MADE("\x1b\x01\x02\x00\x09\x09\x60", 8));
    WANT(r.kind == KAIVEROHM_MESSAGE && r.response == reply());
    WANT(replied(64, "\x5d\x00\x09\x01\x02\x10\x60"));
    WANT(all(response_end - 64 + reply(), 64 - reply(), 0xe3));
}

static void states(void)
{
    static const uint64_t mtus[] = { 0, 28, 33, 260, UINT64_MAX - 3 };
    static const uint64_t rooms[] = { 0, MTU - 1, 65537, UINT64_MAX };
    for (size_t i = 0; i < 9; i++) {
        fresh();
        if (i < 5)
            state(WORDS)[1] = mtus[i];
        else
            state(WORDS)[2] = rooms[i - 5];
        REFUSES(0, 19, 0, 0);
    }
    /* A device that no packet can name is read as it stands. */
    fresh();
    state(WORDS)[0] += narrow ? 256 : 65536;
    REFUSES(START("\x09"), 3, 0, 0);
    /* So is an open word that is not 1; what no packet is about stays. */
    fresh();
    read_it(START("\x08"));
    read_it(START("\x09"));
    stream_context(0)[0] = 7;
    stream_context(1)[0] = UINT64_MAX;
    REFUSES(MADE("\x19\x01\x02\x00\x09\x05\x00", 31), 6, 1, STATE);
    WANT(stream_context(0)[0] == 7 && zeros(stream_context(1), 8 * STREAM_WORDS));
}

/* ---- row 19, in every context: the paper's words once more */

/* Takes a number from each list by a counter: a digit of it for each list. What
   is left of the counter is 0 until every choice was made. */
static uint64_t pick(const uint64_t *list, size_t length, size_t *counter)
{
    uint64_t number = list[*counter % length];
    *counter /= length;
    return number;
}

#define PICK(list) pick(list, sizeof list / sizeof list[0], &left)

static int is_state(void)
{
    return kaiverohm_stream_room(state(WORDS), WORDS, STREAM_MEMORY, 1, 1).length == 1;
}

static int bad_message(uint64_t msglen, uint64_t ssize, uint64_t marks, uint64_t last)
{
    if (ssize < 9 || ssize > 14 || msglen == 0 || msglen > 15)
        return 1;
    uint64_t whole = (UINT64_C(2) << msglen) - 1;
    if (marks == 0 || marks >= whole)
        return 1;
    if ((marks >> msglen & 1) == 0)
        return last != 0;
    return last < 8 || last > UINT64_C(8) << (ssize - 9) || last % 8 != 0;
}

static const uint64_t opens[] = { 0, 1, 2, FAR, UINT64_MAX };

static void row_19_streams(void)
{
    static const uint64_t held[] = { 0, 1, ROOM - 1, ROOM, ROOM + 1, FAR, FAR + 1, UINT64_MAX };
    fresh();
    for (size_t n = 0; n < KAIVEROHM_STREAM_CONTEXTS; n++) {
        uint64_t *c = stream_context(n);
        for (size_t choice = 0, left = 0; left == 0; choice++) {
            left = choice;
            c[0] = PICK(opens);
            c[5] = PICK(held);
            if (left == 0)
                WANT(is_state() == !(c[0] != 0 && (c[5] == 0 || c[5] > ROOM)));
        }
        memset(c, 0, 8 * STREAM_WORDS);
    }
}

/* Goes on with the state that the streams left: a fresh one. */
static void row_19_messages(void)
{
    static const uint64_t msglen[] = { 0, 1, 2, 15, 16, FAR + 1, UINT64_MAX };
    static const uint64_t ssize[] = { 0, 8, 9, 10, 14, 15, 16, 25, FAR + 9, UINT64_MAX };
    static const uint64_t marks[] = { 0,      1,      2,       3,       4,
                                      5,      7,      8,       0x7fff,  0x8000,
                                      0xfffe, 0xffff, 0x10000, FAR + 1, UINT64_MAX };
    static const uint64_t last[] = {
        0, 4, 7, 8, 9, 16, 24, 256, 264, FAR, FAR + 8, UINT64_MAX - 7
    };
    for (size_t n = 0; n < KAIVEROHM_MESSAGE_CONTEXTS; n++) {
        uint64_t *c = message_context(n);
        for (size_t choice = 0, left = 0; left == 0; choice++) {
            left = choice;
            c[0] = PICK(opens);
            c[4] = PICK(msglen);
            c[5] = PICK(ssize);
            c[6] = PICK(marks);
            c[7] = PICK(last);
            if (left == 0)
                WANT(is_state() == !(c[0] != 0 && bad_message(c[4], c[5], c[6], c[7])));
        }
        memset(c, 0, 8 * MESSAGE_WORDS);
    }
}

/* The width is any number. */
static void row_19_widths(void)
{
    static const uint64_t words[] = { 0, 1, 2, 8, 16, 255, 256, FAR, FAR + 1, UINT64_MAX };
    fresh();
    for (size_t i = 0; i < sizeof words / sizeof words[0]; i++) {
        state(WORDS)[3] = words[i];
        WANT(is_state());
    }
}

/* A number of a context counts with all its 64 bits: source, priority and cos. */
static void wide_stream_numbers(void)
{
    static const uint64_t open_one[STREAM_WORDS] = { 1, 9, 0, 5, 7, MTU };
    for (size_t n = 0; n < KAIVEROHM_STREAM_CONTEXTS; n++)
        for (size_t word = 1; word < 4; word++) {
            uint64_t *c = stream_context(n);
            fresh();
            memcpy(c, open_one, sizeof open_one);
            c[word] += FAR;
            REFUSES(MADE("\x19\x01\x02\x00\x09\x05\x00", MTU), 8, 0, 0);
            c[word] -= FAR;
            WANT(read_it(MADE("\x19\x01\x02\x00\x09\x05\x00", MTU)).kind == KAIVEROHM_HELD);
        }
}

/* And source, letter and mbox. */
static void wide_message_numbers(void)
{
    static const uint64_t open_one[MESSAGE_WORDS] = { 1, 9, 1, 2, 1, 9, 1, 0 };
    for (size_t n = 0; n < KAIVEROHM_MESSAGE_CONTEXTS; n++)
        for (size_t word = 1; word < 4; word++) {
            uint64_t *c = message_context(n);
            fresh();
            memcpy(c, open_one, sizeof open_one);
            REFUSES(MADE("\x1b\x01\x02\x00\x09\x19\x60", 8), 24, 0, RESPONSE);
            c[word] += FAR;
            WANT(read_it(MADE("\x1b\x01\x02\x00\x09\x19\x60", 8)).kind == KAIVEROHM_HELD);
        }
}

/* ---- the packet's rows */

/* A fresh endpoint, with a context of the flow open or not. */
static void begin(unsigned open)
{
    fresh();
    if (open)
        read_it(START("\x09"));
}

static void heads(void)
{
    REFUSES(0, 1, 0, 0);
    REFUSES(MADE("\x0f\x00\x00\x00", 0), 1, 0, 0);
    /* 1, under 7 bytes, comes later */
    REFUSES(MADE("\x0f\x00\x00\x00\x09", 0), 2, 0, 0);
    REFUSES(MADE("\x2b\x00\x00\x00\x09", 0), 2, 0, 0);
    REFUSES(MADE("\x1f\x01\x03\x00\x09", 0), 3, 0, 0);
    REFUSES(MADE("\x15\x01\x02\x00\x09", 0), 4, 0, 0);
    REFUSES(MADE("\x19\x01\x02\x00\x09\x05", 0), 1, 0, 0);
    REFUSES(MADE("\x1b\x01\x02\x00\x09\x00", 0), 1, 0, 0);
    /* 1, under 9 bytes, comes later */
    REFUSES(MADE("\x19\x01\x02\x00\x09\x05\xc4", 1), 5, 0, 0);
    REFUSES(MADE("\x19\x01\x02\x00\x09\x05\xc0", 1), 1, 0, 0);
    REFUSES(MADE("\x19\x01\x02\x00\x09\x05\x40", 1), 1, 0, 0);
}

/* The first bytes are given as they are. */
static size_t raw(const char *bytes, size_t length)
{
    memcpy(packet, bytes, length);
    return length;
}

/* Row 2 is a packet of any width but ours; it leaves all. Row 1 before it has the
   limit of our own width. */
static void other_widths(void)
{
    static const char wide[] = "\x19\x01\x02\x00\x09\x05\xc2\x00\x07\x01\x02";
    static const char short_one[] = "\x09\x02\x09\x05\xc2\x00\x07\x01\x02";
    const char *other = narrow ? wide : short_one;
    const size_t all_of_it = narrow ? sizeof wide - 1 : sizeof short_one - 1;
    const size_t limit = narrow ? 3 : 5;
    for (size_t length = 0; length <= all_of_it; length++)
        REFUSES(raw(other, length), length < limit ? 1 : 2, 0, 0);
    for (unsigned tt = 2; tt < 4; tt++) {
        size_t length = raw(wide, sizeof wide - 1);
        packet[0] = (uint8_t)(tt << 4 | 9);
        REFUSES(length, 2, 0, 0);
        length = raw(short_one, sizeof short_one - 1);
        packet[0] = (uint8_t)(tt << 4 | 9);
        REFUSES(length, 2, 0, 0);
    }
}

/* Row 1 with IDs of 8 bits, in its own bytes: each limit, and one byte less. */
static void limits_of_8_bits(void)
{
    fresh();
    REFUSES(raw("\x05\x02", 2), 1, 0, 0);
    REFUSES(raw("\x05\x02\x09", 3), 4, 0, 0);
    REFUSES(raw("\x09\x02\x09\x05", 4), 1, 0, 0);
    REFUSES(raw("\x09\x02\x09\x05\x00", 5), 6, 0, 0);
    REFUSES(raw("\x09\x02\x09\x05\xc4", 5), 5, 0, 0);
    REFUSES(raw("\x0b\x02\x09\x18", 4), 1, 0, 0);
    REFUSES(raw("\x0b\x02\x09\x18\x02", 5), 20, 0, RESPONSE);
    REFUSES(raw("\x09\x02\x09\x05\x80\x00", 6), 1, 0, 0);
    REFUSES(raw("\x09\x02\x09\x05\x80\x00\x07", 7), 6, 0, 0);
    REFUSES(raw("\x09\x02\x09\x05\x40\x00", 6), 1, 0, 0);
    REFUSES(raw("\x09\x02\x09\x05\x40\x00\x07", 7), 6, 0, 0);
    /* the smallest single, with IDs 0 and 255 */
    state(WORDS)[0] = 0;
    struct kaiverohm_report r = read_it(raw("\x09\x00\xff\x05\xc3\xff\xfe\x21\x00", 9));
    WANT(r.kind == KAIVEROHM_DELIVERED && r.source == 255 && r.cos_or_letter == 5);
    WANT(r.stream_or_mailbox == 0xfffe && r.length == 1 && streams_end[-STREAM_MEMORY] == 0x21);
}

/* Rows 1 to 7: with no context of the flow open, or with one. 6 and 7 close it. */
static void rows_1_to_7(unsigned open)
{
    int closes = open ? STATE : 0;
    begin(open);
    heads();
    REFUSES(MADE("\x19\x01\x02\x00\x09\x05\x00", 0), 6, open, closes);
    begin(open);
    REFUSES(MADE("\x19\x01\x02\x00\x09\x05\x80\x00\x07", 33), 6, open, closes);
    begin(open);
    REFUSES(MADE("\x19\x01\x02\x00\x09\x05\x42\x00\x07", 40), 6, open, closes);
    begin(open);
    REFUSES(MADE("\x19\x01\x02\x00\x09\x05\x02", 34), 7, open, closes);
    begin(open);
    REFUSES(MADE("\x19\x01\x02\x00\x09\x05\xc0\x00\x07", MOST - 9 - 3), 7, open, closes);
    begin(open);
    other_widths();
}

/* 8; and 9 before 11: rooms of 100 take three segments of 32, not a fourth. */
static void rows_8_9_and_11(void)
{
    fresh();
    REFUSES(MADE("\x19\x01\x02\x00\x09\x05\x00", MTU), 8, 0, 0);
    REFUSES(MADE("\x19\x01\x02\x00\x09\x05\x40\x00\x07", MTU), 8, 0, 0);
    read_it(START("\x09"));
    for (int i = 0; i < 2; i++)
        WANT(read_it(MADE("\x19\x01\x02\x00\x09\x05\x00", MTU)).kind == KAIVEROHM_HELD);
    REFUSES(MADE("\x19\x01\x02\x00\x09\x05\x42\x00\x07", 6), 9, 1, STATE);
    WANT(zeros(state(WORDS) + HEAD, 8 * (WORDS - HEAD)));
    read_it(START("\x09"));
    REFUSES(MADE("\x19\x01\x02\x00\x09\x05\x42\x00\x07", 6), 11, 1, STATE);
}

/* Goes on where no context is open. 10, while 16 others are open; a start on an
   open flow is held, and says dropped. */
static void row_10(void)
{
    for (unsigned i = 0; i < KAIVEROHM_STREAM_CONTEXTS; i++) {
        size_t length = START("\x00");
        set_source(0x10 + i);
        WANT(read_it(length).kind == KAIVEROHM_HELD && (changed() | STREAMS) == (STATE | STREAMS));
    }
    REFUSES(START("\x09"), 10, 0, 0);
    struct kaiverohm_report r = read_it(START("\x1f"));
    WANT(r.kind == KAIVEROHM_HELD && r.dropped == 1);
}

/* The last of the 16 gets its end. The pad byte stays out of the room. */
static void whole_pdu(void)
{
    struct kaiverohm_report r = read_it(MADE("\x19\x01\x02\x00\x1f\x05\x43\x00\x21", 2));
    WANT(r.kind == KAIVEROHM_DELIVERED && r.context == 15 && r.source == 0x1f
         && r.cos_or_letter == 5);
    WANT(r.stream_or_mailbox == 7 && r.length == 33 && r.response == 0 && r.dropped == 0);
    WANT(changed() == (STATE | STREAMS));
    WANT(streams_end[-ROOM + 32] == 1 && streams_end[-ROOM + 33] == 0xe1);
}

static void messages(void)
{
    fresh();
    REFUSES(MADE("\x1b\x01\x02\x00\x09\x18\x02", 7), 20, 0, RESPONSE);
    WANT(replied(reply(), "\x5d\x00\x09\x01\x02\x17\x02"));
    memset(response_end - 7, 0, 7);
    REFUSES(MADE("\x1b\x01\x02\x00\x09\x19\x02", 7), 21, 0, RESPONSE);
    memset(response_end - 7, 0, 7);
    REFUSES(MADE("\x1b\x01\x02\x00\x09\x0e\x02", MOST - 8), 21, 0, RESPONSE);
    memset(response_end - 7, 0, 7);
    REFUSES(MADE("\x1b\x01\x02\x00\x09\x19\x02", 8), 22, 0, RESPONSE);
    /* a message of two segments: 23 before 24 */
    struct kaiverohm_report r = read_it(MADE("\x1b\x01\x02\x00\x09\x19\x00", 8));
    WANT(r.kind == KAIVEROHM_HELD && r.response == reply());
    WANT(changed() == (STATE | MESSAGES | RESPONSE));
    memset(response_end - 7, 0, 7);
    REFUSES(MADE("\x1b\x01\x02\x00\x09\x29\x00", 8), 23, 0, RESPONSE);
    memset(response_end - 7, 0, 7);
    REFUSES(MADE("\x1b\x01\x02\x00\x09\x19\x00", 8), 24, 0, RESPONSE);
    for (unsigned i = 1; i < KAIVEROHM_MESSAGE_CONTEXTS; i++) {
        size_t length = MADE("\x1b\x01\x02\x00\x00\x19\x00", 8);
        set_source(0x10 + i);
        WANT(read_it(length).kind == KAIVEROHM_HELD);
    }
    memset(response_end - 7, 0, 7);
    REFUSES(MADE("\xdb\x01\x02\x00\x0a\x09\x00", 8), 25, 0, RESPONSE);
    WANT(replied(reply(), "\xdd\x00\x0a\x01\x02\x13\x00"));
    r = read_it(MADE("\x1b\x01\x02\x00\x17\x19\x01", 8));
    WANT(r.kind == KAIVEROHM_MESSAGE && r.context == 7 && r.length == 16 && r.source == 0x17);
}

/* ---- marks past msglen: 19, however many ones there are */

/* Context n holds a message of segments of 8 bytes. But for its marks it is good. */
static uint64_t *holds_message(size_t n, uint64_t msglen, uint64_t marks)
{
    const uint64_t words[MESSAGE_WORDS] = { 1,      9, 1,     2,
                                            msglen, 9, marks, marks >> msglen & 1 ? 8 : 0 };
    return memcpy(message_context(n), words, sizeof words);
}

/* Its segment k. */
static size_t message_segment(uint64_t msglen, uint64_t k)
{
    const char head[] = { 0x1b, 1, 2, 0, 9, (char)(msglen << 4 | 9), (char)(0x60 | k) };
    return made(head, sizeof head, 8);
}

/* Marks that lack segment k alone: it completes the message. */
static void completes(size_t n, uint64_t msglen, uint64_t k, uint64_t lacking)
{
    uint64_t *c = holds_message(n, msglen, lacking);
    struct kaiverohm_report r = read_it(message_segment(msglen, k));
    WANT(r.kind == KAIVEROHM_MESSAGE && r.context == n && r.length == 8 * (msglen + 1));
    WANT(r.response == reply() && zeros(c, 8 * MESSAGE_WORDS));
}

/* The same with a mark past msglen: as many ones as segments before this one came,
   and, where another segment is missing, as many once it has come. */
static void completes_nothing(size_t n, uint64_t msglen, uint64_t k, uint64_t marks, uint64_t past)
{
    const uint64_t other = UINT64_C(1) << (k + 1) % (msglen + 1);
    fresh();
    holds_message(n, msglen, marks | past);
    REFUSES(message_segment(msglen, k), 19, 0, 0);
    holds_message(n, msglen, (marks & ~other) | past);
    REFUSES(message_segment(msglen, k), 19, 0, 0);
}

/* In a closed context they are not looked at: the segment is the first of its message. */
static void begins_message(size_t n, uint64_t msglen, uint64_t k, uint64_t marks)
{
    uint64_t *first = message_context(0), *c = holds_message(n, msglen, marks);
    c[0] = 0;
    struct kaiverohm_report r = read_it(message_segment(msglen, k));
    WANT(r.kind == KAIVEROHM_HELD && first[0] == 1 && first[6] == UINT64_C(1) << k);
    WANT(n == 0 || c[6] == marks);
}

/* The first bit past msglen, bits 16 and 32, which a u16 and 32 bits leave out, and the last. */
static void marks_past_msglen(void)
{
    for (uint64_t msglen = 1; msglen < 16; msglen++)
        for (uint64_t k = 0; k <= msglen; k++) {
            const uint64_t past[] = { msglen + 1, 16, 32, 63 };
            const uint64_t lacking = ((UINT64_C(2) << msglen) - 1) & ~(UINT64_C(1) << k);
            const size_t n = (msglen + k) % KAIVEROHM_MESSAGE_CONTEXTS;
            for (size_t i = 0; i < sizeof past / sizeof past[0]; i++) {
                completes_nothing(n, msglen, k, lacking, UINT64_C(1) << past[i]);
                begins_message(n, msglen, k, lacking | UINT64_C(1) << past[i]);
            }
            fresh();
            completes(n, msglen, k, lacking);
        }
}

/* ---- bursts */

static struct kaiverohm_burst burst(size_t responses, size_t words, const char *records,
                                    size_t length, uint64_t pause)
{
    memset(response_end - 64, 0xe3, 64);
    memset(reports_end - 8 * 32, 0xe4, 8 * 32);
    memcpy(packet_end - length, records, length);
    keep();
    return kaiverohm_read_burst(state(WORDS), WORDS, streams_end - STREAM_MEMORY, STREAM_MEMORY,
                                messages_end - KAIVEROHM_MESSAGE_MEMORY, KAIVEROHM_MESSAGE_MEMORY,
                                response_end - responses, responses,
                                (uint64_t *)(void *)(reports_end - 8 * words), words,
                                packet_end - length, length, pause);
}

static void says(struct kaiverohm_burst b, unsigned stop, unsigned number, uint64_t count,
                 uint64_t next, int line)
{
    want(b.stop == stop && b.number == number && b.count == count && b.next == next, "burst", line);
}

#define BURST(responses, words, records, pause, stop, number, count, next) \
    says(burst(responses, words, records, sizeof records - 1, pause), stop, number, count, next, \
         __LINE__)

#define EMPTY "\x00"
#define MESSAGE "\x0f\x1b\x01\x02\x00\x09\x09\x60\x61\x62\x63\x64\x65\x66\x67\x68"

static const uint64_t *reports(void)
{
    return (const uint64_t *)(const void *)(reports_end - 8 * REPORTS);
}

static void rooms_for_packets(void)
{
    fresh();
    BURST(64, REPORTS, "", 0, KAIVEROHM_BURST_END, 0, 0, 0);
    BURST(64, REPORTS, EMPTY EMPTY, 0, KAIVEROHM_BURST_END, 0, 2, 2);
    /* no room for a single packet: full, and calling again with these helps nothing */
    BURST(SLOT - 1, REPORTS, EMPTY, 0, KAIVEROHM_BURST_FULL, 0, 0, 0);
    WANT(changed() == 0);
    BURST(64, REPORT - 1, EMPTY, 0, KAIVEROHM_BURST_FULL, 0, 0, 0);
    BURST(64, 0, EMPTY, 0, KAIVEROHM_BURST_FULL, 0, 0, 0);
    BURST(64, 0, "", 0, KAIVEROHM_BURST_END, 0, 0, 0);
    /* a record that is none is bad before there is no room for it */
    BURST(64, 0, "\x05", 0, KAIVEROHM_BURST_BAD, 0, 0, 0);
    BURST(REPLY, REPORTS, "\x05", 0, KAIVEROHM_BURST_BAD, 0, 0, 0);
    BURST(64, REPORT, EMPTY "\x05", 0, KAIVEROHM_BURST_BAD, 0, 1, 1);
    BURST(64, REPORT, EMPTY "\x81\x00", 0, KAIVEROHM_BURST_BAD, 0, 1, 1);
    /* reports of any length */
    for (size_t words = 0; words <= 3 * REPORT; words++)
        says(burst(64, words, EMPTY EMPTY EMPTY, 3, 0),
             words < 3 * REPORT ? KAIVEROHM_BURST_FULL : KAIVEROHM_BURST_END, 0, words / REPORT,
             words / REPORT, __LINE__);
    /* room for one */
    BURST(64, 2 * REPORT - 1, EMPTY EMPTY, 0, KAIVEROHM_BURST_FULL, 0, 1, 1);
    BURST(2 * SLOT - 1, REPORTS, EMPTY EMPTY, 0, KAIVEROHM_BURST_FULL, 0, 1, 1);
    BURST(SLOT, REPORT, EMPTY, 0, KAIVEROHM_BURST_END, 0, 1, 1);
    WANT(changed() == 0);
}

static void lengths_of_records(void)
{
    BURST(64, REPORTS, EMPTY "\x80", 0, KAIVEROHM_BURST_BAD, 0, 1, 1);
    BURST(64, REPORTS, EMPTY "\x81\x00\x61\x62\x63", 0, KAIVEROHM_BURST_BAD, 0, 1, 1);
    BURST(64, REPORTS, EMPTY "\x81\x81\x01", 0, KAIVEROHM_BURST_BAD, 0, 1, 1);
    BURST(64, REPORTS, EMPTY "\x02x", 0, KAIVEROHM_BURST_BAD, 0, 1, 1);
    static char longest[2 + 16383 + 1];
    memcpy(longest, "\xff\x7f", 2);
    says(burst(64, REPORTS, longest, 2 + 16383, 0), KAIVEROHM_BURST_END, 0, 1, 2 + 16383, __LINE__);
    says(burst(64, REPORTS, longest, 2 + 16382, 0), KAIVEROHM_BURST_BAD, 0, 0, 0, __LINE__);
    memcpy(longest, "\x80\x01", 2);
    says(burst(64, REPORTS, longest, 2 + 128, 0), KAIVEROHM_BURST_END, 0, 1, 2 + 128, __LINE__);
}

/* pause is any number but 0; a delivery at the end is a delivery */
static void pauses(void)
{
    BURST(64, REPORTS, MESSAGE MESSAGE EMPTY, 0, KAIVEROHM_BURST_END, 0, 3, 33);
    BURST(64, REPORTS, MESSAGE MESSAGE, 1, KAIVEROHM_BURST_DELIVERY, 0, 1, 16);
    BURST(64, REPORTS, MESSAGE MESSAGE, UINT64_C(1) << 63, KAIVEROHM_BURST_DELIVERY, 0, 1, 16);
    BURST(64, REPORTS, EMPTY MESSAGE, 256, KAIVEROHM_BURST_DELIVERY, 0, 2, 17);
}

/* What stays: all behind the last report and its response, the eighth byte, a
   slot without a response. */
static void what_a_burst_leaves(void)
{
    BURST(24, REPORTS, EMPTY MESSAGE, 0, KAIVEROHM_BURST_END, 0, 2, 17);
    const uint64_t *r = reports();
    WANT(r[0] == KAIVEROHM_REFUSED && r[1] == 1 && zeros(r + 2, 8 * (REPORT - 2)));
    WANT(r[10] == KAIVEROHM_MESSAGE && r[13] == 7 && r[15] == 9 && r[18] == 8 && r[19] == 0);
    WANT(all(r + 2 * REPORT, 8 * REPORT, 0xe4) && all(r - 1, 8, 0xe4));
    WANT(memcmp(response_end - 16, "\x5d\x00\x09\x01\x02\x10\x60", 7) == 0);
    WANT(all(response_end - 25, 9, 0xe3) && all(response_end - 9, 9, 0xe3));
}

/* 12 for the responses, 19 before it */
static void refused_bursts(void)
{
    BURST(REPLY - 1, REPORTS, MESSAGE, 0, KAIVEROHM_BURST_REFUSED, 12, 0, 0);
    WANT(changed() == 0 && all(reports(), 8 * REPORTS, 0xe4));
    state(WORDS)[2] = 0;
    BURST(REPLY - 1, REPORTS, MESSAGE, 0, KAIVEROHM_BURST_REFUSED, 19, 0, 0);
    WANT(changed() == 0);
    BURST(64, REPORTS, "\x05", 0, KAIVEROHM_BURST_REFUSED, 19, 0, 0);
}

/* The other lengths, each one off. */
static void lengths_of_bursts(void)
{
    for (int i = 0; i < 6; i++) {
        int more = i % 2 ? 1 : -1;
        size_t words = WORDS + (i / 2 == 0 ? (size_t)more : 0);
        size_t streams = STREAM_MEMORY + (i / 2 == 1 ? (size_t)more : 0);
        size_t memory = KAIVEROHM_MESSAGE_MEMORY + (i / 2 == 2 ? (size_t)more : 0);
        fresh();
        if (i / 2 == 0) /* another length comes before a state that is none */
            memset(state_end - sizeof kept.state, 0, sizeof kept.state);
        keep();
        struct kaiverohm_burst b = kaiverohm_read_burst(
            state(words), words, streams_end - streams, streams, messages_end - memory, memory,
            response_end - SLOT, SLOT, (uint64_t *)(void *)(reports_end - 8 * REPORT), REPORT,
            packet_end, 0, 0);
        says(b, KAIVEROHM_BURST_REFUSED, 12, 0, 0, __LINE__);
        WANT(changed() == 0);
    }
}

/* With IDs of 8 bits: 5 bytes in all are enough for no refusal, 8 for a packet. */
static void bursts_of_8_bits(void)
{
    static const char one[] = "\x0d\x0b\x02\x09\x09\x60\x61\x62\x63\x64\x65\x66\x67\x68";
    fresh();
    BURST(4, REPORTS, one, 0, KAIVEROHM_BURST_REFUSED, 12, 0, 0);
    WANT(changed() == 0);
    BURST(0, REPORTS, "", 0, KAIVEROHM_BURST_REFUSED, 12, 0, 0);
    BURST(5, REPORTS, "", 0, KAIVEROHM_BURST_END, 0, 0, 0);
    BURST(5, REPORTS, one, 0, KAIVEROHM_BURST_FULL, 0, 0, 0);
    BURST(SLOT - 1, REPORTS, one, 0, KAIVEROHM_BURST_FULL, 0, 0, 0);
    WANT(changed() == 0);
    BURST(SLOT, REPORTS, one, 0, KAIVEROHM_BURST_END, 0, 1, 14);
    WANT(memcmp(response_end - SLOT, "\x4d\x09\x02\x10\x60\xe3\xe3\xe3", SLOT) == 0);
    const uint64_t *r = reports();
    WANT(r[0] == KAIVEROHM_MESSAGE && r[3] == 5 && r[5] == 9 && r[8] == 8);
    /* a packet of the other width has a report, and its slot stays */
    BURST(2 * SLOT, REPORTS, MESSAGE "\x0d\x0b\x02\x09\x09\x60\x61\x62\x63\x64\x65\x66\x67\x68", 0,
          KAIVEROHM_BURST_END, 0, 2, 30);
    WANT(r[0] == KAIVEROHM_REFUSED && r[1] == 2 && r[3] == 0 && r[REPORT] == KAIVEROHM_MESSAGE);
    WANT(all(response_end - 2 * SLOT, SLOT, 0xe3) && response_end[-SLOT] == 0x4d);
}

static void bursts(void)
{
    rooms_for_packets();
    lengths_of_records();
    pauses();
    what_a_burst_leaves();
    refused_bursts();
    lengths_of_bursts();
}

/* ---- abandoning, rooms */

struct contexts {
    struct kaiverohm_answer (*abandon)(uint64_t *, size_t, uint64_t);
    uint64_t *(*at)(size_t n);
    uint64_t count;
    size_t width;
    int messages;
};

/* Abandons n, and wants that answer; nothing changes. */
static void leaves_all(const struct contexts *of, size_t words, uint64_t n, unsigned kind,
                       unsigned number, int line)
{
    struct kaiverohm_answer a = of->abandon(state(words), words, n);
    want(a.kind == kind && a.number == number && changed() == 0, "abandon", line);
}

/* A free context with a number in it; then an open one, which is closed. */
static void abandons_one(const struct contexts *of, uint64_t n)
{
    fresh();
    uint64_t *c = of->at(n);
    c[1] = 77;
    keep();
    leaves_all(of, WORDS, n, KAIVEROHM_WAS_FREE, 0, __LINE__);
    read_it(of->messages ? MADE("\x1b\x01\x02\x00\x09\x19\x00", 8) : at_priority(3, START("\x09")));
    if (n > 0) {
        memcpy(c, of->at(0), 8 * of->width);
        c[0] = 7;
    }
    keep();
    struct kaiverohm_answer a = of->abandon(state(WORDS), WORDS, n);
    WANT(a.kind == KAIVEROHM_CLOSED && a.number == 0 && zeros(c, 8 * of->width));
    memcpy(c, kept.state + 8 + 8 * (size_t)(c - state(WORDS)), 8 * of->width);
    WANT(changed() == 0);
}

static void abandons_past_the_last(const struct contexts *of)
{
    static const uint64_t past[] = { 0, UINT64_C(1) << 32, UINT64_C(1) << 63, UINT64_MAX };
    fresh();
    for (size_t i = 0; i < 4; i++) {
        keep();
        leaves_all(of, WORDS, past[i] | of->count, KAIVEROHM_REFUSED, 13, __LINE__);
    }
}

static void abandons_in_no_state(const struct contexts *of)
{
    state(WORDS)[1] = 33;
    keep();
    leaves_all(of, WORDS, 99, KAIVEROHM_REFUSED, 19, __LINE__);
    for (size_t words = 0; words <= WORDS + 1; words += words ? 2 : WORDS - 1)
        leaves_all(of, words, 99, KAIVEROHM_REFUSED, 12, __LINE__);
}

static void abandons(void)
{
    static const struct contexts both[] = {
        { kaiverohm_abandon_stream, stream_context, KAIVEROHM_STREAM_CONTEXTS, STREAM_WORDS, 0 },
        { kaiverohm_abandon_message, message_context, KAIVEROHM_MESSAGE_CONTEXTS, MESSAGE_WORDS,
          1 },
    };
    for (size_t i = 0; i < 2; i++) {
        for (uint64_t n = 0; n < both[i].count; n++)
            abandons_one(&both[i], n);
        abandons_past_the_last(&both[i]);
        abandons_in_no_state(&both[i]);
    }
}

/* ---- what is open */

static void stream_open(uint64_t n, struct kaiverohm_open_stream wanted, int line)
{
    struct kaiverohm_open_stream s = kaiverohm_stream_context(state(WORDS), WORDS, n);
    want(memcmp(&s, &wanted, sizeof s) == 0 && changed() == 0, "stream_context", line);
}

static void message_open(uint64_t n, struct kaiverohm_open_message wanted, int line)
{
    struct kaiverohm_open_message m = kaiverohm_message_context(state(WORDS), WORDS, n);
    want(memcmp(&m, &wanted, sizeof m) == 0 && changed() == 0, "message_context", line);
}

/* A free context with numbers in it, then an open one: any word but 0 is open. */
static void asks_one_stream(uint64_t n)
{
    static const uint64_t words[STREAM_WORDS] = { 0, 9, 3, 200, 60000, 32 };
    fresh();
    memcpy(stream_context(n), words, sizeof words);
    keep();
    stream_open(n, (struct kaiverohm_open_stream){ .kind = KAIVEROHM_WAS_FREE }, __LINE__);
    stream_context(n)[0] = UINT64_MAX;
    keep();
    stream_open(n,
                (struct kaiverohm_open_stream){ .kind = KAIVEROHM_OPEN,
                                                .source = 9,
                                                .cos = 200,
                                                .stream = 60000,
                                                .held = 32,
                                                .priority = 3 },
                __LINE__);
}

static void asks_one_message(uint64_t n)
{
    static const uint64_t words[MESSAGE_WORDS] = { 0, 9, 3, 2, 4, 13, 17, 40 };
    fresh();
    memcpy(message_context(n), words, sizeof words);
    keep();
    message_open(n, (struct kaiverohm_open_message){ .kind = KAIVEROHM_WAS_FREE }, __LINE__);
    message_context(n)[0] = 7;
    keep();
    message_open(n,
                 (struct kaiverohm_open_message){ .kind = KAIVEROHM_OPEN,
                                                  .source = 9,
                                                  .letter = 3,
                                                  .mbox = 2,
                                                  .msglen = 4,
                                                  .size = 128,
                                                  .marks = 17,
                                                  .last = 40 },
                 __LINE__);
}

static void asks_refused(uint64_t stream, uint64_t message, unsigned number, int line)
{
    keep();
    stream_open(stream,
                (struct kaiverohm_open_stream){ .kind = KAIVEROHM_REFUSED, .number = number },
                line);
    message_open(message,
                 (struct kaiverohm_open_message){ .kind = KAIVEROHM_REFUSED, .number = number },
                 line);
}

static void asks(void)
{
    for (uint64_t n = 0; n < KAIVEROHM_STREAM_CONTEXTS; n++)
        asks_one_stream(n);
    for (uint64_t n = 0; n < KAIVEROHM_MESSAGE_CONTEXTS; n++)
        asks_one_message(n);
    fresh();
    asks_refused(16, 8, 13, __LINE__);
    asks_refused(FAR, FAR + 1, 13, __LINE__);
    asks_refused(UINT64_MAX, UINT64_MAX, 13, __LINE__);
    state(WORDS)[1] = 33;
    asks_refused(0, 0, 19, __LINE__);
    asks_refused(16, 8, 19, __LINE__);
    for (size_t words = 0; words <= WORDS + 1; words += words ? 2 : WORDS - 1) {
        struct kaiverohm_open_stream s = kaiverohm_stream_context(state(words), words, 99);
        struct kaiverohm_open_message m = kaiverohm_message_context(state(words), words, 99);
        WANT(s.kind == KAIVEROHM_REFUSED && s.number == 12 && m.kind == KAIVEROHM_REFUSED
             && m.number == 12);
    }
}

static void place(struct kaiverohm_place p, uint64_t offset, uint64_t length, int line)
{
    want(p.offset == offset && p.length == length, "place", line);
}

#define STREAM_ROOM(words, size, n, l, offset, length) \
    place(kaiverohm_stream_room(state(words), words, size, n, l), offset, length, __LINE__)
#define MESSAGE_ROOM(words, size, n, l, offset, length) \
    place(kaiverohm_message_room(state(words), words, size, n, l), offset, length, __LINE__)

static void rooms(void)
{
    const uint64_t s = STREAM_MEMORY, m = KAIVEROHM_MESSAGE_MEMORY, big = UINT64_C(1) << 60;
    fresh();
    keep();
    STREAM_ROOM(WORDS, s, 15, ROOM, 15 * ROOM, ROOM);
    STREAM_ROOM(WORDS, s, 15, 0, 15 * ROOM, 0);
    /* no byte of context 0, and none refused, look the same; asking for one byte tells */
    STREAM_ROOM(WORDS, s, 0, 0, 0, 0);
    STREAM_ROOM(WORDS, s + 1, 0, 0, 0, 0);
    STREAM_ROOM(WORDS, s, 0, 1, 0, 1);
    STREAM_ROOM(WORDS, s + 1, 0, 1, 0, 0);
    MESSAGE_ROOM(WORDS, m, 0, 0, 0, 0);
    MESSAGE_ROOM(WORDS, m, 0, 1, 0, 1);
    MESSAGE_ROOM(WORDS, m + 1, 0, 1, 0, 0);
    STREAM_ROOM(WORDS, s, 15, ROOM + 1, 0, 0);
    STREAM_ROOM(WORDS, s, 16, 1, 0, 0);
    STREAM_ROOM(WORDS, s - 1, 15, 1, 0, 0);
    STREAM_ROOM(WORDS, s + 1, 15, 1, 0, 0);
    STREAM_ROOM(WORDS, UINT64_MAX, 15, 1, 0, 0);
    STREAM_ROOM(WORDS, s, big, 1, 0, 0);
    STREAM_ROOM(WORDS, s, UINT64_MAX, UINT64_MAX, 0, 0);
    STREAM_ROOM(WORDS, s, 1, big, 0, 0);
    STREAM_ROOM(WORDS - 1, s, 1, 1, 0, 0);
    STREAM_ROOM(WORDS + 1, s, 1, 1, 0, 0);
    STREAM_ROOM(0, s, 1, 1, 0, 0);
    MESSAGE_ROOM(WORDS, m, 7, 4096, 7 * 4096, 4096);
    MESSAGE_ROOM(WORDS, m, 7, 4097, 0, 0);
    MESSAGE_ROOM(WORDS, m, 8, 1, 0, 0);
    MESSAGE_ROOM(WORDS, s, 1, 1, 0, 0);
    MESSAGE_ROOM(WORDS, m + 1, 1, 1, 0, 0);
    MESSAGE_ROOM(WORDS, m, UINT64_C(1) << 52, 1, 0, 0);
    MESSAGE_ROOM(WORDS - 1, m, 1, 1, 0, 0);
    WANT(changed() == 0);
    state(WORDS)[1] = 0;
    STREAM_ROOM(WORDS, s, 1, 1, 0, 0);
    MESSAGE_ROOM(WORDS, m, 1, 1, 0, 0);
}

/* ---- the priority belongs to the flow */

enum { PDU = 40 };

/* A PDU of two segments under cos 5, whose bytes count up from its stream's number. */
struct scan {
    uint16_t source;
    uint8_t priority;
    uint16_t stream;
};

static size_t segment(struct scan s, uint64_t k)
{
    const struct kaiverohm_heading h = { own_id(), s.source, s.stream, 5, s.priority, narrow };
    uint8_t pdu[PDU];
    for (size_t i = 0; i < PDU; i++)
        pdu[i] = (uint8_t)(s.stream + i);
    struct kaiverohm_answer a = kaiverohm_write_segment(packet, MTU + 9, h, MTU, pdu, PDU, k);
    WANT(a.kind == KAIVEROHM_WRITTEN);
    return a.number;
}

/* Room n begins with that many bytes of it. */
static int has_bytes(uint64_t n, struct scan s, size_t length)
{
    const uint8_t *room = streams_end - STREAM_MEMORY + n * ROOM;
    for (size_t i = 0; i < length; i++)
        if (room[i] != (uint8_t)(s.stream + i))
            return 0;
    return 1;
}

static void reports_so(struct kaiverohm_report r, struct kaiverohm_report wanted, int line)
{
    want(memcmp(&r, &wanted, sizeof r) == 0, "report", line);
}

/* Its start is held, and gives another PDU up or not. */
static void begins(struct scan s, unsigned dropped, int line)
{
    reports_so(read_it(segment(s, 0)),
               (struct kaiverohm_report){ .kind = KAIVEROHM_HELD, .dropped = dropped }, line);
}

/* Context n holds its start. */
static void holds_start(uint64_t n, struct scan s, int line)
{
    keep();
    stream_open(n,
                (struct kaiverohm_open_stream){ .kind = KAIVEROHM_OPEN,
                                                .source = s.source,
                                                .cos = 5,
                                                .stream = s.stream,
                                                .held = MTU,
                                                .priority = s.priority },
                line);
    want(has_bytes(n, s, MTU), "what the room holds", line);
}

/* Its end delivers it from context n, whose words are then 0, the priority too. */
static void delivers(uint64_t n, struct scan s, int line)
{
    reports_so(read_it(segment(s, 1)),
               (struct kaiverohm_report){ .kind = KAIVEROHM_DELIVERED,
                                          .context = n,
                                          .source = s.source,
                                          .cos_or_letter = 5,
                                          .stream_or_mailbox = s.stream,
                                          .length = PDU,
                                          .priority = s.priority },
               line);
    want(has_bytes(n, s, PDU), "the delivered bytes", line);
    want(zeros(stream_context(n), 8 * STREAM_WORDS), "a delivered context", line);
}

/* Example 8 of the paper: two PDUs on one flow, the first end is lost. */
static void example_8(uint8_t priority)
{
    const struct scan first = { 9, priority, 7 }, second = { 9, priority, 107 };
    fresh();
    begins(first, 0, __LINE__);
    begins(second, 1, __LINE__);
    holds_start(0, second, __LINE__);
    delivers(0, second, __LINE__);
    WANT(zeros(state(WORDS) + HEAD, 8 * (WORDS - HEAD)));
}

/* The same with the second PDU at another priority: nothing is dropped. */
static void example_8_apart(uint8_t one, uint8_t other)
{
    const struct scan first = { 9, one, 7 }, second = { 9, other, 107 };
    fresh();
    begins(first, 0, __LINE__);
    begins(second, 0, __LINE__);
    holds_start(1, second, __LINE__);
    delivers(1, second, __LINE__);
    holds_start(0, first, __LINE__);
    /* the first end was only late */
    delivers(0, first, __LINE__);
}

/* A start and an end of one PDU at two priorities: 8, and all stays. */
static void parted(uint8_t one, uint8_t other)
{
    const struct scan start = { 9, one, 7 }, end = { 9, other, 7 };
    fresh();
    begins(start, 0, __LINE__);
    REFUSES(segment(end, 1), 8, 0, 0);
    holds_start(0, start, __LINE__);
}

/* Four boards at four priorities fill the contexts, each in its own. */
static void sixteen_flows(void)
{
    struct scan s[KAIVEROHM_STREAM_CONTEXTS];
    fresh();
    for (uint8_t i = 0; i < KAIVEROHM_STREAM_CONTEXTS; i++) {
        s[i] = (struct scan){ (uint16_t)(9 + i / 4), i % 4, (uint16_t)(10 * i) };
        begins(s[i], 0, __LINE__);
    }
    for (uint8_t priority = 0; priority < 4; priority++)
        REFUSES(segment((struct scan){ 8, priority, 7 }, 0), 10, 0, 0);
    for (uint64_t i = 0; i < KAIVEROHM_STREAM_CONTEXTS; i++)
        holds_start(i, s[i], __LINE__);
    for (uint64_t i = KAIVEROHM_STREAM_CONTEXTS; i-- > 0;)
        delivers(i, s[i], __LINE__);
}

/* The packet, at a priority, closes the context of its own flow and no other. */
static void closes_own(uint8_t priority, size_t length, unsigned number, int line)
{
    refuses(at_priority(priority, length), number, 1, STATE, line);
    want(zeros(stream_context(priority), 8 * STREAM_WORDS), "a closed context", line);
    for (uint8_t other = 0; other < 4; other++)
        if (other != priority)
            holds_start(other, (struct scan){ 9, other, 7 }, line);
}

/* Four priorities of one source and cos are open; 6, 7, 9 and 11 at one of them. */
static void closings(uint8_t priority)
{
    for (int row = 0; row < 4; row++) {
        fresh();
        for (uint8_t each = 0; each < 4; each++)
            begins((struct scan){ 9, each, 7 }, 0, __LINE__);
        if (row == 0)
            closes_own(priority, MADE("\x19\x01\x02\x00\x09\x05\x00", 0), 6, __LINE__);
        if (row == 1)
            closes_own(priority, MADE("\x19\x01\x02\x00\x09\x05\x02", 34), 7, __LINE__);
        if (row == 2) {
            stream_context(priority)[5] = ROOM;
            closes_own(priority, MADE("\x19\x01\x02\x00\x09\x05\x00", MTU), 9, __LINE__);
        }
        if (row == 3)
            closes_own(priority, MADE("\x19\x01\x02\x00\x09\x05\x42\x00\x07", 6), 11, __LINE__);
    }
}

/* A priority word over 3: the state is one, what is open is answered as it stands,
   no packet is of its flow, and it can be abandoned. */
static void priority_over_3(size_t n, uint64_t priority)
{
    const uint64_t words[STREAM_WORDS] = { 1, 9, priority, 5, 7, MTU };
    const struct kaiverohm_open_stream open = { KAIVEROHM_OPEN, 0, 9, 5, 7, MTU, priority };
    fresh();
    memcpy(stream_context(n), words, sizeof words);
    WANT(is_state());
    for (uint8_t each = 0; each < 4; each++) {
        const struct scan s = { 9, each, 7 };
        REFUSES(segment(s, 1), 8, 0, 0);
        begins(s, 0, __LINE__);
        keep();
        stream_open(n, open, __LINE__);
        delivers(n == 0, s, __LINE__);
    }
    WANT(memcmp(stream_context(n), words, sizeof words) == 0);
    WANT(kaiverohm_abandon_stream(state(WORDS), WORDS, n).kind == KAIVEROHM_CLOSED);
    WANT(zeros(stream_context(n), 8 * STREAM_WORDS));
}

/* The segments of a message at two priorities are joined, and its report says 0. */
static void mail_at(unsigned one, unsigned other)
{
    fresh();
    struct kaiverohm_report r = read_it(at_priority(one, MADE("\x1b\x01\x02\x00\x09\x19\x60", 8)));
    WANT(r.kind == KAIVEROHM_HELD && r.priority == 0);
    r = read_it(at_priority(other, MADE("\x1b\x01\x02\x00\x09\x19\x61", 8)));
    WANT(r.kind == KAIVEROHM_MESSAGE && r.context == 0 && r.source == 9 && r.length == 16);
    WANT(r.priority == 0 && zeros(message_context(0), 8 * MESSAGE_WORDS));
    WANT(response_end[-(int)reply()] >> 6 == (other < 3 ? other + 1 : 3));
}

static void priorities(void)
{
    static const uint64_t over[] = { 4, 5, 7, 63, 64, 128, 192, 256, FAR, FAR + 3, UINT64_MAX };
    for (uint8_t one = 0; one < 4; one++) {
        example_8(one);
        closings(one);
        for (uint8_t other = 0; other < 4; other++) {
            mail_at(one, other);
            if (one == other)
                continue;
            example_8_apart(one, other);
            parted(one, other);
        }
    }
    sixteen_flows();
    for (size_t n = 0; n < KAIVEROHM_STREAM_CONTEXTS; n++)
        for (size_t i = 0; i < sizeof over / sizeof over[0]; i++)
            priority_over_3(n, over[i]);
}

/* A start, a message and the end, all at priority 2, as records; the last begins at `third`. */
static size_t three_records(uint8_t *records, size_t *third)
{
    const struct scan s = { 9, 2, 7 };
    size_t length = 0;
    for (int k = 0; k < 3; k++) {
        size_t bytes =
            k == 1 ? at_priority(2, MADE("\x1b\x01\x02\x00\x09\x09\x60", 8)) : segment(s, k == 2);
        *third = length;
        length += kaiverohm_write_record(records + length, 64, packet, bytes).number;
    }
    return length;
}

/* A report of a burst has ten words, the priority last. Without room for all ten
   the burst is full, and the nine are left. */
static void priorities_of_a_burst(void)
{
    uint8_t records[3 * 64];
    size_t third, length = three_records(records, &third);
    const char *bytes = (const char *)records;
    const uint64_t *r = reports();
    const struct kaiverohm_report delivered = { KAIVEROHM_DELIVERED, 0, 0, 0, 0, 9, 5, 7, PDU, 2 };
    fresh();
    says(burst(64, REPORTS, bytes, length, 0), KAIVEROHM_BURST_END, 0, 3, length, __LINE__);
    WANT(r[0] == KAIVEROHM_HELD && zeros(r + 1, 8 * (REPORT - 1)));
    WANT(r[10] == KAIVEROHM_MESSAGE && r[15] == 9 && r[18] == 8 && r[19] == 0);
    WANT(memcmp(r + 20, &delivered, sizeof delivered) == 0);
    fresh();
    says(burst(64, REPORTS - 1, bytes, length, 0), KAIVEROHM_BURST_FULL, 0, 2, third, __LINE__);
    r++; /* it begins one word later */
    WANT(r[0] == KAIVEROHM_HELD && r[10] == KAIVEROHM_MESSAGE && r[19] == 0);
    WANT(all(r + 20, 8 * (REPORT - 1), 0xe4) && r[-1] == UINT64_C(0xe4e4e4e4e4e4e4e4));
}

/* A state of interface 2 with a PDU open: 12 from every call, no room, all stays. */
static void old_state(void)
{
    const size_t words = OLD_WORDS, m = KAIVEROHM_MESSAGE_MEMORY;
    const uint64_t old[] = { own_id(), MTU, ROOM, narrow, 1, 9, 5, 7, MTU };
    const struct kaiverohm_settings settings = { own_id(), MTU, ROOM, narrow };
    uint64_t *s = state(words);
    fresh();
    memset(s, 0, 8 * words);
    memcpy(s, old, sizeof old);
    struct kaiverohm_report r = lent(words, STREAM_MEMORY, m, reply(), START("\x09"));
    WANT(r.kind == KAIVEROHM_REFUSED && r.number == 12);
    says(kaiverohm_read_burst(s, words, streams_end - STREAM_MEMORY, STREAM_MEMORY,
                              messages_end - m, m, response_end - SLOT, SLOT,
                              (uint64_t *)(void *)(reports_end - 8 * REPORT), REPORT, packet_end, 0,
                              0),
         KAIVEROHM_BURST_REFUSED, 12, 0, 0, __LINE__);
    WANT(kaiverohm_setup(s, words, settings).number == 12);
    WANT(kaiverohm_stream_context(s, words, 0).number == 12);
    WANT(kaiverohm_message_context(s, words, 0).number == 12);
    WANT(kaiverohm_abandon_stream(s, words, 0).number == 12);
    WANT(kaiverohm_abandon_message(s, words, 0).number == 12);
    STREAM_ROOM(words, STREAM_MEMORY, 0, 1, 0, 0);
    MESSAGE_ROOM(words, m, 0, 1, 0, 0);
    WANT(changed() == 0);
}

/* ---- the segment writer */

static uint16_t destination, source;

static int writes(size_t out, uint64_t mtu, uint8_t priority, size_t pdu, uint64_t number)
{
    struct kaiverohm_heading h = { .destination = destination,
                                   .source = source,
                                   .stream = 0xc1c2,
                                   .cos = 0xd1,
                                   .priority = priority,
                                   .narrow = narrow };
    memset(reports_end - 400, 0xe4, 400);
    memset(packet_end - pdu, 0x11, pdu);
    struct kaiverohm_answer a =
        kaiverohm_write_segment(reports_end - out, out, h, mtu, packet_end - pdu, pdu, number);
    size_t length = a.kind == KAIVEROHM_WRITTEN ? a.number : 0;
    WANT(all(reports_end - 400, 400 - out, 0xe4));
    WANT(all(reports_end - out + length, out - length, 0xe4));
    if (a.kind == KAIVEROHM_WRITTEN)
        return (int)length;
    WANT(a.kind == KAIVEROHM_REFUSED && a.number != 0);
    return -(int)a.number;
}

/* 47 for either ID, with IDs of 8 bits alone, before all else. */
static void writer_47(void)
{
    static const uint16_t ids[] = { 0, 0xff, 0x100, 0xffff };
    for (size_t i = 0; i < 16; i++) {
        destination = ids[i / 4];
        source = ids[i % 4];
        int over = narrow && (destination > 255 || source > 255);
        int length = narrow ? 39 : 41;
        WANT(writes(41, 32, 0, 40, 0) == (over ? -47 : length));
        WANT(writes(0, 33, 4, 0, 9) == (over ? -47 : -18));
        WANT(writes(0, 32, 4, 0, 9) == (over ? -47 : -17));
    }
}

static void writer(void)
{
    const int front = narrow ? 7 : 9;
    int longest = 0;
    destination = narrow ? 0xa2 : 0xa1a2;
    source = narrow ? 0xb2 : 0xb1b2;
    for (uint64_t mtu = 32; mtu <= 256; mtu += mtu < 64 ? 4 : 64)
        for (size_t pdu = 1; pdu < 3 * mtu; pdu += 1 + pdu % 7) {
            uint64_t count = kaiverohm_segment_count(mtu, pdu);
            WANT(count == (pdu + mtu - 1) / mtu);
            for (uint64_t k = 0; k < count; k++) {
                int length = writes(mtu + (size_t)front, mtu, 3, pdu, k);
                WANT(length > 0 && length <= (int)mtu + front);
                WANT(writes((size_t)length, mtu, 0, pdu, k) == length);
                WANT(writes((size_t)length - 1, mtu, 0, pdu, k) == -16);
                longest = length > longest ? length : longest;
            }
            WANT(writes(0, mtu, 0, pdu, count) == -15);
        }
    WANT(longest == KAIVEROHM_LARGEST_PACKET - 9 + front);
    WANT(writes(0, 33, 4, 0, 9) == -18);
    WANT(writes(0, FAR + 32, 4, 0, 9) == -18);
    WANT(writes(0, 32, 4, 0, 9) == -17);
    WANT(writes(0, 32, 255, 0, 9) == -17);
    WANT(writes(0, 32, 3, 0, 9) == -14);
    WANT(writes(0, 32, 3, KAIVEROHM_LARGEST_PDU + 1, UINT64_MAX) == -14);
    WANT(writes(0, 32, 3, KAIVEROHM_LARGEST_PDU, 2048) == -15);
    WANT(writes(0, 32, 3, 40, FAR) == -15);
    WANT(writes(0, 32, 3, 40, UINT64_MAX) == -15);
    WANT(writes(0, 32, 3, 40, 0) == -16);
    WANT(writes(265, 32, 3, KAIVEROHM_LARGEST_PDU, 2047) == 32 + front);
    if (narrow)
        WANT(memcmp(reports_end - 265, "\xc9\xa2\xb2\xd1\x40\x00\x00\x11", 8) == 0);
    else
        WANT(memcmp(reports_end - 265, "\xd9\xa1\xa2\xb1\xb2\xd1\x40\x00\x00\x11", 10) == 0);
}

static void segment_counts(void)
{
    WANT(kaiverohm_segment_count(32, KAIVEROHM_LARGEST_PDU) == 2048);
    WANT(kaiverohm_segment_count(32, KAIVEROHM_LARGEST_PDU + 1) == 0);
    WANT(kaiverohm_segment_count(32, UINT64_MAX) == 0);
    WANT(kaiverohm_segment_count(32, FAR + 1) == 0);
    WANT(kaiverohm_segment_count(32, 0) == 0);
    WANT(kaiverohm_segment_count(33, 40) == 0);
    WANT(kaiverohm_segment_count(0, 40) == 0);
    WANT(kaiverohm_segment_count(FAR + 32, 40) == 0);
    WANT(kaiverohm_segment_count(UINT64_MAX - 3, 40) == 0);
}

/* ---- records: the header's own words for a length, and no byte beside it */

enum { RECORD = KAIVEROHM_LARGEST_RECORDED + 2 };

static int records(size_t out, size_t length)
{
    uint8_t *from = packet_end - length, *to = records_end - out;
    for (size_t i = 0; i < length; i++)
        from[i] = (uint8_t)(i % 251 + 3);
    memset(records_end - RECORD - 8, 0xe5, RECORD + 8);
    struct kaiverohm_answer a = kaiverohm_write_record(to, out, from, length);
    size_t written = a.kind == KAIVEROHM_WRITTEN ? a.number : 0;
    WANT(all(records_end - RECORD - 8, RECORD + 8 - out, 0xe5));
    WANT(all(to + written, out - written, 0xe5));
    if (a.kind != KAIVEROHM_WRITTEN) {
        WANT(a.kind == KAIVEROHM_REFUSED && a.number != 0);
        return -(int)a.number;
    }
    size_t front = length < 128 ? 1 : 2;
    WANT(written == front + length && memcmp(to + front, from, length) == 0);
    WANT(to[0] == (length < 128 ? length : 128 + length % 128));
    WANT(length < 128 || to[1] == length / 128);
    return (int)written;
}

static void record_writer(void)
{
    static const size_t lengths[] = { 0,     1,     2,     126,   127,
                                      128,   129,   130,   255,   256,
                                      257,   300,   383,   384,   511,
                                      512,   4095,  4096,  8191,  8192,
                                      16255, 16256, 16381, 16382, KAIVEROHM_LARGEST_RECORDED };
    for (size_t i = 0; i < sizeof lengths / sizeof lengths[0]; i++) {
        size_t length = lengths[i], record = length + (length < 128 ? 1 : 2);
        WANT(kaiverohm_record_length(length) == record);
        WANT(records(record, length) == (int)record);
        WANT(records(RECORD, length) == (int)record);
        WANT(records(record - 1, length) == -16);
        WANT(records(0, length) == -16);
    }
    WANT(records(RECORD, KAIVEROHM_LARGEST_RECORDED + 1) == -12);
    WANT(records(0, KAIVEROHM_LARGEST_RECORDED + 1) == -12);
    WANT(records(0, MOST) == -12);
    WANT(kaiverohm_record_length(KAIVEROHM_LARGEST_RECORDED + 1) == 0);
    WANT(kaiverohm_record_length(FAR) == 0 && kaiverohm_record_length(FAR + 5) == 0);
    WANT(kaiverohm_record_length(UINT64_MAX) == 0);
}

/* A record is read as the packet: whole, and the next one begins behind it. */
static void records_read_back(void)
{
    fresh();
    for (size_t length = 1; length < 300; length++) {
        uint8_t bytes[2 * 302];
        struct kaiverohm_answer a =
            kaiverohm_write_record(bytes, sizeof bytes, packet_end - length, length);
        memcpy(bytes + a.number, bytes, a.number);
        says(burst(64, REPORTS, (const char *)bytes, 2 * a.number, 0), KAIVEROHM_BURST_END, 0, 2,
             2 * a.number, __LINE__);
        says(burst(64, REPORTS, (const char *)bytes, 2 * a.number - 1, 0), KAIVEROHM_BURST_BAD, 0,
             1, a.number, __LINE__);
    }
}

/* What is tried at every width. */
static void at_this_width(void)
{
    setups();
    lengths();
    states();
    wide_stream_numbers();
    wide_message_numbers();
    /* Twice: with no context of the flow open, and with one. */
    rows_1_to_7(0);
    rows_1_to_7(1);
    rows_8_9_and_11();
    row_10();
    whole_pdu();
    messages();
    marks_past_msglen();
    abandons();
    priorities();
    priorities_of_a_burst();
    old_state();
    writer();
    writer_47();
    if (narrow) {
        limits_of_8_bits();
        bursts_of_8_bits();
    }
}

int main(void)
{
    state_end = fenced(sizeof kept.state) + sizeof kept.state;
    streams_end = fenced(sizeof kept.streams) + sizeof kept.streams;
    messages_end = fenced(sizeof kept.messages) + sizeof kept.messages;
    response_end = fenced(sizeof kept.response) + sizeof kept.response;
    packet_end = fenced(MOST) + MOST;
    reports_end = fenced(400) + 400;
    records_end = fenced(RECORD + 8) + RECORD + 8;
    for (size_t i = 0; i < sizeof widths / sizeof widths[0]; i++) {
        narrow = widths[i];
        at_this_width();
    }
    narrow = 0;
    WANT(kaiverohm_state_length() == WORDS);
    row_19_streams();
    row_19_messages();
    row_19_widths();
    bursts();
    asks();
    rooms();
    segment_counts();
    record_writer();
    records_read_back();
    printf("edges: %u checks\n", checks);
    return 0;
}
