/* One kind of traffic through one endpoint, a number of times: bench TRAFFIC ENDPOINT ROUNDS BITS,
 * where a device ID has 16 or 8 bits. The packets are made once. A round reads them all and leaves
 * every context closed, so rounds are alike, and the instructions of two runs of N and 2 N rounds
 * differ by exactly N rounds.
 * Prints packets and payload bytes of a round, the rounds, and nanoseconds for a packet. */
#include "kaiverohm.h"
#include "twin.h"

#include <stdio.h>
#include <stdlib.h>
#include <string.h>
#include <time.h>

enum {
    PACKETS = 2048,
    LONGEST = 300,
    STATE = KAIVEROHM_STATE_WORDS,
    REPORT = KAIVEROHM_REPORT_WORDS,
    ROOM = 4096
};

static uint8_t packets[PACKETS][LONGEST];
static size_t lengths[PACKETS];
static size_t count, payload;
static size_t mtu;
static unsigned narrow; /* 0: IDs of 16 bits; 1: of 8 */

static uint8_t burst[PACKETS * (LONGEST + 2)];
static size_t burst_length;

static uint8_t streams[16 * ROOM], messages[32768];
static uint64_t state[STATE], reports[PACKETS * REPORT];
static uint8_t responses[PACKETS * 8], response[7];
static struct twin twin;

/* Packets are made for IDs of 16 bits. The same for 8: tt is 00 for 01, or 01 for 00 in the packet
   that row 2 refuses, and the two high bytes are left out. */
static void add(const uint8_t *packet, size_t length)
{
    uint8_t *to = packets[count];
    memcpy(to, packet, length);
    if (narrow) {
        length -= 2;
        to[0] ^= 0x10;
        to[1] = packet[2];
        to[2] = packet[4];
        if (length > 3)
            memcpy(to + 3, packet + 5, length - 3);
    }
    lengths[count++] = length;
}

static unsigned priorities = 1; /* at which each board sends */

/* segment k of a PDU of so many segments, once from each of so many flows */
static void add_segments(unsigned flows, uint16_t stream, uint64_t segments, uint64_t k)
{
    static uint8_t pdu[8 * 256];
    uint8_t out[LONGEST];
    for (size_t i = 0; i < sizeof pdu; i++)
        pdu[i] = (uint8_t)(7 * i + i / 256);
    for (unsigned flow = 0; flow < flows; flow++) {
        struct kaiverohm_heading h = { .destination = 1,
                                       .source = (uint16_t)(flow / priorities + 2),
                                       .stream = stream,
                                       .cos = 5,
                                       .priority = (uint8_t)(flow % priorities) };
        struct kaiverohm_answer a =
            kaiverohm_write_segment(out, sizeof out, h, mtu, pdu, segments * mtu, k);
        payload += mtu;
        add(out, a.number);
    }
}

/* segment k of a message of sixteen segments of 64 bytes, once from each of so many senders */
static void add_mail(unsigned senders, unsigned k)
{
    uint8_t p[7 + 64] = { 0x1b, 0, 1, 0, 0, 0xfc, 0 };
    for (size_t i = 7; i < sizeof p; i++)
        p[i] = (uint8_t)(3 * i);
    for (unsigned sender = 0; sender < senders; sender++) {
        p[4] = (uint8_t)(sender + 2);
        p[6] = (uint8_t)(sender % 4 << 4 | k);
        payload += 64;
        add(p, sizeof p);
    }
}

/* sixteen flows in turn, each with PDUs of eight segments */
static void make_streams(void)
{
    for (uint16_t stream = 0; count < PACKETS; stream++)
        for (uint64_t k = 0; k < 8; k++)
            add_segments(16, stream, 8, k);
}

/* the same sixteen from four boards, each at four priorities */
static void make_priorities(void)
{
    priorities = 4;
    make_streams();
}

static void make_mail(unsigned senders)
{
    while (count < PACKETS)
        for (unsigned k = 0; k < 16; k++)
            add_mail(senders, k);
}

static void make_messages(void)
{
    make_mail(4);
}

/* as many messages open as there are contexts for them */
static void make_eight(void)
{
    make_mail(8);
}

/* an idle board: PDUs of one segment, so that no context is ever open */
static void make_idle(void)
{
    for (uint16_t stream = 0; count < PACKETS; stream++)
        add_segments(16, stream, 1, 0);
}

/* half the contexts open: eight flows and four messages, PDUs of eight segments */
static void make_half(void)
{
    for (uint16_t stream = 0; count < PACKETS; stream++)
        for (unsigned k = 0; k < 8; k++) {
            add_segments(8, stream, 8, k);
            add_mail(4, 2 * k);
            add_mail(4, 2 * k + 1);
        }
}

/* packets that rows 1, 2, 3, 4, 5, 6, 7, 8 and 20 to 22 refuse */
static void make_refused(void)
{
    static const uint8_t heads[11][9] = {
        { 0x19, 0, 1, 0 },                    /* 1 */
        { 0x09, 0, 1, 0, 2, 5, 0x80, 0, 1 },  /* 2 */
        { 0x19, 0, 9, 0, 2, 5, 0x80, 0, 1 },  /* 3 */
        { 0x15, 0, 1, 0, 2, 5, 0x80, 0, 1 },  /* 4 */
        { 0x19, 0, 1, 0, 2, 5, 0x84, 0, 1 },  /* 5 */
        { 0x19, 0, 1, 0, 2, 5, 0x82, 0, 1 },  /* 6 */
        { 0x19, 0, 1, 0, 2, 5, 0x81, 0, 1 },  /* 7 */
        { 0x19, 0, 1, 0, 2, 5, 0x40, 0, 32 }, /* 8 */
        { 0x1b, 0, 1, 0, 2, 0x00, 0x00 },     /* 20 */
        { 0x1b, 0, 1, 0, 2, 0x0c, 0x00 },     /* 21 */
        { 0x1b, 0, 1, 0, 2, 0x1b, 0x02 },     /* 22 */
    };
    uint8_t p[9 + 32] = { 0 };
    for (int i = 0; count < PACKETS; i++) {
        int kind = i % 11;
        memcpy(p, heads[kind], 9);
        payload += 32;
        add(p, kind == 0 ? 4 : kind == 9 ? 7 + 30 : kind == 10 ? 7 + 32 : sizeof p);
    }
}

static void make_burst(void)
{
    for (size_t i = 0; i < count; i++) {
        size_t n = lengths[i];
        if (n < 128)
            burst[burst_length++] = (uint8_t)n;
        else {
            burst[burst_length++] = (uint8_t)(n % 128 + 128);
            burst[burst_length++] = (uint8_t)(n / 128);
        }
        memcpy(burst + burst_length, packets[i], n);
        burst_length += n;
    }
}

/* what was answered goes in here, so that no call can be left out */
static uint64_t sum;

static void round_single(void)
{
    for (size_t i = 0; i < count; i++) {
        struct kaiverohm_report r = kaiverohm_read(state, STATE, streams, 16 * ROOM, messages,
                                                   32768, response, 7, packets[i], lengths[i]);
        sum += r.kind + r.length;
    }
}

static void round_burst(void)
{
    struct kaiverohm_burst b =
        kaiverohm_read_burst(state, STATE, streams, 16 * ROOM, messages, 32768, responses,
                             sizeof responses, reports, PACKETS * REPORT, burst, burst_length, 0);
    sum += b.count;
}

static void round_twin(void)
{
    for (size_t i = 0; i < count; i++) {
        struct twin_report r = twin_read(&twin, streams, 16 * ROOM, messages, 32768, response, 7,
                                         packets[i], lengths[i]);
        sum += r.kind + r.length;
    }
}

static void round_unchecked(void)
{
    for (size_t i = 0; i < count; i++) {
        struct twin_report r = twin_read_unchecked(&twin, streams, 16 * ROOM, messages, 32768,
                                                   response, 7, packets[i], lengths[i]);
        sum += r.kind + r.length;
    }
}

static void round_memcpy(void)
{
    for (size_t i = 0; i < count; i++) {
        size_t front = narrow ? 7 : 9;
        size_t head = lengths[i] < front ? lengths[i] : front;
        memcpy(streams + i % 16 * ROOM, packets[i] + head, lengths[i] - head);
        sum += streams[i % 16 * ROOM];
    }
}

static const struct {
    const char *name;
    size_t mtu;
    void (*make)(void);
} traffics[] = { { "streams32", 32, make_streams },
                 { "streams256", 256, make_streams },
                 { "messages", 32, make_messages },
                 { "refused", 32, make_refused },
                 { "idle", 256, make_idle },
                 { "half", 256, make_half },
                 { "priorities", 32, make_priorities },
                 { "eight", 32, make_eight } };

static void make(const char *name)
{
    for (size_t i = 0; i < sizeof traffics / sizeof *traffics; i++)
        if (strcmp(name, traffics[i].name) == 0) {
            mtu = traffics[i].mtu;
            traffics[i].make();
            return;
        }
    fprintf(stderr, "bench: no traffic %s\n", name);
    exit(2);
}

static const struct {
    const char *name;
    void (*round)(void);
} endpoints[] = { { "single", round_single },
                  { "burst", round_burst },
                  { "twin", round_twin },
                  { "unchecked", round_unchecked },
                  { "memcpy", round_memcpy } };

static void same(int holds, const char *what, size_t packet)
{
    if (holds)
        return;
    fprintf(stderr, "bench: %s differ at packet %zu\n", what, packet);
    exit(1);
}

/* Library and twin give the same answers, and leave the same states, responses and memories.
   So does the burst call. */
static void agree(void)
{
    static uint8_t twin_streams[sizeof streams], twin_messages[sizeof messages],
        twin_response[sizeof response];
    static struct kaiverohm_report answers[PACKETS];
    static uint8_t answered[PACKETS][7];
    for (size_t i = 0; i < count; i++) {
        struct kaiverohm_report a = kaiverohm_read(state, STATE, streams, 16 * ROOM, messages,
                                                   32768, response, 7, packets[i], lengths[i]);
        struct twin_report b = twin_read(&twin, twin_streams, 16 * ROOM, twin_messages, 32768,
                                         twin_response, 7, packets[i], lengths[i]);
        same(a.kind == b.kind && a.number == b.number && a.dropped == b.dropped
                 && a.context == b.context && a.source == b.source
                 && a.cos_or_letter == b.cos_or_letter && a.stream_or_mailbox == b.stream_or_mailbox
                 && a.length == b.length && a.priority == b.priority,
             "answers", i);
        same(memcmp(state, &twin, sizeof twin) == 0, "states", i);
        same(memcmp(response, twin_response, sizeof response) == 0, "responses", i);
        if (a.kind == KAIVEROHM_DELIVERED)
            same(memcmp(streams + a.context * ROOM, twin_streams + a.context * ROOM, a.length) == 0,
                 "PDUs", i);
        if (a.kind == KAIVEROHM_MESSAGE)
            same(memcmp(messages + a.context * 4096, twin_messages + a.context * 4096, a.length)
                     == 0,
                 "messages", i);
        answers[i] = a;
        memcpy(answered[i], response, sizeof response);
    }
    same(memcmp(streams, twin_streams, sizeof streams) == 0, "stream memories", count);
    same(memcmp(messages, twin_messages, sizeof messages) == 0, "message memories", count);

    struct kaiverohm_burst b =
        kaiverohm_read_burst(state, STATE, streams, 16 * ROOM, messages, 32768, responses,
                             sizeof responses, reports, PACKETS * REPORT, burst, burst_length, 0);
    same(b.stop == KAIVEROHM_BURST_END && b.count == count, "bursts", b.count);
    same(memcmp(reports, answers, count * sizeof answers[0]) == 0, "reports of a burst", count);
    same(memcmp(state, &twin, sizeof twin) == 0, "states behind a burst", count);
    for (size_t i = 0; i < count; i++)
        same(memcmp(responses + 8 * i, answered[i], answers[i].response) == 0,
             "responses of a burst", i);
}

int main(int argc, char **argv)
{
    if (argc != 5)
        return 2;
    narrow = strcmp(argv[4], "8") == 0;
    make(argv[1]);
    make_burst();
    struct kaiverohm_settings settings = {
        .device = 1, .mtu = mtu, .room = ROOM, .narrow = narrow
    };
    kaiverohm_setup(state, STATE, settings);
    twin_setup(&twin, 1, mtu, ROOM, narrow);
    agree();
    int rounds = atoi(argv[3]);
    for (size_t e = 0; e < sizeof endpoints / sizeof *endpoints; e++) {
        if (strcmp(argv[2], endpoints[e].name) != 0)
            continue;
        struct timespec from, to;
        clock_gettime(CLOCK_MONOTONIC, &from);
        for (int i = 0; i < rounds; i++)
            endpoints[e].round();
        clock_gettime(CLOCK_MONOTONIC, &to);
        double ns = (double)(to.tv_sec - from.tv_sec) * 1e9 + (double)(to.tv_nsec - from.tv_nsec);
        printf("%zu %zu %d %.1f %llu\n", count, payload, rounds,
               rounds ? ns / rounds / (double)count : 0.0, (unsigned long long)sum);
        return 0;
    }
    return 2;
}
