/* Faults on the backplane, tried on the second program (second/endpoint.c).
   Prints the tables of docs/THREATS.md, each behind a line "table NAME".
   tools/bitflips builds and runs it.

   Every PDU and message carries what docs/THREATS.md asks of members: a scan
   number in its first and in its last byte, and behind the first a CRC-32 over
   its flow (a message: source and letter), its streamID or mailbox, its length
   and its bytes. So the tables can also say what those checks leave. */

#include "../second/endpoint.h"

#include <stdio.h>
#include <stdlib.h>
#include <string.h>

enum { DEVICE = 1, ROOM = 2048, TEN = 10, MOST_SENT = 12, MOST_PACKETS = 48 };

static size_t mtu = 32;

/* The page says so; if it is not so, the program ends. */
static void claim(bool holds, const char *words)
{
    if (holds)
        return;
    fprintf(stderr, "not so: %s\n", words);
    exit(1);
}

/* ---- What is sent ------------------------------------------------------- */

struct sent {
    bool message;
    unsigned priority; /* of a message 0, as in its report */
    unsigned source, cos_or_letter, stream_or_mailbox;
    unsigned number; /* the scan number, 0 to 255 */
    size_t length;
    uint8_t bytes[800];
};

struct packet {
    uint8_t bytes[300];
    size_t length;
    unsigned flow; /* 0: the flow that is hurt, 1: another */
    unsigned sent; /* the place of its PDU or message below */
};

static struct sent sents[MOST_SENT];
static unsigned sent_count;

static uint32_t crc_table[256];

static void make_crc_table(void)
{
    for (uint32_t byte = 0; byte < 256; byte++) {
        uint32_t crc = byte;
        for (int i = 0; i < 8; i++)
            crc = crc & 1 ? crc >> 1 ^ 0xEDB88320u : crc >> 1;
        crc_table[byte] = crc;
    }
}

static uint32_t crc_byte(uint32_t crc, unsigned byte)
{
    return crc >> 8 ^ crc_table[(crc ^ byte) & 255];
}

/* Whether the CRC covers the priority. */
static bool sums_priority = true;

/* Over the address, the length and every byte but the four that hold it. */
static uint32_t checksum(const struct sent *s)
{
    const unsigned head[] = {
        s->source >> 8,
        s->source,
        sums_priority ? s->priority : 0,
        s->cos_or_letter,
        s->stream_or_mailbox >> 8,
        s->stream_or_mailbox,
        (unsigned)s->length >> 8,
        (unsigned)s->length,
    };
    uint32_t crc = 0xFFFFFFFFu;
    for (size_t i = 0; i < sizeof head / sizeof head[0]; i++)
        crc = crc_byte(crc, head[i]);
    for (size_t i = 0; i < s->length; i++)
        if (i < 1 || i > 4)
            crc = crc_byte(crc, s->bytes[i]);
    return ~crc;
}

/* The next one that is sent: its bytes, for the head that it has. */
static unsigned add_sent(void)
{
    struct sent *s = &sents[sent_count];
    for (size_t i = 0; i < s->length; i++)
        s->bytes[i] = (uint8_t)(17 * (i + 1) + 61 * sent_count + 5 * (i / 8));
    s->bytes[0] = (uint8_t)s->number;
    s->bytes[s->length - 1] = (uint8_t)s->number;
    uint32_t crc = checksum(s);
    for (int i = 0; i < 4; i++)
        s->bytes[1 + i] = (uint8_t)(crc >> (24 - 8 * i));
    return sent_count++;
}

struct flow {
    unsigned source, priority, cos;
};

static unsigned add_pdu(struct flow flow, unsigned stream, unsigned number, size_t length)
{
    sents[sent_count] = (struct sent){ .source = flow.source,
                                       .priority = flow.priority,
                                       .cos_or_letter = flow.cos,
                                       .stream_or_mailbox = stream,
                                       .number = number,
                                       .length = length };
    return add_sent();
}

static unsigned add_message(unsigned source, unsigned letter, unsigned mailbox, unsigned number,
                            size_t length)
{
    sents[sent_count] = (struct sent){ .message = true,
                                       .source = source,
                                       .cos_or_letter = letter,
                                       .stream_or_mailbox = mailbox,
                                       .number = number,
                                       .length = length };
    return add_sent();
}

/* The flow of most PDUs here. */
static const struct flow own = { 2, 1, 5 };

/* The packets of a PDU, cut by the writer; answers how many. */
static unsigned cut_pdu(struct packet *out, unsigned flow, unsigned which)
{
    const struct sent *s = &sents[which];
    const struct second_heading heading = {
        .priority = s->priority,
        .destination = DEVICE,
        .source = (uint16_t)s->source,
        .cos = (uint8_t)s->cos_or_letter,
        .stream_id = (uint16_t)s->stream_or_mailbox,
    };
    unsigned count = (unsigned)second_segment_count(mtu, s->length);
    for (unsigned k = 0; k < count; k++) {
        out[k] = (struct packet){ .flow = flow, .sent = which };
        struct second_answer written = second_write_segment(out[k].bytes, sizeof out[k].bytes,
                                                            heading, mtu, s->bytes, s->length, k);
        out[k].length = written.length;
    }
    return count;
}

/* The segments of a message with ssize 16 (code 10); answers how many. */
static unsigned cut_message(struct packet *out, unsigned flow, unsigned which)
{
    const struct sent *s = &sents[which];
    unsigned count = (unsigned)((s->length + 15) / 16);
    for (unsigned k = 0; k < count; k++) {
        size_t from = 16 * k;
        size_t bytes = k + 1 == count ? s->length - from : 16;
        out[k] = (struct packet){ .flow = flow, .sent = which, .length = 7 + bytes };
        const uint8_t head[] = {
            0x5B,
            0,
            DEVICE,
            (uint8_t)(s->source >> 8),
            (uint8_t)s->source,
            (uint8_t)((count - 1) << 4 | 10),
            (uint8_t)(s->cos_or_letter << 6 | (s->stream_or_mailbox & 3) << 4 | k),
        };
        memcpy(out[k].bytes, head, 7);
        memcpy(out[k].bytes + 7, s->bytes + from, bytes);
    }
    return count;
}

static unsigned cut(struct packet *out, unsigned flow, unsigned which)
{
    return sents[which].message ? cut_message(out, flow, which) : cut_pdu(out, flow, which);
}

/* This one, and the next one behind it. */
static unsigned cut_two(struct packet *out, unsigned flow, unsigned which)
{
    unsigned count = cut(out, flow, which);
    return count + cut(out + count, flow, which + 1);
}

/* ---- A run, and what it comes to ---------------------------------------- */

enum outcome { RIGHT, LOST, TWICE, WRONG };

struct run {
    enum outcome outcome;
    bool other_hurt;         /* a PDU of the other flow was not delivered, or wrongly */
    bool quiet;              /* no packet refused, none dropped */
    bool stays_open;         /* a context is open at the end */
    bool passes_number;      /* wrong or twice, and the scan number at both ends agrees */
    bool passes_all;         /* wrong or twice, and all checks of the member agree */
    unsigned wrongs, rights; /* deliveries that nobody sent; PDUs that were delivered */
    struct second_answer watched;
};

static uint8_t stream_memory[SECOND_STREAM_CONTEXTS * ROOM];
static uint8_t message_memory[SECOND_MESSAGE_MEMORY];
static uint8_t response[SECOND_RESPONSE_BYTES];

/* Reads a packet. Every memory here is lent with it. */
static struct second_answer read_packet(struct second_endpoint *state, const uint8_t *packet,
                                        size_t length)
{
    const struct second_lent lent = {
        .stream_memory = stream_memory,
        .stream_length = sizeof stream_memory,
        .message_memory = message_memory,
        .message_length = sizeof message_memory,
        .response = response,
        .response_length = sizeof response,
    };
    return second_read(state, lent, packet, length);
}

/* The judging board: the number of the last scan it took from each flow, -1 for
   none. Beside it, for each PDU: how often it came, and its flow. */
struct board {
    int last[MOST_SENT];
    unsigned times[MOST_SENT], flows[MOST_SENT];
};

static bool same_flow(const struct sent *a, const struct sent *b)
{
    if (a->message != b->message || a->source != b->source || a->priority != b->priority
        || a->cos_or_letter != b->cos_or_letter)
        return false;
    return !a->message || a->stream_or_mailbox == b->stream_or_mailbox;
}

/* The first PDU that its flow sent; MOST_SENT for a flow that nobody has. */
static unsigned flow_of(const struct sent *got)
{
    for (unsigned i = 0; i < sent_count; i++)
        if (same_flow(&sents[i], got))
            return i;
    return MOST_SENT;
}

static bool ends_agree(const struct sent *got)
{
    return got->bytes[0] == got->bytes[got->length - 1];
}

static bool checksum_agrees(const struct sent *got)
{
    if (got->length < 6)
        return false;
    uint32_t crc = checksum(got);
    for (int i = 0; i < 4; i++)
        if (got->bytes[1 + i] != (uint8_t)(crc >> (24 - 8 * i)))
            return false;
    return true;
}

/* Known flow, number at both ends, checksum, and newer than the last one. */
static bool takes(struct board *board, const struct sent *got)
{
    unsigned flow = flow_of(got);
    if (flow == MOST_SENT || !ends_agree(got) || !checksum_agrees(got))
        return false;
    if (board->last[flow] >= 0) {
        unsigned ahead = (got->bytes[0] - (unsigned)board->last[flow]) & 255;
        if (ahead == 0 || ahead > 127)
            return false;
    }
    board->last[flow] = got->bytes[0];
    return true;
}

static bool is_sent(const struct sent *got, const struct sent *s)
{
    return same_flow(got, s) && got->stream_or_mailbox == s->stream_or_mailbox
           && got->length == s->length && memcmp(got->bytes, s->bytes, s->length) == 0;
}

static struct sent taken(struct second_answer answer)
{
    struct sent got = {
        .message = answer.kind == SECOND_MESSAGE,
        .source = (unsigned)answer.source,
        .priority = (unsigned)answer.priority,
        .cos_or_letter = (unsigned)answer.cos_or_letter,
        .stream_or_mailbox = (unsigned)answer.stream_or_mailbox,
        .length = answer.length,
    };
    const uint8_t *room = got.message ? message_memory + answer.context * SECOND_MESSAGE_ROOM
                                      : stream_memory + answer.context * ROOM;
    if (got.length > sizeof got.bytes) {
        fputs("a delivery is longer than any PDU here\n", stderr);
        exit(1);
    }
    memcpy(got.bytes, room, got.length);
    return got;
}

/* A delivery: of a PDU that was sent, or one that nobody sent; and whether the
   board would take it. */
static void judge(struct run *r, struct board *board, const struct sent *got)
{
    unsigned which = 0;
    while (which < sent_count && !is_sent(got, &sents[which]))
        which++;
    bool bad = which == sent_count || board->times[which] > 0;
    if (which == sent_count)
        r->wrongs++;
    else
        board->times[which]++;
    if (bad && ends_agree(got) && flow_of(got) != MOST_SENT)
        r->passes_number = true;
    if (takes(board, got) && bad)
        r->passes_all = true;
}

/* What has come of all that was sent. */
static void sum_up(struct run *r, const struct board *board)
{
    for (unsigned i = 0; i < sent_count; i++) {
        r->rights += board->times[i] > 0;
        if (board->times[i] == 0 && board->flows[i] == 1)
            r->other_hurt = true;
        if (board->times[i] == 0 && r->outcome == RIGHT)
            r->outcome = LOST;
        if (board->times[i] > 1)
            r->outcome = TWICE;
    }
    if (r->wrongs)
        r->outcome = WRONG;
}

static bool any_open(const struct second_endpoint *state)
{
    for (int i = 0; i < SECOND_STREAM_CONTEXTS; i++)
        if (state->stream[i].open)
            return true;
    for (int i = 0; i < SECOND_MESSAGE_CONTEXTS; i++)
        if (state->message[i].open)
            return true;
    return false;
}

/* The packets in order; the answer to number `watch` is kept. */
static struct run run(const struct packet *const *order, unsigned count, unsigned watch)
{
    static struct second_endpoint state;
    struct run r = { .outcome = RIGHT, .quiet = true };
    struct board board = { .times = { 0 } };
    for (int i = 0; i < MOST_SENT; i++)
        board.last[i] = -1;
    second_setup(&state, DEVICE, mtu, ROOM, 0);
    for (unsigned i = 0; i < count; i++) {
        struct second_answer answer = read_packet(&state, order[i]->bytes, order[i]->length);
        board.flows[order[i]->sent] = order[i]->flow;
        if (i == watch)
            r.watched = answer;
        if (answer.kind == SECOND_REFUSED || answer.dropped)
            r.quiet = false;
        if (answer.kind != SECOND_PDU && answer.kind != SECOND_MESSAGE)
            continue;
        struct sent got = taken(answer);
        judge(&r, &board, &got);
    }
    sum_up(&r, &board);
    r.stays_open = any_open(&state);
    return r;
}

/* ---- Rows of a table ------------------------------------------------------ */

struct tally {
    char name[96];
    unsigned long runs, outcomes[4], other_hurt, quiet, open, number, all;
    unsigned char answers[64]; /* which answers the touched packet got */
};

static struct tally rows[200];
static unsigned row_count;

static struct tally *row(const char *name)
{
    for (unsigned i = 0; i < row_count; i++)
        if (strcmp(rows[i].name, name) == 0)
            return &rows[i];
    rows[row_count] = (struct tally){ 0 };
    snprintf(rows[row_count].name, sizeof rows[0].name, "%s", name);
    return &rows[row_count++];
}

/* Refusals have their number; then 26 held, 27 PDU, 28 message; +32 dropped. */
static unsigned answer_code(struct second_answer a)
{
    unsigned code = a.kind == SECOND_REFUSED ? a.refusal
                    : a.kind == SECOND_HELD  ? 26
                    : a.kind == SECOND_PDU   ? 27
                                             : 28;
    return code + (a.dropped ? 32 : 0);
}

static void count(struct tally *t, const struct run *r)
{
    t->runs++;
    t->outcomes[r->outcome]++;
    t->other_hurt += r->other_hurt;
    t->quiet += (r->outcome == WRONG || r->outcome == TWICE) && r->quiet;
    t->open += r->stays_open;
    t->number += r->passes_number;
    t->all += r->passes_all;
    t->answers[answer_code(r->watched)] = 1;
}

static void print_answers(const struct tally *t)
{
    static const char *words[] = { "held", "pdu", "msg" };
    const char *between = "";
    for (unsigned code = 0; code < 32; code++) {
        if (!t->answers[code] && !t->answers[code + 32])
            continue;
        printf("%s", between);
        if (code < 26)
            printf("%u", code);
        else
            printf("%s", words[code - 26]);
        between = ", ";
    }
}

/* Every number of a wrong or repeated delivery is printed bold. */
static void print_bad(unsigned long n)
{
    printf(n ? " **%lu** |" : " %lu |", n);
}

static void begin(const char *name, const char *head)
{
    printf("table %s\n%s\n|", name, head);
    for (const char *p = head + 1; *p; p++)
        if (*p == '|')
            printf("---|");
    printf("\n");
    row_count = 0;
}

/* ---- Table 1: a flipped bit in a type 9 packet ---------------------------- */

static const char *kind_name(const struct packet *p)
{
    static const char *names[] = { "continuation", "end", "start", "single" };
    return names[p->bytes[6] >> 6];
}

static const char *head_field(size_t byte, unsigned bit)
{
    static const char *flags[] = { "S", "E", "reserved", "reserved", "reserved", "xh", "O", "P" };
    if (byte == 0 && bit < 2)
        return "priority";
    if (byte == 0 && bit < 4)
        return "tt";
    if (byte == 0)
        return bit == 6 ? "type, to 11" : "type, other bits";
    if (byte < 3)
        return "destination";
    if (byte < 5)
        return "source";
    if (byte == 5)
        return "cos";
    return flags[bit];
}

static const char *stream_field(const struct packet *p, size_t byte, unsigned bit)
{
    bool s = p->bytes[6] & 0x80, e = p->bytes[6] & 0x40, pad = p->bytes[6] & 1;
    if (byte < 7)
        return head_field(byte, bit);
    if (byte < 9 && s)
        return "streamID";
    if (byte < 9 && e)
        return "PDU length";
    if (byte == p->length - 1 && pad)
        return "pad byte";
    return "data";
}

/* Puts one flow's packets between the other's by the bits of a mask. */
static void interleave(const struct packet **order, const struct packet *first, unsigned a,
                       const struct packet *second, unsigned b, unsigned long mask)
{
    for (unsigned i = 0; i < a + b; i++)
        order[i] = mask >> i & 1 ? first++ : second++;
}

static unsigned ones(unsigned long mask)
{
    unsigned n = 0;
    for (; mask; mask >>= 1)
        n += mask & 1;
    return n;
}

/* Flips the bit in packet `at` of the first flow, in every mixture of the two;
   a bit of the data, which no rule looks at, in one mixture. */
static void in_every_mixture(struct tally *t, struct packet *first, unsigned a,
                             const struct packet *second, unsigned b, unsigned at, size_t byte,
                             unsigned bit)
{
    const struct packet *order[MOST_PACKETS];
    bool data = strstr(t->name, "data") != NULL || strstr(t->name, "pad byte") != NULL;
    unsigned long runs = t->runs;
    first[at].bytes[byte] ^= (uint8_t)(0x80 >> bit);
    for (unsigned long mask = 0; mask < 1ul << (a + b); mask++) {
        if (ones(mask) != a || (data && t->runs > runs))
            continue;
        interleave(order, first, a, second, b, mask);
        unsigned watch = 0;
        while (order[watch] != &first[at])
            watch++;
        struct run r = run(order, a + b, watch);
        count(t, &r);
    }
    first[at].bytes[byte] ^= (uint8_t)(0x80 >> bit);
}

/* At another MTU, one flow behind the other: the touched packet is answered as
   at MTU 32, and nothing wrong comes where nothing did. */
static bool other_mtu;

static void as_at_32(const struct tally *t, struct packet *first, unsigned a,
                     const struct packet *second, unsigned b, unsigned at, size_t byte,
                     unsigned bit)
{
    const struct packet *order[MOST_PACKETS];
    interleave(order, first, a, second, b, (1ul << a) - 1);
    first[at].bytes[byte] ^= (uint8_t)(0x80 >> bit);
    struct run r = run(order, a + b, at);
    claim(t->runs > 0 && t->answers[answer_code(r.watched)], "every MTU answers as 32 does");
    claim(r.outcome != WRONG || t->outcomes[WRONG] > 0, "no MTU delivers wrong where 32 does not");
    first[at].bytes[byte] ^= (uint8_t)(0x80 >> bit);
}

/* 1, 2 or 3 packets. The first PDU of a flow is odd, so that it has a pad; a
   second of one packet has MTU bytes, so that it could be a start. */
static size_t size_of(unsigned packets, unsigned which)
{
    if (packets == 1)
        return which ? mtu : mtu - 13;
    return (packets - 1) * mtu + (which ? 8 : 7);
}

/* The flow that differs from ours in the flipped bit, where that is a bit of
   source, priority or cos; else in the last bit of the source. */
static struct flow flipped(size_t byte, unsigned bit)
{
    struct flow other = own;
    unsigned weight = 0x80u >> bit;
    if (byte == 0 && bit < 2)
        other.priority ^= weight >> 6;
    else if (byte == 3)
        other.source ^= weight << 8;
    else if (byte == 4)
        other.source ^= weight;
    else if (byte == 5)
        other.cos ^= weight;
    else
        other.source ^= 1;
    return other;
}

static void stream_mixtures(const unsigned *shape, size_t byte, unsigned bit, unsigned at)
{
    struct flow other = flipped(byte, bit);
    sent_count = 0;
    add_pdu(own, 7, 1, size_of(shape[0], 0));
    add_pdu(own, 8, 2, size_of(shape[1], 1));
    add_pdu(other, 70, 101, size_of(shape[2], 0));
    add_pdu(other, 71, 102, size_of(shape[3], 1));
    struct packet first[8], second[8];
    unsigned a = cut_two(first, 0, 0), b = cut_two(second, 1, 2);
    if (at >= a || byte >= first[at].length)
        return;
    char name[96];
    snprintf(name, sizeof name, "%s | %s", kind_name(&first[at]),
             stream_field(&first[at], byte, bit));
    if (other_mtu)
        as_at_32(row(name), first, a, second, b, at, byte, bit);
    else
        in_every_mixture(row(name), first, a, second, b, at, byte, bit);
}

static void each_shape(void (*what)(const unsigned *, size_t, unsigned, unsigned), size_t bytes)
{
    for (unsigned n = 0; n < 81; n++) {
        const unsigned shape[] = { 1 + n % 3, 1 + n / 3 % 3, 1 + n / 9 % 3, 1 + n / 27 };
        for (unsigned at = 0; at < 6; at++)
            for (size_t byte = 0; byte < bytes; byte++)
                for (unsigned bit = 0; bit < 8; bit++)
                    what(shape, byte, bit, at);
    }
}

static void print_row(const struct tally *t)
{
    printf("| %s | ", t->name);
    print_answers(t);
    printf(" | %lu | %lu | %lu | %lu | %lu |", t->runs, t->outcomes[RIGHT], t->outcomes[LOST],
           t->other_hurt, t->open);
    print_bad(t->outcomes[WRONG]);
    print_bad(t->number);
    print_bad(t->all);
    printf("\n");
}

/* Rows whose names begin so, in the order in which fields stand in a packet. */
static void print_rows_of(const char *kind)
{
    static const char *fields[] = {
        "priority",    "tt",     "type, to 11", "type, to 9", "type, other bits",
        "destination", "source", "cos",         "S",          "E",
        "reserved",    "xh",     "O",           "P",          "streamID",
        "PDU length",  "msglen", "ssize",       "letter",     "mbox",
        "msgseg",      "xmbox",  "data",        "pad byte",
    };
    for (size_t f = 0; f < sizeof fields / sizeof fields[0]; f++) {
        char name[96];
        snprintf(name, sizeof name, "%s | %s", kind, fields[f]);
        for (unsigned i = 0; i < row_count; i++)
            if (strcmp(rows[i].name, name) == 0)
                print_row(&rows[i]);
    }
}

static const char *flip_head =
    "| packet | field | answers to it | runs | right | lost | another hurt | left open | wrong "
    "| past the number | past all checks |";

static void print_total(void)
{
    struct tally all = { .name = "all | " };
    for (unsigned i = 0; i < row_count; i++) {
        all.runs += rows[i].runs;
        for (int o = 0; o < 4; o++)
            all.outcomes[o] += rows[i].outcomes[o];
        all.other_hurt += rows[i].other_hurt;
        all.open += rows[i].open;
        all.number += rows[i].number;
        all.all += rows[i].all;
        if (rows[i].outcomes[TWICE]) {
            fputs("a flipped bit delivers twice: the table has no column for it\n", stderr);
            exit(1);
        }
    }
    print_row(&all);
}

static void other_mtus(void)
{
    other_mtu = true;
    for (mtu = 36; mtu <= 256; mtu += 4)
        each_shape(stream_mixtures, 10);
    mtu = 32;
    other_mtu = false;
}

static void stream_flips(void)
{
    begin("stream-flips", flip_head);
    each_shape(stream_mixtures, 9 + mtu);
    other_mtus();
    print_rows_of("single");
    print_rows_of("start");
    print_rows_of("continuation");
    print_rows_of("end");
    print_total();
}

/* ---- Table 2: a flipped bit in a type 11 packet --------------------------- */

static const char *message_field(const struct packet *p, size_t byte, unsigned bit)
{
    if (byte < 5)
        return byte == 0 && bit == 6 ? "type, to 9" : head_field(byte, bit);
    if (byte == 5)
        return bit < 4 ? "msglen" : "ssize";
    if (byte == 6)
        return bit < 2 ? "letter" : bit < 4 ? "mbox" : p->bytes[5] >> 4 ? "msgseg" : "xmbox";
    return "data";
}

static const char *segment_name(const struct packet *p)
{
    unsigned msglen = p->bytes[5] >> 4;
    return msglen == 0 ? "only" : (p->bytes[6] & 15) == msglen ? "last" : "other";
}

static const char *packet_name(bool messages, const struct packet *p)
{
    return messages ? segment_name(p) : kind_name(p);
}

/* Two messages of one source, letter and mbox, and two of a neighbour. */
static void message_mixtures(const unsigned *shape, size_t byte, unsigned bit, unsigned at)
{
    unsigned source = 2, letter = 1, mbox = 2;
    unsigned other_source = 2, other_letter = 1, other_mbox = 2;
    unsigned weight = 0x80u >> bit;
    if (byte == 3)
        other_source ^= weight << 8;
    else if (byte == 4)
        other_source ^= weight;
    else if (byte == 6 && bit >= 2 && bit < 4)
        other_mbox ^= weight >> 4;
    else if (byte == 6 && bit < 2)
        other_letter ^= weight >> 6;
    else
        other_source ^= 1;
    sent_count = 0;
    add_message(source, letter, mbox, 1, 16 * shape[0] - 8);
    add_message(source, letter, mbox, 2, 16 * shape[1]);
    add_message(other_source, other_letter, other_mbox, 101, 16 * shape[2] - 8);
    add_message(other_source, other_letter, other_mbox, 102, 16 * shape[3]);
    struct packet first[8], second[8];
    unsigned a = cut_two(first, 0, 0), b = cut_two(second, 1, 2);
    if (at >= a || byte >= first[at].length)
        return;
    char name[96];
    snprintf(name, sizeof name, "%s | %s", segment_name(&first[at]),
             message_field(&first[at], byte, bit));
    in_every_mixture(row(name), first, a, second, b, at, byte, bit);
}

static void message_flips(void)
{
    begin("message-flips", flip_head);
    each_shape(message_mixtures, 7 + 16);
    print_rows_of("only");
    print_rows_of("other");
    print_rows_of("last");
    print_total();
}

/* ---- Table 3: packets lost, repeated, moved, swapped, put in --------------- */

static struct packet flow_packets[MOST_PACKETS];
static unsigned flow_count;

/* What is sent: three PDUs, or three messages, of 1 to 4 packets each. */
static void three(bool messages, unsigned n)
{
    sent_count = 0;
    flow_count = 0;
    for (unsigned i = 0; i < 3; i++, n /= 4) {
        unsigned packets = 1 + n % 4;
        if (messages)
            add_message(2, 1, 2, i + 1, 16 * packets - (packets > 1 || i != 1 ? 8 : 0));
        else
            add_pdu(own, 7 + i, i + 1, (packets - 1) * mtu + 18 + 2 * i);
        flow_count += cut(flow_packets + flow_count, 0, i);
    }
}

static bool fault(const char *name, const struct packet *const *order, unsigned n, unsigned watch)
{
    struct run r = run(order, n, watch);
    count(row(name), &r);
    return r.outcome == WRONG;
}

static unsigned packets_in(unsigned which)
{
    unsigned n = 0;
    for (unsigned i = 0; i < flow_count; i++)
        n += flow_packets[i].sent == which;
    return n;
}

/* How many packets of the PDU of packet `behind` have come with it. */
static unsigned come(unsigned behind)
{
    unsigned n = 0;
    for (unsigned i = 0; i <= behind; i++)
        n += flow_packets[i].sent == flow_packets[behind].sent;
    return n;
}

/* A start or end that lands inside another PDU, behind packet `behind`: when
   it is joined. A continuation never is. */
static void claim_joined(const struct packet *p, unsigned its_packets, unsigned behind, bool wrong)
{
    unsigned kind = p->bytes[6] >> 6;
    if (kind == 2)
        claim(wrong == (come(behind) == 1),
              "a strange start is joined exactly directly behind a start");
    if (kind == 1)
        claim(wrong == (come(behind) == its_packets - 1),
              "a strange end is joined exactly if as many packets have come");
    if (kind == 0)
        claim(!wrong, "a strange continuation is never delivered");
}

/* Where a copy or a late packet comes: behind packet `behind` of the flow. */
static const char *where(bool messages, unsigned packet, unsigned behind, bool copy)
{
    const struct packet *p = &flow_packets[packet], *b = &flow_packets[behind];
    bool last = behind + 1 == flow_count || flow_packets[behind + 1].sent != b->sent;
    if (copy && behind == packet)
        return "at once";
    if (last)
        return messages ? "between messages" : "between PDUs";
    if (b->sent == p->sent)
        return messages ? "later in its message" : "later in its PDU";
    return messages ? "inside a later message" : "inside a later PDU";
}

static const char *moved_name(const char *what, bool messages, unsigned packet, unsigned behind,
                              bool copy)
{
    static char name[96];
    snprintf(name, sizeof name, "%s | %s | %s", what, packet_name(messages, &flow_packets[packet]),
             where(messages, packet, behind, copy));
    return name;
}

/* Packet `from` goes behind packet `behind`; a copy stays where it was. */
static void move(const char *what, bool messages, unsigned from, unsigned behind, bool copy)
{
    const struct packet *order[MOST_PACKETS];
    unsigned n = 0, watch = 0;
    for (unsigned i = 0; i < flow_count; i++) {
        if (i != from || copy)
            order[n++] = &flow_packets[i];
        if (i == behind) {
            watch = n;
            order[n++] = &flow_packets[from];
        }
    }
    bool wrong = fault(moved_name(what, messages, from, behind, copy), order, n, watch);
    const struct packet *p = &flow_packets[from];
    bool inside =
        behind + 1 < flow_count && flow_packets[behind + 1].sent == flow_packets[behind].sent;
    if (!messages && inside && flow_packets[behind].sent != p->sent)
        claim_joined(p, packets_in(p->sent), behind, wrong);
}

static const char *lost_name(bool messages, unsigned x, unsigned y)
{
    unsigned apart = flow_packets[y].sent - flow_packets[x].sent;
    if (x == y)
        return messages ? "one lost | a segment | " : "one lost | any | ";
    if (apart == 0)
        return messages ? "two lost | of one message | " : "two lost | of one PDU | ";
    return apart == 1 ? "two lost | of two neighbours | " : "two lost | of two others | ";
}

/* Each packet, and each two. */
static void lose(bool messages)
{
    const struct packet *order[MOST_PACKETS];
    for (unsigned x = 0; x < flow_count; x++)
        for (unsigned y = x; y < flow_count; y++) {
            unsigned n = 0;
            for (unsigned i = 0; i < flow_count; i++)
                if (i != x && i != y)
                    order[n++] = &flow_packets[i];
            fault(lost_name(messages, x, y), order, n, 0);
        }
}

static void repeat_whole(unsigned which)
{
    const struct packet *order[MOST_PACKETS];
    unsigned n = 0;
    for (unsigned i = 0; i < flow_count; i++) {
        order[n++] = &flow_packets[i];
        bool last = i + 1 == flow_count || flow_packets[i + 1].sent != which;
        if (flow_packets[i].sent == which && last)
            for (unsigned k = 0; k < flow_count; k++)
                if (flow_packets[k].sent == which)
                    order[n++] = &flow_packets[k];
    }
    fault("repeated | all its packets | behind it", order, n, 0);
}

static bool is_continuation(const struct packet *p)
{
    return p->bytes[6] >> 6 == 0;
}

/* The order in which packet x and the next one change places. */
static void swapped(const struct packet **order, unsigned x)
{
    for (unsigned i = 0; i < flow_count; i++)
        order[i] = &flow_packets[i == x ? x + 1 : i == x + 1 ? x : i];
}

/* Two continuations of one PDU change places. */
static void swap_continuations(void)
{
    const struct packet *order[MOST_PACKETS];
    for (unsigned x = 0; x + 1 < flow_count; x++) {
        if (!is_continuation(&flow_packets[x]) || !is_continuation(&flow_packets[x + 1]))
            continue;
        swapped(order, x);
        claim(fault("swapped | two continuations | of one PDU", order, flow_count, x),
              "two swapped continuations are delivered wrong");
    }
}

static const char *swapped_name(bool messages, const struct packet *p, const struct packet *next)
{
    static char name[96];
    bool one = p->sent == next->sent;
    if (messages)
        snprintf(name, sizeof name, "swapped | neighbours | %s",
                 one ? "of one message" : "of two messages");
    else
        snprintf(name, sizeof name, "swapped | %s and %s | %s", kind_name(p), kind_name(next),
                 one ? "of one PDU" : "of two PDUs");
    return name;
}

static void claim_swapped(const struct packet *p, const struct packet *next, bool wrong)
{
    bool end_and_start = p->sent != next->sent && p->bytes[6] >> 6 == 1 && next->bytes[6] >> 6 == 2;
    claim(wrong == (end_and_start && packets_in(p->sent) == 2),
          "an end and a start that change places are joined exactly "
          "if the first PDU has two packets");
}

/* Neighbours change places; continuations of one PDU have a row of their own. */
static void swap_neighbours(bool messages)
{
    const struct packet *order[MOST_PACKETS];
    for (unsigned x = 0; x + 1 < flow_count; x++) {
        const struct packet *p = &flow_packets[x], *next = p + 1;
        if (!messages && is_continuation(p) && is_continuation(next))
            continue;
        swapped(order, x);
        bool wrong = fault(swapped_name(messages, p, next), order, flow_count, x);
        if (!messages)
            claim_swapped(p, next, wrong);
    }
}

/* A packet of a PDU of `packets` packets that nobody of ours sent, before packet
   `at` of the flow. */
static void put_in_at(bool messages, const struct packet *forged, unsigned packets, unsigned at)
{
    const struct packet *order[MOST_PACKETS];
    for (unsigned i = 0; i <= flow_count; i++)
        order[i] = i < at ? &flow_packets[i] : i == at ? forged : &flow_packets[i - 1];
    bool inside = at > 0 && at < flow_count && flow_packets[at - 1].sent == flow_packets[at].sent;
    char name[96];
    snprintf(name, sizeof name, "forged | %s | %s", packet_name(messages, forged),
             messages ? (inside ? "inside a message" : "between messages")
                      : (inside ? "inside a PDU" : "between PDUs"));
    bool wrong = fault(name, order, flow_count + 1, at);
    if (!messages && inside && packets > 1)
        claim_joined(forged, packets, at - 1, wrong);
}

/* Somebody puts in a packet under the flow's source, priority and cos: of a PDU
   of his own, of 1 to 4 packets. */
static void put_in(bool messages)
{
    for (unsigned packets = 1; packets <= 4; packets++) {
        struct packet forged[4];
        unsigned which = messages ? add_message(2, 1, 2, 77, 16 * packets - 8)
                                  : add_pdu(own, 99, 77, (packets - 1) * mtu + 12);
        unsigned count_forged = cut(forged, 0, which);
        sent_count--; /* nobody of ours sent it */
        for (unsigned f = 0; f < count_forged; f++) {
            forged[f].sent = 0;
            for (unsigned at = 0; at <= flow_count; at++)
                put_in_at(messages, &forged[f], packets, at);
        }
    }
}

/* Another flow of the same source and cos, at a higher priority: its PDU of 1 to
   4 packets, in every mixture with ours. */
static void overtake(void)
{
    const struct packet *order[MOST_PACKETS];
    struct packet other[4];
    const struct flow urgent = { own.source, own.priority + 1, own.cos };
    for (unsigned packets = 1; packets <= 4; packets++) {
        unsigned count_other = cut(other, 1, add_pdu(urgent, 7, 77, (packets - 1) * mtu + 12));
        for (unsigned long mask = 0; mask < 1ul << (flow_count + count_other); mask++) {
            if (ones(mask) != flow_count)
                continue;
            interleave(order, flow_packets, flow_count, other, count_other, mask);
            fault("overtaken | any | by another priority", order, flow_count + count_other, 0);
        }
        sent_count--;
    }
}

/* The packets of our flow, some at another priority: those of PDU `which` by the
   bits of a mask. */
static void reprioritize(unsigned which, unsigned long mask)
{
    for (unsigned i = 0; i < flow_count; i++) {
        if (flow_packets[i].sent != which)
            continue;
        if (mask & 1)
            flow_packets[i].bytes[0] ^= 0x40;
        mask >>= 1;
    }
}

/* How many ways there are to give a PDU's packets two priorities. */
static unsigned long ways(unsigned which)
{
    return (1ul << packets_in(which)) - 2;
}

/* One PDU whose packets have two priorities, and two of them one behind the
   other. */
static void two_priorities(void)
{
    const struct packet *order[MOST_PACKETS];
    for (unsigned i = 0; i < flow_count; i++)
        order[i] = &flow_packets[i];
    for (unsigned which = 0; which < 3; which++)
        for (unsigned long one = 1; one <= ways(which); one++) {
            reprioritize(which, one);
            fault("at two priorities | the packets of one PDU | ", order, flow_count, 0);
            for (unsigned long two = 1; which < 2 && two <= ways(which + 1); two++) {
                reprioritize(which + 1, two);
                fault("at two priorities | those of two neighbours | ", order, flow_count, 0);
                reprioritize(which + 1, two);
            }
            reprioritize(which, one);
        }
}

static void print_fault_rows(const char *what, const char *kind)
{
    char begins[96];
    snprintf(begins, sizeof begins, kind[0] ? "%s | %s" : "%s", what, kind);
    for (unsigned i = 0; i < row_count; i++) {
        const struct tally *t = &rows[i];
        if (strncmp(t->name, begins, strlen(begins)) != 0)
            continue;
        printf("| %s | %lu | %lu | %lu |", t->name, t->runs, t->outcomes[RIGHT], t->outcomes[LOST]);
        print_bad(t->outcomes[TWICE]);
        print_bad(t->outcomes[WRONG]);
        print_bad(t->quiet);
        print_bad(t->number);
        print_bad(t->all);
        printf("\n");
    }
}

static const char *fault_head =
    "| fault | packet | where | runs | right | lost | twice | wrong | of these quiet "
    "| past the number | past all checks |";

static void faults(bool messages)
{
    begin(messages ? "message-faults" : "stream-faults", fault_head);
    for (unsigned n = 0; n < 64; n++) {
        three(messages, n);
        lose(messages);
        for (unsigned from = 0; from < flow_count; from++)
            for (unsigned behind = from; behind < flow_count; behind++) {
                move("repeated", messages, from, behind, true);
                if (behind > from + 1)
                    move("delayed", messages, from, behind, false);
            }
        for (unsigned which = 0; which < 3; which++)
            repeat_whole(which);
        if (!messages)
            swap_continuations();
        swap_neighbours(messages);
        put_in(messages);
        if (!messages) {
            overtake();
            two_priorities();
        }
    }
    static const char *moved[] = { "repeated", "delayed", "swapped", "forged" };
    static const char *kinds[] = {
        "single", "only", "start",           "continuation",      "other",
        "end",    "last", "all its packets", "two continuations", "neighbours",
    };
    print_fault_rows("one lost", "");
    print_fault_rows("two lost", "");
    for (size_t i = 0; i < sizeof moved / sizeof moved[0]; i++)
        for (size_t k = 0; k < sizeof kinds / sizeof kinds[0]; k++)
            print_fault_rows(moved[i], kinds[k]);
    print_fault_rows("overtaken", "");
    print_fault_rows("at two priorities", "");
}

/* ---- What the page says of two faults, and of messages ------------------------ */

static void send_one(struct packet *out, unsigned *n, const struct packet *p)
{
    out[(*n)++] = *p;
}

static struct run run_these(const struct packet *packets, unsigned n, unsigned watch)
{
    const struct packet *order[MOST_PACKETS];
    for (unsigned i = 0; i < n; i++)
        order[i] = &packets[i];
    return run(order, n, watch);
}

static void two_faults(void)
{
    struct packet a[4], b[4], sent[MOST_PACKETS];
    sent_count = 0;
    cut(a, 0, add_pdu(own, 7, 1, 3 * mtu + 8));
    cut(b, 0, add_pdu(own, 8, 2, 3 * mtu + 8));
    unsigned n = 0;
    send_one(sent, &n, &a[0]);
    send_one(sent, &n, &a[1]);
    send_one(sent, &n, &a[1]);
    send_one(sent, &n, &a[3]);
    claim(run_these(sent, n, 3).wrongs == 1, "a continuation twice makes up for a lost one");
    n = 0;
    for (unsigned k = 0; k < 4; k++)
        send_one(sent, &n, &a[k]);
    send_one(sent, &n, &a[0]);
    for (unsigned k = 1; k < 4; k++)
        send_one(sent, &n, &b[k]);
    claim(run_these(sent, n, 7).wrongs == 1,
          "a start that comes again is joined to a PDU that lost its start");
}

/* A single whose priority is flipped, where the judging board expects flows of
   both priorities: what its checks say, with the priority in the CRC or not. */
static bool passes_as_other(bool summed)
{
    struct packet p[1];
    sums_priority = summed;
    sent_count = 0;
    cut(p, 0, add_pdu(own, 7, 1, mtu));
    add_pdu((struct flow){ own.source, own.priority ^ 1, own.cos }, 70, 101, mtu);
    p[0].bytes[0] ^= 0x40;
    struct run r = run_these(p, 1, 0);
    sums_priority = true;
    return r.passes_all;
}

static void flipped_priority(void)
{
    claim(!passes_as_other(true), "a flipped priority passes no CRC that covers it");
    claim(passes_as_other(false), "a flipped priority passes all checks if the CRC leaves it out");
}

/* The page's example, and the fault that does not heal. */
static void message_examples(void)
{
    struct packet m[TEN][2], sent[MOST_PACKETS];
    sent_count = 0;
    for (unsigned i = 0; i < TEN; i++)
        cut(m[i], 0, add_message(2, 1, 2, i + 1, 32));
    unsigned n = 0;
    send_one(sent, &n, &m[0][0]);
    send_one(sent, &n, &m[1][0]);
    send_one(sent, &n, &m[1][1]);
    claim(run_these(sent, n, 1).watched.refusal == 24, "N's segment 0 is refused 24");
    claim(run_these(sent, n, 2).watched.kind == SECOND_MESSAGE, "N's segment 1 delivers");
    claim(run_these(sent, n, 2).wrongs == 1, "and what it delivers nobody sent");
    n = 0;
    for (unsigned i = 0; i < TEN; i++)
        for (unsigned k = i == 0; k < 2; k++)
            send_one(sent, &n, &m[i][k]);
    struct run r = run_these(sent, n, 0);
    claim(r.wrongs == TEN - 1 && r.rights == 0 && r.quiet,
          "a lost segment 0 spoils every message, and nothing is refused");
    n = 0;
    for (unsigned i = 0; i < TEN; i++) {
        send_one(sent, &n, &m[i][0]);
        send_one(sent, &n, &m[i][1]);
        if (i == 0)
            send_one(sent, &n, &m[i][1]);
    }
    r = run_these(sent, n, 0);
    claim(r.wrongs == TEN - 1 && r.rights == 1 && r.quiet,
          "a last segment that comes again does so too");
}

/* ---- Table 4: a packet cut short, or with bytes behind it -------------------- */

static const char *by_bytes(bool messages, unsigned by)
{
    if (messages)
        return by % 8 ? "not by eights" : "by 8 or 16";
    return by % 2 ? "by an odd number" : by % 4 ? "by 2, 6, 10 or 14" : "by 4, 8, 12 or 16";
}

static void resize(bool messages, unsigned at, unsigned by, bool longer)
{
    const struct packet *order[MOST_PACKETS];
    struct packet changed = flow_packets[at];
    size_t head = messages || !(changed.bytes[6] >> 6) ? 7 : 9;
    if (!longer && changed.length < head + by)
        return;
    changed.length = longer ? changed.length + by : changed.length - by;
    for (unsigned i = 0; i < flow_count; i++)
        order[i] = i == at ? &changed : &flow_packets[i];
    char name[96];
    snprintf(name, sizeof name, "%s | %s | %s", packet_name(messages, &changed),
             longer ? "longer" : "shorter", by_bytes(messages, by));
    fault(name, order, flow_count, at);
}

static void print_size_rows(const char *kind)
{
    for (unsigned i = 0; i < row_count; i++) {
        const struct tally *t = &rows[i];
        if (strncmp(t->name, kind, strlen(kind)) != 0)
            continue;
        printf("| %s | ", t->name);
        print_answers(t);
        printf(" | %lu | %lu | %lu |", t->runs, t->outcomes[RIGHT], t->outcomes[LOST]);
        print_bad(t->outcomes[WRONG]);
        print_bad(t->number);
        print_bad(t->all);
        printf("\n");
    }
}

static const char *size_head = "| packet | made | by | answers to it | runs | right | lost | wrong "
                               "| past the number | past all checks |";

static void sizes(bool messages)
{
    static const char *kinds[] = {
        "single", "start", "continuation", "end", "only", "other", "last"
    };
    begin(messages ? "message-sizes" : "stream-sizes", size_head);
    for (unsigned n = 0; n < 64; n++) {
        three(messages, n);
        for (unsigned at = 0; at < flow_count; at++)
            for (unsigned by = 1; by <= 16; by++) {
                resize(messages, at, by, false);
                resize(messages, at, by, true);
            }
    }
    for (size_t k = 0; k < sizeof kinds / sizeof kinds[0]; k++)
        print_size_rows(kinds[k]);
}

/* ---- Table 5: how long one fault lasts --------------------------------------- */

/* Ten PDUs or messages of some packets each. */
static void ten(bool messages, unsigned packets)
{
    sent_count = 0;
    flow_count = 0;
    for (unsigned i = 0; i < TEN; i++) {
        unsigned which = messages ? add_message(2, 1, 2, i + 1, 16 * packets - 8)
                                  : add_pdu(own, 7 + i, i + 1, (packets - 1) * mtu + 18);
        flow_count += cut(flow_packets + flow_count, 0, which);
    }
}

static unsigned least_right, most_wrong;

/* Packet `from` of the first is lost (`behind` under it), or comes again. */
static void one_fault(unsigned from, int behind)
{
    const struct packet *order[MOST_PACKETS];
    unsigned n = 0;
    for (unsigned i = 0; i < flow_count; i++) {
        if (i != from || behind >= 0)
            order[n++] = &flow_packets[i];
        if ((int)i == behind)
            order[n++] = &flow_packets[from];
    }
    struct run r = run(order, n, 0);
    least_right = r.rights < least_right ? r.rights : least_right;
    most_wrong = r.wrongs > most_wrong ? r.wrongs : most_wrong;
}

static void lasting(bool messages, const char *fault_name, bool lost, bool inside)
{
    least_right = TEN;
    most_wrong = 0;
    for (unsigned packets = 2; packets <= 4; packets++) {
        ten(messages, packets);
        for (unsigned from = 0; from < packets; from++)
            one_fault(from, lost ? -1 : (int)(inside ? packets : packets - 1));
    }
    printf("| %s | %s | %u |", messages ? "message" : "PDU", fault_name, least_right);
    print_bad(most_wrong);
    printf("\n");
}

static const char *long_head =
    "| ten are sent, and the first one's | fault | of ten right, at least | wrong, at most |";

static void how_long(void)
{
    begin("how-long", long_head);
    for (int messages = 0; messages < 2; messages++) {
        lasting(messages, "packet is lost", true, false);
        lasting(messages, "packet comes again behind its last", false, false);
        lasting(messages, "packet comes again behind the first packet of the second", false, true);
    }
}

/* ---- Table 6: the one bit between types 9 and 11 --------------------------- */

static struct second_answer alone(const uint8_t *packet, size_t length)
{
    static struct second_endpoint state;
    second_setup(&state, DEVICE, mtu, ROOM, 0);
    return read_packet(&state, packet, length);
}

static void print_kinds(const char *name, const unsigned long *kinds)
{
    unsigned long runs = kinds[0] + kinds[1] + kinds[2] + kinds[3];
    printf("| %s | %lu | %lu | %lu |", name, runs, kinds[0], kinds[1]);
    print_bad(kinds[2]);
    printf("\n");
}

static unsigned kind_of(struct second_answer a)
{
    return a.kind == SECOND_REFUSED ? 0 : a.kind == SECOND_HELD ? 1 : 2;
}

/* Every cos, each kind of type 9 packet with every length, read as type 11. */
static void type_9_as_11(void)
{
    unsigned long safe[4] = { 0 }, unsafe[4] = { 0 };
    uint8_t pdu[256] = { 0 }, packet[300];
    for (unsigned cos = 0; cos < 256; cos++)
        for (size_t length = 1; length <= 96; length++)
            for (unsigned k = 0; k < second_segment_count(mtu, length); k++) {
                const struct second_heading heading = { 1, DEVICE, 2, (uint8_t)cos, 7, 0 };
                struct second_answer written =
                    second_write_segment(packet, sizeof packet, heading, mtu, pdu, length, k);
                packet[0] ^= 2;
                bool reserved = cos % 16 < 9 || cos % 16 == 15;
                (reserved ? safe : unsafe)[kind_of(alone(packet, written.length))]++;
            }
    print_kinds("9 read as 11, cos ends in 0 to 8 or F (hex)", safe);
    print_kinds("9 read as 11, cos ends in 9 to E (hex)", unsafe);
}

/* Every legal message segment, read as type 9 where its flow is not open. */
static void type_11_as_9(void)
{
    unsigned long kinds[4] = { 0 };
    uint8_t packet[300] = { 0x59, 0, DEVICE, 0, 2 };
    for (unsigned five = 0; five < 256; five++)
        for (unsigned six = 0; six < 256; six++) {
            unsigned msglen = five / 16, code = five % 16, number = six % 16;
            if (code < 9 || code > 14 || (msglen > 0 && number > msglen))
                continue;
            size_t ssize = (size_t)8 << (code - 9);
            bool last = msglen == 0 || number == msglen;
            for (size_t bytes = last ? 8 : ssize; bytes <= ssize; bytes += 8) {
                packet[5] = (uint8_t)five;
                packet[6] = (uint8_t)six;
                kinds[kind_of(alone(packet, 7 + bytes))]++;
            }
        }
    print_kinds("11 read as 9, its flow (source, priority and byte 5) not open", kinds);
}

static void type_bit(void)
{
    begin("type-bit", "| packet | runs | refused | held | delivered |");
    type_9_as_11();
    type_11_as_9();
}

int main(void)
{
    make_crc_table();
    stream_flips();
    message_flips();
    faults(false);
    faults(true);
    two_faults();
    flipped_priority();
    message_examples();
    sizes(false);
    sizes(true);
    how_long();
    type_bit();
    return 0;
}
