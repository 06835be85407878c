/* Messages: every ssize and number of segments, in many orders. */

#include "bundle.h"

static size_t ssize_of(unsigned code)
{
    return (size_t)8 << (code - 9);
}

/* Segment msglen has its own length; the others have ssize. */
static struct packet segment_of(struct box box, unsigned msglen, unsigned code, unsigned number,
                                size_t last)
{
    size_t bytes = number == msglen ? last : ssize_of(code);
    return message_packet(box, msglen, code, number, bytes);
}

/* ---- Whole messages ------------------------------------------------------ */

static void wants_message(struct box box, unsigned msglen, size_t length)
{
    struct buffer lines = { 0 };
    for (unsigned i = 0; i < msglen; i++)
        append_text(&lines, "held, ");
    char last[100];
    snprintf(last, sizeof last, "msg %u %u %u %zu, end %u", box.source, box.letter, box.mbox,
             length, msglen + 1);
    append_text(&lines, last);
    append_byte(&lines, 0);
    wants((const char *)lines.bytes);
    release(&lines);
}

/* The segments of one message in a random order. */
static void shuffled(struct random *random, unsigned msglen, unsigned code)
{
    struct box box;
    box.priority = below(random, 4);
    box.source = below(random, either(65536, 256));
    box.letter = below(random, 4);
    box.mbox = below(random, 4);
    size_t last = 8 * (size_t)between(random, 1, (uint32_t)ssize_of(code) / 8);
    unsigned order[16];
    for (unsigned i = 0; i <= msglen; i++)
        order[i] = i;
    shuffle(random, order, msglen + 1);
    begin("a message in a random order");
    for (unsigned i = 0; i <= msglen; i++)
        put(segment_of(box, msglen, code, order[i], last));
    wants_message(box, msglen, msglen * ssize_of(code) + last);
}

/* Those of 128 and 256 bytes are in the log of 65,536 bytes. */
static void every_size(void)
{
    struct random random = seeded(1);
    section("messages of 2 to 16 segments of 8 to 64 bytes");
    for (unsigned code = 9; code <= 12; code++)
        for (unsigned msglen = 1; msglen <= 15; msglen++)
            shuffled(&random, msglen, code);
}

/* The last segment first or last, short or full. */
static void last_segment(void)
{
    const struct box box = { .priority = 0, .source = 2, .letter = 1, .mbox = 2 };
    section("the last segment first, last, short, full");
    for (unsigned code = 9; code <= 12; code++)
        for (size_t last = 8; last <= ssize_of(code); last += ssize_of(code) > 16 ? 16 : 8) {
            begin("last segment first");
            put(segment_of(box, 2, code, 2, last));
            put(segment_of(box, 2, code, 0, last));
            put(segment_of(box, 2, code, 1, last));
            wants_message(box, 2, 2 * ssize_of(code) + last);

            begin("last segment last");
            put(segment_of(box, 2, code, 1, last));
            put(segment_of(box, 2, code, 0, last));
            put(segment_of(box, 2, code, 2, last));
            wants_message(box, 2, 2 * ssize_of(code) + last);
        }
}

/* ---- Single-segment messages --------------------------------------------- */

static void singles(void)
{
    section("single-segment messages");
    for (unsigned code = 9; code <= 14; code++) {
        begin("each length of an ssize, and each letter, mbox and xmbox");
        unsigned number = 0;
        for (size_t bytes = 8; bytes <= ssize_of(code); bytes += ssize_of(code) > 64 ? 40 : 8) {
            const struct box box = {
                .priority = number % 4,
                .source = 7 + number,
                .letter = number % 4,
                .mbox = number / 2 % 4,
            };
            put(message_packet(box, 0, code, 3 * number % 16, bytes));
            number++;
        }
        finish();
    }

    begin("each byte 6");
    for (unsigned byte = 0; byte < 256; byte++) {
        const struct box box = {
            .priority = 0, .source = 2, .letter = byte / 64, .mbox = byte / 16 % 4
        };
        put(message_packet(box, 0, 9, byte % 16, 8));
    }
    finish();

    const struct box box = { .priority = 0, .source = 2, .letter = 1, .mbox = 2 };
    begin("a single one is never compared with an open one");
    put(message_packet(box, 1, 9, 0, 8));
    put(message_packet(box, 0, 9, 0, 8));
    put(message_packet(box, 0, 9, 1, 8));
    put(message_packet(box, 0, 14, 15, 256));
    put(message_packet(box, 1, 9, 1, 8));
    wants("held, msg 2 1 2 8, msg 2 1 6 8, msg 2 1 62 256, msg 2 1 2 16, end 5");
}

/* ---- Messages side by side ----------------------------------------------- */

static void side_by_side(void)
{
    section("messages side by side");

    begin("another source, letter or mbox is another message");
    const struct box a = { .priority = 0, .source = 2, .letter = 1, .mbox = 2 };
    struct box b = a, c = a, d = a;
    b.source = 3;
    c.letter = 0;
    d.mbox = 1;
    put(message_packet(a, 1, 9, 0, 8));
    put(message_packet(b, 1, 10, 0, 16));
    put(message_packet(c, 1, 11, 0, 32));
    put(message_packet(d, 2, 9, 0, 8));
    put(message_packet(a, 1, 9, 1, 8));
    put(message_packet(b, 1, 10, 1, 8));
    put(message_packet(c, 1, 11, 1, 8));
    put(message_packet(d, 2, 9, 1, 8));
    wants("held, held, held, held, msg 2 1 2 16, msg 3 1 2 24, msg 2 0 2 40, held, end 8");

    struct random random = seeded(2);
    for (unsigned run = 0; run < 3; run++) {
        begin("ten messages at once, with repeats");
        for (unsigned i = 0; i < 120; i++) {
            unsigned which = below(&random, 10);
            unsigned msglen = 1 + which % 5;
            const struct box of = {
                .priority = below(&random, 4),
                .source = 50 + which / 4,
                .letter = which % 4,
                .mbox = run % 4,
            };
            put(segment_of(of, msglen, 9 + run % 2, below(&random, msglen + 1), 8));
        }
        finish();
    }
}

void bundle_messages(void)
{
    every_size();
    last_segment();
    singles();
    side_by_side();
}
