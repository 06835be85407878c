/* Checks of the second program itself, against the paper's own words, by
   hand. Lent blocks are exactly as long as they are said to be, so that the
   sanitizers see a step outside.

   Numbers that differ by the width of the IDs stand here twice, as written out
   by hand. What differs in places alone is tried at both widths (both_widths). */

#include "cases.h"

#include <stdio.h>
#include <stdlib.h>
#include <string.h>

static unsigned checks;

static void must(bool holds, const char *what)
{
    checks++;
    if (holds)
        return;
    fprintf(stderr, "check failed: %s\n", what);
    exit(1);
}

static bool refused_by(struct second_answer answer, unsigned number)
{
    return answer.kind == SECOND_REFUSED && answer.refusal == number && !answer.dropped;
}

static bool same(const void *one, const void *other, size_t count)
{
    return count == 0 || memcmp(one, other, count) == 0;
}

/* A block of exactly this length. */
static uint8_t *block(size_t length, unsigned value)
{
    uint8_t *bytes = malloc(length > 0 ? length : 1);
    if (bytes == NULL)
        exit(1);
    memset(bytes, (int)value, length);
    return bytes;
}

/* Memories for rooms of R, and a response buffer of 9. */
static struct second_lent lend(uint64_t room)
{
    const struct second_lent lent = {
        .stream_memory = block(16 * room, 0xEE),
        .stream_length = 16 * room,
        .message_memory = block(SECOND_MESSAGE_MEMORY, 0xEE),
        .message_length = SECOND_MESSAGE_MEMORY,
        .response = block(9, 0xEE),
        .response_length = 9,
    };
    return lent;
}

static void give_back(struct second_lent lent)
{
    free(lent.stream_memory);
    free(lent.message_memory);
    free(lent.response);
}

/* The state's words, in their order. */
_Static_assert(offsetof(struct second_endpoint, eight_bits) == 3 * 8, "the fourth word");
_Static_assert(offsetof(struct second_endpoint, stream) == 4 * 8, "then 16 of 6 words");
_Static_assert(offsetof(struct second_endpoint, message) == 100 * 8, "then 8 of 8 words");
_Static_assert(sizeof(struct second_endpoint) == 164 * 8, "and no more");

/* Words that mean IDs of 8 bits: any but 0. */
static const uint64_t widths[] = { 1, 2, 8, 16, UINT64_MAX };

enum { WIDTHS = sizeof widths / sizeof widths[0] };

/* ---- The sample ---------------------------------------------------------- */

static const uint8_t sample_log[] = {
    0x0D, 0x19, 0x00, 0x01, 0x00, 0x02, 0x05, 0xC1, 0x00, 0x07, 0xAA, 0xBB, 0xCC, 0x00, 0x0F,
    0x1B, 0x00, 0x01, 0x00, 0x02, 0x09, 0x60, 0x11, 0x12, 0x13, 0x14, 0x15, 0x16, 0x17, 0x18,
};

static bool is_text(struct buffer text, const char *wanted)
{
    bool is = text.length == strlen(wanted) && same(text.bytes, wanted, text.length);
    release(&text);
    return is;
}

static void sample(void)
{
    struct buffer text = { 0 };
    run_log(&text, sample_log, sizeof sample_log);
    must(is_text(text, "pdu 2 5 7 3\nmsg 2 1 2 8\nend 2\n"),
         "the sample log gives the sample output");

    static const uint8_t response[] = { 0x5D, 0x00, 0x02, 0x00, 0x01, 0x10, 0x60 };
    static struct log_endpoint endpoint;
    log_setup(&endpoint, false);
    log_read(&endpoint, sample_log + 1, 13);
    must(same(endpoint.stream_memory, "\xAA\xBB\xCC\0", 4), "three bytes are stored");
    log_read(&endpoint, sample_log + 15, 15);
    must(same(endpoint.response, response, 7), "the sample response is 5D 00 02 00 01 10 60");
    must(same(endpoint.message_memory, sample_log + 22, 8), "eight bytes are stored");
}

/* The same log with IDs of 8 bits: tt 00, and the IDs' first bytes left out. */
static const uint8_t sample_log_of_8_bits[] = {
    0x0B, 0x09, 0x01, 0x02, 0x05, 0xC1, 0x00, 0x07, 0xAA, 0xBB, 0xCC, 0x00, 0x0D,
    0x0B, 0x01, 0x02, 0x09, 0x60, 0x11, 0x12, 0x13, 0x14, 0x15, 0x16, 0x17, 0x18,
};

static void sample_of_8_bits(void)
{
    const uint8_t *log = sample_log_of_8_bits;
    const size_t length = sizeof sample_log_of_8_bits;
    struct buffer text = { 0 };
    run_log_of_8_bits(&text, log, length);
    must(is_text(text, "pdu 2 5 7 3\nmsg 2 1 2 8\nend 2\n"), "the output is the same");
    text = (struct buffer){ 0 };
    must(run_responses(&text, true, log, length), "the log is clean");
    must(is_text(text, "pdu 2 5 7 3\nnone\nmsg 2 1 2 8\n4d02011060\n"),
         "the response is 4D 02 01 10 60");
    text = (struct buffer){ 0 };
    must(!run_responses(&text, true, log, length - 1), "a cut log is not clean");
    must(is_text(text, "pdu 2 5 7 3\nnone\n"), "and stops there");

    text = (struct buffer){ 0 };
    run_log(&text, log, length);
    must(is_text(text, "refused 2\nrefused 2\nend 2\n"), "8 bits at an endpoint of 16");
    text = (struct buffer){ 0 };
    run_log_of_8_bits(&text, sample_log, sizeof sample_log);
    must(is_text(text, "refused 2\nrefused 2\nend 2\n"), "and the other way round");
}

/* ---- Examples 1 to 5 and 13, of the writer ------------------------------- */

static uint8_t pdu[SECOND_LARGEST_PDU + 1];
static uint8_t out[300];

/* Of the width in use. */
static struct second_heading heading(void)
{
    const struct second_heading made = {
        .priority = 0,
        .destination = 1,
        .source = 2,
        .cos = 5,
        .stream_id = 7,
        .eight_bits = eight_bits,
    };
    return made;
}

static struct second_answer write_at(uint64_t mtu, size_t length, uint64_t number)
{
    return second_write_segment(out, sizeof out, heading(), mtu, pdu, length, number);
}

static void examples(void)
{
    must(second_segment_count(32, 32) == 1, "example 1: one packet");
    must(write_at(32, 32, 0).length == 41 && out[6] == 0xC0, "example 1: 41 bytes");

    must(second_segment_count(32, 33) == 2, "example 2: two packets");
    must(write_at(32, 33, 0).length == 41 && out[6] == 0x80, "example 2: the start");
    must(write_at(32, 33, 1).length == 11 && out[6] == 0x43, "example 2: the end");
    must(out[7] == 0x00 && out[8] == 0x21, "example 2: its length");

    must(second_segment_count(32, 64) == 2, "example 3: two packets");
    must(write_at(32, 64, 1).length == 41 && out[6] == 0x40, "example 3: the end");
    must(out[7] == 0x00 && out[8] == 0x40, "example 3: its length");

    must(second_segment_count(32, 65) == 3, "example 4: three packets");
    must(write_at(32, 65, 1).length == 39 && out[6] == 0x00, "example 4: the continuation");

    must(second_segment_count(256, 65536) == 256, "example 5: 256 packets");
    must(write_at(256, 65536, 255).length == 265, "example 5: the end");
    must(out[7] == 0x00 && out[8] == 0x00, "example 5: its length");

    must(refused_by(write_at(32, 0, 0), 14), "example 13: L=0");
}

/* With IDs of 8 bits: two bytes less, and two bytes earlier. */
static void examples_of_8_bits(void)
{
    eight_bits = true;
    must(write_at(32, 32, 0).length == 39 && out[4] == 0xC0, "example 1, 8 bits: 39 bytes");
    must(same(out, "\x09\x01\x02\x05\xC0\x00\x07", 7), "its head");
    must(same(out + 7, pdu, 32), "its data");
    must(write_at(32, 33, 0).length == 39 && out[4] == 0x80, "example 2, 8 bits: the start");
    must(write_at(32, 33, 1).length == 9 && out[4] == 0x43, "example 2, 8 bits: the end");
    must(same(out, "\x09\x01\x02\x05\x43\x00\x21", 7), "its head");
    must(out[7] == pdu[32] && out[8] == 0, "its data and its pad");
    must(write_at(32, 64, 1).length == 39 && out[4] == 0x40, "example 3, 8 bits: the end");
    must(out[5] == 0x00 && out[6] == 0x40, "its length");
    must(write_at(32, 65, 1).length == 37 && out[4] == 0x00, "example 4, 8 bits");
    must(same(out, "\x09\x01\x02\x05\x00", 5), "its head");
    must(same(out + 5, pdu + 32, 32), "its data");
    must(write_at(256, 65536, 255).length == 263, "example 5, 8 bits: the end");
    must(out[5] == 0x00 && out[6] == 0x00, "its length");
    eight_bits = false;
}

/* 47 for either ID over 255, where the width is 8 bits; no byte changes. */
static void writer_47(void)
{
    static const uint16_t ids[] = { 0, 255, 256, 65535 };
    for (unsigned i = 0; i < 16; i++)
        for (unsigned k = 0; k < WIDTHS; k++) {
            bool over = ids[i / 4] > 255 || ids[i % 4] > 255;
            struct second_heading h = heading();
            h.destination = ids[i / 4];
            h.source = ids[i % 4];
            h.eight_bits = widths[k];
            uint8_t *bytes = block(39, 0xEE);
            struct second_answer answer = second_write_segment(bytes, 39, h, 32, pdu, 32, 0);
            must(over ? refused_by(answer, 47) : answer.length == 39, "47 exactly if over 255");
            must(over || (bytes[1] == ids[i / 4] && bytes[2] == ids[i % 4]), "both IDs");
            for (int n = 0; n < 39 && over; n++)
                must(bytes[n] == 0xEE, "47 changes no byte");
            h.eight_bits = 0;
            must(second_write_segment(out, 41, h, 32, pdu, 32, 0).length == 41, "none with 16");
            must(out[0] == 0x19 && out[1] == ids[i / 4] >> 8 && out[2] == (ids[i / 4] & 255)
                     && out[3] == ids[i % 4] >> 8 && out[4] == (ids[i % 4] & 255),
                 "all 16 bits");
            free(bytes);
        }
}

/* The order is 47, 18, 17, 14, 15, 16. */
static void writer_order(void)
{
    const struct second_heading right = heading();
    struct second_heading wrong = right;
    wrong.priority = 4;
    must(refused_by(second_write_segment(NULL, 0, wrong, 33, NULL, 0, 9), 18), "18 first");
    must(refused_by(second_write_segment(NULL, 0, wrong, 32, NULL, 0, 9), 17), "then 17");
    must(refused_by(second_write_segment(NULL, 0, right, 32, NULL, 0, 9), 14), "then 14");
    must(refused_by(second_write_segment(NULL, 0, right, 32, pdu, 65537, 9), 14), "too many");
    must(refused_by(second_write_segment(NULL, 0, right, 32, pdu, 65, 3), 15), "then 15");
    must(refused_by(second_write_segment(NULL, 0, right, 32, pdu, 65, 2), 16), "then 16");
    wrong.eight_bits = 1;
    wrong.destination = 256;
    must(refused_by(second_write_segment(NULL, 0, wrong, 33, NULL, 0, 9), 47), "47 before 18");
    wrong.destination = 255;
    wrong.source = 256;
    must(refused_by(second_write_segment(NULL, 0, wrong, 33, NULL, 0, 9), 47), "the source too");
    wrong.source = 255;
    must(refused_by(second_write_segment(NULL, 0, wrong, 33, NULL, 0, 9), 18), "then 18");
    must(second_segment_count(33, 5) == 0, "no count for a bad MTU");
    must(second_segment_count(32, 0) == 0, "no count for no bytes");
    must(second_segment_count(32, 65537) == 0, "no count for 65,537 bytes");
}

/* A refusal changes no byte; success changes only the packet's. */
static void writer_bytes(uint64_t mtu, size_t length, uint64_t number)
{
    size_t need = write_at(mtu, length, number).length;
    uint8_t *shorter = block(need - 1, 0xEE);
    uint8_t *longer = block(need + 1, 0xEE);
    struct second_answer answer =
        second_write_segment(shorter, need - 1, heading(), mtu, pdu, length, number);
    must(refused_by(answer, 16), "one byte short is 16");
    for (size_t i = 0; i < need - 1; i++)
        must(shorter[i] == 0xEE, "16 changes no byte");
    second_write_segment(longer, need + 1, heading(), mtu, pdu, length, number);
    must(same(longer, out, need), "the packet is the same");
    must(longer[need] == 0xEE, "the byte behind it stays");
    free(shorter);
    free(longer);
}

/* ---- What the writer makes is read back ---------------------------------- */

static void read_back(uint64_t mtu, size_t length, uint64_t room)
{
    struct second_endpoint state;
    second_setup(&state, 1, mtu, room, eight_bits);
    struct second_lent lent = lend(room);
    uint64_t count = second_segment_count(mtu, length);
    struct second_answer answer = { 0 };
    for (uint64_t i = 0; i < count; i++) {
        size_t bytes = write_at(mtu, length, i).length;
        uint8_t *packet = block(bytes, 0);
        memcpy(packet, out, bytes);
        answer = second_read(&state, lent, packet, bytes);
        must(i + 1 == count || answer.kind == SECOND_HELD, "held up to the last");
        free(packet);
    }
    must(answer.kind == SECOND_PDU && answer.context == 0 && answer.source == 2, "delivered");
    must(answer.priority == 0, "its priority");
    must(answer.cos_or_letter == 5 && answer.stream_or_mailbox == 7, "its cos and stream");
    must(answer.length == length && !answer.dropped, "its length");
    must(same(lent.stream_memory, pdu, length), "its bytes");
    for (size_t i = length; i < 16 * room; i++)
        if (lent.stream_memory[i] != 0xEE)
            must(false, "no other byte is written");
    give_back(lent);
}

static void round_trips(void)
{
    for (uint64_t mtu = 32; mtu <= 256; mtu += 4)
        for (size_t length = 1; length < 2 * mtu + 3; length += 7)
            read_back(mtu, length, length < mtu ? mtu : length);
    read_back(32, 33, 33);
    read_back(256, 65536, 65536);
    read_back(32, 65536, 65536);
    read_back(36, 65535, 65535);
    writer_bytes(32, 33, 0);
    writer_bytes(32, 33, 1);
    writer_bytes(32, 65, 1);
    writer_bytes(256, 5, 0);
}

/* ---- Setup and row 19 ---------------------------------------------------- */

static bool all_zero(const struct second_endpoint *state)
{
    static const struct second_endpoint zero;
    return same(state, &zero, sizeof zero);
}

static void setups(void)
{
    struct second_endpoint state;
    must(refused_by(second_setup(&state, 9, 31, 5, 0), 18), "setup: 18 before 19");
    must(all_zero(&state) && second_refusal19(&state), "zeros, which 19 names");
    must(refused_by(second_setup(&state, 9, 34, 2048, 0), 18), "setup: no multiple of 4");
    must(refused_by(second_setup(&state, 9, 260, 2048, 0), 18), "setup: over 256");
    must(refused_by(second_setup(&state, 9, 64, 63, 0), 19), "setup: R under MTU");
    must(all_zero(&state), "zeros again");
    must(refused_by(second_setup(&state, 9, 64, 65537, 0), 19), "setup: R over 65,536");
    must(second_setup(&state, 9, 64, 64, 0).kind == SECOND_READY, "setup: R is MTU");
    must(second_setup(&state, 9, 256, 65536, 0).kind == SECOND_READY, "setup: the largest");
    must(state.device == 9 && state.mtu == 256 && state.room == 65536, "its three numbers");
    must(state.eight_bits == 0, "and its width");
    must(!second_refusal19(&state), "a fresh state is good");
}

/* 47 comes before 18 and 19, and is never given with IDs of 16 bits. */
static void setups_of_8_bits(void)
{
    struct second_endpoint state;
    for (unsigned i = 0; i < WIDTHS; i++) {
        const uint64_t width = widths[i];
        must(refused_by(second_setup(&state, 256, 32, 64, width), 47), "setup: 256 is 47");
        must(all_zero(&state) && second_refusal19(&state), "zeros, which 19 names");
        must(refused_by(second_setup(&state, 65535, 33, 5, width), 47), "47 before 18 and 19");
        must(all_zero(&state), "zeros again");
        must(refused_by(second_setup(&state, 255, 33, 5, width), 18), "then 18");
        must(all_zero(&state), "zeros again");
        must(refused_by(second_setup(&state, 255, 32, 5, width), 19), "then 19");
        must(second_setup(&state, 255, 32, 64, width).kind == SECOND_READY, "255 is allowed");
        must(state.device == 255 && state.eight_bits == width, "the word is kept as it is");
        must(!second_refusal19(&state), "19 names no width");
        must(second_setup(&state, 0, 32, 64, width).kind == SECOND_READY, "0 is allowed");
    }
    must(second_setup(&state, 256, 32, 64, 0).kind == SECOND_READY, "16 bits: 256");
    must(second_setup(&state, 65535, 32, 64, 0).kind == SECOND_READY, "16 bits: 65,535");
    must(state.device == 65535 && state.eight_bits == 0, "its ID");
}

/* A good state with one open context of each kind. */
static struct second_endpoint good_state(void)
{
    struct second_endpoint state;
    second_setup(&state, 1, 32, 100, eight_bits);
    state.stream[3] = (struct second_stream){ 1, 2, 0, 5, 7, 64 };
    state.message[2] = (struct second_message){ 1, 2, 1, 2, 3, 10, 0x8 | 0x1, 8 };
    return state;
}

static void row_19(void)
{
    const struct second_message long_message = { 1, 2, 1, 2, 16, 10, 1, 0 };
    struct second_endpoint state = good_state();
    must(!second_refusal19(&state), "the good state is good");

#define NAMED(change) (state = good_state(), change, second_refusal19(&state))
    must(NAMED(state.mtu = 33), "19: MTU 33");
    must(NAMED(state.mtu = 28), "19: MTU 28");
    must(NAMED(state.mtu = 260), "19: MTU 260");
    must(NAMED(state.mtu = 128), "19: MTU over R");
    must(NAMED(state.room = 65537), "19: R 65,537");
    must(NAMED(state.stream[3].held = 0), "19: holds 0");
    must(NAMED(state.stream[0].open = 1), "19: the first stream");
    must(NAMED(state.stream[15].open = 1), "19: the last stream");
    must(NAMED(state.message[0].open = 1), "19: the first message");
    must(NAMED(state.message[7].open = 1), "19: the last message");
    must(NAMED(state.stream[3].held = 101), "19: holds over R");
    must(!NAMED(state.stream[3].held = 100), "R itself is good");
    must(!NAMED(state.stream[3].held = 33), "no multiple of the MTU is good");
    must(!NAMED(state.stream[4].held = 500), "a free context is not looked at");
    must(!NAMED(state.stream[3].priority = 3), "any priority is good");
    must(!NAMED(state.stream[3].priority = 4), "over 3 too");
    must(!NAMED(state.stream[3].priority = UINT64_MAX), "and any other word");
    must(NAMED(state.message[2].ssize = 8), "19: ssize 8");
    must(NAMED(state.message[2].ssize = 15), "19: ssize 15");
    must(NAMED(state.message[2].msglen = 0), "19: msglen 0");
    must(NAMED(state.message[2].msglen = 16), "19: msglen 16");
    must(NAMED(state.message[2] = long_message), "19: msglen 16, all else right");
    must(NAMED(state.message[2].marks = 0x18), "19: a mark beyond msglen");
    must(NAMED(state.message[2].marks = (uint64_t)1 << 63), "19: a mark far beyond");
    must(NAMED((state.message[2].marks = 0, state.message[2].last = 0)), "19: no marks");
    must(NAMED(state.message[2].marks = 0xF), "19: all marks");
    must(NAMED(state.message[2].marks = 0x1), "19: a last length, but not marked");
    must(!NAMED((state.message[2].marks = 0x1, state.message[2].last = 0)), "unmarked and 0");
    must(NAMED(state.message[2].last = 0), "19: marked, last 0");
    must(NAMED(state.message[2].last = 4), "19: marked, last 4");
    must(NAMED(state.message[2].last = 12), "19: marked, last 12");
    must(NAMED(state.message[2].last = 24), "19: marked, last over ssize");
    must(!NAMED(state.message[2].last = 16), "marked, last is ssize");
    must(!NAMED(state.message[3].marks = 99), "a free message is not looked at");
#undef NAMED
}

/* ---- Abandoning and rooms ------------------------------------------------ */

static void abandoning(void)
{
    static const struct second_stream no_stream;
    static const struct second_message no_message;
    struct second_endpoint state = good_state();
    must(refused_by(second_abandon_stream(&state, 16), 13), "13: stream 16");
    must(refused_by(second_abandon_message(&state, 8), 13), "13: message 8");
    must(second_abandon_stream(&state, 2).kind == SECOND_WAS_FREE, "stream 2 was free");
    must(second_abandon_message(&state, 7).kind == SECOND_WAS_FREE, "message 7 was free");
    state.stream[2].held = 9;
    must(second_abandon_stream(&state, 2).kind == SECOND_WAS_FREE, "it was free");
    must(state.stream[2].held == 9, "and stays as it is");
    must(second_abandon_stream(&state, 3).kind == SECOND_ABANDONED, "stream 3 was open");
    must(same(&state.stream[3], &no_stream, sizeof no_stream), "its fields are 0");
    must(second_abandon_message(&state, 2).kind == SECOND_ABANDONED, "message 2 was open");
    must(same(&state.message[2], &no_message, sizeof no_message), "its fields are 0");
    state.mtu = 0;
    must(refused_by(second_abandon_stream(&state, 16), 19), "19 before 13");
    must(refused_by(second_abandon_message(&state, 8), 19), "19 before 13");
}

static void rooms(void)
{
    struct second_endpoint state = good_state();
    static uint8_t memory[SECOND_MESSAGE_MEMORY];
    struct second_part part = second_stream_room(&state, memory, 1600, 15, 100);
    must(part.bytes == memory + 1500 && part.length == 100, "the last stream room");
    must(second_stream_room(&state, memory, 1600, 16, 1).length == 0, "no room 16");
    must(second_stream_room(&state, memory, 1600, 0, 101).length == 0, "over R");
    must(second_stream_room(&state, memory, 1601, 0, 1).length == 0, "a memory of another size");
    part = second_message_room(&state, memory, sizeof memory, 7, 4096);
    must(part.bytes == memory + 7 * 4096 && part.length == 4096, "the last message room");
    must(second_message_room(&state, memory, sizeof memory, 8, 1).length == 0, "no room 8");
    must(second_message_room(&state, memory, sizeof memory, 0, 4097).length == 0, "over 4,096");
    must(second_message_room(&state, memory, 100, 0, 1).length == 0, "a memory of another size");
    state.message[0].open = 1;
    must(second_stream_room(&state, memory, 1600, 0, 1).length == 0, "a state that 19 names");
    must(second_message_room(&state, memory, sizeof memory, 0, 1).length == 0, "and messages");
}

/* ---- Reading, beside the logs -------------------------------------------- */

static struct second_answer read_one(struct second_endpoint *state, struct second_lent lent,
                                     struct packet packet)
{
    uint8_t *bytes = block(packet.length, 0);
    memcpy(bytes, packet.bytes, packet.length);
    struct second_answer answer = second_read(state, lent, bytes, packet.length);
    free(bytes);
    return answer;
}

static void row_12(void)
{
    const struct flow flow = { .priority = 0, .source = 2, .cos = 5 };
    const struct packet single = stream_packet(flow, SINGLE, 7, 32);
    struct second_endpoint state = good_state();
    const struct second_endpoint before = state;
    struct second_lent lent = lend(100);
    struct second_lent wrong = lent;
    wrong.stream_length = 1599;
    must(refused_by(read_one(&state, wrong, single), 12), "12: stream memory short");
    wrong.stream_length = 1601;
    must(refused_by(read_one(&state, wrong, single), 12), "12: stream memory long");
    wrong = lent;
    wrong.message_length = 32767;
    must(refused_by(read_one(&state, wrong, single), 12), "12: message memory short");
    wrong.message_length = 32769;
    must(refused_by(read_one(&state, wrong, single), 12), "12: message memory long");
    wrong = lent;
    wrong.response_length = eight_bits ? 4 : 6;
    must(refused_by(read_one(&state, wrong, single), 12), "12: response short");
    must(refused_by(read_one(&state, wrong, cut_to(single, 0)), 12), "12 before 1");
    must(same(&state, &before, sizeof state), "12 leaves all");
    wrong.response_length = eight_bits ? 5 : 7;
    must(refused_by(read_one(&state, wrong, cut_to(single, 0)), 1), "no more is needed");
    wrong.response_length = 0;
    state.mtu = 0;
    must(refused_by(read_one(&state, wrong, single), 19), "19 before 12");
    give_back(lent);
}

/* Two open contexts of one flow or one message: the lower number counts. */
static void lower_number(void)
{
    const struct flow flow = { .priority = 0, .source = 2, .cos = 5 };
    const struct box box = { .priority = 0, .source = 2, .letter = 1, .mbox = 2 };
    struct second_endpoint state = good_state();
    struct second_lent lent = lend(100);
    state.stream[9] = (struct second_stream){ 1, 2, 0, 5, 8, 32 };
    struct second_answer answer = read_one(&state, lent, stream_packet(flow, END, 72, 8));
    must(answer.kind == SECOND_PDU && answer.context == 3, "stream 3 before stream 9");
    answer = read_one(&state, lent, stream_packet(flow, END, 40, 8));
    must(answer.kind == SECOND_PDU && answer.context == 9, "then stream 9");
    must(same(lent.stream_memory + 900, "\xEE", 1), "its first bytes stay");

    state.message[6] = (struct second_message){ 1, 2, 1, 2, 1, 9, 1, 0 };
    answer = read_one(&state, lent, message_packet(box, 1, 9, 1, 8));
    must(refused_by(answer, 23), "message 2 before message 6");
    must(lent.response[at(5)] == 0x17, "and its ERROR");
    read_one(&state, lent, message_packet(box, 3, 10, 1, 16));
    answer = read_one(&state, lent, message_packet(box, 3, 10, 2, 16));
    must(answer.kind == SECOND_MESSAGE && answer.context == 2 && answer.length == 56, "message 2");
    answer = read_one(&state, lent, message_packet(box, 1, 9, 1, 8));
    must(answer.kind == SECOND_MESSAGE && answer.context == 6 && answer.length == 16, "message 6");
    give_back(lent);
}

/* Every field of a context that is taken, whatever stood there before. */
static void taken(void)
{
    const unsigned source = either(513, 253);
    const struct flow flow = { .priority = 3, .source = source, .cos = 255 };
    const struct box box = { .priority = 3, .source = source, .letter = 3, .mbox = 1 };
    const struct second_stream stream = { 1, source, 3, 255, 65535, 32 };
    const struct second_message message = { 1, source, 3, 1, 15, 10, 0x8000, 8 };
    struct second_endpoint state;
    second_setup(&state, 1, 32, 64, eight_bits);
    state.stream[0] = (struct second_stream){ 0, source, 9, 255, 9, 9 };
    state.message[0] = (struct second_message){ 0, source, 3, 1, 99, 99, 99, 99 };
    struct second_lent lent = lend(64);
    read_one(&state, lent, stream_packet(flow, START, 65535, 32));
    must(same(&state.stream[0], &stream, sizeof stream), "a stream context is taken");
    read_one(&state, lent, message_packet(box, 15, 10, 15, 8));
    must(same(&state.message[0], &message, sizeof message), "a message context is taken");
    state.message[1] = (struct second_message){ 0, 9, 9, 9, 9, 9, 9, 9 };
    struct second_answer answer = read_one(&state, lent, message_packet(box, 0, 9, 15, 8));
    must(answer.context == 1 && answer.stream_or_mailbox == 61, "a single message takes the next");
    must(state.message[1].open == 0 && state.message[1].last == 0, "and leaves zeros");
    must(lent.message_memory[4096] != 0xEE, "in its own room");
    give_back(lent);
}

/* ---- The priority, which belongs to the flow (M-103) ------------------------ */

/* Another number of words is no state: 12, an empty part, and every word stays.
   148 is what a state had before the priority, 147 before the width. */
static void no_state(void)
{
    static const size_t counts[] = { 0, 1, 4, 147, 148, 149, 163, 165, 328 };
    const struct flow flow = { .priority = 0, .source = 2, .cos = 5 };
    const struct packet single = stream_packet(flow, SINGLE, 7, 32);
    struct second_lent lent = lend(100);
    must(SECOND_STATE_WORDS == 164, "the words of a state");
    for (size_t i = 0; i < sizeof counts / sizeof counts[0]; i++) {
        const size_t bytes = 8 * counts[i];
        uint64_t *words = (uint64_t *)(void *)block(bytes, 0x77);
        uint8_t *before = block(bytes, 0x77);
        struct second_endpoint *none = second_state(words, counts[i]);
        must(none == NULL, "no state");
        must(refused_by(second_setup(none, 1, 32, 100, eight_bits), 12), "12: setup");
        must(refused_by(second_setup(none, 65535, 33, 5, eight_bits), 12), "12 before 47 and 18");
        must(refused_by(read_one(none, lent, single), 12), "12: reading");
        must(refused_by(second_abandon_stream(none, 16), 12), "12: abandoning, before 13");
        must(refused_by(second_abandon_message(none, 8), 12), "12: abandoning");
        struct second_part part = second_stream_room(none, lent.stream_memory, 1600, 1, 1);
        must(part.bytes == lent.stream_memory && part.length == 0, "no stream room");
        part = second_message_room(none, lent.message_memory, SECOND_MESSAGE_MEMORY, 1, 1);
        must(part.bytes == lent.message_memory && part.length == 0, "no message room");
        must(same(words, before, bytes), "every word stays");
        free(words);
        free(before);
    }
    must(lent.stream_memory[0] == 0xEE && lent.response[0] == 0xEE, "every byte stays");
    give_back(lent);
}

/* The six words of stream context n are these. */
static bool words_are(const uint64_t *state, int n, const uint64_t *words)
{
    return same(state + 4 + 6 * n, words, 6 * 8);
}

/* Where the priority stands; that closing, of every kind, sets it to 0; and that
   the words beside it stay. */
static void priority_word(void)
{
    static const uint64_t zeros[6];
    const unsigned source = either(513, 253);
    const struct flow urgent = { .priority = 3, .source = source, .cos = 255 };
    const struct flow other = { .priority = 2, .source = source, .cos = 255 };
    const struct box box = { .priority = 1, .source = source, .letter = 3, .mbox = 1 };
    const uint64_t first[6] = { 1, source, 3, 255, 65535, 32 };
    const uint64_t second[6] = { 1, source, 2, 255, 9, 32 };
    const uint64_t message[8] = { 1, source, 3, 1, 15, 10, 0x8000, 8 };
    struct second_lent lent = lend(64);
    uint64_t *words = (uint64_t *)(void *)block(164 * 8, 0x77);
    struct second_endpoint *state = second_state(words, 164);
    second_setup(state, 1, 32, 64, eight_bits);
    must(words[0] == 1 && words[1] == 32 && words[2] == 64 && words[3] == eight_bits, "setup");
    for (int i = 4; i < 164; i++)
        must(words[i] == 0, "a fresh state");

    read_one(state, lent, stream_packet(urgent, START, 65535, 32));
    read_one(state, lent, stream_packet(other, START, 9, 32));
    read_one(state, lent, message_packet(box, 15, 10, 15, 8));
    must(words_are(words, 0, first), "live, source, priority, cos, streamID, held");
    must(words_are(words, 1, second), "another priority has the next context");
    must(same(words + 100, message, 8 * 8), "messages begin at word 100");
    for (int i = 16; i < 100; i++)
        must(words[i] == 0, "no other stream context");

    struct second_answer answer = read_one(state, lent, stream_packet(urgent, END, 40, 8));
    must(answer.kind == SECOND_PDU && answer.context == 0 && answer.priority == 3, "delivered");
    must(words_are(words, 0, zeros) && words_are(words, 1, second), "delivery sets it to 0");
    read_one(state, lent, stream_packet(urgent, START, 65535, 32));
    must(words_are(words, 0, first), "taken again");
    answer = read_one(state, lent, stream_packet(urgent, CONTINUATION, 0, 0));
    must(answer.refusal == 6 && answer.dropped, "closed by 6");
    must(words_are(words, 0, zeros) && words_are(words, 1, second), "6 sets it to 0");
    read_one(state, lent, stream_packet(urgent, START, 65535, 32));
    must(second_abandon_stream(state, 0).kind == SECOND_ABANDONED, "abandoned");
    must(words_are(words, 0, zeros) && words_are(words, 1, second), "that sets it to 0");
    must(same(words + 100, message, 8 * 8), "the message is as it was");
    free(words);
    give_back(lent);
}

/* A priority over 3 is in no packet, so such a context is never found. It is open
   for all that: it may be abandoned, and it is not free. */
static void priority_over_3(void)
{
    static const uint64_t over[] = { 4, 5, 7, 64, 192, 256, (uint64_t)1 << 32, UINT64_MAX - 3 };
    for (size_t i = 0; i < sizeof over / sizeof over[0]; i++) {
        struct second_endpoint state = good_state();
        struct second_lent lent = lend(100);
        state.stream[3].priority = over[i];
        const struct second_stream strange = state.stream[3];
        must(!second_refusal19(&state), "19 does not name it");
        for (unsigned priority = 0; priority < 4; priority++) {
            const struct flow flow = { .priority = priority, .source = 2, .cos = 5 };
            struct second_answer answer = read_one(&state, lent, stream_packet(flow, END, 72, 8));
            must(refused_by(answer, 8), "no end finds it");
            answer = read_one(&state, lent, stream_packet(flow, START, 8, 32));
            must(answer.kind == SECOND_HELD && !answer.dropped, "no start gives it up");
            answer = read_one(&state, lent, stream_packet(flow, SINGLE, 8, 31));
            must(answer.kind == SECOND_PDU && answer.dropped && answer.context == 0, "context 0");
        }
        must(same(&state.stream[3], &strange, sizeof strange), "it stays as it is");
        for (int k = 0; k < 16; k++)
            state.stream[k] = strange;
        const struct flow flow = { .priority = 0, .source = 2, .cos = 5 };
        must(refused_by(read_one(&state, lent, stream_packet(flow, START, 8, 32)), 10), "not free");
        must(second_abandon_stream(&state, 3).kind == SECOND_ABANDONED, "abandoned");
        must(state.stream[3].priority == 0 && state.stream[2].priority == over[i], "by number");
        give_back(lent);
    }
}

/* A delivery carries the flow's priority, a single's too; a message's is 0. */
static void delivered_priority(void)
{
    struct second_endpoint state;
    struct second_lent lent = lend(64);
    second_setup(&state, 1, 32, 64, eight_bits);
    for (unsigned priority = 0; priority < 4; priority++) {
        const struct flow flow = { .priority = priority, .source = 2, .cos = 5 };
        const struct box box = { .priority = priority, .source = 2, .letter = 1, .mbox = 2 };
        struct second_answer answer = read_one(&state, lent, stream_packet(flow, START, 7, 32));
        must(answer.kind == SECOND_HELD && answer.priority == 0, "held says no priority");
        answer = read_one(&state, lent, stream_packet(flow, END, 40, 8));
        must(answer.kind == SECOND_PDU && answer.priority == priority, "an end");
        must(answer.source == 2 && answer.cos_or_letter == 5, "beside source and cos");
        must(answer.stream_or_mailbox == 7 && answer.length == 40, "and stream and length");
        answer = read_one(&state, lent, stream_packet(flow, SINGLE, 8, 9));
        must(answer.kind == SECOND_PDU && answer.priority == priority, "a single");
        answer = read_one(&state, lent, stream_packet(flow, END, 40, 8));
        must(refused_by(answer, 8) && answer.priority == 0, "a refusal says none");
        answer = read_one(&state, lent, message_packet(box, 0, 9, 0, 8));
        must(answer.kind == SECOND_MESSAGE && answer.priority == 0, "a message's is 0");
    }
    give_back(lent);
}

/* Example 8 with the second PDU at another priority: it opens a second context
   and drops nothing. */
static void example_8_at(unsigned one, unsigned other)
{
    const struct flow first = { .priority = one, .source = 2, .cos = 5 };
    const struct flow second = { .priority = other, .source = 2, .cos = 5 };
    const struct packet start = stream_packet(first, START, 7, 32);
    struct second_endpoint state;
    struct second_lent lent = lend(64);
    second_setup(&state, 1, 32, 64, eight_bits);
    must(read_one(&state, lent, start).kind == SECOND_HELD, "held");
    struct second_answer answer = read_one(&state, lent, stream_packet(second, START, 8, 32));
    must(answer.kind == SECOND_HELD && !answer.dropped, "held, not dropped");
    must(state.stream[1].open && state.stream[1].priority == other, "in context 1");
    answer = read_one(&state, lent, stream_packet(second, END, 40, 8));
    must(answer.kind == SECOND_PDU && answer.context == 1, "delivered from context 1");
    must(answer.priority == other && answer.stream_or_mailbox == 8, "the second PDU");
    must(state.stream[0].open && state.stream[0].priority == one, "context 0 holds");
    must(state.stream[0].stream_id == 7 && state.stream[0].held == 32, "the first");
    must(same(lent.stream_memory, start.bytes + at(9), 32), "with its bytes");
    answer = read_one(&state, lent, stream_packet(first, END, 40, 8));
    must(answer.kind == SECOND_PDU && answer.context == 0, "its own end delivers it");
    must(answer.priority == one && answer.stream_or_mailbox == 7, "the first PDU");
    give_back(lent);
}

static void example_8(void)
{
    for (unsigned one = 0; one < 4; one++)
        for (unsigned other = 0; other < 4; other++)
            if (one != other)
                example_8_at(one, other);
}

/* A message's segments may come at different priorities; 23 and 24 do not look at
   them; each response has its own packet's, one higher and at most 3. */
static void mixed_message(void)
{
    static const struct {
        unsigned priority, msglen, msgseg;
        enum second_kind kind;
        unsigned refusal;
        uint8_t wide[7], narrow[5];
    } steps[] = {
        /* clang-format off */
        { 3, 3, 2, SECOND_HELD, 0, { 0xDD, 0, 77, 0, 1, 0x10, 0x62 }, { 0xCD, 77, 1, 0x10, 0x62 } },
        { 0, 3, 0, SECOND_HELD, 0, { 0x5D, 0, 77, 0, 1, 0x10, 0x60 }, { 0x4D, 77, 1, 0x10, 0x60 } },
        { 1, 3, 0, SECOND_REFUSED, 24, { 0x9D, 0, 77, 0, 1, 0x17, 0x60 }, { 0x8D, 77, 1, 0x17, 0x60 } },
        { 2, 2, 1, SECOND_REFUSED, 23, { 0xDD, 0, 77, 0, 1, 0x17, 0x61 }, { 0xCD, 77, 1, 0x17, 0x61 } },
        { 1, 3, 3, SECOND_HELD, 0, { 0x9D, 0, 77, 0, 1, 0x10, 0x63 }, { 0x8D, 77, 1, 0x10, 0x63 } },
        { 2, 3, 1, SECOND_MESSAGE, 0, { 0xDD, 0, 77, 0, 1, 0x10, 0x61 }, { 0xCD, 77, 1, 0x10, 0x61 } },
        /* clang-format on */
    };
    struct second_endpoint state;
    struct second_lent lent = lend(64);
    second_setup(&state, 1, 32, 64, eight_bits);
    for (size_t i = 0; i < sizeof steps / sizeof steps[0]; i++) {
        const struct box box = {
            .priority = steps[i].priority, .source = 77, .letter = 1, .mbox = 2
        };
        struct second_answer answer =
            read_one(&state, lent, message_packet(box, steps[i].msglen, 9, steps[i].msgseg, 8));
        must(answer.kind == steps[i].kind && answer.refusal == steps[i].refusal, "one message");
        must(same(lent.response, eight_bits ? steps[i].narrow : steps[i].wide, at(7)),
             "a response follows its own packet");
        must(i < 5 || (answer.context == 0 && answer.length == 32), "all in context 0");
    }
    must(state.message[1].open == 0, "no second message");
    give_back(lent);
}

/* ---- Both widths, byte by byte -------------------------------------------- */

static uint8_t kept[7];

/* Reads one packet at a fresh endpoint, with a response buffer of exactly the
   bytes that the width needs. What stands in it then is kept. */
static struct second_answer read_fresh(uint16_t device, uint64_t width, const uint8_t *bytes,
                                       size_t length)
{
    const size_t response = width ? 5 : 7;
    struct packet packet = { .length = length };
    struct second_endpoint state;
    struct second_lent lent = lend(64);
    memcpy(packet.bytes, bytes, length);
    free(lent.response);
    lent.response = block(response, 0xEE);
    lent.response_length = response;
    second_setup(&state, device, 32, 64, width);
    struct second_answer answer = read_one(&state, lent, packet);
    memcpy(kept, lent.response, response);
    give_back(lent);
    return answer;
}

/* Row 1: every length below the limit, and the limit itself, where another row
   comes to speak: 2, 3 and 4 behind the first limit, 5, 6 and 20 behind the
   second, 6 behind the third. */
static void limits(void)
{
    static const struct {
        uint64_t width;
        size_t limit;
        unsigned number;
        uint8_t bytes[9];
    } cases[] = {
        { 0, 5, 2, { 0x09, 0, 1, 0, 2 } },
        { 0, 5, 3, { 0x19, 0, 3, 0, 2 } },
        { 0, 5, 4, { 0x15, 0, 1, 0, 2 } },
        { 0, 7, 5, { 0x19, 0, 1, 0, 2, 5, 0xC4 } },
        { 0, 7, 6, { 0x19, 0, 1, 0, 2, 5, 0x00 } },
        { 0, 7, 20, { 0x1B, 0, 1, 0, 2, 8, 0x60 } },
        { 0, 9, 6, { 0x19, 0, 1, 0, 2, 5, 0x80, 0, 7 } },
        { 0, 9, 6, { 0x19, 0, 1, 0, 2, 5, 0x40, 0, 7 } },
        { 0, 9, 6, { 0x19, 0, 1, 0, 2, 5, 0xC0, 0, 7 } },
        { 1, 3, 2, { 0x19, 1, 2 } },
        { 1, 3, 3, { 0x09, 3, 2 } },
        { 1, 3, 4, { 0x05, 1, 2 } },
        { 1, 5, 5, { 0x09, 1, 2, 5, 0xC4 } },
        { 1, 5, 6, { 0x09, 1, 2, 5, 0x00 } },
        { 1, 5, 20, { 0x0B, 1, 2, 8, 0x60 } },
        { 1, 7, 6, { 0x09, 1, 2, 5, 0x80, 0, 7 } },
        { 1, 7, 6, { 0x09, 1, 2, 5, 0x40, 0, 7 } },
        { 1, 7, 6, { 0x09, 1, 2, 5, 0xC0, 0, 7 } },
    };
    for (size_t i = 0; i < sizeof cases / sizeof cases[0]; i++)
        for (size_t length = 0; length <= cases[i].limit; length++) {
            unsigned number = length < cases[i].limit ? 1 : cases[i].number;
            must(refused_by(read_fresh(1, cases[i].width, cases[i].bytes, length), number),
                 "row 1 at its limits");
        }
}

/* tt 01 is 16 bits, 00 is 8 bits, 10 and 11 are neither. */
static void every_tt(void)
{
    static const uint8_t of_16_bits[] = { 0x09, 0, 1, 0, 2, 5, 0xC2, 0, 7, 1, 2 };
    static const uint8_t of_8_bits[] = { 0x09, 1, 2, 5, 0xC2, 0, 7, 1, 2 };
    for (unsigned tt = 0; tt < 4; tt++) {
        uint8_t wide[sizeof of_16_bits], narrow[sizeof of_8_bits];
        memcpy(wide, of_16_bits, sizeof wide);
        memcpy(narrow, of_8_bits, sizeof narrow);
        wide[0] = narrow[0] = (uint8_t)(tt << 4 | 9);
        struct second_answer answer = read_fresh(1, 0, wide, sizeof wide);
        must(tt == 1 ? answer.kind == SECOND_PDU : refused_by(answer, 2), "16 bits: tt 01 alone");
        answer = read_fresh(1, 1, narrow, sizeof narrow);
        must(tt == 0 ? answer.kind == SECOND_PDU : refused_by(answer, 2), "8 bits: tt 00 alone");
        must(tt != 0
                 || (answer.source == 2 && answer.cos_or_letter == 5 && answer.length == 2
                     && answer.stream_or_mailbox == 7),
             "its fields");
    }
}

/* Our own ID at its edges; the response has the request's IDs swapped. */
static void own_ids(void)
{
    static const uint8_t narrow[2] = { 0, 255 };
    static const uint16_t wide[4] = { 0, 255, 256, 65535 };
    uint8_t message[15] = { 0x8B, 0, 77, 0x09, 0x6F };
    for (int i = 0; i < 2; i++) {
        message[1] = narrow[i];
        struct second_answer answer = read_fresh(narrow[i], 1, message, 13);
        must(answer.kind == SECOND_MESSAGE && answer.source == 77, "8 bits: a message");
        must(answer.stream_or_mailbox == 62 && answer.length == 8, "its mailbox and length");
        const uint8_t response[5] = { 0xCD, 77, narrow[i], 0x10, 0x6F };
        must(answer.response == 5 && same(kept, response, 5), "8 bits: its response");
        must(refused_by(read_fresh(narrow[1 - i], 1, message, 13), 3), "8 bits: not ours");
    }
    memcpy(message, "\x9B\0\0\0\x4D\x09\x6F", 7);
    for (int i = 0; i < 4; i++) {
        message[1] = (uint8_t)(wide[i] >> 8);
        message[2] = (uint8_t)wide[i];
        struct second_answer answer = read_fresh(wide[i], 0, message, 15);
        must(answer.kind == SECOND_MESSAGE && answer.source == 77, "16 bits: a message");
        const uint8_t response[7] = { 0xDD, 0, 77, message[1], message[2], 0x10, 0x6F };
        must(answer.response == 7 && same(kept, response, 7), "16 bits: its response");
        must(refused_by(read_fresh(wide[i] ^ 0x100, 0, message, 15), 3), "all 16 bits count");
    }
}

/* A packet of the other width is 1 below the endpoint's own limit, and else 2. */
static void other_width(void)
{
    static const uint8_t wide[] = { 0x19, 0, 1, 0, 2, 5, 0xC2, 0, 7, 1, 2 };
    static const uint8_t narrow[] = { 0x09, 1, 2, 5, 0xC2, 0, 7, 1, 2 };
    for (size_t length = 0; length <= sizeof narrow; length++)
        must(refused_by(read_fresh(1, 0, narrow, length), length < 5 ? 1 : 2),
             "8 bits at an endpoint of 16: 3 or 4 bytes are 1, more are 2");
    for (size_t length = 0; length <= sizeof wide; length++)
        must(refused_by(read_fresh(1, 1, wide, length), length < 3 ? 1 : 2),
             "16 bits at an endpoint of 8");
    for (unsigned device = 0; device <= 65535; device += 257)
        must(refused_by(read_fresh((uint16_t)device, 0, narrow, sizeof narrow), 2), "any ID");
}

/* Every word but 0 means 8 bits, in setup and in a state that was written over. */
static void any_width_word(void)
{
    const struct flow flow = { .priority = 0, .source = 2, .cos = 5 };
    for (unsigned i = 0; i < WIDTHS; i++) {
        struct second_endpoint state;
        struct second_lent lent = lend(64);
        second_setup(&state, 1, 32, 64, 0);
        read_one(&state, lent, stream_packet(flow, START, 7, 32));
        state.eight_bits = widths[i];
        must(refused_by(read_one(&state, lent, stream_packet(flow, END, 40, 8)), 2), "not 16");
        eight_bits = true;
        struct second_answer answer = read_one(&state, lent, stream_packet(flow, END, 40, 8));
        must(answer.kind == SECOND_PDU && answer.length == 40, "but 8");
        must(state.eight_bits == widths[i], "the word stays");
        eight_bits = false;
        give_back(lent);
    }
}

/* Odd R, with a pad: the pad must not be stored in the next room. */
static void odd_room(void)
{
    const struct flow flow = { .priority = 0, .source = 2, .cos = 5 };
    struct second_endpoint state;
    second_setup(&state, 1, 32, 33, eight_bits);
    struct second_lent lent = lend(33);
    struct packet end = stream_packet(flow, END, 33, 1);
    read_one(&state, lent, stream_packet(flow, START, 7, 32));
    struct second_answer answer = read_one(&state, lent, with_byte(end, end.length - 1, 0x77));
    must(answer.kind == SECOND_PDU && answer.length == 33, "33 bytes in a room of 33");
    must(lent.stream_memory[33] == 0xEE, "the pad is not stored");
    give_back(lent);
}

/* Segments are stored at their places, whatever order they come in. */
static void message_places(void)
{
    const struct box box = { .priority = 3, .source = either(65535, 255), .letter = 3, .mbox = 3 };
    struct second_endpoint state;
    second_setup(&state, 1, 32, 64, eight_bits);
    struct second_lent lent = lend(64);
    static const unsigned order[] = { 15, 3, 0, 14, 1, 2, 7, 6, 5, 4, 8, 13, 12, 9, 10, 11 };
    struct second_answer answer = { 0 };
    for (unsigned i = 0; i < 16; i++) {
        struct packet packet = message_packet(box, 15, 14, order[i], order[i] == 15 ? 248 : 256);
        for (size_t k = 0; k < packet.length - at(7); k++)
            packet.bytes[at(7) + k] = (uint8_t)(order[i] + k + 7);
        answer = read_one(&state, lent, packet);
        must(i == 15 || answer.kind == SECOND_HELD, "held up to the last");
        must(lent.response[0] == (eight_bits ? 0xCD : 0xDD), "at priority 3");
        must(lent.response[at(5)] == 0x10, "DONE");
    }
    must(answer.kind == SECOND_MESSAGE && answer.length == 15 * 256 + 248, "4,088 bytes");
    for (unsigned i = 0; i < 4088; i++)
        must(lent.message_memory[i] == (uint8_t)(i / 256 + 7 + i % 256), "each at its place");
    must(lent.message_memory[4088] == 0xEE, "and no more");
    give_back(lent);
}

/* ---- Any state, any packet ----------------------------------------------- */

/* Few flows, so that packets often find theirs, or one that differs in its
   priority alone. */
static struct second_stream random_stream(struct random *random, uint32_t room)
{
    struct second_stream c = { .open = 1 };
    c.source = below(random, 2);
    c.priority = below(random, one_in(random, 10) ? 6 : 4);
    c.cos = below(random, 2);
    c.stream_id = below(random, 65536);
    c.held = between(random, 1, room);
    return c;
}

static struct second_message random_message(struct random *random)
{
    struct second_message c = {
        .open = 1,
        .source = below(random, 2),
        .letter = below(random, 2),
        .mbox = below(random, 2),
        .msglen = between(random, 1, 3),
        .ssize = between(random, 9, 10),
    };
    uint64_t all = ((uint64_t)2 << c.msglen) - 1;
    c.marks = between(random, 1, (uint32_t)all - 1);
    if (c.marks >> c.msglen & 1)
        c.last = 8;
    return c;
}

static struct second_endpoint random_state(struct random *random)
{
    struct second_endpoint state;
    uint64_t mtu = 32 + 4 * (uint64_t)below(random, 3);
    uint64_t room = mtu + below(random, 70);
    second_setup(&state, 1, mtu, room, eight_bits ? widths[below(random, WIDTHS)] : 0);
    uint32_t full = between(random, 1, 8);
    for (int i = 0; i < SECOND_STREAM_CONTEXTS; i++)
        if (!one_in(random, full))
            state.stream[i] = random_stream(random, (uint32_t)room);
    for (int i = 0; i < SECOND_MESSAGE_CONTEXTS; i++)
        if (!one_in(random, full))
            state.message[i] = random_message(random);
    if (one_in(random, 10))
        ((uint64_t *)&state)[below(random, sizeof state / 8)] = any(random);
    return state;
}

static struct packet random_packet(struct random *random, uint64_t mtu)
{
    static const enum segment_kind kinds[4] = { CONTINUATION, END, START, SINGLE };
    const struct flow flow = { below(random, 4), below(random, 2), below(random, 2) };
    const struct box box = {
        below(random, 4),
        below(random, 2),
        below(random, 2),
        below(random, 2),
    };
    size_t bytes = one_in(random, 4) ? below(random, 50) : (size_t)mtu % 500;
    struct packet packet = stream_packet(flow, kinds[below(random, 4)], below(random, 150), bytes);
    if (one_in(random, 2)) {
        unsigned ssize = between(random, 9, 10);
        packet = message_packet(box, below(random, 4), ssize, below(random, 5),
                                one_in(random, 4) ? below(random, 30) : 8 * (ssize - 8));
    }
    if (eight_bits && one_in(random, 12))
        packet = widened(packet);
    if (one_in(random, 6))
        packet = with_flipped(packet, below(random, 9), 1u << below(random, 8));
    if (one_in(random, 10))
        packet = cut_to(packet, below(random, (uint32_t)packet.length + 1));
    return packet;
}

struct outcome {
    const struct second_endpoint *before;
    const struct second_endpoint *after;
    struct second_answer answer;
    bool memory_same;
    const uint8_t *response; /* of 9 bytes */
    const struct packet *packet;
};

static bool closes_by(unsigned refusal)
{
    return refusal == 6 || refusal == 7 || refusal == 9 || refusal == 11;
}

static void check_refused(const struct outcome *o)
{
    bool state_same = same(o->before, o->after, sizeof *o->before);
    must(o->memory_same, "no refusal changes a room");
    if (closes_by(o->answer.refusal))
        must(o->answer.dropped == !state_same, "dropped exactly if a context was closed");
    else
        must(state_same && !o->answer.dropped, "the others leave all");
}

/* What a packet does is done to a flow of its own priority: no other open context
   changes, and a delivery has that priority. */
static void check_priority(const struct outcome *o)
{
    const unsigned priority = o->packet->bytes[0] >> 6;
    for (int i = 0; i < SECOND_STREAM_CONTEXTS; i++) {
        const struct second_stream *before = &o->before->stream[i];
        if (before->open && before->priority != priority)
            must(same(before, &o->after->stream[i], sizeof *before), "of another priority");
    }
    must(o->answer.priority == (o->answer.kind == SECOND_PDU ? priority : 0), "its priority");
}

/* The status that has to be in the response; -1 for no response. */
static int wanted_status(const struct outcome *o)
{
    if (o->answer.kind == SECOND_REFUSED && o->answer.refusal == 25)
        return 3;
    if (o->answer.kind == SECOND_REFUSED && o->answer.refusal >= 20)
        return 7;
    if (o->answer.kind == SECOND_REFUSED || (o->packet->bytes[0] & 15) == 9)
        return -1;
    return 0;
}

/* The response to a packet, as the paper has it, of either width. */
static struct packet wanted_response(const struct outcome *o, unsigned status)
{
    static const uint8_t of_16_bits[4] = { 0x5D, 0x9D, 0xDD, 0xDD };
    static const uint8_t of_8_bits[4] = { 0x4D, 0x8D, 0xCD, 0xCD };
    const uint8_t *to = o->packet->bytes;
    if (o->before->eight_bits)
        return (struct packet){
            .bytes = { of_8_bits[to[0] >> 6], to[2], 1, (uint8_t)(0x10 | status), to[4] },
            .length = 5,
        };
    return (struct packet){
        .bytes = { of_16_bits[to[0] >> 6], to[3], to[4], 0, 1, (uint8_t)(0x10 | status), to[6] },
        .length = 7,
    };
}

static void check_response(const struct outcome *o)
{
    int status = wanted_status(o);
    struct packet wanted = { .length = 0 };
    if (status >= 0)
        wanted = wanted_response(o, (unsigned)status);
    must(o->answer.response == wanted.length, "as many bytes as the answer says");
    must(same(o->response, wanted.bytes, wanted.length), "the response");
    for (size_t i = wanted.length; i < 9; i++)
        must(o->response[i] == 0xEE, "no other byte of it");
}

static void one_random(struct random *random)
{
    eight_bits = one_in(random, 2);
    struct second_endpoint state = random_state(random);
    const struct second_endpoint before = state;
    uint64_t room = state.room > 65536 ? 50 : state.room;
    struct second_lent lent = lend(room);
    struct packet packet = random_packet(random, state.mtu);
    struct second_lent copy = lend(room);
    struct second_answer answer = read_one(&state, lent, packet);
    const struct outcome outcome = {
        .before = &before,
        .after = &state,
        .answer = answer,
        .memory_same = same(lent.stream_memory, copy.stream_memory, 16 * room)
                       && same(lent.message_memory, copy.message_memory, SECOND_MESSAGE_MEMORY),
        .response = lent.response,
        .packet = &packet,
    };
    must(second_refusal19(&before) == refused_by(answer, 19), "19 exactly if the state is named");
    must(second_refusal19(&before) || !second_refusal19(&state), "a good state stays good");
    if (answer.kind == SECOND_REFUSED)
        check_refused(&outcome);
    check_priority(&outcome);
    check_response(&outcome);
    give_back(lent);
    give_back(copy);
}

static void any_state(void)
{
    struct random random = seeded(7);
    for (int i = 0; i < 20000; i++)
        one_random(&random);
    eight_bits = false;
}

/* What differs by the width in places alone. */
static void both_widths(void)
{
    writer_order();
    round_trips();
    row_12();
    lower_number();
    taken();
    odd_room();
    message_places();
    no_state();
    priority_word();
    priority_over_3();
    delivered_priority();
    example_8();
    mixed_message();
}

int main(void)
{
    for (size_t i = 0; i < sizeof pdu; i++)
        pdu[i] = (uint8_t)(i * 7 + i / 256 + 3);
    sample();
    sample_of_8_bits();
    examples();
    examples_of_8_bits();
    writer_47();
    setups();
    setups_of_8_bits();
    row_19();
    abandoning();
    rooms();
    both_widths();
    eight_bits = true;
    both_widths();
    eight_bits = false;
    limits();
    every_tt();
    own_ids();
    other_width();
    any_width_word();
    any_state();
    printf("%u checks passed\n", checks);
    return 0;
}
