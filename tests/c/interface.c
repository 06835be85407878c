/* The header against the archive: every declared function is called by its
   declared type, every struct comes back with its fields in their places. */

#include <stdio.h>
#include <stdlib.h>
#include <string.h>

#include "kaiverohm.h"
#include "want.h"

_Static_assert(sizeof(size_t) == 8, "a length is 8 bytes");

_Static_assert(sizeof(struct kaiverohm_answer) == 16, "answer");
_Static_assert(offsetof(struct kaiverohm_answer, kind) == 0, "answer");
_Static_assert(offsetof(struct kaiverohm_answer, number) == 8, "answer");

_Static_assert(sizeof(struct kaiverohm_report) == 8 * KAIVEROHM_REPORT_WORDS, "report");
_Static_assert(offsetof(struct kaiverohm_report, kind) == 0, "report");
_Static_assert(offsetof(struct kaiverohm_report, number) == 8, "report");
_Static_assert(offsetof(struct kaiverohm_report, dropped) == 16, "report");
_Static_assert(offsetof(struct kaiverohm_report, response) == 24, "report");
_Static_assert(offsetof(struct kaiverohm_report, context) == 32, "report");
_Static_assert(offsetof(struct kaiverohm_report, source) == 40, "report");
_Static_assert(offsetof(struct kaiverohm_report, cos_or_letter) == 48, "report");
_Static_assert(offsetof(struct kaiverohm_report, stream_or_mailbox) == 56, "report");
_Static_assert(offsetof(struct kaiverohm_report, length) == 64, "report");
_Static_assert(offsetof(struct kaiverohm_report, priority) == 72, "report");

_Static_assert(sizeof(struct kaiverohm_burst) == 32, "burst");
_Static_assert(offsetof(struct kaiverohm_burst, stop) == 0, "burst");
_Static_assert(offsetof(struct kaiverohm_burst, number) == 8, "burst");
_Static_assert(offsetof(struct kaiverohm_burst, count) == 16, "burst");
_Static_assert(offsetof(struct kaiverohm_burst, next) == 24, "burst");

_Static_assert(sizeof(struct kaiverohm_place) == 16, "place");
_Static_assert(offsetof(struct kaiverohm_place, offset) == 0, "place");
_Static_assert(offsetof(struct kaiverohm_place, length) == 8, "place");

_Static_assert(sizeof(struct kaiverohm_open_stream) == 56, "open stream");
_Static_assert(offsetof(struct kaiverohm_open_stream, kind) == 0, "open stream");
_Static_assert(offsetof(struct kaiverohm_open_stream, number) == 8, "open stream");
_Static_assert(offsetof(struct kaiverohm_open_stream, source) == 16, "open stream");
_Static_assert(offsetof(struct kaiverohm_open_stream, cos) == 24, "open stream");
_Static_assert(offsetof(struct kaiverohm_open_stream, stream) == 32, "open stream");
_Static_assert(offsetof(struct kaiverohm_open_stream, held) == 40, "open stream");
_Static_assert(offsetof(struct kaiverohm_open_stream, priority) == 48, "open stream");

_Static_assert(sizeof(struct kaiverohm_open_message) == 72, "open message");
_Static_assert(offsetof(struct kaiverohm_open_message, kind) == 0, "open message");
_Static_assert(offsetof(struct kaiverohm_open_message, number) == 8, "open message");
_Static_assert(offsetof(struct kaiverohm_open_message, source) == 16, "open message");
_Static_assert(offsetof(struct kaiverohm_open_message, letter) == 24, "open message");
_Static_assert(offsetof(struct kaiverohm_open_message, mbox) == 32, "open message");
_Static_assert(offsetof(struct kaiverohm_open_message, msglen) == 40, "open message");
_Static_assert(offsetof(struct kaiverohm_open_message, size) == 48, "open message");
_Static_assert(offsetof(struct kaiverohm_open_message, marks) == 56, "open message");
_Static_assert(offsetof(struct kaiverohm_open_message, last) == 64, "open message");

_Static_assert(sizeof(struct kaiverohm_heading) == 16, "heading");
_Static_assert(offsetof(struct kaiverohm_heading, destination) == 0, "heading");
_Static_assert(offsetof(struct kaiverohm_heading, source) == 2, "heading");
_Static_assert(offsetof(struct kaiverohm_heading, stream) == 4, "heading");
_Static_assert(offsetof(struct kaiverohm_heading, cos) == 6, "heading");
_Static_assert(offsetof(struct kaiverohm_heading, priority) == 7, "heading");
_Static_assert(offsetof(struct kaiverohm_heading, narrow) == 8, "heading");

_Static_assert(sizeof(struct kaiverohm_settings) == 32, "settings");
_Static_assert(offsetof(struct kaiverohm_settings, device) == 0, "settings");
_Static_assert(offsetof(struct kaiverohm_settings, mtu) == 8, "settings");
_Static_assert(offsetof(struct kaiverohm_settings, room) == 16, "settings");
_Static_assert(offsetof(struct kaiverohm_settings, narrow) == 24, "settings");

_Static_assert(sizeof(struct kaiverohm_desk) == 64, "desk");
_Static_assert(offsetof(struct kaiverohm_desk, state) == 0, "desk");
_Static_assert(offsetof(struct kaiverohm_desk, state_words) == 8, "desk");
_Static_assert(offsetof(struct kaiverohm_desk, stream_memory) == 16, "desk");
_Static_assert(offsetof(struct kaiverohm_desk, stream_length) == 24, "desk");
_Static_assert(offsetof(struct kaiverohm_desk, message_memory) == 32, "desk");
_Static_assert(offsetof(struct kaiverohm_desk, message_length) == 40, "desk");
_Static_assert(offsetof(struct kaiverohm_desk, response) == 48, "desk");
_Static_assert(offsetof(struct kaiverohm_desk, response_length) == 56, "desk");

_Static_assert(KAIVEROHM_STATE_WORDS == 164, "sizes");
_Static_assert(KAIVEROHM_STREAM_CONTEXTS == 16 && KAIVEROHM_MESSAGE_CONTEXTS == 8, "sizes");
_Static_assert(KAIVEROHM_MESSAGE_ROOM == 4096 && KAIVEROHM_MESSAGE_MEMORY == 32768, "sizes");
_Static_assert(KAIVEROHM_RESPONSE_BYTES == 7 && KAIVEROHM_SLOT_BYTES == 8, "sizes");
_Static_assert(KAIVEROHM_LARGEST_PDU == 65536 && KAIVEROHM_LARGEST_PACKET == 265, "sizes");
_Static_assert(KAIVEROHM_LARGEST_RECORDED == 16383 && KAIVEROHM_REPORT_WORDS == 10, "sizes");
_Static_assert(KAIVEROHM_SMALLEST_MTU == 32 && KAIVEROHM_LARGEST_MTU == 256, "sizes");
_Static_assert(KAIVEROHM_MTU_STEP == 4 && KAIVEROHM_LARGEST_ROOM == 65536, "sizes");

_Static_assert(KAIVEROHM_REFUSED == 0 && KAIVEROHM_HELD == 1 && KAIVEROHM_DELIVERED == 2, "kinds");
_Static_assert(KAIVEROHM_MESSAGE == 3 && KAIVEROHM_READY == 4 && KAIVEROHM_CLOSED == 5, "kinds");
_Static_assert(KAIVEROHM_WAS_FREE == 6 && KAIVEROHM_WRITTEN == 7, "kinds");
_Static_assert(KAIVEROHM_BURST_REFUSED == 0 && KAIVEROHM_BURST_END == 1, "stops");
_Static_assert(KAIVEROHM_BURST_BAD == 2 && KAIVEROHM_BURST_FULL == 3, "stops");
_Static_assert(KAIVEROHM_BURST_DELIVERY == 4, "stops");

/* All of this is interface 3. Where a line above or below has to change, and not
   only one to be added, the number rises, here, in the header and in
   crates/kaiverohm. */
_Static_assert(KAIVEROHM_INTERFACE == 3, "interface");

/* The types once more, as crates/kaiverohm/src/lib.rt has them: a pointer and
   a length for each slice. The compiler refuses a header that has others. */
uint64_t kaiverohm_interface(void);
uint64_t kaiverohm_state_length(void);
struct kaiverohm_answer kaiverohm_setup(uint64_t *, size_t, struct kaiverohm_settings);
struct kaiverohm_report kaiverohm_read(uint64_t *, size_t, uint8_t *, size_t, uint8_t *, size_t,
                                       uint8_t *, size_t, const uint8_t *, size_t);
struct kaiverohm_burst kaiverohm_read_burst(uint64_t *, size_t, uint8_t *, size_t, uint8_t *,
                                            size_t, uint8_t *, size_t, uint64_t *, size_t,
                                            const uint8_t *, size_t, uint64_t);
struct kaiverohm_open_stream kaiverohm_stream_context(const uint64_t *, size_t, uint64_t);
struct kaiverohm_open_message kaiverohm_message_context(const uint64_t *, size_t, uint64_t);
struct kaiverohm_answer kaiverohm_abandon_stream(uint64_t *, size_t, uint64_t);
struct kaiverohm_answer kaiverohm_abandon_message(uint64_t *, size_t, uint64_t);
struct kaiverohm_place kaiverohm_stream_room(const uint64_t *, size_t, uint64_t, uint64_t,
                                             uint64_t);
struct kaiverohm_place kaiverohm_message_room(const uint64_t *, size_t, uint64_t, uint64_t,
                                              uint64_t);
uint64_t kaiverohm_segment_count(uint64_t, uint64_t);
struct kaiverohm_answer kaiverohm_write_segment(uint8_t *, size_t, struct kaiverohm_heading,
                                                uint64_t, const uint8_t *, size_t, uint64_t);
uint64_t kaiverohm_record_length(uint64_t);
struct kaiverohm_answer kaiverohm_write_record(uint8_t *, size_t, const uint8_t *, size_t);

/* An R where the memories differ in size. */
enum { MTU = 32, ROOM = 1024, WORDS = KAIVEROHM_STATE_WORDS };

static uint64_t state[WORDS];
static uint8_t streams[KAIVEROHM_STREAM_MEMORY(ROOM)];
static uint8_t messages[KAIVEROHM_MESSAGE_MEMORY];
static uint8_t response[KAIVEROHM_RESPONSE_BYTES];

/* A PDU, its two packets of 41 and 17 bytes, and a message of one segment: 15 bytes. */
static uint8_t pdu[40], start[64], end[64];
static const uint8_t message[] = "\x1b\xff\xfe\x12\x34\x09\x6f\x11\x12\x13\x14\x15\x16\x17\x18";

/* What differs from these goes in by its name. */
static const struct kaiverohm_settings settings = { .device = 0xfffe, .mtu = MTU, .room = ROOM };
static const struct kaiverohm_heading heading = {
    .destination = 0xfffe, .source = 0x1234, .stream = 0xabcd, .cos = 0x5a, .priority = 2
};

static int is(struct kaiverohm_answer a, uint64_t kind, uint64_t number)
{
    return a.kind == kind && a.number == number;
}

#define TEXT_OF(number) #number
#define TEXT(number) TEXT_OF(number)

static void versions(void)
{
    static const char spelled[] = TEXT(KAIVEROHM_VERSION_MAJOR) "." TEXT(
        KAIVEROHM_VERSION_MINOR) "." TEXT(KAIVEROHM_VERSION_PATCH);
    WANT(kaiverohm_interface() == KAIVEROHM_INTERFACE);
    WANT(strcmp(KAIVEROHM_VERSION, spelled) == 0);
}

/* The settings arrive field by field. */
static void setups(void)
{
    struct kaiverohm_settings s = settings;
    WANT(kaiverohm_state_length() == WORDS);
    WANT(is(kaiverohm_setup(state, 148, s), KAIVEROHM_REFUSED, 12));
    s.mtu = 33;
    WANT(is(kaiverohm_setup(state, WORDS, s), KAIVEROHM_REFUSED, 18));
    s.mtu = MTU;
    s.room = 31;
    WANT(is(kaiverohm_setup(state, WORDS, s), KAIVEROHM_REFUSED, 19));
    s.room = ROOM;
    s.narrow = 1;
    WANT(is(kaiverohm_setup(state, WORDS, s), KAIVEROHM_REFUSED, 47));
    s.device = 0xfe;
    s.narrow = UINT64_C(0x0123456789abcdef);
    WANT(is(kaiverohm_setup(state, WORDS, s), KAIVEROHM_READY, 0));
    WANT(state[0] == 0xfe && state[1] == MTU && state[2] == ROOM && state[3] == s.narrow);
    WANT(is(kaiverohm_setup(state, WORDS, settings), KAIVEROHM_READY, 0));
    WANT(state[0] == 0xfffe && state[1] == MTU && state[2] == ROOM && state[3] == 0);
}

static struct kaiverohm_answer write_it(uint8_t *out, size_t length, uint64_t number)
{
    return kaiverohm_write_segment(out, length, heading, MTU, pdu, sizeof pdu, number);
}

/* The heading arrives field by field. */
static void writer(void)
{
    for (size_t i = 0; i < sizeof pdu; i++)
        pdu[i] = (uint8_t)(i + 1);
    WANT(kaiverohm_segment_count(MTU, sizeof pdu) == 2);
    WANT(kaiverohm_segment_count(MTU, 0) == 0);
    WANT(is(write_it(start, sizeof start, 0), KAIVEROHM_WRITTEN, 41));
    WANT(memcmp(start, "\x99\xff\xfe\x12\x34\x5a\x80\xab\xcd\x01", 10) == 0);
    WANT(is(write_it(end, 17, 1), KAIVEROHM_WRITTEN, 17));
    WANT(is(write_it(end, 16, 1), KAIVEROHM_REFUSED, 16));
    /* and so does the width */
    struct kaiverohm_heading h = heading;
    uint8_t out[39];
    h.narrow = 1;
    WANT(is(kaiverohm_write_segment(out, 39, h, MTU, pdu, sizeof pdu, 0), KAIVEROHM_REFUSED, 47));
    h.destination = 0xfe;
    WANT(is(kaiverohm_write_segment(out, 39, h, MTU, pdu, sizeof pdu, 0), KAIVEROHM_REFUSED, 47));
    h.source = 0x12;
    WANT(is(kaiverohm_write_segment(out, 39, h, MTU, pdu, sizeof pdu, 0), KAIVEROHM_WRITTEN, 39));
    WANT(memcmp(out, "\x89\xfe\x12\x5a\x80\xab\xcd\x01", 8) == 0);
}

static struct kaiverohm_report read_one(const uint8_t *packet, size_t length)
{
    return kaiverohm_read(state, WORDS, streams, sizeof streams, messages, sizeof messages,
                          response, sizeof response, packet, length);
}

/* A report with its fields: two starts, so one PDU is dropped; then the end. */
static void delivery(void)
{
    struct kaiverohm_report r = read_one(start, 41);
    WANT(r.kind == KAIVEROHM_HELD && r.number == 0 && r.dropped == 0 && r.response == 0);
    WANT(r.priority == 0);
    r = read_one(start, 41);
    WANT(r.kind == KAIVEROHM_HELD && r.dropped == 1);
    r = read_one(end, 17);
    WANT(r.kind == KAIVEROHM_DELIVERED && r.number == 0 && r.dropped == 0 && r.response == 0);
    WANT(r.context == 0 && r.source == 0x1234 && r.cos_or_letter == 0x5a);
    WANT(r.stream_or_mailbox == 0xabcd && r.length == sizeof pdu && r.priority == 2);
    struct kaiverohm_place p =
        kaiverohm_stream_room(state, WORDS, sizeof streams, r.context, r.length);
    WANT(p.length == sizeof pdu && memcmp(streams + p.offset, pdu, sizeof pdu) == 0);
}

static void rooms(void)
{
    struct kaiverohm_place p = kaiverohm_stream_room(state, WORDS, sizeof streams, 3, 77);
    WANT(p.offset == 3 * ROOM && p.length == 77);
    p = kaiverohm_stream_room(state, WORDS, sizeof streams, 16, 1);
    WANT(p.offset == 0 && p.length == 0);
    p = kaiverohm_message_room(state, WORDS, sizeof messages, 7, 4096);
    WANT(p.offset == 7 * KAIVEROHM_MESSAGE_ROOM && p.length == 4096);
}

/* A message of one segment, its response, and a refusal. */
static void message_of_one(void)
{
    struct kaiverohm_report r = read_one(message, 15);
    WANT(r.kind == KAIVEROHM_MESSAGE && r.response == 7 && r.context == 0 && r.source == 0x1234);
    WANT(r.cos_or_letter == 1 && r.stream_or_mailbox == 62 && r.length == 8 && r.priority == 0);
    WANT(memcmp(response, "\x5d\x12\x34\xff\xfe\x10\x6f", 7) == 0);
    r = read_one(message, 14);
    WANT(r.kind == KAIVEROHM_REFUSED && r.number == 21 && r.response == 7);
    r = read_one(message, 4);
    WANT(r.kind == KAIVEROHM_REFUSED && r.number == 1 && r.response == 0);
}

/* What is open: a start of 32 bytes; the last of three segments, letter 1, mbox 2. */
static void contexts(void)
{
    static const uint8_t last[] = "\x1b\xff\xfe\x12\x34\x2a\x62\x11\x12\x13\x14\x15\x16\x17\x18";
    read_one(start, 41);
    struct kaiverohm_open_stream s = kaiverohm_stream_context(state, WORDS, 0);
    WANT(s.kind == KAIVEROHM_OPEN && s.number == 0 && s.source == 0x1234 && s.cos == 0x5a);
    WANT(s.stream == 0xabcd && s.held == MTU && s.priority == 2);
    s = kaiverohm_stream_context(state, WORDS, 1);
    WANT(s.kind == KAIVEROHM_WAS_FREE && s.number == 0 && s.source == 0 && s.held == 0);
    WANT(s.priority == 0);
    s = kaiverohm_stream_context(state, WORDS, 16);
    WANT(s.kind == KAIVEROHM_REFUSED && s.number == 13);
    read_one(last, 15);
    struct kaiverohm_open_message m = kaiverohm_message_context(state, WORDS, 0);
    WANT(m.kind == KAIVEROHM_OPEN && m.number == 0 && m.source == 0x1234 && m.letter == 1);
    WANT(m.mbox == 2 && m.msglen == 2 && m.size == 16 && m.marks == 4 && m.last == 8);
    m = kaiverohm_message_context(state, WORDS, 8);
    WANT(m.kind == KAIVEROHM_REFUSED && m.number == 13);
    WANT(is(kaiverohm_abandon_stream(state, WORDS, 0), KAIVEROHM_CLOSED, 0));
    WANT(is(kaiverohm_abandon_message(state, WORDS, 0), KAIVEROHM_CLOSED, 0));
}

static void abandons(void)
{
    WANT(is(kaiverohm_abandon_stream(state, WORDS, 15), KAIVEROHM_WAS_FREE, 0));
    WANT(is(kaiverohm_abandon_message(state, WORDS, 8), KAIVEROHM_REFUSED, 13));
    read_one(start, 41);
    WANT(is(kaiverohm_abandon_stream(state, WORDS, 0), KAIVEROHM_CLOSED, 0));
}

/* ---- a burst: reports are structs, responses stand beside them */

static uint8_t records[256];
static size_t records_length;
static struct kaiverohm_report reports[3];
static uint8_t responses[3 * KAIVEROHM_SLOT_BYTES];

static void record(const uint8_t *packet, size_t length)
{
    struct kaiverohm_answer a = kaiverohm_write_record(
        records + records_length, sizeof records - records_length, packet, length);
    WANT(is(a, KAIVEROHM_WRITTEN, kaiverohm_record_length(length)));
    records_length += a.number;
}

static struct kaiverohm_burst read_records(size_t words, uint64_t pause)
{
    return kaiverohm_read_burst(state, words, streams, sizeof streams, messages, sizeof messages,
                                responses, sizeof responses, (uint64_t *)reports,
                                3 * KAIVEROHM_REPORT_WORDS, records, records_length, pause);
}

static void burst(void)
{
    record(start, 41);
    record(message, 15);
    record(end, 17);
    WANT(records_length == 42 + 16 + 18 && records[0] == 41 && records[42] == 15);
    WANT(memcmp(records + 59, end, 17) == 0);
    WANT(is(kaiverohm_write_record(records, 5, end, 5), KAIVEROHM_REFUSED, 16));
    WANT(records[0] == 41 && records[1] == start[0]);
    struct kaiverohm_burst b = read_records(WORDS, 0);
    WANT(b.stop == KAIVEROHM_BURST_END && b.number == 0 && b.count == 3
         && b.next == records_length);
    WANT(reports[0].kind == KAIVEROHM_HELD && reports[0].response == 0 && reports[0].priority == 0);
    WANT(reports[1].kind == KAIVEROHM_MESSAGE && reports[1].stream_or_mailbox == 62
         && reports[1].priority == 0);
    WANT(reports[1].response == 7
         && memcmp(responses + 8, "\x5d\x12\x34\xff\xfe\x10\x6f\0", 8) == 0);
    WANT(responses[0] == 0 && responses[16] == 0);
    WANT(reports[2].kind == KAIVEROHM_DELIVERED && reports[2].length == sizeof pdu
         && reports[2].priority == 2);
    b = read_records(WORDS, 1);
    WANT(b.stop == KAIVEROHM_BURST_DELIVERY && b.count == 2 && b.next == 42 + 16);
    b = read_records(0, 0);
    WANT(b.stop == KAIVEROHM_BURST_REFUSED && b.number == 12 && b.count == 0 && b.next == 0);
}

/* The same with IDs of 8 bits: one packet, then a burst of two. */
static void eight_bits(void)
{
    static const uint8_t short_message[] = "\x0b\xfe\x12\x09\x6f\x11\x12\x13\x14\x15\x16\x17\x18";
    const struct kaiverohm_settings s = { .device = 0xfe, .mtu = MTU, .room = ROOM, .narrow = 1 };
    WANT(is(kaiverohm_setup(state, WORDS, s), KAIVEROHM_READY, 0));
    struct kaiverohm_report r = read_one(short_message, 13);
    WANT(r.kind == KAIVEROHM_MESSAGE && r.response == 5 && r.source == 0x12 && r.length == 8);
    WANT(memcmp(response, "\x4d\x12\xfe\x10\x6f", 5) == 0);
    r = read_one(message, 15);
    WANT(r.kind == KAIVEROHM_REFUSED && r.number == 2 && r.response == 0);
    records_length = 0;
    memset(responses, 0, sizeof responses);
    record(message, 15);
    record(short_message, 13);
    struct kaiverohm_burst b = read_records(WORDS, 0);
    WANT(b.stop == KAIVEROHM_BURST_END && b.count == 2 && b.next == 16 + 14);
    WANT(reports[0].number == 2 && reports[1].kind == KAIVEROHM_MESSAGE);
    WANT(reports[1].response == 5 && memcmp(responses + 8, "\x4d\x12\xfe\x10\x6f\0\0", 8) == 0);
    WANT(responses[0] == 0);
}

int main(void)
{
    versions();
    setups();
    writer();
    delivery();
    rooms();
    message_of_one();
    contexts();
    abandons();
    burst();
    eight_bits();
    printf("interface: %u checks\n", checks);
    return 0;
}
