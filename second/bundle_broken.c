/* Logs that break off, lengths at their edges, and the largest logs. */

#include "bundle.h"

static const struct flow flow = { .priority = 0, .source = 2, .cos = 5 };

/* ---- Broken lengths and cut records -------------------------------------- */

struct broken {
    const char *name;
    size_t count;
    uint8_t bytes[16];
};

static const struct broken broken[] = {
    { "a first length byte with nothing behind", 1, { 0x80 } },
    { "a first length byte with nothing behind", 1, { 0xFF } },
    { "a first length byte with nothing behind", 1, { 0x8D } },
    { "a second length byte 0", 2, { 0x80, 0x00 } },
    { "a second length byte 0", 2, { 0xFF, 0x00 } },
    { "a second length byte 0, bytes behind", 6, { 0x83, 0x00, 0x19, 0x00, 0x01, 0x00 } },
    { "a third length byte", 3, { 0x80, 0x80, 0x01 } },
    { "a third length byte", 3, { 0xFF, 0xFF, 0x03 } },
    { "a third length byte 0", 4, { 0x81, 0x81, 0x00, 0x00 } },
    { "a second length byte with the top bit, nothing behind", 2, { 0x8D, 0x81 } },
    { "a record with no byte", 1, { 0x01 } },
    { "a record with no byte", 1, { 0x7F } },
    { "a record one byte short", 5, { 0x05, 0x19, 0x00, 0x01, 0x00 } },
    { "a record one byte short, two length bytes", 2, { 0x80, 0x01 } },
    { "a record cut, two length bytes", 8, { 0xFF, 0x7F, 0x19, 0x00, 0x01, 0x00, 0x02, 0x05 } },
    { "a record cut in its head", 4, { 0x0D, 0x19, 0x00, 0x01 } },
};

static void broken_logs(void)
{
    section("broken logs");
    for (size_t i = 0; i < sizeof broken / sizeof broken[0]; i++) {
        begin(broken[i].name);
        put_raw(broken[i].bytes, broken[i].count);
        wants("bad log");

        begin(broken[i].name);
        put(stream_packet(flow, START, 7, 32));
        put(stream_packet(flow, START, 8, 32));
        put(stream_packet(flow, END, 40, 8));
        put_record(NULL, 0);
        put_raw(broken[i].bytes, broken[i].count);
        wants("held, held dropped, pdu 2 5 8 40, refused 1, bad log");
    }

    begin("a good record behind a bad length is not read");
    put(stream_packet(flow, SINGLE, 7, 1));
    put_raw((const uint8_t[]){ 0x80, 0x00 }, 2);
    put(stream_packet(flow, SINGLE, 8, 1));
    wants("pdu 2 5 7 1, bad log");

    for (size_t length = 0; length < 42; length++) {
        struct packet packet = stream_packet(flow, SINGLE, 7, 32);
        begin("a log cut at each byte of its second record");
        put(stream_packet(flow, SINGLE, 6, 2));
        put_raw((const uint8_t[]){ (uint8_t)packet.length }, 1);
        put_raw(packet.bytes, length);
        if (length < packet.length)
            wants("pdu 2 5 6 2, bad log");
        else
            wants("pdu 2 5 6 2, pdu 2 5 7 32, end 2");
    }
}

/* ---- Lengths of records -------------------------------------------------- */

static void put_long(unsigned byte_0, unsigned byte_5, unsigned byte_6, size_t length)
{
    static uint8_t bytes[LARGEST_RECORD];
    for (size_t i = 0; i < length; i++)
        bytes[i] = (uint8_t)i;
    bytes[0] = (uint8_t)byte_0;
    bytes[1] = 0;
    bytes[2] = 1;
    bytes[3] = 0;
    bytes[4] = 2;
    bytes[5] = (uint8_t)byte_5;
    bytes[6] = (uint8_t)byte_6;
    put_record(bytes, length);
}

static void record_lengths(void)
{
    section("lengths of records");

    begin("zero-length records");
    put_record(NULL, 0);
    put_record(NULL, 0);
    put_record(NULL, 0);
    wants("refused 1, refused 1, refused 1, end 3");

    begin("a zero-length record leaves the flow open");
    put(stream_packet(flow, START, 7, 32));
    put_record(NULL, 0);
    put(stream_packet(flow, END, 40, 8));
    wants("held, refused 1, pdu 2 5 7 40, end 3");

    begin("127, 128 and 129 bytes");
    put_long(0x19, 5, SINGLE | BIT_O, 127);
    put_long(0x19, 5, SINGLE, 127);
    put_long(0x19, 5, CONTINUATION, 128);
    put_long(0x19, 5, SINGLE, 129);
    put_long(0x1B, 0x0E, 0x60, 127);
    put_long(0x1B, 0x0E, 0x60, 128);
    put_long(0x1B, 0x0D, 0x60, 135);
    put_long(0x1B, 0x0D, 0x60, 136);
    wants("refused 7, refused 6, refused 6, refused 7, msg 2 1 2 120, refused 21, "
          "msg 2 1 2 128, refused 21, end 8");

    begin("longer than any packet");
    put(stream_packet(flow, START, 7, 32));
    put_long(0x1B, 0x0E, 0x60, 271);
    put_long(0x1D, 0x0E, 0x60, 300);
    put_long(0x19, 5, END | BIT_XH, 500);
    put_long(0x19, 5, END, 1029);
    put_long(0x19, 5, END, 1029);
    put_long(0x19, 5, CONTINUATION, 1007);
    wants("held, refused 21, refused 4, refused 5, refused 7 dropped, refused 7, refused 7, end 7");
}

/* ---- The largest logs ---------------------------------------------------- */

/* Zero-length records and one record fill the log up to its size. */
static void fill_up(size_t size)
{
    while (size - log_size() > 128)
        put_long(0x12, 0, 0, 100);
    put_long(0x12, 0, 0, size - log_size() - 1);
}

static void put_shuffled(struct random *random, unsigned msglen, unsigned code)
{
    const struct box box = { .priority = msglen % 4, .source = code, .letter = 1, .mbox = 3 };
    size_t ssize = (size_t)8 << (code - 9);
    size_t last = 8 * (size_t)between(random, 1, (uint32_t)ssize / 8);
    unsigned order[16];
    for (unsigned i = 0; i <= msglen; i++)
        order[i] = i;
    shuffle(random, order, msglen + 1);
    for (unsigned i = 0; i <= msglen; i++)
        put(message_packet(box, msglen, code, order[i], order[i] == msglen ? last : ssize));
}

/* Every message of 2 to 16 segments of 128 and of 256 bytes. */
static void clean_65536(void)
{
    struct random random = seeded(4);
    begin("65,536 bytes, clean");
    for (unsigned msglen = 1; msglen <= 15; msglen++) {
        put_shuffled(&random, msglen, 13);
        put_pdu((struct pdu){ .flow = flow, .stream = msglen, .length = 50 * msglen });
        put_shuffled(&random, msglen, 14);
    }
    fill_up(65536);
    finish();
}

/* Records of the longest length, 16,383, are here too. */
static void bad_65536(void)
{
    begin("65,536 bytes, bad at the very end");
    put_long(0x19, 5, SINGLE | BIT_O, 16383);
    put_long(0x19, 5, SINGLE | BIT_O, 16382);
    put_long(0x1B, 0x0E, 0x60, 16383);
    put_long(0x19, 5, SINGLE, 14000);
    put(stream_packet(flow, SINGLE, 7, 32));
    fill_up(65535);
    put_raw((const uint8_t[]){ 0x01 }, 1);
    finish();
}

static void over_65536(void)
{
    begin("65,537 bytes, clean but for that");
    put(stream_packet(flow, SINGLE, 7, 32));
    for (int i = 0; i < 3; i++)
        put_long(0x19, 5, SINGLE | BIT_O, 16383);
    put_long(0x19, 5, SINGLE | BIT_O, 16000);
    fill_up(65537);
    wants("bad log");
}

void bundle_broken(void)
{
    broken_logs();
    record_lengths();
    section("65,536 and 65,537 bytes");
    clean_65536();
    bad_65536();
    over_65536();
}
