#include "bundle.h"

#include <stdlib.h>
#include <string.h>

enum { MOST_SECTIONS = 60 };

static struct buffer all_in;
static struct buffer all_out;
static struct buffer log_bytes;
static const char *log_name;

static struct {
    const char *name;
    unsigned logs;
    unsigned lines;
    size_t bytes;
} sections[MOST_SECTIONS];

static unsigned section_count;

void section(const char *name)
{
    if (section_count == MOST_SECTIONS)
        exit(1);
    sections[section_count++].name = name;
}

/* ---- One log ------------------------------------------------------------ */

void begin(const char *name)
{
    log_name = name;
    empty(&log_bytes);
}

void put_record(const uint8_t *bytes, size_t count)
{
    append_record(&log_bytes, bytes, count);
}

void put_raw(const uint8_t *bytes, size_t count)
{
    append(&log_bytes, bytes, count);
}

void put(struct packet packet)
{
    put_record(packet.bytes, packet.length);
}

void put_pdu(struct pdu pdu)
{
    put_pdu_without(pdu, packets_of(pdu));
}

void put_pdu_without(struct pdu pdu, unsigned lost)
{
    for (unsigned i = 0; i < packets_of(pdu); i++)
        if (i != lost)
            put(packet_of(pdu, i));
}

size_t log_size(void)
{
    return log_bytes.length;
}

/* ---- Its end ------------------------------------------------------------ */

static unsigned count_lines(const struct buffer *text)
{
    unsigned lines = 0;
    for (size_t i = 0; i < text->length; i++)
        if (text->bytes[i] == '\n')
            lines++;
    return lines;
}

/* 4 bytes of length, most significant first, then the log. */
static void keep_in(void)
{
    for (int shift = 24; shift >= 0; shift -= 8)
        append_byte(&all_in, (unsigned)(log_bytes.length >> shift & 255));
    append(&all_in, log_bytes.bytes, log_bytes.length);
}

static void keep_out(const struct buffer *output)
{
    append_text(&all_out, "log ");
    append_number(&all_out, log_bytes.length);
    append_text(&all_out, "\n");
    if (eight_bits)
        run_responses(&all_out, true, log_bytes.bytes, log_bytes.length);
    else
        append(&all_out, output->bytes, output->length);
}

static void keep(const struct buffer *output)
{
    keep_in();
    keep_out(output);
    sections[section_count - 1].logs++;
    sections[section_count - 1].lines += count_lines(output);
    sections[section_count - 1].bytes += log_bytes.length;
}

/* What the log program prints for the log. */
static struct buffer printed(void)
{
    struct buffer output = { 0 };
    (eight_bits ? run_log_of_8_bits : run_log)(&output, log_bytes.bytes, log_bytes.length);
    return output;
}

void finish(void)
{
    struct buffer output = printed();
    keep(&output);
    release(&output);
}

struct buffer lines_text(const char *lines)
{
    struct buffer text = { 0 };
    for (const char *c = lines; *c != 0; c++) {
        if (c[0] == ',' && c[1] == ' ') {
            append_text(&text, "\n");
            c++;
        } else {
            append(&text, c, 1);
        }
    }
    append_text(&text, "\n");
    return text;
}

void must_be_same(const char *name, const struct buffer *is, const struct buffer *wanted)
{
    if (is->length == wanted->length && memcmp(is->bytes, wanted->bytes, is->length) == 0)
        return;
    fprintf(stderr, "%s: the output is\n%.*sbut should be\n%.*s", name, (int)is->length,
            (const char *)is->bytes, (int)wanted->length, (const char *)wanted->bytes);
    exit(1);
}

void wants(const char *lines)
{
    struct buffer wanted = lines_text(lines);
    struct buffer output = printed();
    must_be_same(log_name, &output, &wanted);
    keep(&output);
    release(&output);
    release(&wanted);
}

void wants_after_held(int count, const char *lines)
{
    char all[1000];
    size_t place = 0;
    for (int i = 0; i < count; i++)
        place += (size_t)snprintf(all + place, sizeof all - place, "held, ");
    snprintf(all + place, sizeof all - place, "%s", lines);
    wants(all);
}

void responds(const char *lines_of_16_bits, const char *lines_of_8_bits)
{
    struct buffer wanted = lines_text(eight_bits ? lines_of_8_bits : lines_of_16_bits);
    struct buffer output = { 0 };
    run_responses(&output, eight_bits, log_bytes.bytes, log_bytes.length);
    must_be_same(log_name, &output, &wanted);
    release(&output);
    release(&wanted);
}

void append_pdu(struct buffer *pdus, struct pdu pdu)
{
    char line[100];
    snprintf(line, sizeof line, "pdu %u %u %u %zu at %u\n", pdu.flow.source, pdu.flow.cos,
             pdu.stream, pdu.length, pdu.flow.priority);
    append_text(pdus, line);
}

static struct pdu pdu_of(struct second_answer answer)
{
    const struct pdu pdu = {
        .flow = { .priority = (unsigned)answer.priority,
                  .source = (unsigned)answer.source,
                  .cos = (unsigned)answer.cos_or_letter },
        .stream = (unsigned)answer.stream_or_mailbox,
        .length = answer.length,
    };
    return pdu;
}

/* The PDUs that the log delivers. */
static struct buffer delivered_pdus(void)
{
    static struct log_endpoint endpoint;
    struct buffer pdus = { 0 };
    log_setup(&endpoint, eight_bits);
    struct record record = next_record(log_bytes.bytes, log_bytes.length, 0);
    while (record.kind == RECORD) {
        struct second_answer answer = log_read(&endpoint, record.packet, record.length);
        if (answer.kind == SECOND_PDU)
            append_pdu(&pdus, pdu_of(answer));
        record = next_record(log_bytes.bytes, log_bytes.length, record.next);
    }
    return pdus;
}

void finish_delivering(const struct buffer *pdus)
{
    struct buffer delivered = delivered_pdus();
    must_be_same(log_name, &delivered, pdus);
    release(&delivered);
    finish();
}

/* ---- The whole ---------------------------------------------------------- */

const struct buffer *bundle_in(void)
{
    return &all_in;
}

const struct buffer *bundle_out(void)
{
    return &all_out;
}

void print_sections(FILE *to)
{
    for (unsigned i = 0; i < section_count; i++)
        fprintf(to, "%-44s %4u logs %6u lines %7zu bytes\n", sections[i].name, sections[i].logs,
                sections[i].lines, sections[i].bytes);
}

void release_bundle(void)
{
    release(&all_in);
    release(&all_out);
    release(&log_bytes);
    memset(sections, 0, sizeof sections);
    section_count = 0;
}
