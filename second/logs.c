#include "logs.h"

#include <stdio.h>
#include <stdlib.h>
#include <string.h>

/* ---- Bytes that grow --------------------------------------------------- */

void append(struct buffer *buffer, const void *bytes, size_t count)
{
    if (count == 0)
        return;
    if (count > buffer->space - buffer->length) {
        buffer->space = 2 * (buffer->length + count);
        buffer->bytes = realloc(buffer->bytes, buffer->space);
    }
    if (buffer->bytes == NULL) {
        fputs("no memory\n", stderr);
        exit(1);
    }
    memcpy(buffer->bytes + buffer->length, bytes, count);
    buffer->length += count;
}

void append_byte(struct buffer *buffer, unsigned byte)
{
    uint8_t one = (uint8_t)byte;
    append(buffer, &one, 1);
}

void append_text(struct buffer *buffer, const char *text)
{
    append(buffer, text, strlen(text));
}

void append_number(struct buffer *buffer, uint64_t number)
{
    char digits[24];
    snprintf(digits, sizeof digits, "%llu", (unsigned long long)number);
    append_text(buffer, digits);
}

void append_hex(struct buffer *buffer, const uint8_t *bytes, size_t count)
{
    const char *digits = "0123456789abcdef";
    for (size_t i = 0; i < count; i++) {
        append(buffer, &digits[bytes[i] >> 4], 1);
        append(buffer, &digits[bytes[i] & 15], 1);
    }
}

void empty(struct buffer *buffer)
{
    buffer->length = 0;
}

void release(struct buffer *buffer)
{
    free(buffer->bytes);
    *buffer = (struct buffer){ 0 };
}

/* ---- Records ----------------------------------------------------------- */

/* Groups of seven bits, lowest first; the top bit on all but the last. */
void append_record(struct buffer *log, const uint8_t *packet, size_t length)
{
    if (length < 128) {
        append_byte(log, (unsigned)length);
    } else {
        append_byte(log, 0x80 | (length & 127));
        append_byte(log, (unsigned)(length >> 7));
    }
    append(log, packet, length);
}

static struct record bad_log(void)
{
    struct record record = { .kind = BAD_LOG };
    return record;
}

struct record next_record(const uint8_t *log, size_t length, size_t place)
{
    struct record record = { .kind = CLEAN_END };
    if (place == length)
        return record;

    size_t bytes = log[place] & 127;
    bool more = log[place] & 128;
    place++;
    if (more) {
        if (place == length)
            return bad_log(); /* nothing behind */
        if (log[place] == 0)
            return bad_log(); /* a second byte is never 0 */
        if (log[place] & 128)
            return bad_log(); /* at most two bytes */
        bytes |= (size_t)log[place] << 7;
        place++;
    }
    if (bytes > length - place)
        return bad_log(); /* a cut record */

    record.kind = RECORD;
    record.packet = log + place;
    record.length = bytes;
    record.next = place + bytes;
    return record;
}

/* ---- The log program --------------------------------------------------- */

void log_setup(struct log_endpoint *endpoint, bool eight_bits)
{
    *endpoint = (struct log_endpoint){ 0 };
    second_setup(&endpoint->state, LOG_DEVICE, LOG_MTU, LOG_ROOM, eight_bits);
}

struct second_answer log_read(struct log_endpoint *endpoint, const uint8_t *packet, size_t length)
{
    struct second_lent lent = {
        .stream_memory = endpoint->stream_memory,
        .stream_length = sizeof endpoint->stream_memory,
        .message_memory = endpoint->message_memory,
        .message_length = sizeof endpoint->message_memory,
        .response = endpoint->response,
        .response_length = sizeof endpoint->response,
    };
    return second_read(&endpoint->state, lent, packet, length);
}

static void append_spaced(struct buffer *out, uint64_t number)
{
    append_text(out, " ");
    append_number(out, number);
}

/* SOURCE COS STREAM LENGTH, or SOURCE LETTER MAILBOX LENGTH. */
static void append_delivered(struct buffer *out, const char *word, struct second_answer answer)
{
    append_text(out, word);
    append_spaced(out, answer.source);
    append_spaced(out, answer.cos_or_letter);
    append_spaced(out, answer.stream_or_mailbox);
    append_spaced(out, answer.length);
}

void append_answer(struct buffer *out, struct second_answer answer)
{
    if (answer.kind == SECOND_HELD)
        append_text(out, "held");
    if (answer.kind == SECOND_PDU)
        append_delivered(out, "pdu", answer);
    if (answer.kind == SECOND_MESSAGE)
        append_delivered(out, "msg", answer);
    if (answer.kind == SECOND_REFUSED) {
        append_text(out, "refused");
        append_spaced(out, answer.refusal);
    }
    if (answer.dropped)
        append_text(out, " dropped");
    append_text(out, "\n");
}

static void run(struct buffer *out, bool eight_bits, const uint8_t *log, size_t length)
{
    if (length > LARGEST_LOG) {
        append_text(out, "bad log\n");
        return;
    }
    static struct log_endpoint endpoint;
    log_setup(&endpoint, eight_bits);
    uint64_t records = 0;
    struct record record = next_record(log, length, 0);
    while (record.kind == RECORD) {
        append_answer(out, log_read(&endpoint, record.packet, record.length));
        records++;
        record = next_record(log, length, record.next);
    }
    if (record.kind == BAD_LOG) {
        append_text(out, "bad log\n");
        return;
    }
    append_text(out, "end ");
    append_number(out, records);
    append_text(out, "\n");
}

void run_log(struct buffer *out, const uint8_t *log, size_t length)
{
    run(out, false, log, length);
}

void run_log_of_8_bits(struct buffer *out, const uint8_t *log, size_t length)
{
    run(out, true, log, length);
}

/* ---- Answers with their responses --------------------------------------- */

static void append_response(struct buffer *out, const uint8_t *response, size_t length)
{
    if (length == 0)
        append_text(out, "none");
    else
        append_hex(out, response, length);
    append_text(out, "\n");
}

bool run_responses(struct buffer *out, bool eight_bits, const uint8_t *log, size_t length)
{
    static struct log_endpoint endpoint;
    log_setup(&endpoint, eight_bits);
    struct record record = next_record(log, length, 0);
    while (record.kind == RECORD) {
        struct second_answer answer = log_read(&endpoint, record.packet, record.length);
        append_answer(out, answer);
        append_response(out, endpoint.response, answer.response);
        record = next_record(log, length, record.next);
    }
    return record.kind == CLEAN_END;
}
