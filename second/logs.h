/* Logs: their records, and the log program of document 01. */

#ifndef SECOND_LOGS_H
#define SECOND_LOGS_H

#include "endpoint.h"

enum {
    LOG_DEVICE = 1,
    LOG_MTU = 32,
    LOG_ROOM = 2048,
    LARGEST_LOG = 65536,
    LARGEST_RECORD = 16383,
};

/* Bytes that grow. Start with all zeros. */
struct buffer {
    uint8_t *bytes;
    size_t length;
    size_t space;
};

void append(struct buffer *buffer, const void *bytes, size_t count);
void append_byte(struct buffer *buffer, unsigned byte);
void append_text(struct buffer *buffer, const char *text);
void append_number(struct buffer *buffer, uint64_t number);
void append_hex(struct buffer *buffer, const uint8_t *bytes, size_t count);
void empty(struct buffer *buffer);
void release(struct buffer *buffer);

/* One record: a length and the packet. At most 16,383 bytes. */
void append_record(struct buffer *log, const uint8_t *packet, size_t length);

/* An endpoint with its memories, set up as the log program does it, for IDs of
   16 bits or of 8. */
struct log_endpoint {
    struct second_endpoint state;
    uint8_t stream_memory[SECOND_STREAM_CONTEXTS * LOG_ROOM];
    uint8_t message_memory[SECOND_MESSAGE_MEMORY];
    uint8_t response[SECOND_RESPONSE_BYTES];
};

void log_setup(struct log_endpoint *endpoint, bool eight_bits);
struct second_answer log_read(struct log_endpoint *endpoint, const uint8_t *packet, size_t length);

/* The line for an answer, with its newline. */
void append_answer(struct buffer *out, struct second_answer answer);

/* The next record of a log, from a place on. */
enum record_kind { RECORD, CLEAN_END, BAD_LOG };

struct record {
    enum record_kind kind;
    const uint8_t *packet;
    size_t length;
    size_t next; /* the place behind it */
};

struct record next_record(const uint8_t *log, size_t length, size_t place);

/* The log program: the whole output of a whole log. */
void run_log(struct buffer *out, const uint8_t *log, size_t length);

/* The same, if its endpoint had IDs of 8 bits. */
void run_log_of_8_bits(struct buffer *out, const uint8_t *log, size_t length);

/* For each record the line of its answer, and a line with the response that was
   written, in hex, or `none`. Stops at a record that is bad, and says whether
   there was none. */
bool run_responses(struct buffer *out, bool eight_bits, const uint8_t *log, size_t length);

#endif
