/* The endpoint of document 01, written a second time: in C, from the paper,
   requests M-103 and M-112 of document 02 and docs/DECISIONS.md. It shares
   nothing with the proved code or its definitions.

   Every memory is lent and comes with its length. Nothing is kept between
   calls but the state. Any bytes, any lengths and any numbers in the state
   are allowed. Lent memories must not overlap, and a packet or PDU must not
   lie in them. */

#ifndef SECOND_ENDPOINT_H
#define SECOND_ENDPOINT_H

#include <stdbool.h>
#include <stddef.h>
#include <stdint.h>

enum {
    SECOND_STATE_WORDS = 164,
    SECOND_STREAM_CONTEXTS = 16,
    SECOND_MESSAGE_CONTEXTS = 8,
    SECOND_MESSAGE_ROOM = 4096,
    SECOND_MESSAGE_MEMORY = 32768,
    SECOND_RESPONSE_BYTES = 7, /* with IDs of 8 bits 5 */
    SECOND_LARGEST_PDU = 65536
};

/* Fields are wider than they need be, so that a test can set up any state.
   The state is 164 words of 64 bits, in the order in which they stand here. */

struct second_stream {
    uint64_t open; /* 0 is free, anything else is open; we write 1 */
    uint64_t source;
    uint64_t priority;
    uint64_t cos;
    uint64_t stream_id;
    uint64_t held; /* the bytes its room holds */
};

struct second_message {
    uint64_t open; /* as above */
    uint64_t source;
    uint64_t letter;
    uint64_t mbox;
    uint64_t msglen; /* the field: one less than the segments */
    uint64_t ssize;  /* the code, 9 to 14 */
    uint64_t marks;  /* bit k is set once segment k has come */
    uint64_t last;   /* the bytes of segment msglen, 0 until it has come */
};

struct second_endpoint {
    uint64_t device;
    uint64_t mtu;
    uint64_t room;       /* R */
    uint64_t eight_bits; /* 0: a device ID has 16 bits; anything else: 8 */
    struct second_stream stream[SECOND_STREAM_CONTEXTS];
    struct second_message message[SECOND_MESSAGE_CONTEXTS];
};

/* What is lent for reading a packet. */
struct second_lent {
    uint8_t *stream_memory;
    size_t stream_length; /* has to be 16 times R */
    uint8_t *message_memory;
    size_t message_length; /* has to be 32,768 */
    uint8_t *response;
    size_t response_length; /* has to be 7 or more; with IDs of 8 bits 5 */
};

enum second_kind {
    SECOND_REFUSED,   /* any call: refusal is the paper's number */
    SECOND_READY,     /* setup */
    SECOND_HELD,      /* reading: stored, more is to come */
    SECOND_PDU,       /* reading: a PDU is delivered */
    SECOND_MESSAGE,   /* reading: a message is delivered */
    SECOND_ABANDONED, /* abandon: the context was open and is closed */
    SECOND_WAS_FREE,  /* abandon: the context was free and stays so */
    SECOND_WRITTEN    /* writer: length is the packet's */
};

/* Fields that a kind does not name are 0. */
struct second_answer {
    enum second_kind kind;
    unsigned refusal;
    bool dropped;
    uint64_t context;
    uint64_t source;
    uint64_t priority; /* a PDU's; a message has none of its own */
    uint64_t cos_or_letter;
    uint64_t stream_or_mailbox;
    uint64_t length;
    uint64_t response; /* reading, any kind: the bytes of response written */
};

/* A part of a memory of the caller. */
struct second_part {
    const uint8_t *bytes;
    size_t length;
};

/* What the segment writer writes in the head of each packet. */
struct second_heading {
    uint64_t priority;
    uint16_t destination;
    uint16_t source;
    uint8_t cos;
    uint16_t stream_id;
    uint64_t eight_bits; /* as above */
};

/* A lent buffer of words as a state: NULL where it has not as many as a state.
   Every call below takes NULL for such a buffer: it answers 12, a room is an
   empty part, and nothing changes. */
struct second_endpoint *second_state(uint64_t *words, size_t count);

/* Row 19: a state that every call refuses. Not for NULL. */
bool second_refusal19(const struct second_endpoint *state);

struct second_answer second_setup(struct second_endpoint *state, uint16_t device, uint64_t mtu,
                                  uint64_t room, uint64_t eight_bits);

struct second_answer second_read(struct second_endpoint *state, struct second_lent lent,
                                 const uint8_t *packet, size_t length);

struct second_answer second_abandon_stream(struct second_endpoint *state, uint64_t context);

struct second_answer second_abandon_message(struct second_endpoint *state, uint64_t context);

struct second_part second_stream_room(const struct second_endpoint *state, const uint8_t *memory,
                                      size_t memory_length, uint64_t context, uint64_t length);

struct second_part second_message_room(const struct second_endpoint *state, const uint8_t *memory,
                                       size_t memory_length, uint64_t context, uint64_t length);

/* The number of packets of a PDU; 0 where the MTU or the length is not allowed. */
uint64_t second_segment_count(uint64_t mtu, uint64_t pdu_length);

struct second_answer second_write_segment(uint8_t *out, size_t out_length,
                                          struct second_heading heading, uint64_t mtu,
                                          const uint8_t *pdu, size_t pdu_length, uint64_t number);

#endif
