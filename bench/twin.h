/* A plain C twin of the endpoint, for the benchmark alone: the same checks and the same results,
 * written for speed. Nothing is proved of it. The state is a struct that is changed in place. */
#ifndef TWIN_H
#define TWIN_H

#include <stdbool.h>
#include <stddef.h>
#include <stdint.h>

struct twin_stream {
    uint64_t live, source, priority, cos, stream, held;
};

struct twin_message {
    uint64_t live, source, letter, mbox, msglen, ssize, marks, last;
};

struct twin {
    uint64_t device, mtu, room, narrow; /* narrow: 0 is 16 bits for an ID, else 8 */
    struct twin_stream streams[16];
    struct twin_message messages[8];
};

enum twin_kind { TWIN_REFUSED, TWIN_HELD, TWIN_DELIVERED, TWIN_MESSAGE };

struct twin_report {
    uint64_t kind, number, dropped, context, source, cos_or_letter, stream_or_mailbox, length,
        priority;
};

void twin_setup(struct twin *t, unsigned device, size_t mtu, size_t room, unsigned narrow);

/* With every check of the refusal table. */
struct twin_report twin_read(struct twin *t, uint8_t *streams, size_t streams_length,
                             uint8_t *messages, size_t messages_length, uint8_t *response,
                             size_t response_length, const uint8_t *packet, size_t length);

/* The same without the test of the state, row 19. */
struct twin_report twin_read_unchecked(struct twin *t, uint8_t *streams, size_t streams_length,
                                       uint8_t *messages, size_t messages_length, uint8_t *response,
                                       size_t response_length, const uint8_t *packet,
                                       size_t length);

#endif
