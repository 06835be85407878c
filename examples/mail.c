/* Messages, their responses, and condition 11 of docs/THREATS.md: a message that
   lost a segment is abandoned by name before its sender uses the letter again. */

#include <inttypes.h>
#include <stdio.h>
#include <string.h>

#include "kaiverohm.h"

enum { DEVICE = 1, MTU = 32, ROOM = 1024, SEGMENT = 8 };

static uint64_t state[KAIVEROHM_STATE_WORDS];
static uint8_t streams[KAIVEROHM_STREAM_MEMORY(ROOM)];
static uint8_t messages[KAIVEROHM_MESSAGE_MEMORY];
static uint8_t response[KAIVEROHM_RESPONSE_BYTES];
static const struct kaiverohm_desk desk = KAIVEROHM_DESK(state, streams, messages, response);
static const struct kaiverohm_settings settings = { .device = DEVICE, .mtu = MTU, .room = ROOM };

/* Header and archive belong together, and the desk is set up. */
static int begin(void)
{
    return kaiverohm_interface() == KAIVEROHM_INTERFACE
           && kaiverohm_desk_setup(&desk, settings).kind == KAIVEROHM_READY;
}

/* Segment k of a message of three segments of 8 bytes, from board 2, letter 1,
   mbox 2: byte 5 is msglen and ssize, byte 6 letter, mbox and msgseg. */
static size_t make(uint8_t *packet, const char *text, unsigned k)
{
    const uint8_t head[7] = { 0x1b, 0, DEVICE, 0, 2, 2 << 4 | 9, (uint8_t)(1 << 6 | 2 << 4 | k) };
    memcpy(packet, head, sizeof head);
    memcpy(packet + sizeof head, text + SEGMENT * k, SEGMENT);
    return sizeof head + SEGMENT;
}

static const char *status(void)
{
    switch (response[5] % 16) {
    case 0: return "DONE";
    case 3: return "RETRY";
    default: return "ERROR";
    }
}

static void came(const char *text, unsigned k)
{
    uint8_t packet[7 + SEGMENT];
    struct kaiverohm_report r = kaiverohm_desk_read(&desk, packet, make(packet, text, k));
    printf("segment %u: ", k);
    if (r.kind == KAIVEROHM_HELD)
        printf("held");
    else if (r.kind == KAIVEROHM_REFUSED)
        printf("refused %" PRIu64, r.number);
    else {
        printf("'%.*s' from %" PRIu64 ", letter %" PRIu64 ", mailbox %" PRIu64, (int)r.length,
               (const char *)kaiverohm_desk_bytes(&desk, &r), r.source, r.cos_or_letter,
               r.stream_or_mailbox);
    }
    /* The response is a whole packet. It is we who send it. */
    if (r.response)
        printf("; the response is %s", status());
    printf("\n");
}

/* Gives the message of that sender, letter and mbox up, if it is open. */
static void abandon(uint64_t source, uint64_t letter, uint64_t mbox)
{
    for (uint64_t n = 0; n < KAIVEROHM_MESSAGE_CONTEXTS; n++) {
        struct kaiverohm_open_message m = kaiverohm_desk_message_context(&desk, n);
        if (m.kind != KAIVEROHM_OPEN || m.source != source || m.letter != letter || m.mbox != mbox)
            continue;
        printf("context %" PRIu64 " has segments", n);
        for (unsigned k = 0; k <= m.msglen; k++)
            if (m.marks >> k & 1)
                printf(" %u", k);
        printf(" of 0 to %" PRIu64 ", %" PRIu64 " bytes each. Abandoned\n", m.msglen, m.size);
        kaiverohm_desk_abandon_message(&desk, n);
    }
}

int main(void)
{
    static const char worn[] = "tread worn by 2 mm on 7L", ok[] = "bearing 7L cool, quiet. ";
    if (!begin())
        return 1;
    printf("in any order:\n");
    came(worn, 2);
    came(worn, 0);
    came(worn, 1);
    printf("segment 1 is lost, so its DONE stays out, and the sender says so:\n");
    came(worn, 0);
    came(worn, 2);
    abandon(2, 1, 2);
    printf("then the letter may be used again:\n");
    came(ok, 0);
    came(ok, 1);
    came(ok, 2);
    return 0;
}
