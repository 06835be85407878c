/* Sets an endpoint up, cuts a PDU into packets, reads them back through the
   library and prints what comes out. */

#include <inttypes.h>
#include <stdio.h>

#include "kaiverohm.h"

enum { DEVICE = 1, MTU = 32, ROOM = 1024 };

/* All that an endpoint keeps. These may stand anywhere in memory that is the
   endpoint's alone; an array of uint64_t begins at a multiple of 8. */
static uint64_t state[KAIVEROHM_STATE_WORDS];
static uint8_t streams[KAIVEROHM_STREAM_MEMORY(ROOM)];
static uint8_t messages[KAIVEROHM_MESSAGE_MEMORY];
static uint8_t response[KAIVEROHM_RESPONSE_BYTES];

/* Each is written down once, here; every call takes them from it. */
static const struct kaiverohm_desk desk = KAIVEROHM_DESK(state, streams, messages, response);

/* A field that is not named is 0: device IDs have 16 bits. */
static const struct kaiverohm_settings settings = { .device = DEVICE, .mtu = MTU, .room = ROOM };

/* The bytes that a report delivers are in our own memory. The next packet may write over them. */
static void print_bytes(const struct kaiverohm_report *report)
{
    const uint8_t *bytes = kaiverohm_desk_bytes(&desk, report);
    if (bytes != NULL)
        fwrite(bytes, 1, report->length, stdout);
    printf("\n");
}

/* What a board does with a packet that came. Answers whether it was accepted. */
static int packet_came(const uint8_t *packet, size_t length)
{
    struct kaiverohm_report report = kaiverohm_desk_read(&desk, packet, length);

    switch (report.kind) {
    case KAIVEROHM_HELD: printf("held\n"); break;
    case KAIVEROHM_DELIVERED:
        printf("delivered, source %" PRIu64 ", priority %" PRIu64 ", cos %" PRIu64
               ", stream %" PRIu64 "\n",
               report.source, report.priority, report.cos_or_letter, report.stream_or_mailbox);
        print_bytes(&report);
        break;
    case KAIVEROHM_MESSAGE:
        printf("message, source %" PRIu64 ", letter %" PRIu64 ", mailbox %" PRIu64 "\n",
               report.source, report.cos_or_letter, report.stream_or_mailbox);
        print_bytes(&report);
        break;
    default: printf("refused: %s\n", kaiverohm_refusal_words(report.number)); break;
    }
    /* A packet, refused or not, may have given an unfinished PDU of its flow up: of the
       same source, priority and cos. */
    if (report.dropped)
        printf("an unfinished PDU was dropped\n");
    /* A message segment has a response, which goes back to its sender. */
    if (report.response)
        printf("a response of %" PRIu64 " bytes is to be sent\n", report.response);
    return report.kind != KAIVEROHM_REFUSED;
}

int main(void)
{
    static const char text[] = "Wheel 7, left: 412 echoes, no crack found, tread worn by 2 mm.";
    const struct kaiverohm_heading heading = {
        .destination = DEVICE, .source = 2, .stream = 7, .cos = 5, .priority = 1
    };
    const size_t length = sizeof text - 1;

    /* A header of another interface than the archive's would call it wrongly. */
    if (kaiverohm_interface() != KAIVEROHM_INTERFACE) {
        printf("this program was compiled with another header than the archive's\n");
        return 1;
    }

    struct kaiverohm_answer answer = kaiverohm_desk_setup(&desk, settings);
    if (answer.kind != KAIVEROHM_READY) {
        printf("setup refused: %s\n", kaiverohm_refusal_words(answer.number));
        return 1;
    }

    /* 0 for an MTU or a length that the writer would refuse */
    uint64_t count = kaiverohm_segment_count(MTU, length);
    printf("%zu bytes make %" PRIu64 " packets\n", length, count);
    if (count == 0)
        return 1;

    for (uint64_t k = 0; k < count; k++) {
        uint8_t packet[KAIVEROHM_LARGEST_PACKET];
        answer = kaiverohm_write_segment(packet, sizeof packet, heading, MTU, (const uint8_t *)text,
                                         length, k);
        if (answer.kind != KAIVEROHM_WRITTEN) {
            printf("writer refused: %s\n", kaiverohm_refusal_words(answer.number));
            return 1;
        }
        printf("packet %" PRIu64 ", %" PRIu64 " bytes: ", k, answer.number);
        if (!packet_came(packet, answer.number))
            return 1;
    }
    return 0;
}
