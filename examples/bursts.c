/* Many packets in one call, stopped behind each delivery (`pause`), so that the
   bytes are taken out of the room before the next packet may write over them. */

#include <inttypes.h>
#include <stdio.h>
#include <string.h>

#include "kaiverohm.h"

enum { DEVICE = 1, MTU = 32, ROOM = 1024, AT_ONCE = 4 };

static uint64_t state[KAIVEROHM_STATE_WORDS];
static uint8_t streams[KAIVEROHM_STREAM_MEMORY(ROOM)];
static uint8_t messages[KAIVEROHM_MESSAGE_MEMORY];
static uint8_t response[AT_ONCE * KAIVEROHM_SLOT_BYTES];
static const struct kaiverohm_desk desk = KAIVEROHM_DESK(state, streams, messages, response);
static const struct kaiverohm_settings settings = { .device = DEVICE, .mtu = MTU, .room = ROOM };

/* Header and archive belong together, and the desk is set up. */
static int begin(void)
{
    return kaiverohm_interface() == KAIVEROHM_INTERFACE
           && kaiverohm_desk_setup(&desk, settings).kind == KAIVEROHM_READY;
}

static struct kaiverohm_report reports[AT_ONCE];

static uint8_t burst[1024];
static size_t length;

/* The segments of a PDU, each as a record of the burst. Answers whether all had room. */
static int add(uint16_t source, uint16_t stream, const char *text)
{
    const struct kaiverohm_heading heading = {
        .destination = DEVICE, .source = source, .stream = stream, .cos = 5, .priority = 0
    };
    const size_t size = strlen(text);
    for (uint64_t k = 0; k < kaiverohm_segment_count(MTU, size); k++) {
        uint8_t packet[KAIVEROHM_LARGEST_PACKET];
        struct kaiverohm_answer a = kaiverohm_write_segment(packet, sizeof packet, heading, MTU,
                                                            (const uint8_t *)text, size, k);
        if (a.kind == KAIVEROHM_WRITTEN)
            a = kaiverohm_write_record(burst + length, sizeof burst - length, packet, a.number);
        if (a.kind != KAIVEROHM_WRITTEN)
            return 0;
        length += a.number;
    }
    return 1;
}

static void take(const struct kaiverohm_report *r)
{
    printf("board %" PRIu64 ", stream %" PRIu64 ": %.*s\n", r->source, r->stream_or_mailbox,
           (int)r->length, (const char *)kaiverohm_desk_bytes(&desk, r));
}

int main(void)
{
    if (!begin() || !add(2, 7, "Wheel 7, left: 412 echoes, no crack found.")
        || !add(3, 40, "Wheel 8, left: 398 echoes, one at 31 mm.")
        || !add(2, 8, "Wheel 7, right: 405 echoes, no crack found."))
        return 1;
    size_t at = 0;
    for (;;) {
        struct kaiverohm_burst b =
            kaiverohm_desk_read_burst(&desk, reports, AT_ONCE, burst + at, length - at, 1);
        printf("%" PRIu64 " packets\n", b.count);
        at += b.next;
        if (b.stop == KAIVEROHM_BURST_DELIVERY)
            take(&reports[b.count - 1]);
        else if (b.stop != KAIVEROHM_BURST_FULL)
            return b.stop != KAIVEROHM_BURST_END;
    }
}
