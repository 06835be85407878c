/* A board that keeps to condition 8 of docs/THREATS.md: a PDU that is open for
   longer than a scan takes is abandoned. After each packet it asks what is open; a
   real board asks by its clock too.
   Here one board's scan never ends, and another's does. A scan at another priority
   is of another flow, so it leaves the one that is open alone. */

#include <inttypes.h>
#include <stdio.h>

#include "kaiverohm.h"

enum { DEVICE = 1, MTU = 32, ROOM = 1024, LONGEST = 3 };

static uint64_t state[KAIVEROHM_STATE_WORDS];
static uint8_t streams[KAIVEROHM_STREAM_MEMORY(ROOM)];
static uint8_t messages[KAIVEROHM_MESSAGE_MEMORY];
static uint8_t response[KAIVEROHM_RESPONSE_BYTES];
static const struct kaiverohm_desk desk = KAIVEROHM_DESK(state, streams, messages, response);
static const struct kaiverohm_settings settings = { .device = DEVICE, .mtu = MTU, .room = ROOM };

/* Header and archive belong together, and the desk is set up. */
static int begin(void)
{
    return kaiverohm_interface() == KAIVEROHM_INTERFACE
           && kaiverohm_desk_setup(&desk, settings).kind == KAIVEROHM_READY;
}

/* What was open in each context when we last looked, and since when. */
static struct kaiverohm_open_stream seen[KAIVEROHM_STREAM_CONTEXTS];
static unsigned since[KAIVEROHM_STREAM_CONTEXTS];

/* Whether it is still the same PDU. Two PDUs of a flow with one streamID are told
   apart by the packet that began the second: its report says `dropped`. */
static int same_pdu(struct kaiverohm_open_stream a, struct kaiverohm_open_stream b)
{
    return a.kind == b.kind && a.source == b.source && a.priority == b.priority && a.cos == b.cos
           && a.stream == b.stream && a.held <= b.held;
}

static void look(uint64_t n, unsigned now)
{
    struct kaiverohm_open_stream s = kaiverohm_desk_stream_context(&desk, n);
    if (!same_pdu(seen[n], s))
        since[n] = now;
    seen[n] = s;
    if (s.kind != KAIVEROHM_OPEN || now - since[n] < LONGEST)
        return;
    printf("  context %" PRIu64 " is open too long: source %" PRIu64 ", priority %" PRIu64
           ", cos %" PRIu64 ", stream %" PRIu64 ", %" PRIu64
           " bytes held. Abandoned: this scan is missing\n",
           n, s.source, s.priority, s.cos, s.stream, s.held);
    kaiverohm_desk_abandon_stream(&desk, n);
    seen[n].kind = KAIVEROHM_WAS_FREE;
}

/* The packet gave an unfinished PDU of its flow up: what is open there now is another. */
static void forget(struct kaiverohm_heading h)
{
    for (uint64_t n = 0; n < KAIVEROHM_STREAM_CONTEXTS; n++)
        if (seen[n].source == h.source && seen[n].priority == h.priority && seen[n].cos == h.cos)
            seen[n].kind = KAIVEROHM_WAS_FREE;
}

/* One segment of a PDU of three, as its board sends it. */
static int came(unsigned now, uint16_t source, uint8_t priority, uint16_t stream, uint64_t segment)
{
    static const uint8_t pdu[3 * MTU] = "echoes of a wheel";
    static const char *const words[] = { "refused", "held", "delivered", "message" };
    const struct kaiverohm_heading heading = {
        .destination = DEVICE, .source = source, .stream = stream, .cos = 5, .priority = priority
    };
    uint8_t packet[KAIVEROHM_LARGEST_PACKET];
    struct kaiverohm_answer written =
        kaiverohm_write_segment(packet, sizeof packet, heading, MTU, pdu, sizeof pdu, segment);
    if (written.kind != KAIVEROHM_WRITTEN)
        return 0;
    struct kaiverohm_report r = kaiverohm_desk_read(&desk, packet, written.number);
    printf("%u: board %d, priority %d, stream %d, segment %" PRIu64 ": %s\n", now, source, priority,
           stream, segment, words[r.kind]);
    if (r.dropped)
        forget(heading);
    for (uint64_t n = 0; n < KAIVEROHM_STREAM_CONTEXTS; n++)
        look(n, now);
    return 1;
}

int main(void)
{
    /* when, board, priority, stream, segment */
    static const uint8_t packets[][5] = {
        { 0, 2, 0, 7, 0 },   { 1, 3, 0, 40, 0 },
        { 2, 3, 0, 40, 1 },  { 3, 3, 0, 40, 2 }, /* board 2 has said nothing since 0 */
        { 4, 2, 0, 7, 1 }, /* what still comes of the abandoned PDU is refused 8 */
        { 5, 2, 0, 8, 0 },   { 6, 2, 1, 9, 0 }, /* an urgent scan overtakes, and drops nothing */
        { 6, 2, 1, 9, 1 },   { 6, 2, 1, 9, 2 },
        { 6, 2, 0, 8, 1 },   { 7, 2, 0, 8, 2 },
        { 8, 3, 0, 41, 0 },  { 10, 3, 0, 41, 0 }, /* begun again: its time begins again too */
        { 12, 3, 0, 41, 1 }, { 12, 3, 0, 41, 2 },
    };
    if (!begin())
        return 1;
    for (size_t i = 0; i < sizeof packets / sizeof packets[0]; i++)
        if (!came(packets[i][0], packets[i][1], packets[i][2], packets[i][3], packets[i][4]))
            return 1;
    return 0;
}
