#include "twin.h"

#include <string.h>

/* Inlined for each width by itself, so that neither has the other's tests. */
#define INLINE inline __attribute__((always_inline))

/* 8, 16, .. 256 for the codes 1001 to 1110, else 0 */
static inline unsigned bytes_of(unsigned ssize)
{
    return ssize >= 9 && ssize <= 14 ? 8u << (ssize - 9) : 0;
}

static inline bool bad_mtu(uint64_t mtu)
{
    return mtu < 32 || mtu > 256 || mtu % 4 != 0;
}

static inline bool bad_message(const struct twin_message *m)
{
    if (m->ssize > 15 || m->msglen == 0 || m->msglen > 15)
        return true;
    unsigned size = bytes_of((unsigned)m->ssize);
    uint64_t all = (2ull << m->msglen) - 1;
    if (size == 0 || m->marks == 0 || m->marks >= all)
        return true;
    if (m->marks >> m->msglen & 1)
        return m->last < 8 || m->last > size || m->last % 8 != 0;
    return m->last != 0;
}

/* row 19 */
static bool bad_state(const struct twin *t)
{
    if (bad_mtu(t->mtu) || t->room < t->mtu || t->room > 65536)
        return true;
    for (int i = 0; i < 16; i++)
        if (t->streams[i].live && t->streams[i].held - 1 >= t->room)
            return true;
    for (int i = 0; i < 8; i++)
        if (t->messages[i].live && bad_message(&t->messages[i]))
            return true;
    return false;
}

static inline struct twin_report refused(unsigned number, bool dropped)
{
    return (struct twin_report){ .kind = TWIN_REFUSED, .number = number, .dropped = dropped };
}

static inline void close_stream(struct twin *t, int n)
{
    t->streams[n] = (struct twin_stream){ 0 };
}

static inline struct twin_report refused_closing(struct twin *t, int found, unsigned number)
{
    if (found == 16)
        return refused(number, false);
    close_stream(t, found);
    return refused(number, true);
}

static inline int find_stream(const struct twin *t, uint64_t source, uint64_t priority,
                              uint64_t cos)
{
    for (int i = 0; i < 16; i++)
        if (t->streams[i].source == source && t->streams[i].priority == priority
            && t->streams[i].cos == cos && t->streams[i].live)
            return i;
    return 16;
}

static inline int free_stream(const struct twin *t)
{
    for (int i = 0; i < 16; i++)
        if (!t->streams[i].live)
            return i;
    return 16;
}

/* An ID of so many bytes, 2 or 1. */
static INLINE uint64_t id_at(const uint8_t *p, unsigned ids)
{
    return ids == 2 ? (uint64_t)(p[0] << 8 | p[1]) : p[0];
}

/* Where the fields of a type begin. */
static INLINE unsigned header(unsigned ids)
{
    return 1 + 2 * ids;
}

static INLINE struct twin_report read_stream(struct twin *t, uint8_t *memory, const uint8_t *p,
                                             size_t length, unsigned ids)
{
    unsigned h = header(ids), flags = p[h + 1];
    if (flags & 4)
        return refused(5, false);
    bool start = flags & 128, end = flags & 64;
    size_t from = start || end ? h + 4 : h + 2;
    if (length < from)
        return refused(1, false);
    uint64_t source = id_at(p + 1 + ids, ids), priority = p[0] >> 6, cos = p[h];
    size_t raw = length - from;
    unsigned field = start || end ? p[h + 2] << 8 | p[h + 3] : 0;
    int found = find_stream(t, source, priority, cos);
    if (raw == 0 || raw % 2 == 1 || (raw / 2 % 2 == 1) != !!(flags & 2))
        return refused_closing(t, found, 6);
    size_t size = raw - (flags & 1);
    if (end ? size > t->mtu : size != t->mtu)
        return refused_closing(t, found, 7);
    int n = found;
    uint64_t base = 0, stream = field;
    bool dropped = false;
    if (start) {
        dropped = found < 16;
        if (!dropped && (n = free_stream(t)) == 16)
            return refused(10, false);
    } else {
        if (found == 16)
            return refused(8, false);
        base = t->streams[n].held;
        stream = t->streams[n].stream;
        if (base + size > t->room)
            return refused_closing(t, found, 9);
        if (end && base + size != (field ? field : 65536))
            return refused_closing(t, found, 11);
    }
    memcpy(memory + n * t->room + base, p + from, size);
    if (!end) {
        t->streams[n] = (struct twin_stream){ 1, source, priority, cos, stream, base + size };
        return (struct twin_report){ .kind = TWIN_HELD, .dropped = dropped };
    }
    close_stream(t, n);
    return (struct twin_report){ TWIN_DELIVERED, 0,           dropped, n, source, cos,
                                 stream,         base + size, priority };
}

static INLINE void respond(uint8_t *r, const uint8_t *p, unsigned ids, unsigned status)
{
    unsigned priority = p[0] >> 6, h = header(ids);
    r[0] = (uint8_t)((priority < 3 ? priority + 1 : 3) << 6 | (ids - 1) << 4 | 13);
    memcpy(r + 1, p + 1 + ids, ids);
    memcpy(r + 1 + ids, p + 1, ids);
    r[h] = (uint8_t)(1 << 4 | status);
    r[h + 1] = p[h + 1];
}

static INLINE struct twin_report answered(uint8_t *response, const uint8_t *p, unsigned ids,
                                          unsigned number, unsigned status)
{
    respond(response, p, ids, status);
    return refused(number, false);
}

static inline struct twin_report whole_message(struct twin *t, int n, uint64_t source,
                                               uint64_t letter, uint64_t mailbox, uint64_t length)
{
    t->messages[n] = (struct twin_message){ 0 };
    return (struct twin_report){ TWIN_MESSAGE, 0, 0, n, source, letter, mailbox, length, 0 };
}

static INLINE struct twin_report read_message(struct twin *t, uint8_t *memory, uint8_t *response,
                                              const uint8_t *p, size_t length, unsigned ids)
{
    unsigned h = header(ids), sizes = p[h], names = p[h + 1];
    unsigned msglen = sizes >> 4, ssize = sizes & 15, letter = names >> 6, mbox = names >> 4 & 3,
             msgseg = names & 15;
    uint64_t source = id_at(p + 1 + ids, ids);
    size_t raw = length - (h + 2);
    unsigned size = bytes_of(ssize);
    if (size == 0)
        return answered(response, p, ids, 20, 7);
    bool last = msglen == 0 || msgseg == msglen;
    if (last ? raw < 8 || raw > size || raw % 8 != 0 : raw != size)
        return answered(response, p, ids, 21, 7);
    if (msglen > 0 && msgseg > msglen)
        return answered(response, p, ids, 22, 7);
    int n = 8;
    if (msglen > 0) {
        for (n = 0; n < 8; n++)
            if (t->messages[n].source == source && t->messages[n].letter == letter
                && t->messages[n].mbox == mbox && t->messages[n].live)
                break;
    }
    struct twin_message m = { 1, source, letter, mbox, msglen, ssize, 0, 0 };
    if (n < 8) {
        m = t->messages[n];
        if (m.msglen != msglen || m.ssize != ssize)
            return answered(response, p, ids, 23, 7);
        if (m.marks >> msgseg & 1)
            return answered(response, p, ids, 24, 7);
    } else {
        for (n = 0; n < 8 && t->messages[n].live; n++)
            ;
        if (n == 8)
            return answered(response, p, ids, 25, 3);
    }
    respond(response, p, ids, 0);
    if (msglen == 0) {
        memcpy(memory + n * 4096, p + h + 2, raw);
        return whole_message(t, n, source, letter, 4 * msgseg + mbox, raw);
    }
    memcpy(memory + n * 4096 + msgseg * size, p + h + 2, raw);
    m.marks |= 1u << msgseg;
    if (last)
        m.last = raw;
    if (m.marks == (2u << msglen) - 1)
        return whole_message(t, n, source, letter, mbox, msglen * size + m.last);
    t->messages[n] = m;
    return (struct twin_report){ .kind = TWIN_HELD };
}

static INLINE struct twin_report read_at(struct twin *t, uint8_t *streams, size_t streams_length,
                                         uint8_t *messages, size_t messages_length,
                                         uint8_t *response, size_t response_length,
                                         const uint8_t *p, size_t length, unsigned ids)
{
    unsigned h = header(ids);
    if (streams_length != 16 * t->room || messages_length != 32768 || response_length < h + 2)
        return refused(12, false);
    if (length < h)
        return refused(1, false);
    if ((p[0] >> 4 & 3) != ids - 1)
        return refused(2, false);
    if (id_at(p + 1, ids) != t->device)
        return refused(3, false);
    unsigned type = p[0] & 15;
    if (type != 9 && type != 11)
        return refused(4, false);
    if (length < h + 2)
        return refused(1, false);
    if (type == 9)
        return read_stream(t, streams, p, length, ids);
    return read_message(t, messages, response, p, length, ids);
}

/* The width parts here, so that each side has its places as constants. */
static INLINE struct twin_report read_packet(struct twin *t, uint8_t *streams,
                                             size_t streams_length, uint8_t *messages,
                                             size_t messages_length, uint8_t *response,
                                             size_t response_length, const uint8_t *p,
                                             size_t length)
{
    if (t->narrow)
        return read_at(t, streams, streams_length, messages, messages_length, response,
                       response_length, p, length, 1);
    return read_at(t, streams, streams_length, messages, messages_length, response, response_length,
                   p, length, 2);
}

struct twin_report twin_read(struct twin *t, uint8_t *streams, size_t streams_length,
                             uint8_t *messages, size_t messages_length, uint8_t *response,
                             size_t response_length, const uint8_t *packet, size_t length)
{
    if (bad_state(t))
        return refused(19, false);
    return read_packet(t, streams, streams_length, messages, messages_length, response,
                       response_length, packet, length);
}

struct twin_report twin_read_unchecked(struct twin *t, uint8_t *streams, size_t streams_length,
                                       uint8_t *messages, size_t messages_length, uint8_t *response,
                                       size_t response_length, const uint8_t *packet, size_t length)
{
    return read_packet(t, streams, streams_length, messages, messages_length, response,
                       response_length, packet, length);
}

void twin_setup(struct twin *t, unsigned device, size_t mtu, size_t room, unsigned narrow)
{
    *t = (struct twin){ .device = device, .mtu = mtu, .room = room, .narrow = narrow };
}
