#include "endpoint.h"

_Static_assert(sizeof(struct second_endpoint) == SECOND_STATE_WORDS * 8, "a state is 164 words");

/* ---- Small helpers ---------------------------------------------------- */

static void copy(uint8_t *to, const uint8_t *from, size_t count)
{
    for (size_t i = 0; i < count; i++)
        to[i] = from[i];
}

static unsigned half_word(const uint8_t *bytes)
{
    return (unsigned)bytes[0] << 8 | bytes[1];
}

static void put_half_word(uint8_t *bytes, uint64_t value)
{
    bytes[0] = (uint8_t)(value >> 8);
    bytes[1] = (uint8_t)value;
}

static struct second_answer plain(enum second_kind kind)
{
    struct second_answer answer = { .kind = kind };
    return answer;
}

static struct second_answer refused(unsigned number)
{
    struct second_answer answer = { .kind = SECOND_REFUSED, .refusal = number };
    return answer;
}

/* ---- The width of the IDs ------------------------------------------------
   Document 01's places and lengths are those of IDs of 16 bits. With IDs of 8
   bits everything behind them stands two bytes earlier. */

static size_t moved(uint64_t eight_bits, size_t place)
{
    return eight_bits ? place - 2 : place;
}

/* 01: 16-bit IDs. 00: 8-bit IDs. */
static unsigned tt_for(uint64_t eight_bits)
{
    return eight_bits ? 0 : 1;
}

static bool id_allowed(uint64_t eight_bits, uint64_t id)
{
    return !eight_bits || id <= 255;
}

/* Byte 0 and the two IDs of a packet that is written. */
static void put_head(uint8_t *out, uint64_t eight_bits, uint64_t priority, unsigned type,
                     uint64_t destination, uint64_t source)
{
    out[0] = (uint8_t)(priority << 6 | tt_for(eight_bits) << 4 | type);
    if (eight_bits) {
        out[1] = (uint8_t)destination;
        out[2] = (uint8_t)source;
    } else {
        put_half_word(out + 1, destination);
        put_half_word(out + 3, source);
    }
}

/* ---- What is allowed ----------------------------------------------------- */

/* A multiple of 4 from 32 to 256. */
static bool mtu_allowed(uint64_t mtu)
{
    return mtu >= 32 && mtu <= 256 && mtu % 4 == 0;
}

/* MTU <= R <= 65,536. */
static bool room_allowed(uint64_t mtu, uint64_t room)
{
    return mtu <= room && room <= 65536;
}

static bool ssize_allowed(uint64_t code)
{
    return code >= 9 && code <= 14;
}

/* Codes 1001 to 1110 mean 8, 16, 32, 64, 128, 256 bytes. */
static uint64_t ssize_bytes(uint64_t code)
{
    return (uint64_t)8 << (code - 9);
}

/* A last segment holds 8 to ssize bytes, in eights. */
static bool last_length_allowed(uint64_t length, uint64_t ssize)
{
    return length >= 8 && length <= ssize && length % 8 == 0;
}

/* ---- Row 19: states that every call refuses ---------------------------- */

static bool bad_stream(const struct second_stream *c, uint64_t room)
{
    if (!c->open)
        return false;
    return c->held == 0 || c->held > room;
}

/* The marks of segments 0 to msglen, all set. */
static uint64_t all_marks(uint64_t msglen)
{
    return ((uint64_t)2 << msglen) - 1;
}

static bool marked(const struct second_message *c, uint64_t segment)
{
    return c->marks >> segment & 1;
}

static bool bad_message(const struct second_message *c)
{
    if (!c->open)
        return false;
    if (!ssize_allowed(c->ssize))
        return true;
    if (c->msglen == 0 || c->msglen > 15)
        return true;
    if (c->marks > all_marks(c->msglen))
        return true;
    if (c->marks == 0 || c->marks == all_marks(c->msglen))
        return true;
    if (!marked(c, c->msglen))
        return c->last != 0;
    return !last_length_allowed(c->last, ssize_bytes(c->ssize));
}

bool second_refusal19(const struct second_endpoint *state)
{
    if (!mtu_allowed(state->mtu))
        return true;
    if (!room_allowed(state->mtu, state->room))
        return true;
    for (int i = 0; i < SECOND_STREAM_CONTEXTS; i++)
        if (bad_stream(&state->stream[i], state->room))
            return true;
    for (int i = 0; i < SECOND_MESSAGE_CONTEXTS; i++)
        if (bad_message(&state->message[i]))
            return true;
    return false;
}

/* ---- A packet in the hand --------------------------------------------- */

struct reading {
    const struct second_endpoint *state;
    const struct second_lent *lent;
    const uint8_t *packet;
    size_t length;
};

/* A place of document 01, or a length, in packets of our width. */
static size_t at(const struct reading *r, size_t place)
{
    return moved(r->state->eight_bits, place);
}

/* Byte 0: priority 2 bits, tt 2 bits, type 4 bits. Then the two IDs. */

static unsigned priority(const struct reading *r)
{
    return r->packet[0] >> 6;
}

static unsigned tt(const struct reading *r)
{
    return r->packet[0] >> 4 & 3;
}

static unsigned type(const struct reading *r)
{
    return r->packet[0] & 15;
}

static unsigned destination(const struct reading *r)
{
    return r->state->eight_bits ? r->packet[1] : half_word(r->packet + 1);
}

static unsigned source(const struct reading *r)
{
    return r->state->eight_bits ? r->packet[2] : half_word(r->packet + 3);
}

static bool is_stream(const struct reading *r)
{
    return type(r) == 9;
}

static bool is_message(const struct reading *r)
{
    return type(r) == 11;
}

/* Type 9: byte 5 cos; byte 6 S, E, three reserved bits, xh, O, P. */

static unsigned class_of_service(const struct reading *r)
{
    return r->packet[at(r, 5)];
}

static bool bit_s(const struct reading *r)
{
    return r->packet[at(r, 6)] & 0x80;
}

static bool bit_e(const struct reading *r)
{
    return r->packet[at(r, 6)] & 0x40;
}

static bool bit_xh(const struct reading *r)
{
    return r->packet[at(r, 6)] & 0x04;
}

static bool bit_o(const struct reading *r)
{
    return r->packet[at(r, 6)] & 0x02;
}

static bool bit_p(const struct reading *r)
{
    return r->packet[at(r, 6)] & 0x01;
}

static bool is_start_or_single(const struct reading *r)
{
    return is_stream(r) && bit_s(r);
}

static bool is_continuation_or_end(const struct reading *r)
{
    return is_stream(r) && !bit_s(r);
}

static bool is_single(const struct reading *r)
{
    return is_start_or_single(r) && bit_e(r);
}

static bool is_end(const struct reading *r)
{
    return is_continuation_or_end(r) && bit_e(r);
}

static unsigned stream_id(const struct reading *r)
{
    return half_word(r->packet + at(r, 7));
}

/* 0 means 65,536. */
static uint64_t length_field(const struct reading *r)
{
    unsigned field = half_word(r->packet + at(r, 7));
    return field == 0 ? 65536 : field;
}

/* Type 11: byte 5 msglen 4, ssize 4; byte 6 letter 2, mbox 2, msgseg 4. */

static unsigned msglen(const struct reading *r)
{
    return r->packet[at(r, 5)] >> 4;
}

static unsigned ssize(const struct reading *r)
{
    return r->packet[at(r, 5)] & 15;
}

static unsigned letter(const struct reading *r)
{
    return r->packet[at(r, 6)] >> 6;
}

static unsigned mbox(const struct reading *r)
{
    return r->packet[at(r, 6)] >> 4 & 3;
}

static unsigned msgseg(const struct reading *r)
{
    return r->packet[at(r, 6)] & 15;
}

/* With msglen 0 the last field of byte 6 is xmbox. */
static unsigned xmbox(const struct reading *r)
{
    return r->packet[at(r, 6)] & 15;
}

static bool is_single_message(const struct reading *r)
{
    return is_message(r) && msglen(r) == 0;
}

static bool is_multi_message(const struct reading *r)
{
    return is_message(r) && msglen(r) > 0;
}

/* The number of this segment. A single message's only segment is number 0. */
static unsigned segment(const struct reading *r)
{
    return msglen(r) == 0 ? 0 : msgseg(r);
}

/* Data begin behind the head. */

static size_t head(const struct reading *r)
{
    if (is_stream(r) && (bit_s(r) || bit_e(r)))
        return at(r, 9);
    return at(r, 7);
}

static const uint8_t *data(const struct reading *r)
{
    return r->packet + head(r);
}

/* With the pad byte. */
static size_t raw_bytes(const struct reading *r)
{
    return r->length - head(r);
}

/* Without the pad byte. */
static size_t data_bytes(const struct reading *r)
{
    if (is_stream(r) && bit_p(r))
        return raw_bytes(r) - 1;
    return raw_bytes(r);
}

/* ---- Finding contexts: the lower number counts ------------------------- */

/* A flow is source ID, priority and cos. */
static bool is_of_flow(const struct second_stream *c, const struct reading *r)
{
    return c->source == source(r) && c->priority == priority(r) && c->cos == class_of_service(r);
}

/* The flow's open context; 16 if the flow is not open. */
static int flow_context(const struct reading *r)
{
    for (int i = 0; i < SECOND_STREAM_CONTEXTS; i++) {
        const struct second_stream *c = &r->state->stream[i];
        if (c->open && is_of_flow(c, r))
            return i;
    }
    return SECOND_STREAM_CONTEXTS;
}

static bool flow_open(const struct reading *r)
{
    return flow_context(r) < SECOND_STREAM_CONTEXTS;
}

static int free_stream(const struct reading *r)
{
    for (int i = 0; i < SECOND_STREAM_CONTEXTS; i++)
        if (!r->state->stream[i].open)
            return i;
    return SECOND_STREAM_CONTEXTS;
}

/* The open message of this source, letter and mbox, at whatever priority its
   segments come; 8 if there is none. */
static int message_context(const struct reading *r)
{
    for (int i = 0; i < SECOND_MESSAGE_CONTEXTS; i++) {
        const struct second_message *c = &r->state->message[i];
        if (c->open && c->source == source(r) && c->letter == letter(r) && c->mbox == mbox(r))
            return i;
    }
    return SECOND_MESSAGE_CONTEXTS;
}

/* A single-segment message is never compared with open ones. */
static bool message_open(const struct reading *r)
{
    return is_multi_message(r) && message_context(r) < SECOND_MESSAGE_CONTEXTS;
}

static int free_message(const struct reading *r)
{
    for (int i = 0; i < SECOND_MESSAGE_CONTEXTS; i++)
        if (!r->state->message[i].open)
            return i;
    return SECOND_MESSAGE_CONTEXTS;
}

/* The flow's bytes with this packet. A start or single begins anew. */
static uint64_t total(const struct reading *r)
{
    if (bit_s(r))
        return data_bytes(r);
    return r->state->stream[flow_context(r)].held + data_bytes(r);
}

/* ---- The tests of the refusal table ------------------------------------
   A test may count on every test above it in the table having failed. */

static bool bad_state(const struct reading *r)
{
    return second_refusal19(r->state);
}

static bool wrong_memory(const struct reading *r)
{
    if (r->lent->stream_length != SECOND_STREAM_CONTEXTS * r->state->room)
        return true;
    if (r->lent->message_length != SECOND_MESSAGE_MEMORY)
        return true;
    return r->lent->response_length < at(r, SECOND_RESPONSE_BYTES);
}

/* The lengths of row 1 are those of document 01, at our width. */

static bool under_5(const struct reading *r)
{
    return r->length < at(r, 5);
}

static bool tt_not_ours(const struct reading *r)
{
    return tt(r) != tt_for(r->state->eight_bits);
}

static bool not_ours(const struct reading *r)
{
    return destination(r) != r->state->device;
}

static bool not_9_or_11(const struct reading *r)
{
    return type(r) != 9 && type(r) != 11;
}

static bool under_7(const struct reading *r)
{
    return r->length < at(r, 7);
}

static bool extended(const struct reading *r)
{
    return is_stream(r) && bit_xh(r);
}

static bool s_or_e_under_9(const struct reading *r)
{
    return is_stream(r) && (bit_s(r) || bit_e(r)) && r->length < at(r, 9);
}

/* No data, odd bytes of data, or O wrong. */
static bool malformed(const struct reading *r)
{
    if (!is_stream(r))
        return false;
    if (raw_bytes(r) == 0 || raw_bytes(r) % 2 == 1)
        return true;
    bool odd_half_words = raw_bytes(r) / 2 % 2 == 1;
    return bit_o(r) != odd_half_words;
}

/* Start or continuation not MTU; end or single over MTU. */
static bool wrong_size(const struct reading *r)
{
    if (!is_stream(r))
        return false;
    if (bit_e(r))
        return data_bytes(r) > r->state->mtu;
    return data_bytes(r) != r->state->mtu;
}

static bool flow_not_open(const struct reading *r)
{
    return is_continuation_or_end(r) && !flow_open(r);
}

static bool passes_room(const struct reading *r)
{
    return is_stream(r) && total(r) > r->state->room;
}

static bool no_stream_free(const struct reading *r)
{
    return is_start_or_single(r) && !flow_open(r) && free_stream(r) == SECOND_STREAM_CONTEXTS;
}

static bool length_differs(const struct reading *r)
{
    return is_end(r) && total(r) != length_field(r);
}

static bool ssize_reserved(const struct reading *r)
{
    return is_message(r) && !ssize_allowed(ssize(r));
}

/* Segment msglen: 8 to ssize in eights. Every other: exactly ssize. */
static bool wrong_message_length(const struct reading *r)
{
    if (!is_message(r))
        return false;
    if (segment(r) == msglen(r))
        return !last_length_allowed(data_bytes(r), ssize_bytes(ssize(r)));
    return data_bytes(r) != ssize_bytes(ssize(r));
}

static bool past_msglen(const struct reading *r)
{
    return is_multi_message(r) && msgseg(r) > msglen(r);
}

static bool another_msglen_or_ssize(const struct reading *r)
{
    if (!message_open(r))
        return false;
    const struct second_message *c = &r->state->message[message_context(r)];
    return c->msglen != msglen(r) || c->ssize != ssize(r);
}

static bool already_marked(const struct reading *r)
{
    if (!message_open(r))
        return false;
    return marked(&r->state->message[message_context(r)], msgseg(r));
}

static bool no_message_free(const struct reading *r)
{
    return is_message(r) && !message_open(r) && free_message(r) == SECOND_MESSAGE_CONTEXTS;
}

/* ---- The refusal table, in the paper's order --------------------------- */

enum leaves { ALL, CLOSED, ALL_AND_ERROR, ALL_AND_RETRY };

/* clang-format off */
static const struct row {
    unsigned number;
    bool (*given)(const struct reading *r);
    enum leaves leaves;
} table[] = {
    { 19, bad_state,               ALL },
    { 12, wrong_memory,            ALL },
    {  1, under_5,                 ALL },
    {  2, tt_not_ours,             ALL },
    {  3, not_ours,                ALL },
    {  4, not_9_or_11,             ALL },
    {  1, under_7,                 ALL },
    {  5, extended,                ALL },
    {  1, s_or_e_under_9,          ALL },
    {  6, malformed,               CLOSED },
    {  7, wrong_size,              CLOSED },
    {  8, flow_not_open,           ALL },
    {  9, passes_room,             CLOSED },
    { 10, no_stream_free,          ALL },
    { 11, length_differs,          CLOSED },
    { 20, ssize_reserved,          ALL_AND_ERROR },
    { 21, wrong_message_length,    ALL_AND_ERROR },
    { 22, past_msglen,             ALL_AND_ERROR },
    { 23, another_msglen_or_ssize, ALL_AND_ERROR },
    { 24, already_marked,          ALL_AND_ERROR },
    { 25, no_message_free,         ALL_AND_RETRY },
};
/* clang-format on */

/* The first row whose test holds; NULL if none does. */
static const struct row *first_row(const struct reading *r)
{
    for (size_t i = 0; i < sizeof table / sizeof table[0]; i++)
        if (table[i].given(r))
            return &table[i];
    return NULL;
}

/* ---- Responses: type 13 ------------------------------------------------ */

enum status { DONE = 0, RETRY = 3, ERROR = 7 };

/* Answers how many bytes it has written. */
static uint64_t respond(const struct reading *r, enum status status)
{
    uint8_t *out = r->lent->response;
    unsigned above = priority(r) < 3 ? priority(r) + 1 : 3;
    put_head(out, r->state->eight_bits, above, 13, source(r), r->state->device);
    out[at(r, 5)] = (uint8_t)(1 << 4 | status);
    out[at(r, 6)] = r->packet[at(r, 6)];
    return at(r, SECOND_RESPONSE_BYTES);
}

/* ---- What a packet changes --------------------------------------------- */

/* Closing a context, of either kind, sets all its fields to 0. */

static void close_stream(struct second_endpoint *state, int context)
{
    state->stream[context] = (struct second_stream){ 0 };
}

static void close_message(struct second_endpoint *state, int context)
{
    state->message[context] = (struct second_message){ 0 };
}

static struct second_answer refuse(struct second_endpoint *state, const struct reading *r,
                                   const struct row *row)
{
    struct second_answer answer = refused(row->number);
    if (row->leaves == ALL_AND_ERROR)
        answer.response = respond(r, ERROR);
    if (row->leaves == ALL_AND_RETRY)
        answer.response = respond(r, RETRY);
    if (row->leaves == CLOSED && flow_open(r)) {
        answer.dropped = true;
        close_stream(state, flow_context(r));
    }
    return answer;
}

/* Frees the context; its fields go into the answer first. */
static struct second_answer deliver_pdu(struct second_endpoint *state, int context)
{
    const struct second_stream *c = &state->stream[context];
    struct second_answer answer = {
        .kind = SECOND_PDU,
        .context = (uint64_t)context,
        .source = c->source,
        .priority = c->priority,
        .cos_or_letter = c->cos,
        .stream_or_mailbox = c->stream_id,
        .length = c->held,
    };
    close_stream(state, context);
    return answer;
}

static void store_stream_data(struct second_endpoint *state, const struct reading *r, int context)
{
    struct second_stream *c = &state->stream[context];
    uint8_t *room = r->lent->stream_memory + (size_t)context * state->room;
    copy(room + c->held, data(r), data_bytes(r));
    c->held += data_bytes(r);
}

/* The older PDU of the flow is given up, if there is one. */
static struct second_answer accept_start_or_single(struct second_endpoint *state,
                                                   const struct reading *r)
{
    struct second_answer answer = plain(SECOND_HELD);
    bool gave_up = flow_open(r);
    int context = gave_up ? flow_context(r) : free_stream(r);
    state->stream[context] = (struct second_stream){
        .open = 1,
        .source = source(r),
        .priority = priority(r),
        .cos = class_of_service(r),
        .stream_id = stream_id(r),
    };
    store_stream_data(state, r, context);
    if (is_single(r))
        answer = deliver_pdu(state, context);
    answer.dropped = gave_up;
    return answer;
}

static struct second_answer accept_continuation_or_end(struct second_endpoint *state,
                                                       const struct reading *r)
{
    int context = flow_context(r);
    store_stream_data(state, r, context);
    if (is_end(r))
        return deliver_pdu(state, context);
    return plain(SECOND_HELD);
}

static void store_message_data(const struct reading *r, int context)
{
    uint8_t *room = r->lent->message_memory + (size_t)context * SECOND_MESSAGE_ROOM;
    copy(room + segment(r) * ssize_bytes(ssize(r)), data(r), data_bytes(r));
}

static struct second_answer message_answer(const struct reading *r, int context, unsigned mailbox,
                                           uint64_t length)
{
    struct second_answer answer = {
        .kind = SECOND_MESSAGE,
        .context = (uint64_t)context,
        .source = source(r),
        .cos_or_letter = letter(r),
        .stream_or_mailbox = mailbox,
        .length = length,
    };
    return answer;
}

static struct second_answer accept_single_message(struct second_endpoint *state,
                                                  const struct reading *r)
{
    int context = free_message(r);
    store_message_data(r, context);
    close_message(state, context);
    return message_answer(r, context, 4 * xmbox(r) + mbox(r), data_bytes(r));
}

/* The message's context: its open one, or else the lowest free one. */
static int take_message(struct second_endpoint *state, const struct reading *r)
{
    if (message_open(r))
        return message_context(r);
    int context = free_message(r);
    state->message[context] = (struct second_message){
        .open = 1,
        .source = source(r),
        .letter = letter(r),
        .mbox = mbox(r),
        .msglen = msglen(r),
        .ssize = ssize(r),
    };
    return context;
}

static struct second_answer accept_multi_message(struct second_endpoint *state,
                                                 const struct reading *r)
{
    int context = take_message(state, r);
    struct second_message *c = &state->message[context];
    store_message_data(r, context);
    c->marks |= (uint64_t)1 << msgseg(r);
    if (msgseg(r) == msglen(r))
        c->last = data_bytes(r);
    if (c->marks != all_marks(c->msglen))
        return plain(SECOND_HELD);
    uint64_t length = c->msglen * ssize_bytes(c->ssize) + c->last;
    close_message(state, context);
    return message_answer(r, context, mbox(r), length);
}

/* An accepted segment writes DONE. */
static struct second_answer accept_message(struct second_endpoint *state, const struct reading *r)
{
    struct second_answer answer =
        is_single_message(r) ? accept_single_message(state, r) : accept_multi_message(state, r);
    answer.response = respond(r, DONE);
    return answer;
}

/* ---- The calls ---------------------------------------------------------
   A buffer that is no state is a lent memory of the wrong size: 12, before
   anything else. */

struct second_endpoint *second_state(uint64_t *words, size_t count)
{
    return count == SECOND_STATE_WORDS ? (struct second_endpoint *)words : NULL;
}

struct second_answer second_read(struct second_endpoint *state, struct second_lent lent,
                                 const uint8_t *packet, size_t length)
{
    if (state == NULL)
        return refused(12);
    const struct reading reading = {
        .state = state, .lent = &lent, .packet = packet, .length = length
    };
    const struct reading *r = &reading;
    const struct row *row = first_row(r);
    if (row != NULL)
        return refuse(state, r, row);
    if (is_start_or_single(r))
        return accept_start_or_single(state, r);
    if (is_continuation_or_end(r))
        return accept_continuation_or_end(state, r);
    return accept_message(state, r);
}

/* 47 first, then 18 before 19. Refused by them, it hands back a state of zeros. */
struct second_answer second_setup(struct second_endpoint *state, uint16_t device, uint64_t mtu,
                                  uint64_t room, uint64_t eight_bits)
{
    if (state == NULL)
        return refused(12);
    *state = (struct second_endpoint){ 0 };
    if (!id_allowed(eight_bits, device))
        return refused(47);
    if (!mtu_allowed(mtu))
        return refused(18);
    if (!room_allowed(mtu, room))
        return refused(19);
    state->device = device;
    state->mtu = mtu;
    state->room = room;
    state->eight_bits = eight_bits;
    return plain(SECOND_READY);
}

struct second_answer second_abandon_stream(struct second_endpoint *state, uint64_t context)
{
    if (state == NULL)
        return refused(12);
    if (second_refusal19(state))
        return refused(19);
    if (context >= SECOND_STREAM_CONTEXTS)
        return refused(13);
    if (!state->stream[context].open)
        return plain(SECOND_WAS_FREE);
    close_stream(state, (int)context);
    return plain(SECOND_ABANDONED);
}

struct second_answer second_abandon_message(struct second_endpoint *state, uint64_t context)
{
    if (state == NULL)
        return refused(12);
    if (second_refusal19(state))
        return refused(19);
    if (context >= SECOND_MESSAGE_CONTEXTS)
        return refused(13);
    if (!state->message[context].open)
        return plain(SECOND_WAS_FREE);
    close_message(state, (int)context);
    return plain(SECOND_ABANDONED);
}

/* In place of a refusal, rooms give an empty part. */

static struct second_part empty_part(const uint8_t *memory)
{
    struct second_part part = { .bytes = memory, .length = 0 };
    return part;
}

struct second_part second_stream_room(const struct second_endpoint *state, const uint8_t *memory,
                                      size_t memory_length, uint64_t context, uint64_t length)
{
    if (state == NULL || second_refusal19(state))
        return empty_part(memory);
    if (memory_length != SECOND_STREAM_CONTEXTS * state->room)
        return empty_part(memory);
    if (context >= SECOND_STREAM_CONTEXTS || length > state->room)
        return empty_part(memory);
    struct second_part part = { .bytes = memory + context * state->room, .length = length };
    return part;
}

struct second_part second_message_room(const struct second_endpoint *state, const uint8_t *memory,
                                       size_t memory_length, uint64_t context, uint64_t length)
{
    if (state == NULL || second_refusal19(state))
        return empty_part(memory);
    if (memory_length != SECOND_MESSAGE_MEMORY)
        return empty_part(memory);
    if (context >= SECOND_MESSAGE_CONTEXTS || length > SECOND_MESSAGE_ROOM)
        return empty_part(memory);
    struct second_part part = { .bytes = memory + context * SECOND_MESSAGE_ROOM, .length = length };
    return part;
}

/* ---- The segment writer ------------------------------------------------ */

static bool pdu_allowed(uint64_t length)
{
    return length >= 1 && length <= SECOND_LARGEST_PDU;
}

uint64_t second_segment_count(uint64_t mtu, uint64_t pdu_length)
{
    if (!mtu_allowed(mtu) || !pdu_allowed(pdu_length))
        return 0;
    return (pdu_length + mtu - 1) / mtu;
}

struct second_answer second_write_segment(uint8_t *out, size_t out_length,
                                          struct second_heading heading, uint64_t mtu,
                                          const uint8_t *pdu, size_t pdu_length, uint64_t number)
{
    const uint64_t eight_bits = heading.eight_bits;
    if (!id_allowed(eight_bits, heading.destination) || !id_allowed(eight_bits, heading.source))
        return refused(47);
    if (!mtu_allowed(mtu))
        return refused(18);
    if (heading.priority > 3)
        return refused(17);
    if (!pdu_allowed(pdu_length))
        return refused(14);
    uint64_t count = second_segment_count(mtu, pdu_length);
    if (number >= count)
        return refused(15);

    bool s = number == 0;
    bool e = number == count - 1;
    size_t from = number * mtu;
    size_t bytes = e ? pdu_length - from : mtu;
    bool pad = bytes % 2 == 1;
    size_t half_words = (bytes + 1) / 2;
    bool odd = half_words % 2 == 1;
    size_t behind = moved(eight_bits, s || e ? 9 : 7);
    size_t length = behind + 2 * half_words;
    if (out_length < length)
        return refused(16);

    put_head(out, eight_bits, heading.priority, 9, heading.destination, heading.source);
    out[moved(eight_bits, 5)] = heading.cos;
    out[moved(eight_bits, 6)] = (uint8_t)(s << 7 | e << 6 | odd << 1 | pad);
    if (s)
        put_half_word(out + moved(eight_bits, 7), heading.stream_id);
    if (!s && e)
        put_half_word(out + moved(eight_bits, 7), pdu_length); /* 65,536 is written as 0 */
    copy(out + behind, pdu + from, bytes);
    if (pad)
        out[length - 1] = 0;

    struct second_answer answer = { .kind = SECOND_WRITTEN, .length = length };
    return answer;
}
