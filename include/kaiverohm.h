/* Kaiverohm: a RapidIO endpoint whose every promise is proved.

   It reads data-streaming packets (type 9) and messages (type 11), joins
   their segments in memory that you lend it, and writes type 9 segments and
   type 13 responses. Device IDs have 16 bits or 8, as setup chooses. It keeps
   nothing between calls: all it knows stands in your buffers. It allocates
   nothing, waits for nothing and calls nothing but memcpy and memset.

   The functions are proved (crates/kaiverohm). The proof covers any bytes in
   any buffer and any number in any argument. It cannot see the C that calls.
   So these conditions are yours, at every call:

     1. A pointer with a length after it is good for that many items, to read,
        and to write where it is not const. Where the length is 0 the pointer
        is not NULL, and nothing is read or written there.
     2. What a call may write overlaps nothing else that it is lent.
     3. A pointer to uint64_t is a multiple of 8.
     4. While the call runs, nobody else writes to what is lent, or reads what
        the call may write. Two calls may run at once if they share no buffer
        that either of them may write.
     5. No buffer ends past the end of the address space, and none is longer
        than 2^63 - 1 bytes.

   Nothing else is asked. A buffer of another length than the call needs is
   answered as the call says below: most often by a refusal. A state that no
   call could have left is refused by its number or read as it stands, and every
   byte written is one that the promise names.

   The code is for x86-64 with the System V calling convention. It uses the SSE2
   registers and the red zone, as programs may and an interrupt handler often
   may not.

   The stack is measured (tests/c/stack.c), and no proof bounds it. No call took
   more than 2,048 bytes, but for one thing: in a program that is bound lazily the
   first call that reaches memcpy, and the first that reaches memset, also take
   what the dynamic linker needs to find them. That was over 3,200 bytes in all,
   and it grows with the registers that a processor has. Linked with -Wl,-z,now,
   or statically, a first call takes no more than the others.

   'The paper' is the association's document 01, 'The rack endpoint and its
   rules'. Numbers of refusals are those of its table: enum kaiverohm_refusal has
   their names, kaiverohm_refusal_words their words. 'All stays' means: no byte of
   any buffer changes.

   'The state is none' means that row 19 of the table names it: its MTU or R is
   out of range, or an open context has numbers that cannot be. It was never set
   up, or somebody wrote over it.

   A flow is a source ID, a priority and a class of service, cos. A stream context
   holds the PDU of one flow, so all packets of a PDU have one priority. A packet
   that differs in the priority alone is of another flow: it is not joined to that
   PDU and does not give it up. A board that sends under one cos at two priorities
   has two flows, and may need two of the 16 contexts. A message is known by source,
   letter and mbox; its segments may come at different priorities.

   A caller who keeps one endpoint writes its buffers down once, in a struct
   kaiverohm_desk, and uses the calls at the end of this file.

   In the project, docs/REFUSALS.md has the refusals in full and in their order,
   docs/DECISIONS.md what was decided where the paper is open. Promises are in
   crates/: each function names its file and its promise. */

#ifndef KAIVEROHM_H
#define KAIVEROHM_H

#include <stddef.h>
#include <stdint.h>

#if !defined(__x86_64__) || defined(__ILP32__) || defined(_WIN32) || defined(__CYGWIN__)
#error "libkaiverohm.a is for x86-64 with 64-bit pointers and the System V calling convention"
#endif

#ifdef __cplusplus
extern "C" {
#endif

#define KAIVEROHM_VERSION "0.3.1"
#define KAIVEROHM_VERSION_MAJOR 0
#define KAIVEROHM_VERSION_MINOR 3
#define KAIVEROHM_VERSION_PATCH 1

/* It rises whenever a function, a struct or a constant of this file changes.
   What is only added leaves it. kaiverohm_interface says the archive's: compare
   the two once, before the first call.

   In interface 3 the priority belongs to the flow. Who comes from 2 compiles anew,
   sets each state up anew (one of 148 words is refused by 12, never misread), and
   lends one word more for each report of a burst (KAIVEROHM_REPORT_WORDS is 10).
   Who comes from 1 also hands setup its numbers in a struct kaiverohm_settings and
   gives a struct kaiverohm_heading its field narrow (left out of an initializer, it
   is 0: IDs of 16 bits, as before). */
#define KAIVEROHM_INTERFACE 3

#define KAIVEROHM_STATE_WORDS 164      /* a state: 164 words of 8 bytes */
#define KAIVEROHM_STREAM_CONTEXTS 16   /* stream memory: 16 rooms of R bytes */
#define KAIVEROHM_MESSAGE_CONTEXTS 8   /* message memory: 8 rooms of 4,096 */
#define KAIVEROHM_MESSAGE_ROOM 4096    /* one room */
#define KAIVEROHM_MESSAGE_MEMORY 32768 /* all 8 rooms */
#define KAIVEROHM_RESPONSE_BYTES 7     /* always enough for a type 13 response */
#define KAIVEROHM_LARGEST_PDU 65536    /* the bytes of a PDU: 1 to 65,536 */
#define KAIVEROHM_LARGEST_PACKET 265   /* of what the segment writer writes */
#define KAIVEROHM_REPORT_WORDS 10      /* a report in a burst: 10 words */
#define KAIVEROHM_SLOT_BYTES 8         /* for a response in a burst: 8 bytes */

/* The bytes of a packet in a record: 0 to 16,383. */
#define KAIVEROHM_LARGEST_RECORDED 16383

/* An MTU: a multiple of 4, from 32 to 256. R: from the MTU to 65,536. */
#define KAIVEROHM_SMALLEST_MTU 32
#define KAIVEROHM_LARGEST_MTU 256
#define KAIVEROHM_MTU_STEP 4
#define KAIVEROHM_LARGEST_ROOM 65536

/* The bytes of a stream memory with rooms of R bytes. */
#define KAIVEROHM_STREAM_MEMORY(R) (KAIVEROHM_STREAM_CONTEXTS * (R))

/* What a call says: crates/answers/specs/Kinds.antt. */
enum kaiverohm_kind {
    KAIVEROHM_REFUSED = 0,   /* number: the refusal */
    KAIVEROHM_HELD = 1,      /* a segment is stored, more is to come */
    KAIVEROHM_DELIVERED = 2, /* a PDU is whole */
    KAIVEROHM_MESSAGE = 3,   /* a message is whole */
    KAIVEROHM_READY = 4,     /* a state is made */
    KAIVEROHM_CLOSED = 5,    /* a context was open, and is closed */
    KAIVEROHM_WAS_FREE = 6,  /* a context was free, and stays so */
    KAIVEROHM_WRITTEN = 7,   /* number: the bytes written */
    KAIVEROHM_OPEN = 8       /* a context is open, and stays so */
};

/* Why a burst stopped: crates/c_bursts/specs/Bursts.antt. */
enum kaiverohm_stop {
    KAIVEROHM_BURST_REFUSED = 0, /* number: 19 or 12. Nothing was read */
    KAIVEROHM_BURST_END = 1,     /* all its packets were read */
    KAIVEROHM_BURST_BAD = 2,     /* the record at next is no record */
    KAIVEROHM_BURST_FULL = 3,    /* a packet more, but no report or no response left */
    KAIVEROHM_BURST_DELIVERY = 4 /* the last packet read delivered something */
};

/* The refusals, by the numbers of the paper's table. */
enum kaiverohm_refusal {
    KAIVEROHM_REFUSAL_SHORT = 1,
    KAIVEROHM_REFUSAL_ID_WIDTH = 2,
    KAIVEROHM_REFUSAL_OTHER_DEVICE = 3,
    KAIVEROHM_REFUSAL_TYPE = 4,
    KAIVEROHM_REFUSAL_EXTENDED = 5,
    KAIVEROHM_REFUSAL_FORM = 6,
    KAIVEROHM_REFUSAL_SIZE = 7,
    KAIVEROHM_REFUSAL_NOT_OPEN = 8,
    KAIVEROHM_REFUSAL_PAST_ROOM = 9,
    KAIVEROHM_REFUSAL_STREAMS_FULL = 10,
    KAIVEROHM_REFUSAL_END_LENGTH = 11,
    KAIVEROHM_REFUSAL_BUFFER = 12,
    KAIVEROHM_REFUSAL_NO_CONTEXT = 13,
    KAIVEROHM_REFUSAL_PDU = 14,
    KAIVEROHM_REFUSAL_NO_SEGMENT = 15,
    KAIVEROHM_REFUSAL_OUT = 16,
    KAIVEROHM_REFUSAL_PRIORITY = 17,
    KAIVEROHM_REFUSAL_MTU = 18,
    KAIVEROHM_REFUSAL_STATE = 19,
    KAIVEROHM_REFUSAL_SSIZE = 20,
    KAIVEROHM_REFUSAL_SEGMENT_LENGTH = 21,
    KAIVEROHM_REFUSAL_PAST_LAST = 22,
    KAIVEROHM_REFUSAL_OTHER_MESSAGE = 23,
    KAIVEROHM_REFUSAL_TWICE = 24,
    KAIVEROHM_REFUSAL_MESSAGES_FULL = 25,
    KAIVEROHM_REFUSAL_WIDE_ID = 47
};

/* A refusal in words; for any other number, that it is none. Never NULL. */
static inline const char *kaiverohm_refusal_words(uint64_t number)
{
    switch (number) {
    case KAIVEROHM_REFUSAL_SHORT: return "too short to have a whole head";
    case KAIVEROHM_REFUSAL_ID_WIDTH: return "device IDs of another width";
    case KAIVEROHM_REFUSAL_OTHER_DEVICE: return "for another device";
    case KAIVEROHM_REFUSAL_TYPE: return "neither type 9 nor type 11";
    case KAIVEROHM_REFUSAL_EXTENDED: return "type 9 with an extended header";
    case KAIVEROHM_REFUSAL_FORM: return "type 9: no data, odd, or O wrong";
    case KAIVEROHM_REFUSAL_SIZE: return "type 9: wrong size for the MTU";
    case KAIVEROHM_REFUSAL_NOT_OPEN: return "nothing of its flow is under way";
    case KAIVEROHM_REFUSAL_PAST_ROOM: return "the PDU is longer than a room";
    case KAIVEROHM_REFUSAL_STREAMS_FULL: return "all 16 stream contexts in use";
    case KAIVEROHM_REFUSAL_END_LENGTH: return "end: not as many bytes as it says";
    case KAIVEROHM_REFUSAL_BUFFER: return "a buffer of the wrong size";
    case KAIVEROHM_REFUSAL_NO_CONTEXT: return "no such context";
    case KAIVEROHM_REFUSAL_PDU: return "a PDU of 0 or over 65,536 bytes";
    case KAIVEROHM_REFUSAL_NO_SEGMENT: return "the PDU has no such segment";
    case KAIVEROHM_REFUSAL_OUT: return "out is shorter than what is written";
    case KAIVEROHM_REFUSAL_PRIORITY: return "the priority is over 3";
    case KAIVEROHM_REFUSAL_MTU: return "the MTU is not allowed";
    case KAIVEROHM_REFUSAL_STATE: return "the state is none";
    case KAIVEROHM_REFUSAL_SSIZE: return "ssize is reserved";
    case KAIVEROHM_REFUSAL_SEGMENT_LENGTH: return "segment of the wrong length";
    case KAIVEROHM_REFUSAL_PAST_LAST: return "segment number past the last";
    case KAIVEROHM_REFUSAL_OTHER_MESSAGE: return "other msglen or ssize than before";
    case KAIVEROHM_REFUSAL_TWICE: return "the segment is there already";
    case KAIVEROHM_REFUSAL_MESSAGES_FULL: return "all 8 message contexts in use";
    case KAIVEROHM_REFUSAL_WIDE_ID: return "a device ID over 255 where IDs have 8 bits";
    default: return "no refusal";
    }
}

/* The answer of a call that reads no packet. */
struct kaiverohm_answer {
    uint64_t kind;
    uint64_t number; /* the refusal, or the bytes written; else 0 */
};

/* The answer to a packet. Fields that a kind does not name are 0. */
struct kaiverohm_report {
    uint64_t kind;              /* refused, held, delivered or message */
    uint64_t number;            /* refused: the refusal */
    uint64_t dropped;           /* any kind: 1 where this packet gave an unfinished
                                   PDU up, of its own source, priority and cos:
                                   refused 6, 7, 9 or 11, or a start or single on
                                   a flow that had one. Else 0 */
    uint64_t response;          /* any kind: bytes of response written. 0 for none; else
                                   7, or 5 where IDs have 8 bits */
    uint64_t context;           /* delivered, message: the context, so the room */
    uint64_t source;            /* delivered, message: who sent it */
    uint64_t cos_or_letter;     /* delivered: cos. message: letter */
    uint64_t stream_or_mailbox; /* delivered: streamID. message: mailbox */
    uint64_t length;            /* delivered, message: its bytes in the room */
    uint64_t priority;          /* delivered: the priority of its flow */
};

/* The answer to a burst. */
struct kaiverohm_burst {
    uint64_t stop;   /* why it stopped */
    uint64_t number; /* refused: the refusal. Else 0 */
    uint64_t count;  /* the packets read, so the reports written */
    uint64_t next;   /* the byte of burst where the first unread record begins */
};

/* A part of a memory of yours. */
struct kaiverohm_place {
    uint64_t offset;
    uint64_t length;
};

/* What a stream context holds. Fields that a kind does not name are 0. */
struct kaiverohm_open_stream {
    uint64_t kind;     /* open, was free or refused */
    uint64_t number;   /* refused: the refusal */
    uint64_t source;   /* open: who sends the PDU */
    uint64_t cos;      /* open: under which class of service */
    uint64_t stream;   /* open: its streamID */
    uint64_t held;     /* open: how many of its bytes are in the room */
    uint64_t priority; /* open: at which priority it is sent */
};

/* What a message context holds. Fields that a kind does not name are 0. */
struct kaiverohm_open_message {
    uint64_t kind;   /* open, was free or refused */
    uint64_t number; /* refused: the refusal */
    uint64_t source; /* open: who sends the message */
    uint64_t letter; /* open: its letter */
    uint64_t mbox;   /* open: its mbox */
    uint64_t msglen; /* open: the number of its segments less one */
    uint64_t size;   /* open: the bytes of each segment but the last */
    uint64_t marks;  /* open: bit k is 1 where segment k has come */
    uint64_t last;   /* open: the bytes of the last segment, 0 before it came */
};

/* What the segment writer writes in the head of each packet. An endpoint of the
   other width refuses the packet by 2. */
struct kaiverohm_heading {
    uint16_t destination; /* with IDs of 8 bits at most 255 */
    uint16_t source;      /* likewise */
    uint16_t stream;
    uint8_t cos;
    uint8_t priority; /* 0 to 3, one for all segments of a PDU */
    uint64_t narrow;  /* 0: IDs of 16 bits; any other number: of 8 */
};

/* What setup fixes. */
struct kaiverohm_settings {
    uint16_t device; /* our own ID; with IDs of 8 bits at most 255 */
    uint64_t mtu;    /* a multiple of 4, from 32 to 256 */
    uint64_t room;   /* R: from the MTU to 65,536 */
    uint64_t narrow; /* 0: IDs of 16 bits; any other number: of 8 */
};

/* The archive's interface. Where it is not KAIVEROHM_INTERFACE, this header and the
   archive do not belong together: call nothing else.
   Promise: crates/kaiverohm/specs/Exports.antt, InterfacePromise. */
uint64_t kaiverohm_interface(void);

/* The words of a state: 164.
   Promise: crates/endpoint/specs/Calls.antt, LengthPromise. */
uint64_t kaiverohm_state_length(void);

/* Makes a state for a device ID, an MTU, rooms of R bytes and a width of the IDs.

   state: 164 words, written. What stood there is not looked at.
   Answers READY; or REFUSED, in this order:
     12  the state has another length than 164. All stays.
     47  IDs have 8 bits and the device is over 255. The state is zeros.
     18  the MTU is no multiple of 4 from 32 to 256. The state is zeros.
     19  R is under the MTU or over 65,536. The state is zeros.
   A state of zeros is none: reading, asking and abandoning refuse it by 19, and
   no room is found in it.
   Promise: crates/kaiverohm/specs/Exports.antt, SetupFromCPromise. */
struct kaiverohm_answer kaiverohm_setup(uint64_t *state, size_t state_words,
                                        struct kaiverohm_settings settings);

/* clang-format off */
/* Reads one packet: the wire packet without its first link byte, CRC and fill.

   state:          164 words, read and written.
   stream_memory:  exactly 16 R bytes, written. Room n begins at n R.
   message_memory: exactly 32,768 bytes, written. Room n begins at 4,096 n.
   response:       7 bytes or more. The first 7 may be written.
   packet:         any number of bytes, read.
   Answers HELD, DELIVERED, MESSAGE or REFUSED, by the first that holds: 12 (the
   state has another length than 164); 19; 12 (another buffer has the wrong one);
   1 (under 5 bytes), 2, 3, 4; 1 (under 7 bytes); then for type 9: 5; 1 (a start,
   an end or a single, under 9 bytes); 6 to 11; for type 11: 20 to 25.
   The lengths of a response and of a packet are those with IDs of 16 bits. With
   IDs of 8 bits each is 2 less: 5 bytes of response or more, of which the first 5
   may be written; packets under 3, under 5 and under 7 bytes. 2 is for IDs that
   are not of our width.
     type 9 accepted   its data go into a stream room, and the context's words
                       are written: all 0 where the PDU is whole.
     type 11 accepted  its data go into a message room, the context's words are
                       written, all 0 where the message is whole, and the
                       response, DONE.
     refused           19, 12, 1 to 5, 8, 10: all stays. 6, 7, 9, 11: the context
                       of its flow is closed if it was open, all else stays.
                       20 to 25: the response is written, ERROR, or RETRY for
                       25; all else stays.
   The flow of a type 9 packet is its source, its priority (byte 0, the upper two
   bits) and its cos, and these are what a delivery says.
   A response is a whole type 13 packet, with IDs of our width. It is the caller
   who sends it. report.response says whether it was written, and how many bytes
   it has (crates/c_promises/specs/OfCalls.antt, ReportsReply). A delivered room
   keeps its bytes until its context is next used.
   Promise: crates/kaiverohm/specs/Exports.antt, ReadFromCPromise. */
struct kaiverohm_report kaiverohm_read(uint64_t *state, size_t state_words,
                                       uint8_t *stream_memory, size_t stream_length,
                                       uint8_t *message_memory, size_t message_length,
                                       uint8_t *response, size_t response_length,
                                       const uint8_t *packet, size_t packet_length);
/* clang-format on */

/* Reads many packets, as kaiverohm_read would one after another. The state
   and the lengths are tested once.

   state, stream_memory, message_memory: as in kaiverohm_read.
   responses:  8 bytes for each packet, at either width; under 7 in all is
               refused by 12, with IDs of 8 bits under 5. Packet k may write the
               first 7 of the 8 bytes from 8 k on, with IDs of 8 bits the first
               5; report k says whether it did.
   reports:    10 words for each packet: a struct kaiverohm_report, from 10 k on.
               An array of them may be lent, as (uint64_t *)array and 10 words
               for each. Any length is allowed, 0 too: it only bounds how many
               packets are read.
   burst:      records, each a length and that many packet bytes, read. A
               length below 128 is one byte. A longer one, below 16,384, is two:
               128 + length % 128, then length / 128, which is not 0.
               kaiverohm_write_record writes one.
   pause:      0, or another number to stop behind each delivery.
   It reads packets until the end of the burst, a record that is none, the last
   packet that has 10 words of report and 8 bytes of response, or, with pause, a
   packet that delivers a PDU or a message.
   Answers
     END       all were read.
     BAD       the record at next is cut, or its length is none. All before it
               were read. It is BAD also where there is no room: BAD comes
               before FULL.
     FULL      a whole record stands at next and has no room. Call again from
               there; but where count is 0, with more room: under 10 words of
               reports or 8 bytes of responses no packet is ever read.
     DELIVERY  the last report delivers. Take its bytes out of the room, then
               call again from next, also where no record is left: that call
               says END.
     REFUSED   12, 19 or 12, in the order of kaiverohm_read, whatever the burst
               holds. All stays, count and next are 0.
   Words and bytes behind the last report and its response stay.
   Without pause a later packet of the same burst may use the room of a PDU or a
   message that was delivered, since its context is free again: then only the
   reports are good. So call with pause where the bytes are wanted.
   Promise: crates/c_bursts/specs/Bursts.antt, BurstPromise. */
struct kaiverohm_burst kaiverohm_read_burst(uint64_t *state, size_t state_words,
                                            uint8_t *stream_memory, size_t stream_length,
                                            uint8_t *message_memory, size_t message_length,
                                            uint8_t *responses, size_t responses_length,
                                            uint64_t *reports, size_t report_words,
                                            const uint8_t *burst, size_t burst_length,
                                            uint64_t pause);

/* What stream context n holds, or message context n. A held segment's answer
   does not say which context it went to: ask after all 16 and look for its source,
   priority and cos, or after all 8 and look for its source, letter and mbox; of two
   the lower number counts. Nothing changes.

   state: 164 words, read.
   Answers OPEN, and what is open there; WAS_FREE; or REFUSED, in this order:
     12  the state has another length than 164.
     19  it is a state that 19 names.
     13  n is over 15, or for messages over 7.
   The words of the state themselves are no interface: docs/LAYOUTS.md has them
   for who looks at a memory dump, and another version may lay them out anew.
   Promises: crates/kaiverohm/specs/Exports.antt, StreamContextFromCPromise and
   MessageContextFromCPromise. */
struct kaiverohm_open_stream kaiverohm_stream_context(const uint64_t *state, size_t state_words,
                                                      uint64_t n);

struct kaiverohm_open_message kaiverohm_message_context(const uint64_t *state, size_t state_words,
                                                        uint64_t n);

/* Gives the PDU in stream context n up, or the message in message context n.

   state: 164 words, read and written.
   Answers CLOSED, and the context's words are 0; WAS_FREE, and all stays; or
   REFUSED, in this order, and all stays:
     12  the state has another length than 164.
     19  it is a state that 19 names.
     13  n is over 15, or for messages over 7.
   Promises: crates/kaiverohm/specs/Exports.antt, AbandonStreamFromCPromise and
   AbandonMessageFromCPromise. */
struct kaiverohm_answer kaiverohm_abandon_stream(uint64_t *state, size_t state_words, uint64_t n);

struct kaiverohm_answer kaiverohm_abandon_message(uint64_t *state, size_t state_words, uint64_t n);

/* Where the first l bytes of a context's room lie in your memory: after a
   report, kaiverohm_stream_room(state, words, stream_length, report.context,
   report.length).

   state: 164 words, read.
   size:  the length of your stream memory, or your message memory.
   Answers the offset and l. Where n is past the last context, l is over the
   room, size is not what kaiverohm_read needs, or the state is one that is
   refused, offset and length are 0. The context need not be open.
   How to tell: where l is not 0, the length that comes back is l or, refused, 0.
   No report delivers 0 bytes, so behind a report that is always so. For l = 0 the
   good answer of context 0 is offset 0 and length 0 as well; ask for 1 byte then.
   Every room has one, so l = 1 is refused just where l = 0 is.
   Promises: crates/c_places/specs/Places.antt, StreamPlacePromise and
   MessagePlacePromise. */
struct kaiverohm_place kaiverohm_stream_room(const uint64_t *state, size_t state_words,
                                             uint64_t size, uint64_t n, uint64_t l);

struct kaiverohm_place kaiverohm_message_room(const uint64_t *state, size_t state_words,
                                              uint64_t size, uint64_t n, uint64_t l);

/* How many packets a PDU of that many bytes makes; 0 where the writer would
   refuse the MTU (18) or the length (14).
   Promise: crates/writing/specs/Writer.antt, CountPromise. */
uint64_t kaiverohm_segment_count(uint64_t mtu, uint64_t pdu_length);

/* Writes segment `number`, from 0, of a PDU as a type 9 packet.

   out: room for the packet: MTU + 9 bytes are always enough, with IDs of 8 bits
        MTU + 7. Written from its beginning; bytes behind the packet stay.
   pdu: the whole PDU, read.
   Answers WRITTEN and the packet's length; or REFUSED, in this order, and all
   stays:
     47  IDs have 8 bits and the destination or the source is over 255.
     18  the MTU is not allowed.
     17  the priority is over 3.
     14  the PDU has 0 bytes or over 65,536.
     15  number is not below kaiverohm_segment_count.
     16  out is shorter than the packet.
   Promise: crates/kaiverohm/specs/Exports.antt, WriteFromCPromise. */
struct kaiverohm_answer kaiverohm_write_segment(uint8_t *out, size_t out_length,
                                                struct kaiverohm_heading heading, uint64_t mtu,
                                                const uint8_t *pdu, size_t pdu_length,
                                                uint64_t number);

/* How many bytes the record of a packet of that many bytes has; 0 where no record
   can hold the packet, which is over 16,383 bytes.
   Promise: crates/log_writer/specs/Writing.antt, RecordLengthPromise. */
uint64_t kaiverohm_record_length(uint64_t packet_length);

/* Writes one record of a burst: the packet's length, then its bytes.

   out:    room for the record: kaiverohm_record_length. Written from its
           beginning; bytes behind the record stay.
   packet: any bytes, read.
   Answers WRITTEN and the record's length, behind which the next record goes; or
   REFUSED, in this order, and all stays:
     12  the packet has over 16,383 bytes.
     16  out is shorter than the record.
   Promises: crates/kaiverohm/specs/Exports.antt, WriteRecordFromCPromise; that it
   reads back, crates/log_writer/specs/Writing.antt, RecordReadsBack. */
struct kaiverohm_answer kaiverohm_write_record(uint8_t *out, size_t out_length,
                                               const uint8_t *packet, size_t packet_length);

/* ---- One struct for what is lent, and the same calls over it

   They are written out here, in C: each hands the desk's buffers to the function
   of the same name above, whose conditions and promise hold. */

/* The buffers of one endpoint, each with its length. */
struct kaiverohm_desk {
    uint64_t *state; /* KAIVEROHM_STATE_WORDS words */
    size_t state_words;
    uint8_t *stream_memory; /* KAIVEROHM_STREAM_MEMORY(R) bytes */
    size_t stream_length;
    uint8_t *message_memory; /* KAIVEROHM_MESSAGE_MEMORY bytes */
    size_t message_length;
    uint8_t *response; /* KAIVEROHM_RESPONSE_BYTES; for bursts KAIVEROHM_SLOT_BYTES a packet */
    size_t response_length;
};

/* What a desk begins with, from four arrays. A pointer in the place of one would
   count as 8 bytes: the first three are then refused by 12, and the fourth has
   room for one response. */
#define KAIVEROHM_DESK(STATE, STREAMS, MESSAGES, RESPONSE) \
    { \
        (STATE), sizeof(STATE) / sizeof((STATE)[0]), (STREAMS), sizeof(STREAMS), (MESSAGES), \
            sizeof(MESSAGES), (RESPONSE), sizeof(RESPONSE) \
    }

static inline struct kaiverohm_answer kaiverohm_desk_setup(const struct kaiverohm_desk *desk,
                                                           struct kaiverohm_settings settings)
{
    return kaiverohm_setup(desk->state, desk->state_words, settings);
}

static inline struct kaiverohm_report
kaiverohm_desk_read(const struct kaiverohm_desk *desk, const uint8_t *packet, size_t packet_length)
{
    return kaiverohm_read(desk->state, desk->state_words, desk->stream_memory, desk->stream_length,
                          desk->message_memory, desk->message_length, desk->response,
                          desk->response_length, packet, packet_length);
}

/* With an array of `count` reports. The responses go into the desk's response. */
static inline struct kaiverohm_burst kaiverohm_desk_read_burst(const struct kaiverohm_desk *desk,
                                                               struct kaiverohm_report *reports,
                                                               size_t count, const uint8_t *burst,
                                                               size_t burst_length, uint64_t pause)
{
    return kaiverohm_read_burst(desk->state, desk->state_words, desk->stream_memory,
                                desk->stream_length, desk->message_memory, desk->message_length,
                                desk->response, desk->response_length, &reports->kind,
                                KAIVEROHM_REPORT_WORDS * count, burst, burst_length, pause);
}

static inline struct kaiverohm_open_stream
kaiverohm_desk_stream_context(const struct kaiverohm_desk *desk, uint64_t n)
{
    return kaiverohm_stream_context(desk->state, desk->state_words, n);
}

static inline struct kaiverohm_open_message
kaiverohm_desk_message_context(const struct kaiverohm_desk *desk, uint64_t n)
{
    return kaiverohm_message_context(desk->state, desk->state_words, n);
}

static inline struct kaiverohm_answer
kaiverohm_desk_abandon_stream(const struct kaiverohm_desk *desk, uint64_t n)
{
    return kaiverohm_abandon_stream(desk->state, desk->state_words, n);
}

static inline struct kaiverohm_answer
kaiverohm_desk_abandon_message(const struct kaiverohm_desk *desk, uint64_t n)
{
    return kaiverohm_abandon_message(desk->state, desk->state_words, n);
}

static inline struct kaiverohm_place kaiverohm_desk_stream_room(const struct kaiverohm_desk *desk,
                                                                uint64_t n, uint64_t l)
{
    return kaiverohm_stream_room(desk->state, desk->state_words, desk->stream_length, n, l);
}

static inline struct kaiverohm_place kaiverohm_desk_message_room(const struct kaiverohm_desk *desk,
                                                                 uint64_t n, uint64_t l)
{
    return kaiverohm_message_room(desk->state, desk->state_words, desk->message_length, n, l);
}

/* The bytes that a report delivers: report->length of them, in the memory of the
   desk. They are good until their context is next used. NULL where the report
   delivers nothing, or the desk has no such room. */
static inline const uint8_t *kaiverohm_desk_bytes(const struct kaiverohm_desk *desk,
                                                  const struct kaiverohm_report *report)
{
    int of_stream = report->kind == KAIVEROHM_DELIVERED;
    if (!of_stream && report->kind != KAIVEROHM_MESSAGE)
        return NULL;
    struct kaiverohm_place place =
        of_stream ? kaiverohm_desk_stream_room(desk, report->context, report->length)
                  : kaiverohm_desk_message_room(desk, report->context, report->length);
    if (place.length == 0)
        return NULL;
    return (of_stream ? desk->stream_memory : desk->message_memory) + place.offset;
}

#ifdef __cplusplus
}
#endif

#endif
