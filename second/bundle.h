/* The bundle: many logs of one width, each with what comes out for it. With IDs
   of 16 bits that is what the log program prints; with IDs of 8 bits the line of
   each answer with the response behind it. */

#ifndef SECOND_BUNDLE_H
#define SECOND_BUNDLE_H

#include "cases.h"

#include <stdio.h>

/* Logs that belong together, counted together. */
void section(const char *name);

/* A log begins. The name shows up when it goes wrong. */
void begin(const char *name);

void put(struct packet packet);
void put_record(const uint8_t *bytes, size_t count);
void put_raw(const uint8_t *bytes, size_t count);
void put_pdu(struct pdu pdu);
void put_pdu_without(struct pdu pdu, unsigned lost);

/* The log ends. The log program has to print these lines, said by hand from the
   paper: ", " stands between two lines. */
void wants(const char *lines);

/* The same: so many lines of packets that are held, and then these. */
void wants_after_held(int count, const char *lines);

/* Of the log that has not ended yet: the line of each answer with the response
   behind it has to be these, said by hand too, at either width. */
void responds(const char *lines_of_16_bits, const char *lines_of_8_bits);

/* The log ends. Its output is what our endpoint says. */
void finish(void);

/* The same, and what it delivers of streams has to be these PDUs, each with its
   flow. */
void finish_delivering(const struct buffer *pdus);

/* A delivered PDU, for the list above: its line, and its priority, which no line
   has. */
void append_pdu(struct buffer *pdus, struct pdu pdu);

/* Of the log that has not ended yet. */
size_t log_size(void);

/* Of the whole bundle. Once it is released another one begins. */
const struct buffer *bundle_in(void);
const struct buffer *bundle_out(void);
void print_sections(FILE *to);
void release_bundle(void);

/* The text of lines with ", " between them. */
struct buffer lines_text(const char *lines);

/* Stops the program if the two differ. */
void must_be_same(const char *name, const struct buffer *is, const struct buffer *wanted);

/* ---- The parts of the bundle ---- */

void bundle_paper(void);
void bundle_rows(void);
void bundle_order(void);
void bundle_contexts(void);
void bundle_sizes(void);
void bundle_messages(void);
void bundle_mixes(void);
void bundle_broken(void);

/* Flows that differ in their priority alone. */
void bundle_priorities(void);
void bundle_priority_mixes(void);

/* With IDs of 8 bits alone. */
void bundle_widths(void);

#endif
