/* The stored vectors: what goes in, and what has to come out. */

#ifndef SECOND_MAKE_H
#define SECOND_MAKE_H

#include "bundle.h"

struct vectors {
    struct buffer in;
    struct buffer out;
};

/* One clean log, of the width in use: messages of every kind, and what has no response. */
struct buffer responses_log(void);

/* That log; each answer's line and the response behind it. */
struct vectors responses(void);

/* Cases for the segment writer, of both widths; its packets and refusals. */
struct vectors segments(void);

/* A log of the README or of the report, and its output. */
struct vectors wheels(void);
struct vectors lost(void);
struct vectors paper(void);

#endif
