/* What the second program prints for a log on standard input. The tests of the
   log program hold it against this. */

#include "../../second/logs.h"

#include <stdio.h>

int main(void)
{
    static uint8_t log[LARGEST_LOG + 1]; /* a longer log prints the same as this many bytes */
    size_t length = fread(log, 1, sizeof log, stdin);
    struct buffer out = { 0 };
    run_log(&out, log, length);
    return fwrite(out.bytes, 1, out.length, stdout) != out.length;
}
