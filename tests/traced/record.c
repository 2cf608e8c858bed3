/* Writes down calls of the library, to the file or pipe that TRACE names. Of the calls that are passed more than LARGE bytes one in 4,001 is written down; of the others one in
   as many as TRACE_ONE_IN says, or each. */
#include <stdio.h>
#include <stdlib.h>
#include <string.h>
#include "trace.h"

enum { LARGE = 400000, LARGE_ONE_IN = 4001 };

static FILE *trace;
static struct {
    uint8_t *bytes;
    size_t length;
} kept[KEPT];
static unsigned next, large, small, one_in = 1;

static void put(uint64_t value, size_t size)
{
    fwrite(&value, 1, size, trace);
}

/* Answers whether a call that is passed so many bytes is to be written down. */
static int is_wanted(size_t total)
{
    if (!trace) {
        if (!(trace = fopen(getenv("TRACE"), "wb")))
            abort();
        if (getenv("TRACE_ONE_IN"))
            one_in = (unsigned)atoi(getenv("TRACE_ONE_IN"));
    }
    return total <= LARGE ? small++ % one_in == 0 : large++ % LARGE_ONE_IN == 0;
}

static void put_part(const void *part, size_t length, size_t size)
{
    const uint8_t *bytes = part;
    size_t total = length * size;
    put(length, 8);
    if (total >= KEPT_LEAST) {
        for (unsigned i = 0; i < KEPT; i++)
            if (kept[i].length == total && !memcmp(kept[i].bytes, bytes, total)) {
                put(AGAIN, 1);
                put(i, 1);
                return;
            }
        if (total % 8 == 0 && !memcmp(bytes, bytes + 8, total - 8)) {
            put(REPEATED, 1);
            fwrite(bytes, 1, 8, trace);
            return;
        }
        kept[next].bytes = realloc(kept[next].bytes, total);
        kept[next].length = total;
        memcpy(kept[next].bytes, bytes, total);
        next = (next + 1) % KEPT;
    }
    put(WHOLE, 1);
    if (total)
        fwrite(bytes, 1, total, trace);
}

#include "record.inc"
