/* What the writer and the reader of a trace share. */
#include <stddef.h>
#include <stdint.h>
#include "hivebasket.h"

/* How the contents of a part of memory follow: whole, as eight bytes that repeat, or as the number of a part that was written down lately. */
enum { WHOLE = 0, REPEATED = 1, AGAIN = 2 };

/* How many parts are kept, and from how many bytes on. */
enum { KEPT = 8, KEPT_LEAST = 64 };

/* Sums up what a call left. The bytes between the fields of a record are left out, since nothing is said of them. */
static uint32_t sum(const void *lent, size_t length, size_t size)
{
    static const uint8_t between[64] = {[13] = 1, 1, 1, [26] = 1, 1, 1, 1, 1, 1, [42] = 1, 1, 1, 1, 1, 1, [49] = 1, 1, 1, [60] = 1, 1, 1, 1};
    const uint8_t *bytes = lent;
    uint32_t s = 2166136261u;
    for (size_t i = 0; i < length * size; i++)
        if (size != sizeof(struct hive_record) || !between[i % 64])
            s = (s ^ bytes[i]) * 16777619u;
    return s;
}
