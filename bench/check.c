/* The check of a whole IGC file in one pass: refusals 1 to 16 of document 01 and 22 to 25 of document 02, the counts, and the table of the lines' offsets. */
#include "lines.h"

struct answer check(const uint8_t *file, size_t length, uint32_t *table, size_t entries)
{
    struct state state = {.fixes.length = 35, .notes.length = 7, .unsigned_notes.length = 7};
    struct answer refused;
    if (length == 0)
        return refuse(1, 0, 0);
    if (length > 16777216)
        return refuse(2, 0, 0);
    for (size_t at = 0; at < length;)
        if (!take_line(file, length, &at, &state, table, entries, &refused))
            return refused;
    return ended(&state);
}
