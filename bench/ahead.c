/* The check in the shape that the library's own has, in C: B, K and N lines that are surely good are taken in a run, with tests for plain bytes, for each field and for columns of
   digits, and every other line goes to the code that check.c has. It shows what the library's shape costs in C; rival.c is the faster one. */
#include "lines.h"

/* Whether all bytes are from `low` to `low` + `span`. It looks at every byte, so that the compiler takes 16 at a time. */
static inline bool all_within(const uint8_t *text, size_t width, uint8_t low, uint8_t span)
{
    uint8_t bad = 0;
    for (size_t n = 0; n < width; n++)
        bad |= (uint8_t)(text[n] - low) > span;
    return !bad;
}

/* 45 to 91 are valid in every line, and no CR or LF. */
static inline bool is_plain(const uint8_t *text, size_t width)
{
    return all_within(text, width, 45, 46);
}

/* ---- fields as straight tests */

static inline bool is_digit(uint8_t byte)
{
    return (uint8_t)(byte - '0') <= 9;
}

static inline bool are_digits(const uint8_t *text, size_t width)
{
    for (size_t n = 0; n < width; n++)
        if (!is_digit(text[n]))
            return false;
    return true;
}

/* A time, but for the leap second, which is left to the plain check. */
static inline bool has_time(const uint8_t *text, uint32_t *seconds)
{
    uint32_t hours = two(text), minutes = two(text + 2), rest = two(text + 4);
    *seconds = hours * 3600 + minutes * 60 + rest;
    return are_digits(text, 6) & (hours < 24) & (minutes < 60) & (rest < 60);
}

/* A position below its limit; one that stands there is left to the plain check, as finer digits are then looked at. */
static inline bool has_position(const uint8_t *text, size_t wide, uint32_t most, uint8_t one, uint8_t other)
{
    uint32_t degrees = wide == 3 ? (text[0] - '0') * 100u + two(text + 1) : two(text), minutes = two(text + wide);
    uint32_t thousandths = (text[wide + 2] - '0') * 100u + two(text + wide + 3);
    uint8_t letter = text[wide + 5];
    return are_digits(text, wide + 5) & (minutes < 60) & ((degrees * 60 + minutes) * 1000 + thousandths < most) & ((letter == one) | (letter == other));
}

static inline bool has_altitude(const uint8_t *text)
{
    return are_digits(text, 5) || is_altitude(text);
}

static inline bool is_sure_fix(const uint8_t *line, uint32_t *seconds)
{
    return has_time(line + 1, seconds) && has_position(line + 7, 2, 5400000, 'N', 'S') && has_position(line + 15, 3, 10800000, 'E', 'W') &&
           either(line[24], 'A', 'V') && has_altitude(line + 25) && has_altitude(line + 30);
}

/* ---- a run of lines */

/* A line of a layout that is surely good, behind its first `fixed` bytes its columns: CR LF where the length says, plain bytes, the fields, the columns. */
static inline bool is_sure(const uint8_t *line, size_t left, size_t fixed, const struct layout *layout, uint32_t *seconds)
{
    size_t length = layout->length;
    if (left < length + 2 || line[length] != '\r' || line[length + 1] != '\n' || !is_plain(line, length))
        return false;
    if (!(fixed == 35 ? is_sure_fix(line, seconds) : has_time(line + 1, seconds)))
        return false;
    return all_within(line + fixed, length - fixed, '0', 9) || check_columns(line, layout, 0).number == 0;
}

/* The B, K and N lines from `at` on, as far as they are surely good and the table has room; returns the place behind them. */
static size_t run_ahead(const uint8_t *file, size_t length, size_t at, struct state *state, uint32_t *table, size_t entries)
{
    uint32_t before = state->seconds, lines = state->said.lines, notes = 0, unsigned_notes = 0, begun = lines;
    while (at < length && lines < entries) {
        const uint8_t *line = file + at;
        uint32_t seconds;
        uint8_t kind = line[0];
        if (kind != 'B' && kind != 'K' && kind != 'N')
            break;
        const struct layout *layout = kind == 'B' ? &state->fixes : kind == 'K' ? &state->notes : &state->unsigned_notes;
        if (!(kind == 'B' ? is_sure(line, length - at, 35, layout, &seconds) : is_sure(line, length - at, 7, layout, &seconds)))
            break;
        if (seconds < before && before - seconds <= 43200)
            break;
        table[lines++] = at;
        notes += kind == 'K';
        unsigned_notes += kind == 'N';
        before = seconds;
        at += layout->length + 2;
    }
    if (lines > begun) {
        state->stage = BODY;
        state->seconds = before;
        state->said.lines = lines;
        state->said.k_lines += notes;
        state->said.n_lines += unsigned_notes;
        state->said.b_lines += lines - begun - notes - unsigned_notes;
    }
    return at;
}

struct answer ahead(const uint8_t *file, size_t length, uint32_t *table, size_t entries)
{
    struct state state = {.fixes.length = 35, .notes.length = 7, .unsigned_notes.length = 7};
    struct answer refused;
    if (length == 0)
        return refuse(1, 0, 0);
    if (length > 16777216)
        return refuse(2, 0, 0);
    for (size_t at = 0; at < length;) {
        if (may_run(&state, file[at])) {
            at = run_ahead(file, length, at, &state, table, entries);
            if (at == length)
                break;
        }
        if (!take_line(file, length, &at, &state, table, entries, &refused))
            return refused;
    }
    return ended(&state);
}
