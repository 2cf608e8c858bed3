/* The same check by the idea 'decide quickly or not at all': B, K and N lines that are surely good are taken in a run, 16 bytes at a time, and every other line goes to the code
   that check.c has. A line's length is known from its layout, so what each of its places may hold, CR and LF too, is put down once for a file. */
#include "lines.h"

/* ---- places */

enum { BLOCK = 16, MOST_PLACES = 112 };

/* What each place of a B, K or N line may hold: a byte of a range, or one other byte; behind the line, any byte. */
struct places {
    size_t size, blocks;
    _Alignas(BLOCK) uint8_t low[MOST_PLACES];
    _Alignas(BLOCK) uint8_t span[MOST_PLACES];
    _Alignas(BLOCK) uint8_t other[MOST_PLACES];
    _Alignas(BLOCK) uint8_t text[MOST_PLACES];
};

static void put(struct places *places, size_t from, size_t width, uint8_t low, uint8_t high)
{
    memset(places->low + from, low, width);
    memset(places->span + from, high - low, width);
    memset(places->other + from, low, width);
}

static void put_either(struct places *places, size_t at, uint8_t one, uint8_t other)
{
    put(places, at, 1, one, one);
    places->other[at] = other;
}

/* Digits; the tens of hours, minutes and seconds and the hundreds of degrees are lower ones. The leap second is left to the plain check. */
static void put_time(struct places *places)
{
    put(places, 1, 6, '0', '9');
    put(places, 1, 1, '0', '2');
    put(places, 3, 1, '0', '5');
    put(places, 5, 1, '0', '5');
}

static void put_fix(struct places *places)
{
    put(places, 7, 28, '0', '9');
    put(places, 9, 1, '0', '5');
    put_either(places, 14, 'N', 'S');
    put(places, 15, 1, '0', '1');
    put(places, 18, 1, '0', '5');
    put_either(places, 23, 'E', 'W');
    put_either(places, 24, 'A', 'V');
    places->other[25] = places->other[30] = '-';
}

/* A listed column holds digits, some with a minus first. Of the valid characters an unlisted one surely may have 45 to 91, 95 to 125 and the space. */
static void put_columns(struct places *places, const struct layout *layout)
{
    for (uint32_t n = 0; n < layout->count; n++) {
        const struct column *column = &layout->columns[n];
        size_t from = column->first - 1;
        if (column->listed) {
            put(places, from, column->width, '0', '9');
            if (column->listed->sign && column->width > 1)
                places->other[from] = '-';
        } else {
            put(places, from, column->width, 45, 91);
            memset(places->other + from, ' ', column->width);
            memset(places->text + from, 0xFF, column->width);
        }
    }
}

static void put_line(struct places *places, uint8_t kind, const struct layout *layout)
{
    size_t length = layout->length;
    memset(places, 0, sizeof *places);
    places->size = length + 2;
    places->blocks = (length + 2 + BLOCK - 1) / BLOCK;
    put(places, 0, MOST_PLACES, 0, 255);
    put(places, 0, 1, kind, kind);
    put_time(places);
    if (kind == 'B')
        put_fix(places);
    put_columns(places, layout);
    put(places, length, 1, '\r', '\r');
    put(places, length + 1, 1, '\n', '\n');
}

/* ---- a line that is surely good */

/* 16 bytes, and the vectors of gcc and clang, on any processor; the words of a comparison are all ones or all zeros. */
typedef uint8_t block_of __attribute__((vector_size(16)));

static inline block_of block(const uint8_t *places)
{
    block_of bytes;
    memcpy(&bytes, places, sizeof bytes);
    return bytes;
}

static inline block_of within(block_of bytes, block_of low, block_of span)
{
    return (block_of)(bytes - low <= span);
}

/* Whether each byte of a line may stand at its place. All blocks can be read. */
static inline bool keeps_places(const uint8_t *line, const struct places *places, bool has_text)
{
    block_of good = (block_of)((block_of){0} == 0);
    for (size_t n = 0; n < places->blocks * BLOCK; n += BLOCK) {
        block_of bytes = block(line + n);
        block_of here = within(bytes, block(places->low + n), block(places->span + n)) | (block_of)(bytes == block(places->other + n));
        if (has_text)
            here |= within(bytes, (block_of){0} + 95, (block_of){0} + 30) & block(places->text + n);
        good &= here;
    }
    uint64_t halves[2];
    memcpy(halves, &good, sizeof halves);
    return (halves[0] & halves[1]) == UINT64_MAX;
}

/* Eight characters as a number that grows as they do. */
static inline uint64_t eight(const uint8_t *text)
{
    uint64_t bytes;
    memcpy(&bytes, text, 8);
    return __builtin_bswap64(bytes);
}

/* The six digits of a timed line's time, as a number that grows as they do. */
static inline uint64_t clock_of(const uint8_t *line)
{
    return eight(line) >> 8 & 0xFFFFFFFFFFFF;
}

/* What the places alone do not say of a position and two altitudes: below 90 and 180 degrees, where finer digits may be any, and no minus before zeros. */
static inline bool keeps_bounds(const uint8_t *line)
{
    uint64_t latitude = eight(line + 7) >> 8, longitude = eight(line + 15), pressure = eight(line + 25) >> 24, gnss = eight(line + 27) & 0xFFFFFFFFFF;
    const uint64_t below_zero = eight((const uint8_t *)"-0000\0\0\0") >> 24;
    return (latitude < eight((const uint8_t *)"9000000\0") >> 8) & (longitude < eight((const uint8_t *)"18000000")) & (pressure != below_zero) &
           (gnss != below_zero);
}

static uint64_t clock_at(uint32_t seconds)
{
    uint8_t line[8] = {0};
    uint32_t parts[3] = {seconds / 3600, seconds / 60 % 60, seconds % 60};
    for (size_t n = 0; n < 3; n++) {
        line[1 + 2 * n] = '0' + parts[n] / 10;
        line[2 + 2 * n] = '0' + parts[n] % 10;
    }
    return clock_of(line);
}

static uint32_t seconds_of(uint64_t clock)
{
    uint8_t text[6];
    uint32_t seconds;
    for (size_t n = 0; n < 6; n++)
        text[n] = clock >> (40 - 8 * n);
    is_time(text, &seconds);
    return seconds;
}

/* ---- a run of lines */

struct plan {
    bool is_made, has_text;
    struct places fixes, notes, unsigned_notes;
};

static inline bool is_sure(const uint8_t *line, size_t left, const struct places *places, bool has_text, uint64_t before, uint64_t clock)
{
    const uint64_t midnight = clock_of((const uint8_t *)"\000240000\0");
    return left >= places->blocks * BLOCK && (keeps_places(line, places, has_text) & (clock >= before) & (clock < midnight));
}

/* The B, K and N lines from `at` on, as far as they are surely good and the table has room; returns the place behind them. */
static inline size_t run_ahead(const uint8_t *file, size_t length, size_t at, struct state *state, const struct plan *plan, bool has_text, uint32_t *table, size_t entries)
{
    uint64_t before = clock_at(state->seconds);
    uint32_t lines = state->said.lines, notes = 0, unsigned_notes = 0, begun = lines;
    while (length - at >= 8 && lines < entries) {
        const uint8_t *line = file + at;
        uint64_t clock = clock_of(line);
        const struct places *places;
        if (line[0] == 'B') {
            places = &plan->fixes;
            if (!is_sure(line, length - at, places, has_text, before, clock) || !keeps_bounds(line))
                break;
        } else if (line[0] == 'K') {
            places = &plan->notes;
            if (!is_sure(line, length - at, places, has_text, before, clock))
                break;
            notes++;
        } else if (line[0] == 'N') {
            places = &plan->unsigned_notes;
            if (!is_sure(line, length - at, places, has_text, before, clock))
                break;
            unsigned_notes++;
        } else
            break;
        table[lines++] = at;
        before = clock;
        at += places->size;
    }
    if (lines > begun) {
        state->stage = BODY;
        state->seconds = seconds_of(before);
        state->said.lines = lines;
        state->said.k_lines += notes;
        state->said.n_lines += unsigned_notes;
        state->said.b_lines += lines - begun - notes - unsigned_notes;
    }
    return at;
}

/* The layouts put down by places. */
static void make_plan(struct plan *plan, const struct state *state)
{
    put_line(&plan->fixes, 'B', &state->fixes);
    put_line(&plan->notes, 'K', &state->notes);
    put_line(&plan->unsigned_notes, 'N', &state->unsigned_notes);
    plan->has_text = memchr(plan->fixes.text, 0xFF, MOST_PLACES) || memchr(plan->notes.text, 0xFF, MOST_PLACES) ||
                     memchr(plan->unsigned_notes.text, 0xFF, MOST_PLACES);
    plan->is_made = true;
}

struct answer rival(const uint8_t *file, size_t length, uint32_t *table, size_t entries)
{
    struct state state = {.fixes.length = 35, .notes.length = 7, .unsigned_notes.length = 7};
    struct plan plan;
    struct answer refused;
    plan.is_made = false;
    if (length == 0)
        return refuse(1, 0, 0);
    if (length > 16777216)
        return refuse(2, 0, 0);
    for (size_t at = 0; at < length;) {
        if (may_run(&state, file[at])) {
            if (!plan.is_made)
                make_plan(&plan, &state);
            at = plan.has_text ? run_ahead(file, length, at, &state, &plan, true, table, entries)
                               : run_ahead(file, length, at, &state, &plan, false, table, entries);
            if (at == length)
                break;
        }
        if (!take_line(file, length, &at, &state, table, entries, &refused))
            return refused;
    }
    return ended(&state);
}
