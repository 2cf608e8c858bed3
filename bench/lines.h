/* A line of an IGC file checked by hand in C: refusals 3 to 15 of document 01, and 22 to 25 of document 02. The code that check.c, ahead.c and rival.c share; each of them has
   it whole, as its own. */
#ifndef BENCH_LINES_H
#define BENCH_LINES_H

#include "check.h"

#include <stdbool.h>
#include <string.h>

/* ---- characters */

enum { VALID = 1, CODE = 2, DIGIT = 4, ENDS = 8 };

/* Hex 20 to 7D without 21, 24, 2A, 5C and 5E are valid; the comma, 2C, is not in this table, since only H lines may have it. */
static const uint8_t class_of[256] = {
    ['\r'] = ENDS,
    ['\n'] = ENDS,
    [0x20] = VALID,
    [0x22 ... 0x23] = VALID,
    [0x25 ... 0x29] = VALID,
    [0x2B] = VALID,
    [0x2D ... 0x2F] = VALID,
    ['0' ... '9'] = VALID | CODE | DIGIT,
    [0x3A ... 0x40] = VALID,
    ['A' ... 'Z'] = VALID | CODE,
    [0x5B] = VALID,
    [0x5D] = VALID,
    [0x5F ... 0x7D] = VALID,
};

static bool all(const uint8_t *text, size_t width, uint8_t class)
{
    for (size_t n = 0; n < width; n++)
        if (!(class_of[text[n]] & class))
            return false;
    return true;
}

static bool either(uint8_t byte, uint8_t one, uint8_t other)
{
    return byte == one || byte == other;
}

/* ---- fields; each answers whether the rule is kept */

static uint32_t two(const uint8_t *text)
{
    return (text[0] - '0') * 10u + (text[1] - '0');
}

static bool is_time(const uint8_t *text, uint32_t *seconds)
{
    uint32_t hours = two(text), minutes = two(text + 2), rest = two(text + 4);
    *seconds = hours * 3600 + minutes * 60 + rest;
    return all(text, 6, DIGIT) && hours < 24 && minutes < 60 && (rest < 60 || (rest == 60 && hours == 23 && minutes == 59));
}

static bool is_date(const uint8_t *text, uint32_t *day, uint32_t *month, uint32_t *year)
{
    static const uint8_t days[13] = {0, 31, 28, 31, 30, 31, 30, 31, 31, 30, 31, 30, 31};
    if (!all(text, 6, DIGIT))
        return false;
    *day = two(text);
    *month = two(text + 2);
    *year = two(text + 4);
    *year += *year >= 80 ? 1900 : 2000;
    if (*month < 1 || *month > 12)
        return false;
    bool leap = *year % 4 == 0 && (*year % 100 != 0 || *year % 400 == 0);
    return *day >= 1 && *day <= days[*month] + (uint32_t)(*month == 2 && leap);
}

static bool is_position(const uint8_t *text, size_t wide, uint32_t most, uint8_t one, uint8_t other)
{
    if (!all(text, wide + 5, DIGIT) || !either(text[wide + 5], one, other))
        return false;
    uint32_t degrees = wide == 3 ? (text[0] - '0') * 100u + two(text + 1) : two(text);
    uint32_t minutes = two(text + wide);
    uint32_t thousandths = (text[wide + 2] - '0') * 100u + two(text + wide + 3);
    return minutes < 60 && (degrees * 60 + minutes) * 1000 + thousandths <= most;
}

static bool is_latitude(const uint8_t *text)
{
    return is_position(text, 2, 5400000, 'N', 'S');
}

static bool is_longitude(const uint8_t *text)
{
    return is_position(text, 3, 10800000, 'E', 'W');
}

static bool is_altitude(const uint8_t *text)
{
    if (text[0] != '-')
        return all(text, 5, DIGIT);
    return all(text + 1, 4, DIGIT) && memcmp(text + 1, "0000", 4) != 0;
}

/* ---- layouts */

static const struct listed {
    uint8_t code[4];
    uint8_t least, most;
    bool sign;
} listed[15] = {
    {"FXA", 3, 3, false}, {"SIU", 2, 2, false}, {"ENL", 3, 3, false}, {"MOP", 3, 3, false}, {"IAS", 3, 3, false},
    {"FLP", 3, 3, true},  {"HDM", 3, 6, false}, {"HDT", 3, 6, false}, {"TRM", 3, 6, false}, {"TRT", 3, 6, false},
    {"TDS", 1, 3, false}, {"LAD", 1, 4, false}, {"LOD", 1, 4, false}, {"DAE", 2, 6, true},  {"DAN", 2, 6, true},
};

static const struct listed *look_up(const uint8_t *code)
{
    for (size_t n = 0; n < 15; n++)
        if (memcmp(listed[n].code, code, 3) == 0)
            return &listed[n];
    return NULL;
}

struct column {
    uint32_t first, width;
    const struct listed *listed;
};

struct layout {
    uint32_t count, length;
    struct column columns[13];
};

/* ---- a line */

/* How far a file has come. */
enum stage { START, RECORDER, HEADERS, FIX_LAYOUT, NOTE_LAYOUT, UNSIGNED_LAYOUT, BODY, SEAL, REMARKS };

struct state {
    enum stage stage;
    bool declared;
    uint32_t points_due, seconds;
    struct layout fixes, notes, unsigned_notes;
    struct answer said;
};

/* A refusal inside a line; number 0 is none. */
struct fault {
    uint32_t number, byte;
};

static const struct fault none = {0, 0};

/* The refusal of a field against its rule, by what the field holds: FORM is that of every other field. */
enum { FORM = 9, TIME = 22, POSITION = 23, ALTITUDE = 24, DATE = 25 };

static struct fault bad(uint32_t number, uint32_t byte)
{
    return (struct fault){number, byte};
}

static struct fault read_layout(const uint8_t *line, size_t length, uint32_t start, struct layout *layout)
{
    uint32_t count = two(line + 1);
    if (!all(line + 1, 2, DIGIT) || length != 3 + 7 * (size_t)count)
        return bad(FORM, 2);
    layout->length = start - 1;
    for (uint32_t n = 0; n < count; n++) {
        const uint8_t *entry = line + 3 + 7 * n;
        uint32_t byte = 4 + 7 * n, first = two(entry), last = two(entry + 2);
        if (!all(entry, 2, DIGIT))
            return bad(FORM, byte);
        if (!all(entry + 2, 2, DIGIT))
            return bad(FORM, byte + 2);
        if (!all(entry + 4, 3, CODE))
            return bad(FORM, byte + 4);
        if (first != layout->length + 1 || last < first)
            return (struct fault){10, byte};
        for (uint32_t before = 0; before < n; before++)
            if (memcmp(line + 3 + 7 * before + 4, entry + 4, 3) == 0)
                return (struct fault){11, byte};
        struct column column = {first, last - first + 1, look_up(entry + 4)};
        if (column.listed && (column.width < column.listed->least || column.width > column.listed->most))
            return (struct fault){12, byte};
        layout->columns[n] = column;
        layout->length = last;
    }
    layout->count = count;
    return none;
}

/* Which coordinates of a fix stand at their limit: LAD or LOD can only be zeros there. */
enum { AT_90 = 1, AT_180 = 2 };

static uint32_t at_limit(const uint8_t *line)
{
    return (memcmp(line + 7, "9000000", 7) == 0 ? AT_90 : 0) | (memcmp(line + 15, "18000000", 8) == 0 ? AT_180 : 0);
}

static bool is_past(const struct column *column, const uint8_t *text, uint32_t limits)
{
    if (!(limits & AT_90 && memcmp(column->listed->code, "LAD", 3) == 0) && !(limits & AT_180 && memcmp(column->listed->code, "LOD", 3) == 0))
        return false;
    return memcmp(text, "0000", column->width) != 0;
}

static struct fault check_columns(const uint8_t *line, const struct layout *layout, uint32_t limits)
{
    for (uint32_t n = 0; n < layout->count; n++) {
        const struct column *column = &layout->columns[n];
        if (!column->listed)
            continue;
        const uint8_t *text = line + column->first - 1;
        uint32_t sign = column->listed->sign && text[0] == '-';
        if (sign == column->width || !all(text + sign, column->width - sign, DIGIT) || is_past(column, text, limits))
            return (struct fault){13, column->first};
    }
    return none;
}

static struct fault check_fix(const uint8_t *line, const struct layout *layout, uint32_t *seconds)
{
    if (!is_time(line + 1, seconds))
        return bad(TIME, 2);
    if (!is_latitude(line + 7))
        return bad(POSITION, 8);
    if (!is_longitude(line + 15))
        return bad(POSITION, 16);
    if (!either(line[24], 'A', 'V'))
        return bad(FORM, 25);
    if (!is_altitude(line + 25))
        return bad(ALTITUDE, 26);
    if (!is_altitude(line + 30))
        return bad(ALTITUDE, 31);
    return check_columns(line, layout, at_limit(line));
}

static struct fault check_satellites(const uint8_t *line, size_t length, uint32_t *seconds)
{
    if (!is_time(line + 1, seconds))
        return bad(TIME, 2);
    if (length % 2 == 0)
        return bad(FORM, 8);
    for (size_t at = 7; at < length; at += 2)
        if (!all(line + at, 2, CODE))
            return bad(FORM, at + 1);
    return none;
}

static struct fault check_head(const uint8_t *line, struct state *state)
{
    uint32_t day, month, year, seconds;
    if (!is_date(line + 1, &day, &month, &year))
        return bad(DATE, 2);
    if (!is_time(line + 7, &seconds))
        return bad(TIME, 8);
    if (memcmp(line + 13, "000000", 6) != 0 && !is_date(line + 13, &day, &month, &year))
        return bad(DATE, 14);
    if (!all(line + 19, 4, DIGIT))
        return bad(FORM, 20);
    if (!all(line + 23, 2, DIGIT))
        return bad(FORM, 24);
    state->declared = true;
    state->points_due = two(line + 23) + 4;
    return none;
}

static struct fault check_point(const uint8_t *line, struct state *state)
{
    if (!is_latitude(line + 1))
        return bad(POSITION, 2);
    if (!is_longitude(line + 9))
        return bad(POSITION, 10);
    state->points_due--;
    return none;
}

/* Whether a line of this kind may stand here, and how far the file is then. */
static bool may_follow(const struct state *state, uint8_t kind, enum stage *next)
{
    enum stage stage = state->stage;
    *next = BODY;
    if (state->points_due > 0)
        return kind == 'C';
    if (stage < HEADERS) {
        *next = stage + 1;
        return kind == (stage == START ? 'A' : 'H');
    }
    switch (kind) {
    case 'A':
        return false;
    case 'H':
        *next = HEADERS;
        return stage == HEADERS;
    case 'I':
        *next = FIX_LAYOUT;
        return stage == HEADERS;
    case 'J':
        *next = NOTE_LAYOUT;
        return stage <= FIX_LAYOUT;
    case 'M':
        *next = UNSIGNED_LAYOUT;
        return stage <= NOTE_LAYOUT;
    case 'G':
        *next = SEAL;
        return stage <= SEAL;
    case 'L':
        *next = stage >= SEAL ? REMARKS : BODY;
        return true;
    case 'C':
        return stage <= BODY && !state->declared && state->said.b_lines == 0;
    default:
        return stage <= BODY;
    }
}

struct limits {
    uint32_t least, most;
};

static struct limits limits_of(const struct state *state, uint8_t kind)
{
    switch (kind) {
    case 'A':
    case 'F':
        return (struct limits){7, 255};
    case 'H':
        return state->stage == RECORDER ? (struct limits){11, 11} : (struct limits){5, 255};
    case 'I':
    case 'J':
    case 'M':
        return (struct limits){3, 99};
    case 'C':
        return (struct limits){state->points_due ? 18 : 25, 255};
    case 'D':
        return (struct limits){6, 6};
    case 'E':
        return (struct limits){10, 255};
    case 'B':
        return (struct limits){state->fixes.length, state->fixes.length};
    case 'K':
        return (struct limits){state->notes.length, state->notes.length};
    case 'N':
        return (struct limits){state->unsigned_notes.length, state->unsigned_notes.length};
    case 'L':
        return (struct limits){1, 99};
    case 'G':
        return (struct limits){2, 255};
    default:
        return (struct limits){1, 255};
    }
}

/* Checks 9 to 13, with 22 to 25 in 9's place; a timed line's time goes to `seconds`. */
static struct fault check_fields(const uint8_t *line, size_t length, struct state *state, uint32_t *seconds)
{
    struct answer *said = &state->said;
    switch (line[0]) {
    case 'A':
        return !all(line + 1, 3, CODE) ? bad(FORM, 2) : !all(line + 4, 3, CODE) ? bad(FORM, 5) : none;
    case 'H':
        if (state->stage == RECORDER)
            return memcmp(line + 1, "FDTE", 4) != 0                            ? bad(FORM, 2)
                   : !is_date(line + 5, &said->day, &said->month, &said->year) ? bad(DATE, 6)
                                                                               : none;
        return !either(line[1], 'F', 'O') ? bad(FORM, 2) : !all(line + 2, 3, CODE) ? bad(FORM, 3) : none;
    case 'I':
        return read_layout(line, length, 36, &state->fixes);
    case 'J':
        return read_layout(line, length, 8, &state->notes);
    case 'M':
        return read_layout(line, length, 8, &state->unsigned_notes);
    case 'C':
        return state->points_due ? check_point(line, state) : check_head(line, state);
    case 'D':
        return !either(line[1], '1', '2') ? bad(FORM, 2) : !all(line + 2, 4, CODE) ? bad(FORM, 3) : none;
    case 'E':
        return !is_time(line + 1, seconds) ? bad(TIME, 2) : !all(line + 7, 3, CODE) ? bad(FORM, 8) : none;
    case 'F':
        return check_satellites(line, length, seconds);
    case 'B':
        return check_fix(line, &state->fixes, seconds);
    case 'K':
        return !is_time(line + 1, seconds) ? bad(TIME, 2) : check_columns(line, &state->notes, 0);
    case 'N':
        return !is_time(line + 1, seconds) ? bad(TIME, 2) : check_columns(line, &state->unsigned_notes, 0);
    default:
        return none;
    }
}

static bool is_timed(uint8_t kind)
{
    return kind == 'B' || kind == 'E' || kind == 'F' || kind == 'K' || kind == 'N';
}

/* Checks 4 to 14 of a line. `invalid` is where the line's first character that no line but H may have stands, or the length. */
static struct fault check_line(const uint8_t *line, size_t length, size_t invalid, struct state *state)
{
    enum stage next;
    if (length == 0)
        return (struct fault){4, 1};
    uint8_t kind = line[0];
    if (kind < 'A' || kind > 'Z')
        return (struct fault){5, 1};
    if (!may_follow(state, kind, &next))
        return (struct fault){6, 1};
    struct limits limits = limits_of(state, kind);
    if (length < limits.least || length > limits.most)
        return (struct fault){7, 0};
    if (kind == 'H')
        while (invalid < length && (line[invalid] == ',' || class_of[line[invalid]] & VALID))
            invalid++;
    if (invalid < length)
        return (struct fault){8, invalid + 1};
    uint32_t seconds = state->seconds;
    struct fault fault = check_fields(line, length, state, &seconds);
    if (fault.number)
        return fault;
    if (is_timed(kind)) {
        if (seconds < state->seconds && state->seconds - seconds <= 43200)
            return (struct fault){14, 2};
        state->seconds = seconds;
    }
    state->stage = next;
    state->said.lines++;
    state->said.b_lines += kind == 'B';
    state->said.k_lines += kind == 'K';
    state->said.n_lines += kind == 'N';
    return none;
}

/* ---- a line of a file */

static struct answer refuse(uint32_t number, uint32_t line, uint32_t byte)
{
    return (struct answer){.number = number, .line = line, .byte = byte};
}

/* One line, from its first byte on: its end, the checks, its entry. Whether it is good; `at` is then moved past it, and `refused` is set where it is not. */
static inline bool take_line(const uint8_t *file, size_t length, size_t *at, struct state *state, uint32_t *table, size_t entries, struct answer *refused)
{
    const uint8_t *line = file + *at;
    uint32_t number = state->said.lines + 1;
    size_t left = length - *at, valid = 0;
    while (valid < left && class_of[line[valid]] & VALID)
        valid++;
    size_t end = valid;
    while (end < left && !(class_of[line[end]] & ENDS))
        end++;
    struct fault fault = {3, end + 1};
    if (end + 1 < left && line[end] == '\r' && line[end + 1] == '\n')
        fault = check_line(line, end, valid, state);
    if (!fault.number && number > entries)
        fault = (struct fault){15, 0};
    if (fault.number) {
        *refused = refuse(fault.number, number, fault.byte);
        return false;
    }
    table[number - 1] = *at;
    *at += end + 2;
    return true;
}

/* Whether B, K and N lines may stand here. No I, J or M line can follow them, so all layouts are known. */
static inline bool may_run(const struct state *state, uint8_t kind)
{
    return (kind == 'B' || kind == 'K' || kind == 'N') && state->points_due == 0 && state->stage >= HEADERS && state->stage <= BODY;
}

/* The answer of a file that has no line left. */
static struct answer ended(const struct state *state)
{
    if (state->points_due > 0 || state->stage < HEADERS)
        return refuse(16, state->said.lines + 1, 0);
    struct answer said = state->said;
    said.b_length = state->fixes.length;
    said.k_length = state->notes.length;
    said.n_length = state->unsigned_notes.length;
    said.has_seal = state->stage >= SEAL;
    return said;
}

#endif
