/* Makes the flights that the checks are measured on. All but the damaged one keep every rule. */
#include "flights.h"

#include <stdio.h>
#include <string.h>

static const char usual[] = "I033638FXA3940SIU4143ENL";

const struct flight flights[FLIGHTS] = {
    {"B lines, FXA SIU ENL", usual, NULL, DIGITS, 0, 0, 0},
    {"B lines, no columns", NULL, NULL, DIGITS, 0, 0, 0},
    {"B lines, DAN LOD DAE, digits only", "I033638DAN3940LOD4143DAE", NULL, DIGITS, 0, 0, 0},
    {"B and K lines in turn", usual, "J020812HDT1315TDS", DIGITS, 0, 0, 0},
    {"B lines, FXA SIU DAN, half below zero", "I033638FXA3940SIU4146DAN", NULL, SIGNED, 0, 0, 0},
    {"B lines, unlisted: A to Z, digits", "I033638ZZA3940ZZB4143ZZC", NULL, LETTERS, 0, 0, 0},
    {"B lines, unlisted: a to z, spaces", "I033638ZZA3940ZZB4143ZZC", NULL, TEXT, 0, 0, 0},
    {"B lines, E, F and L lines between", usual, NULL, DIGITS, 1, 0, 0},
    {"B lines, last one's latitude bad", usual, NULL, DIGITS, 0, 1, 0},
    {"B lines, four L lines behind each", usual, NULL, DIGITS, 0, 0, 4},
};

enum { MOST_TURN = 512 };

static const char end[] = "G0123456789ABCDEF\r\n";

static uint32_t next(uint32_t *random)
{
    *random = *random * 1664525u + 1013904223u;
    return *random >> 8;
}

/* How many bytes the columns of an I or J line take. */
static size_t width_of(const char *layout, size_t start)
{
    size_t length = layout ? strlen(layout) : 0;
    if (length < 10)
        return 0;
    const char *last = layout + length - 5;
    return (last[0] - '0') * 10u + (last[1] - '0') - start + 1;
}

/* So many characters, each one of those given. */
static char *put_text(char *line, size_t width, const char *from, uint32_t *random)
{
    for (size_t n = 0; n < width; n++)
        line[n] = from[next(random) % strlen(from)];
    return line + width;
}

/* The columns of one line, side by side. */
static char *put_columns(char *line, size_t width, const struct flight *flight, uint32_t *random)
{
    static const char *const characters[] = {"0123456789", "0123456789ABCDEFGHIJKLMNOPQRSTUVWXYZ", "abcdefghijklmnopqrstuvwxyz    ", "0123456789"};
    put_text(line, width, characters[flight->columns], random);
    if (flight->columns == SIGNED && next(random) & 1)
        line[width - 6] = '-';
    return line + width;
}

static char *put_time(char *line, char kind, unsigned second)
{
    return line + sprintf(line, "%c%02u%02u%02u", kind, second / 3600, second / 60 % 60, second % 60);
}

static char *put_fix(char *line, unsigned second, const struct flight *flight, uint32_t *random)
{
    unsigned r = next(random);
    line = put_time(line, 'B', second);
    line += sprintf(line, "%02u%05u%c%03u%05u%c%c%05u%05u", r % 90, r % 60000, "NS"[r & 1], r % 180, r / 7 % 60000, "EW"[r >> 1 & 1],
                    r % 50 ? 'A' : 'V', r % 9000, r / 3 % 9000);
    line = put_columns(line, width_of(flight->fixes, 36), flight, random);
    return line + sprintf(line, "\r\n");
}

/* An L line of random words. */
static char *put_remark(char *line, uint32_t *random)
{
    line += sprintf(line, "LXYZ");
    line = put_text(line, 40, "ABCDEabcdefghijklmnopqrstuvwxyz.123      ", random);
    return line + sprintf(line, "\r\n");
}

/* The lines of one second: the fix, and what stands behind it. */
static size_t put_turn(char *turn, unsigned long number, unsigned second, const struct flight *flight, uint32_t *random)
{
    char *line = put_fix(turn, second, flight, random);
    if (flight->notes) {
        line = put_time(line, 'K', second);
        line = put_columns(line, width_of(flight->notes, 8), flight, random);
        line += sprintf(line, "\r\n");
    }
    if (flight->has_events && number % 60 == 59) {
        line = put_time(line, 'F', second);
        line += sprintf(line, "0102030405060708\r\n");
    }
    if (flight->has_events && number % 30 == 29) {
        line = put_time(line, 'E', second);
        line += sprintf(line, "PEV pilot\r\n");
        line += sprintf(line, "LXYZ remark number %lu of the recorder\r\n", number);
    }
    for (int n = 0; n < flight->remarks; n++)
        line = put_remark(line, random);
    return line - turn;
}

static size_t make(uint8_t *file, size_t size, size_t fixes, const struct flight *flight)
{
    size_t at = sprintf((char *)file, "AXYZ001\r\nHFDTE150724\r\n"), last = 0;
    uint32_t random = 1;
    if (flight->fixes)
        at += sprintf((char *)file + at, "%s\r\n", flight->fixes);
    if (flight->notes)
        at += sprintf((char *)file + at, "%s\r\n", flight->notes);
    for (unsigned long number = 0; number < fixes; number++) {
        char turn[MOST_TURN];
        size_t length = put_turn(turn, number, (36000 + number) % 86400, flight, &random);
        if (at + length + strlen(end) > size)
            break;
        memcpy(file + at, turn, length);
        last = at;
        at += length;
    }
    if (flight->is_damaged)
        memcpy(file + last + 7, "9000001N", 8);
    memcpy(file + at, end, strlen(end));
    return at + strlen(end);
}

size_t make_flight(uint8_t *file, size_t size, const struct flight *flight)
{
    return make(file, size, size, flight);
}

size_t make_fixes(uint8_t *file, size_t size, size_t fixes)
{
    return make(file, size, fixes, &flights[0]);
}
