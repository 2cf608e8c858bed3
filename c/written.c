/* Writes lines of each kind into a small output: at each place of the output, with values at their limits, and with each value outside its limit. Prints the answer and
   the whole output, so the bytes outside the line are seen.
   c/test holds the output against c/expected/written, which tests/make-expected makes from the independent reading of documents 01 and 02. */
#include <stdio.h>
#include <string.h>

#include "hivebasket.h"

#define TEXT(s) (const uint8_t *)(s), strlen(s)
#define NO_LINE NULL, 0

/* HDT from byte 36 to 38 of B lines, from byte 8 to 10 of K lines, and there of N lines. */
static const char I[] = "I013638HDT";
static const char J[] = "J010810HDT";
static const char M[] = "M010810HDT";

static uint64_t answer[HIVE_ANSWER];
static uint8_t out[260];

/* The output and the answer before each call, so that what a call leaves is seen. */
static uint8_t *fresh(size_t size) {
    memset(answer, 9, sizeof answer);
    memset(out, '.', size);
    return out;
}

#define OUT(size) fresh(size), size, answer, HIVE_ANSWER

static void say(size_t size, uint32_t returned) {
    if (returned == 0)
        printf("WROTE %llu\n", (unsigned long long)answer[HIVE_AFTER]);
    else
        printf("REFUSED %u %llu %llu\n", (unsigned)returned, (unsigned long long)answer[HIVE_REFUSED_LINE], (unsigned long long)answer[HIVE_REFUSED_BYTE]);
    fwrite(out, 1, size, stdout);
    printf("\n");
}

/* ---- C points */

static void latitude(uint64_t count, char letter, size_t place) {
    say(24, hive_write_point(count, letter, 15000, 'W', TEXT("ab"), place, OUT(24)));
}

static void longitude(uint64_t count, char letter) {
    say(24, hive_write_point(3090000, 'N', count, letter, TEXT("ab"), 0, OUT(24)));
}

static void point_text(const char *text) {
    say(260, hive_write_point(3090000, 'N', 15000, 'W', TEXT(text), 1, OUT(260)));
}

/* The letter a as often as is said. */
static const char *letters(size_t count) {
    static char text[240];
    memset(text, 'a', count);
    text[count] = 0;
    return text;
}

static void points(void) {
    latitude(5400000, 'N', 0);
    latitude(0, 'S', 1);
    latitude(3090000, 'N', 2);
    latitude(3090000, 'N', 3);
    latitude(3090000, 'N', 25);
    latitude(3090000, 'N', SIZE_MAX);
    latitude(5400001, 'N', 0);
    latitude(3090000, 'E', 0);
    longitude(10800000, 'E');
    longitude(10800001, 'E');
    longitude(15000, 'N');
    point_text(letters(237));
    point_text(letters(238));
    point_text("a*b");
    point_text("a,b");
}

/* ---- C heads */

static void numbers(uint32_t seconds, uint16_t task, uint8_t turn_points, size_t place) {
    say(32, hive_write_head(31, 7, 2024, seconds, 0, 0, 0, task, turn_points, TEXT("T"), place, OUT(32)));
}

static void declared(uint8_t day, uint8_t month, uint16_t year) {
    say(32, hive_write_head(day, month, year, 43200, 0, 0, 0, 1, 2, TEXT("T"), 0, OUT(32)));
}

static void planned(uint8_t day, uint8_t month, uint16_t year) {
    say(32, hive_write_head(15, 7, 2024, 43200, day, month, year, 1, 2, TEXT("T"), 0, OUT(32)));
}

static void head_text(const char *text) {
    say(260, hive_write_head(15, 7, 2024, 43200, 0, 0, 0, 1, 2, TEXT(text), 1, OUT(260)));
}

static void heads(void) {
    numbers(43200, 1, 2, 0);
    numbers(86399, 9999, 99, 4);
    numbers(43200, 1, 2, 5);
    numbers(43200, 1, 2, 33);
    numbers(86400, 1, 2, 0);
    numbers(86401, 1, 2, 0);
    numbers(43200, 10000, 2, 0);
    numbers(43200, 1, 100, 0);
    declared(1, 1, 1980);
    declared(31, 12, 2079);
    declared(0, 7, 2024);
    declared(32, 7, 2024);
    declared(1, 13, 2024);
    declared(31, 12, 1979);
    declared(1, 1, 2080);
    planned(29, 2, 2024);
    planned(29, 2, 2023);
    planned(0, 0, 2000);
    head_text(letters(230));
    head_text(letters(231));
    head_text("a*b");
}

/* ---- I, J and M lines */

static void layout(const char *line, size_t place) {
    say(24, hive_write_layout(TEXT(line), place, OUT(24)));
}

/* Good ones at each place; then the first start, a width, a finish below its start, a gap, a code twice, and a character that is no code's; then M lines. */
static void layouts(void) {
    layout(I, 0);
    layout("J010813HDT", 6);
    layout(J, 12);
    layout(J, 13);
    layout(J, 25);
    layout("I00", 3);
    layout("I023638HDT3941ZZZ", 0);
    layout("I013538HDT", 0);
    layout("J010809HDT", 0);
    layout("I023638HDT3938ZZZ", 0);
    layout("I023638HDT4042ZZZ", 0);
    layout("I023638HDT3941HDT", 0);
    layout("I023638HDT3941ZZz", 0);
    layout(M, 2);
    layout(M, 13);
    layout("M013638HDT", 0);
    layout("M010809HDT", 0);
}

/* ---- K and N lines */

static void extra(char kind, uint32_t seconds, const char *columns, const char *line, size_t place) {
    say(16, hive_write_extra(kind, seconds, TEXT(columns), TEXT(line), place, OUT(16)));
}

static void extras_of(char kind, const char *line) {
    extra(kind, 0, "090", line, 0);
    extra(kind, 86399, "090", line, 4);
    extra(kind, 0, "090", line, 5);
    extra(kind, 0, "090", line, 17);
    extra(kind, 3600, "", "", 7);
    extra(kind, 86400, "090", line, 0);
    extra(kind, 86401, "090", line, 0);
    extra(kind, 0, "09", line, 0);
    extra(kind, 0, "0900", line, 0);
    extra(kind, 0, "0*0", line, 0);
    extra(kind, 0, "0A0", line, 0);
    extra(kind, 0, "090", I, 0);
}

/* The same writes of both; then each by the other's layout line, and a letter that is neither. */
static void extras(void) {
    extras_of('K', J);
    extras_of('N', M);
    extra('K', 0, "090", M, 0);
    extra('N', 0, "090", J, 0);
    extra('B', 0, "", "", 0);
}

/* ---- B lines */

static void timed(uint32_t seconds, size_t place) {
    say(44, hive_write_fix(seconds, 0, 0, 'S', 0, 10800000, 'E', 0, 'A', 100, 120, TEXT("012"), TEXT(I), place, OUT(44)));
}

static void at(uint64_t latitude, char n_or_s, uint64_t longitude, char e_or_w) {
    say(44, hive_write_fix(43200, 0, latitude, n_or_s, 0, longitude, e_or_w, 0, 'A', 100, 120, TEXT("012"), TEXT(I), 0, OUT(44)));
}

static void marked(char validity) {
    say(44, hive_write_fix(43200, 0, 0, 'S', 0, 10800000, 'E', 0, validity, 100, 120, TEXT("012"), TEXT(I), 0, OUT(44)));
}

static void heights(int32_t pressure, int32_t gnss) {
    say(44, hive_write_fix(43200, 0, 0, 'S', 0, 10800000, 'E', 0, 'A', pressure, gnss, TEXT("012"), TEXT(I), 0, OUT(44)));
}

static void columns(const char *text, const uint8_t *line, size_t length, size_t place) {
    say(44, hive_write_fix(43200, 0, 0, 'S', 0, 10800000, 'E', 0, 'A', 100, 120, TEXT(text), line, length, place, OUT(44)));
}

static void positions(void) {
    at(5400000, 'N', 0, 'W');
    at(5400001, 'N', 0, 'W');
    at(0, 'E', 0, 'W');
    at(5400000, 'N', 10800000, 'W');
    at(5400000, 'N', 10800001, 'W');
    at(5400000, 'N', 0, 'N');
}

static void altitudes(void) {
    heights(-9999, 99999);
    heights(99999, -9999);
    heights(-1, 0);
    heights(-10000, 120);
    heights(100000, 120);
    heights(100, -10000);
    heights(100, 100000);
}

static void fixes(void) {
    timed(43200, 0);
    timed(86399, 4);
    timed(0, 5);
    timed(0, 45);
    timed(86400, 0);
    timed(86401, 0);
    positions();
    marked('V');
    marked('B');
    altitudes();
    columns("01", TEXT(I), 0);
    columns("0123", TEXT(I), 0);
    columns("0*2", TEXT(I), 0);
    columns("0A2", TEXT(I), 0);
    columns("-12", TEXT(I), 0);
    columns("012", TEXT(J), 0);
    columns("", NO_LINE, 7);
}

int main(void) {
    points();
    heads();
    layouts();
    extras();
    fixes();
    return 0;
}
