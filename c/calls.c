/* Calls every function of the library on small inputs and prints what it returns and leaves in what is lent: the number, then the answer.
   c/test holds the output against c/expected/calls, which is worked out from documents 01 and 02 by hand. */
#include <stddef.h>
#include <stdio.h>
#include <string.h>

#include "hivebasket.h"

#define TEXT(s) (const uint8_t *)(s), strlen(s)

static const char FIVE[] = "AXYZ001\r\nHFDTE150724\r\nI023638FXA3940SIU\r\nB1200005130000N00015000WA001000012001208\r\nGABC\r\n";
/* An M line and an N line beside them; the column is an unlisted one. */
static const char SEVEN[] =
    "AXYZ001\r\nHFDTE150724\r\nI023638FXA3940SIU\r\nM010811HRT\r\nB1200005130000N00015000WA001000012001208\r\nN1200050072\r\nGABC\r\n";
/* No G line. */
static const char FOUR[] = "AXYZ001\r\nHFDTE150724\r\nI023638FXA3940SIU\r\nB1200005130000N00015000WA001000012001208\r\n";
/* A declaration of two turn points that has only its head. */
static const char OPEN[] = "AXYZ001\r\nHFDTE150724\r\nC150724093000000000000102\r\n";
static const char I[] = "I023638FXA3940SIU";
static const char J[] = "J010810HDT";
static const char M[] = "M010811HRT";
static const char B[] = "B1200005130000N00015000WA001000012001208";
static const char K[] = "K120005123";
static const char N[] = "N1200050072";
/* One digit for the time, four for each coordinate. */
static const char FINE[] = "I033636TDS3740LAD4144LOD";
static const char FINER[] = "B1200005130000N00015000WA0010000120512340009";

/* Filled with 9 before each call, so that what a call leaves is seen. */
static uint64_t answer[HIVE_ANSWER];
static int32_t heights[HIVE_HEIGHTS];
static uint64_t entries[HIVE_ENTRIES + 1];
static int64_t number[HIVE_NUMBER];
static double degrees[HIVE_DEGREES];
static uint8_t out[48];
static uint8_t text[HIVE_EXPLANATION];
static struct hive_record list[5];
static int32_t figures[3 * HIVE_TOLD + 1];
static int64_t cells[8];

static void fresh(void) {
    for (int i = 0; i < HIVE_ANSWER; i++)
        answer[i] = 9;
    heights[0] = heights[1] = 9;
    for (int i = 0; i <= HIVE_ENTRIES; i++)
        entries[i] = 9;
    number[0] = 9;
    degrees[0] = degrees[1] = 9;
    memset(out, '.', sizeof out);
    memset(text, '.', sizeof text);
    for (int i = 0; i < 5; i++)
        list[i] = (struct hive_record){9, 9, {{9, 9}, {9, '.', 9}, {9, '.', 9}, '.', 9, 9}};
    for (int i = 0; i <= 3 * HIVE_TOLD; i++)
        figures[i] = 9;
    for (int i = 0; i < 8; i++)
        cells[i] = 9;
}

static void say(const char *name, uint32_t returned) {
    printf("%s: %u |", name, (unsigned)returned);
    for (int i = 0; i < HIVE_ANSWER; i++)
        printf(" %llu", (unsigned long long)answer[i]);
    printf("\n");
    fresh();
}

/* The entries: how many, the numbers of the first three, and then what all the others are. */
static void say_entries(const char *name) {
    printf("%s: entries", name);
    for (int i = 0; i < 10; i++)
        printf(" %llu", (unsigned long long)entries[i]);
    for (int i = 11; i < HIVE_ENTRIES; i++)
        if (entries[i] != entries[10]) {
            printf(", number %d is %llu", i, (unsigned long long)entries[i]);
            break;
        }
    printf(", then %llu\n", (unsigned long long)entries[10]);
}

static void say_fix(const char *name, uint32_t returned) {
    printf("%s: heights %d %d\n", name, (int)heights[0], (int)heights[1]);
    say_entries(name);
    say(name, returned);
}

static void say_extra(const char *name, uint32_t returned) {
    say_entries(name);
    say(name, returned);
}

static void say_number(const char *name, uint32_t returned) {
    printf("%s: number %lld\n", name, (long long)number[0]);
    say(name, returned);
}

static void say_degrees(const char *name, uint32_t returned) {
    printf("%s: %u | %.10f %.10f\n", name, (unsigned)returned, degrees[0], degrees[1]);
    fresh();
}

static void say_bytes(const uint8_t *bytes, size_t length) {
    for (size_t i = 0; i < length; i++)
        bytes[i] == '\r' ? printf("<CR>") : bytes[i] == '\n' ? printf("<LF>") : printf("%c", bytes[i]);
    printf("\n");
}

static void say_out(const char *name, uint32_t returned) {
    printf("%s: out ", name);
    say_bytes(out, sizeof out);
    say(name, returned);
}

/* The text without the dots that it was filled with and that are left at its end. */
static void say_text(const char *name, uint32_t returned) {
    size_t length = sizeof text;
    while (0 < length && text[length - 1] == '.')
        length--;
    printf("%s: text ", name);
    say_bytes(text, length);
    say(name, returned);
}

/* Every record of the list, also those that the call is not lent. */
static void say_list(const char *name, uint32_t returned) {
    for (int i = 0; i < 5; i++) {
        const struct hive_fix_values *fix = &list[i].fix;
        printf("%s: %u %u %u %u %llu %c %u %llu %c %u %c %d %d\n", name, (unsigned)list[i].line, (unsigned)list[i].day, (unsigned)fix->time.count, (unsigned)fix->time.decimals,
               (unsigned long long)fix->lat.count, fix->lat.letter, (unsigned)fix->lat.decimals, (unsigned long long)fix->lon.count, fix->lon.letter, (unsigned)fix->lon.decimals,
               fix->validity, (int)fix->pressure, (int)fix->gnss);
    }
    say(name, returned);
}

static void say_table(const uint32_t *table) {
    for (int i = 0; i < 6; i++)
        printf(i < 5 ? "%u " : "%u\n", (unsigned)table[i]);
}

static void strict(void) {
    uint32_t table[6] = {7, 7, 7, 7, 7, 7};
    say("strict check, answer of 15", hive_check_strict(TEXT(FIVE), table, 6, answer, 15));
    say_table(table);
    say("strict check, no G line", hive_check_strict(TEXT(FOUR), table, 6, answer, HIVE_ANSWER));
    say_table(table);
    say("strict check", hive_check_strict(TEXT(FIVE), table, 6, answer, HIVE_ANSWER));
    say_table(table);
    say("strict check, an L line last", hive_check_strict(TEXT("AXYZ001\r\nHFDTE150724\r\nLXYZ\r\n"), table, 6, answer, HIVE_ANSWER));
    say("strict check, an open declaration", hive_check_strict(TEXT(OPEN), table, 6, answer, HIVE_ANSWER));
}

static void files(void) {
    uint32_t table[6] = {7, 7, 7, 7, 7, 7};
    say("check, answer of 15", hive_check(TEXT(FIVE), table, 6, answer, 15));
    printf("table %u %u %u\n", (unsigned)table[0], (unsigned)table[1], (unsigned)table[5]);
    say("check", hive_check(TEXT(FIVE), table, 6, answer, HIVE_ANSWER));
    say_table(table);
    say("check, table of 2", hive_check(TEXT(FIVE), table, 2, answer, HIVE_ANSWER));
    say("check, nothing", hive_check(NULL, 0, NULL, 0, answer, HIVE_ANSWER));
    uint32_t more[7];
    say("check, with an N line", hive_check(TEXT(SEVEN), more, 7, answer, HIVE_ANSWER));
    say("check, no G line", hive_check(TEXT(FOUR), more, 7, answer, HIVE_ANSWER));
    say("check, line 1 alone", hive_check(TEXT("AXYZ001\r\n"), more, 7, answer, HIVE_ANSWER));
    say("check, an open declaration", hive_check(TEXT(OPEN), more, 7, answer, HIVE_ANSWER));
    say("check, an L line behind the G line", hive_check(TEXT("AXYZ001\r\nHFDTE150724\r\nGABC\r\nLXYZ\r\n"), more, 7, answer, HIVE_ANSWER));
    strict();
    say("line 4", hive_line(TEXT(FIVE), table, 5, 4, answer, HIVE_ANSWER));
    say("line 0", hive_line(TEXT(FIVE), table, 5, 0, answer, HIVE_ANSWER));
    say("line 6 of 5", hive_line(TEXT(FIVE), table, 5, 6, answer, HIVE_ANSWER));
    say("step at 0", hive_step(TEXT(FIVE), 0, answer, HIVE_ANSWER));
    say("step at 83", hive_step(TEXT(FIVE), 83, answer, HIVE_ANSWER));
    say("step at the end", hive_step(TEXT(FIVE), 89, answer, HIVE_ANSWER));
    say("step past the end", hive_step(TEXT(FIVE), 90, answer, HIVE_ANSWER));
    say("step with no CR LF", hive_step(TEXT(FIVE), 88, answer, HIVE_ANSWER));
}

static void lines(void) {
    say_fix("fix", hive_fix(TEXT(B), TEXT(I), answer, HIVE_ANSWER, heights, HIVE_HEIGHTS, entries, HIVE_ENTRIES));
    say_fix("fix, heights of 1", hive_fix(TEXT(B), TEXT(I), answer, HIVE_ANSWER, heights, 1, entries, HIVE_ENTRIES));
    say_fix("fix by a J line", hive_fix(TEXT(B), TEXT(J), answer, HIVE_ANSWER, heights, HIVE_HEIGHTS, entries, HIVE_ENTRIES));
    say_fix("fix with no I line", hive_fix(TEXT(B), NULL, 0, answer, HIVE_ANSWER, heights, HIVE_HEIGHTS, entries, HIVE_ENTRIES));
    say_fix("fix over 90 degrees", hive_fix(TEXT("B1200009000001N00015000WA-001200120"), NULL, 0, answer, HIVE_ANSWER, heights, HIVE_HEIGHTS, entries, HIVE_ENTRIES));
    say_fix("fix at 24 hours", hive_fix(TEXT("B2400005130000N00015000WA0010000120"), NULL, 0, answer, HIVE_ANSWER, heights, HIVE_HEIGHTS, entries, HIVE_ENTRIES));
    say_fix("fix at minus zero metres", hive_fix(TEXT("B1200005130000N00015000WA00100-0000"), NULL, 0, answer, HIVE_ANSWER, heights, HIVE_HEIGHTS, entries, HIVE_ENTRIES));
    say_fix("fix, neither A nor V", hive_fix(TEXT("B1200005130000N00015000WX0010000120"), NULL, 0, answer, HIVE_ANSWER, heights, HIVE_HEIGHTS, entries, HIVE_ENTRIES));
    say_fix("fix below zero", hive_fix(TEXT("B1200009000000S18000000EV-001299999"), NULL, 0, answer, HIVE_ANSWER, heights, HIVE_HEIGHTS, entries, HIVE_ENTRIES));
    say_fix("fix, entries of 39", hive_fix(TEXT(B), TEXT(I), answer, HIVE_ANSWER, heights, HIVE_HEIGHTS, entries, 39));
    say_fix("fix, finer", hive_fix(TEXT(FINER), TEXT(FINE), answer, HIVE_ANSWER, heights, HIVE_HEIGHTS, entries, HIVE_ENTRIES));
    say_fix("fix, finer at 90 degrees", hive_fix(TEXT("B1200009000000S00015000WA0010000120500000009"), TEXT(FINE), answer, HIVE_ANSWER, heights, HIVE_HEIGHTS, entries, HIVE_ENTRIES));
    say_fix("fix, finer past 90 degrees", hive_fix(TEXT("B1200009000000S00015000WA0010000120500010009"), TEXT(FINE), answer, HIVE_ANSWER, heights, HIVE_HEIGHTS, entries, HIVE_ENTRIES));
    say_fix("fix, finer past 180 degrees", hive_fix(TEXT("B1200005130000N18000000WA0010000120512341000"), TEXT(FINE), answer, HIVE_ANSWER, heights, HIVE_HEIGHTS, entries, HIVE_ENTRIES));
    say_extra("extra", hive_extra(TEXT(K), TEXT(J), answer, HIVE_ANSWER, entries, HIVE_ENTRIES));
    say_extra("extra, entries of 41", hive_extra(TEXT(K), TEXT(J), answer, HIVE_ANSWER, entries, 41));
    say_extra("extra, a K line with TDS", hive_extra(TEXT("K1200055"), TEXT("J010808TDS"), answer, HIVE_ANSWER, entries, HIVE_ENTRIES));
    say_extra("extra at 60 minutes", hive_extra(TEXT("K126000123"), TEXT(J), answer, HIVE_ANSWER, entries, HIVE_ENTRIES));
    say_extra("extra by an I line", hive_extra(TEXT(K), TEXT(I), answer, HIVE_ANSWER, entries, HIVE_ENTRIES));
    say_extra("extra, a B line", hive_extra(TEXT(B), TEXT(J), answer, HIVE_ANSWER, entries, HIVE_ENTRIES));
    say_extra("extra, an E line", hive_extra(TEXT("E120000ABC"), TEXT(J), answer, HIVE_ANSWER, entries, HIVE_ENTRIES));
    say_extra("extra, an N line", hive_extra(TEXT(N), TEXT(M), answer, HIVE_ANSWER, entries, HIVE_ENTRIES));
    say_extra("extra, an N line with no M line", hive_extra(TEXT(N), NULL, 0, answer, HIVE_ANSWER, entries, HIVE_ENTRIES));
    say_extra("extra, an N line by a J line", hive_extra(TEXT("N120005123"), TEXT(J), answer, HIVE_ANSWER, entries, HIVE_ENTRIES));
    say_extra("extra, a K line by an M line", hive_extra(TEXT("K1200050072"), TEXT(M), answer, HIVE_ANSWER, entries, HIVE_ENTRIES));
    say("column at 2", hive_column_at(TEXT(I), 2, answer, HIVE_ANSWER));
    say("column at 3", hive_column_at(TEXT(I), 3, answer, HIVE_ANSWER));
    say("column at 0", hive_column_at(TEXT(J), 0, answer, HIVE_ANSWER));
    say("column at 1 of an M line", hive_column_at(TEXT(M), 1, answer, HIVE_ANSWER));
    say("column of an M line from 36", hive_column_at(TEXT("M013638HRT"), 1, answer, HIVE_ANSWER));
    say("column of a bad line", hive_column_at(TEXT("I023638FXA4041SIU"), 1, answer, HIVE_ANSWER));
    say("column 13 of a bad line", hive_column_at(TEXT("I023638FXA4041SIU"), 13, answer, HIVE_ANSWER));
    say("column 14 of a bad line", hive_column_at(TEXT("I023638FXA4041SIU"), 14, answer, HIVE_ANSWER));
    say("column 0 of a bad line", hive_column_at(TEXT("I023638FXA4041SIU"), 0, answer, HIVE_ANSWER));
    say("presence", hive_presence(TEXT(I), answer, HIVE_ANSWER));
    say("presence of none", hive_presence(NULL, 0, answer, HIVE_ANSWER));
    say("presence of a J line", hive_presence(TEXT(J), answer, HIVE_ANSWER));
    say("presence of an M line", hive_presence(TEXT(M), answer, HIVE_ANSWER));
    say("listed 0", hive_listed(0, answer, HIVE_ANSWER));
    say("listed 5", hive_listed(5, answer, HIVE_ANSWER));
    say("listed 14", hive_listed(14, answer, HIVE_ANSWER));
    say("listed 15", hive_listed(15, answer, HIVE_ANSWER));
    say("listed, answer of 15", hive_listed(0, answer, 15));
    say_degrees("degrees", hive_degrees(3090000, 'N', 0, 15000, 'W', 0, degrees, HIVE_DEGREES));
    say_degrees("degrees, 0 S", hive_degrees(0, 'S', 0, 10800000, 'E', 0, degrees, HIVE_DEGREES));
    say_degrees("degrees, too many", hive_degrees(5400001, 'N', 0, 15000, 'W', 0, degrees, HIVE_DEGREES));
    say_degrees("degrees of 1", hive_degrees(3090000, 'N', 0, 15000, 'W', 0, degrees, 1));
    say_degrees("degrees, finer", hive_degrees(30900001234, 'N', 4, 150000009, 'W', 4, degrees, HIVE_DEGREES));
    say_degrees("degrees, 0 S and 180 E, finer", hive_degrees(0, 'S', 4, 1080000000, 'E', 2, degrees, HIVE_DEGREES));
    say_degrees("degrees, one digit past 90", hive_degrees(54000001, 'N', 1, 15000, 'W', 0, degrees, HIVE_DEGREES));
    say_degrees("degrees, 5 decimals", hive_degrees(0, 'N', 5, 0, 'W', 0, degrees, HIVE_DEGREES));
}

/* Two columns as hive_fix tells those of B by I; what a look is to refuse is put into a copy. */
static const uint64_t TWO[HIVE_ENTRIES] = {2, ('F' << 16) + ('X' << 8) + 'A', 36, 38, ('S' << 16) + ('I' << 8) + 'U', 39, 40};

/* TWO with the number at a place changed. */
static const uint64_t *but(int place, uint64_t value) {
    memcpy(entries, TWO, sizeof TWO);
    entries[place] = value;
    return entries;
}

static void looks(void) {
    uint64_t one[HIVE_ENTRIES] = {1, ('Z' << 16) + ('Z' << 8) + 'Z', 36, 38};
    say("look FXA", hive_look(TEXT(B), TWO, HIVE_ENTRIES, 'F', 'X', 'A', answer, HIVE_ANSWER));
    say("look SIU", hive_look(TEXT(B), TWO, HIVE_ENTRIES, 'S', 'I', 'U', answer, HIVE_ANSWER));
    say("look SIX", hive_look(TEXT(B), TWO, HIVE_ENTRIES, 'S', 'I', 'X', answer, HIVE_ANSWER));
    say("look ENL", hive_look(TEXT(B), TWO, HIVE_ENTRIES, 'E', 'N', 'L', answer, HIVE_ANSWER));
    say("look into any line", hive_look(TEXT("forty bytes of no line that we know ..12"), TWO, HIVE_ENTRIES, 'S', 'I', 'U', answer, HIVE_ANSWER));
    say("look, a line of 39", hive_look((const uint8_t *)B, 39, TWO, HIVE_ENTRIES, 'F', 'X', 'A', answer, HIVE_ANSWER));
    say("look, entries of 39", hive_look(TEXT(B), TWO, 39, 'F', 'X', 'A', answer, HIVE_ANSWER));
    say("look, 14 entries", hive_look(TEXT(B), but(HIVE_COLUMNS, 14), HIVE_ENTRIES, 'F', 'X', 'A', answer, HIVE_ANSWER));
    say("look, a code twice", hive_look(TEXT(B), but(HIVE_COLUMN_CODE(1), TWO[HIVE_COLUMN_CODE(0)]), HIVE_ENTRIES, 'F', 'X', 'A', answer, HIVE_ANSWER));
    say("look, first byte 0", hive_look(TEXT(B), but(HIVE_COLUMN_FIRST(0), 0), HIVE_ENTRIES, 'S', 'I', 'U', answer, HIVE_ANSWER));
    say("look, last byte 41", hive_look(TEXT(B), but(HIVE_COLUMN_LAST(1), 41), HIVE_ENTRIES, 'F', 'X', 'A', answer, HIVE_ANSWER));
    say("look, last before first", hive_look(TEXT(B), but(HIVE_COLUMN_LAST(0), 35), HIVE_ENTRIES, 'S', 'I', 'U', answer, HIVE_ANSWER));
    say("look, a code of 33 bits", hive_look(TEXT(B), but(HIVE_COLUMN_CODE(1), (uint64_t)1 << 32), HIVE_ENTRIES, 'F', 'X', 'A', answer, HIVE_ANSWER));
    say("look, columns that overlap", hive_look(TEXT(B), but(HIVE_COLUMN_FIRST(1), 1), HIVE_ENTRIES, 'S', 'I', 'U', answer, HIVE_ANSWER));
    say("look, behind the last column", hive_look(TEXT(B), but(HIVE_COLUMN_LAST(2), 999), HIVE_ENTRIES, 'F', 'X', 'A', answer, HIVE_ANSWER));
    say("look, only one column", hive_look(TEXT(B), but(HIVE_COLUMNS, 1), HIVE_ENTRIES, 'S', 'I', 'U', answer, HIVE_ANSWER));
    say("look, answer of 15", hive_look(TEXT(B), TWO, HIVE_ENTRIES, 'F', 'X', 'A', answer, 15));
    say_number("number FXA", hive_look_number(TEXT(B), TWO, HIVE_ENTRIES, 'F', 'X', 'A', answer, HIVE_ANSWER, number, HIVE_NUMBER));
    say_number("number -05", hive_look_number(TEXT("B1200005130000N00015000WA0010000120-05"), one, HIVE_ENTRIES, 'Z', 'Z', 'Z', answer, HIVE_ANSWER, number, HIVE_NUMBER));
    say_number("number AB1", hive_look_number(TEXT("B1200005130000N00015000WA0010000120AB1"), one, HIVE_ENTRIES, 'Z', 'Z', 'Z', answer, HIVE_ANSWER, number, HIVE_NUMBER));
    say_number("number ENL", hive_look_number(TEXT(B), TWO, HIVE_ENTRIES, 'E', 'N', 'L', answer, HIVE_ANSWER, number, HIVE_NUMBER));
    say_number("number, a line of 37", hive_look_number((const uint8_t *)B, 37, one, HIVE_ENTRIES, 'Z', 'Z', 'Z', answer, HIVE_ANSWER, number, HIVE_NUMBER));
    say_number("number, 2 of them", hive_look_number(TEXT(B), TWO, HIVE_ENTRIES, 'F', 'X', 'A', answer, HIVE_ANSWER, number, 2));
}

static void others(void) {
    say("date", hive_date(TEXT("HFDTE150724"), answer, HIVE_ANSWER));
    say("no date", hive_date(TEXT("HFDTE290223"), answer, HIVE_ANSWER));
    say("no FDTE", hive_date(TEXT("HFDTX290223"), answer, HIVE_ANSWER));
    say("event", hive_event(TEXT("E120000ABC"), answer, HIVE_ANSWER));
    say("event at 60 seconds", hive_event(TEXT("E120060ABC"), answer, HIVE_ANSWER));
    say("satellites", hive_satellites(TEXT("F1200000102"), answer, HIVE_ANSWER));
    say("satellites at 24 hours", hive_satellites(TEXT("F2400000102"), answer, HIVE_ANSWER));
    say("half a pair", hive_satellites(TEXT("F120000010"), answer, HIVE_ANSWER));
    say("header", hive_header(TEXT("HFPLTPILOT: A, B"), answer, HIVE_ANSWER));
    say("header with no text", hive_header(TEXT("HOPLT"), answer, HIVE_ANSWER));
    say("header of 4 bytes", hive_header(TEXT("HFPL"), answer, HIVE_ANSWER));
    say("header with a dollar", hive_header(TEXT("HFPLT$"), answer, HIVE_ANSWER));
    say("header, source X", hive_header(TEXT("HXPLT"), answer, HIVE_ANSWER));
    say("header, no code", hive_header(TEXT("HFP-T"), answer, HIVE_ANSWER));
    say("header of a C line", hive_header(TEXT("CFPLT"), answer, HIVE_ANSWER));
    say("head", hive_head(TEXT("C150724093000160724000102"), answer, HIVE_ANSWER));
    say("head with no flight date", hive_head(TEXT("C150724093000000000000102"), answer, HIVE_ANSWER));
    say("head, declared on day 0", hive_head(TEXT("C000724093000160724000102"), answer, HIVE_ANSWER));
    say("head at 24 hours", hive_head(TEXT("C150724240000160724000102"), answer, HIVE_ANSWER));
    say("head, no such flight date", hive_head(TEXT("C150724093000310624000102"), answer, HIVE_ANSWER));
    say("point", hive_point(TEXT("C5130000N00015000WHOME"), answer, HIVE_ANSWER));
    say("point over 180 degrees", hive_point(TEXT("C5130000N18000001WHOME"), answer, HIVE_ANSWER));
    say("point, a B line", hive_point(TEXT(B), answer, HIVE_ANSWER));
}

static void writers(void) {
    say_out("write fix", hive_write_fix(43200, 0, 3090000, 'N', 0, 15000, 'W', 0, 'A', -12, 120, TEXT("01208"), TEXT(I), 3, out, sizeof out, answer, HIVE_ANSWER));
    say_out("write fix, no room", hive_write_fix(43200, 0, 3090000, 'N', 0, 15000, 'W', 0, 'A', -12, 120, TEXT("01208"), TEXT(I), 3, out, 44, answer, HIVE_ANSWER));
    say_out("write fix, no validity", hive_write_fix(43200, 0, 3090000, 'N', 0, 15000, 'W', 0, 'X', -12, 120, TEXT("01208"), TEXT(I), 3, out, 44, answer, HIVE_ANSWER));
    say_out("write fix by a J line", hive_write_fix(43200, 0, 3090000, 'N', 0, 15000, 'W', 0, 'A', -12, 120, TEXT("01208"), TEXT(J), 3, out, sizeof out, answer, HIVE_ANSWER));
    say_out("write fix, answer of 15", hive_write_fix(43200, 0, 3090000, 'N', 0, 15000, 'W', 0, 'A', -12, 120, TEXT("01208"), TEXT(I), 3, out, sizeof out, answer, 15));
    say_out("write fix, finer", hive_write_fix(432005, 1, 30900001234, 'N', 4, 150000009, 'W', 4, 'A', 100, 120, TEXT("512340009"), TEXT(FINE), 1, out, sizeof out, answer, HIVE_ANSWER));
    say_out("write fix, a digit that is not LAD's", hive_write_fix(432005, 1, 30900001235, 'N', 4, 150000009, 'W', 4, 'A', 100, 120, TEXT("512340009"), TEXT(FINE), 1, out, sizeof out, answer, HIVE_ANSWER));
    say_out("write fix, three decimals for LOD's four", hive_write_fix(432005, 1, 30900001234, 'N', 4, 15000000, 'W', 3, 'A', 100, 120, TEXT("512340009"), TEXT(FINE), 1, out, sizeof out, answer, HIVE_ANSWER));
    say_out("write fix, decimals without TDS", hive_write_fix(432000, 1, 3090000, 'N', 0, 15000, 'W', 0, 'A', 100, 120, TEXT("01208"), TEXT(I), 1, out, sizeof out, answer, HIVE_ANSWER));
    say_out("write fix, 200 decimals", hive_write_fix(43200, 200, 3090000, 'N', 0, 15000, 'W', 0, 'A', 100, 120, TEXT("01208"), TEXT(I), 1, out, sizeof out, answer, HIVE_ANSWER));
    say_out("write fix, past 90 degrees", hive_write_fix(432005, 1, 54000000001, 'N', 4, 150000009, 'W', 4, 'A', 100, 120, TEXT("500010009"), TEXT(FINE), 1, out, sizeof out, answer, HIVE_ANSWER));
    say_out("write extra", hive_write_extra('K', 43205, TEXT("123"), TEXT(J), 0, out, sizeof out, answer, HIVE_ANSWER));
    say_out("write extra, its column too short", hive_write_extra('K', 43205, TEXT("12"), TEXT(J), 0, out, sizeof out, answer, HIVE_ANSWER));
    say_out("write extra, an N line", hive_write_extra('N', 43205, TEXT("0072"), TEXT(M), 1, out, sizeof out, answer, HIVE_ANSWER));
    say_out("write extra, an N line by a J line", hive_write_extra('N', 43205, TEXT("123"), TEXT(J), 0, out, sizeof out, answer, HIVE_ANSWER));
    say_out("write extra, a B line", hive_write_extra('B', 43205, TEXT("123"), TEXT(J), 0, out, sizeof out, answer, HIVE_ANSWER));
    say_out("write extra, an L line", hive_write_extra('L', 43205, NULL, 0, NULL, 0, 0, out, sizeof out, answer, HIVE_ANSWER));
    say_out("write extra, answer of 15", hive_write_extra('N', 43205, TEXT("0072"), TEXT(M), 1, out, sizeof out, answer, 15));
    say_out("write layout", hive_write_layout(TEXT(I), 2, out, sizeof out, answer, HIVE_ANSWER));
    say_out("write layout, an M line", hive_write_layout(TEXT(M), 2, out, sizeof out, answer, HIVE_ANSWER));
    say_out("write layout, an M line from 36", hive_write_layout(TEXT("M013638HRT"), 2, out, sizeof out, answer, HIVE_ANSWER));
    say_out("write layout, no room", hive_write_layout(TEXT(J), 37, out, sizeof out, answer, HIVE_ANSWER));
    say_out("write layout, a gap", hive_write_layout(TEXT("I023638FXA4041SIU"), 60, out, sizeof out, answer, HIVE_ANSWER));
    say_out("write layout, a B line", hive_write_layout(TEXT(B), 0, out, sizeof out, answer, HIVE_ANSWER));
    say_out("write layout, no bytes", hive_write_layout(NULL, 0, 0, out, sizeof out, answer, HIVE_ANSWER));
    say_out("write head", hive_write_head(15, 7, 2024, 34200, 0, 0, 0, 1, 2, NULL, 0, 0, out, sizeof out, answer, HIVE_ANSWER));
    say_out("write head, no such flight date", hive_write_head(15, 7, 2024, 34200, 0, 7, 2024, 1, 2, NULL, 0, 0, out, sizeof out, answer, HIVE_ANSWER));
    say_out("write point", hive_write_point(3090000, 'N', 15000, 'W', TEXT("HOME"), 1, out, sizeof out, answer, HIVE_ANSWER));
}

/* A file of three lines, 28 bytes, with notes behind its G line. */
#define SHORT "AXYZ001\r\nHFDTE150724\r\nGABC\r\n"
static const char DAY[] = SHORT "LB\r\nLA\r\n";
static const char EVENING[] = SHORT "LA\r\nLA\r\nLAB\r\n";
/* The same file without its G line, with a note. */
static const char UNSIGNED[] = "AXYZ001\r\nHFDTE150724\r\nLB\r\n";

static void merging(void) {
    say_out("merge", hive_merge(TEXT(DAY), TEXT(EVENING), out, sizeof out, answer, HIVE_ANSWER));
    say_out("merge, the other way round", hive_merge(TEXT(EVENING), TEXT(DAY), out, 45, answer, HIVE_ANSWER));
    say_out("merge, no room", hive_merge(TEXT(DAY), TEXT(EVENING), out, 44, answer, HIVE_ANSWER));
    say_out("merge, other flights", hive_merge(TEXT(DAY), TEXT(FIVE), out, sizeof out, answer, HIVE_ANSWER));
    say_out("merge, the first refused", hive_merge(TEXT("XYZ"), NULL, 0, out, sizeof out, answer, HIVE_ANSWER));
    say_out("merge, the second refused", hive_merge(TEXT(DAY), TEXT("XYZ"), out, sizeof out, answer, HIVE_ANSWER));
    say_out("merge, the second not signed", hive_merge(TEXT(DAY), TEXT(UNSIGNED), out, sizeof out, answer, HIVE_ANSWER));
    say_out("merge, neither signed", hive_merge(TEXT(UNSIGNED), TEXT(UNSIGNED), out, sizeof out, answer, HIVE_ANSWER));
    say_out("merge, answer of 15", hive_merge(TEXT(DAY), TEXT(EVENING), out, sizeof out, answer, 15));
}

/* L lines before and behind two G lines: those behind the last one alone are notes. */
static const char NOTED[] = "AXYZ001\r\nHFDTE150724\r\nLPLT\r\nGABC\r\nGDEF\r\nLONE\r\nLTWO\r\n";

static void kinds(void) {
    say("count", hive_count(TEXT(FIVE), answer, HIVE_ANSWER));
    say("count, with an N line", hive_count(TEXT(SEVEN), answer, HIVE_ANSWER));
    say("count, nothing", hive_count(NULL, 0, answer, HIVE_ANSWER));
    say("count, an open declaration", hive_count(TEXT(OPEN), answer, HIVE_ANSWER));
    say("count, answer of 15", hive_count(TEXT(FIVE), answer, 15));
    say_out("kinds", hive_kinds(TEXT(NOTED), out, sizeof out, answer, HIVE_ANSWER));
    say_out("kinds, as many bytes as lines", hive_kinds(TEXT(NOTED), out, 7, answer, HIVE_ANSWER));
    say_out("kinds, one byte fewer", hive_kinds(TEXT(NOTED), out, 6, answer, HIVE_ANSWER));
    say_out("kinds, columns", hive_kinds(TEXT(SEVEN), out, sizeof out, answer, HIVE_ANSWER));
    say_out("kinds, no G line", hive_kinds(TEXT(UNSIGNED), out, sizeof out, answer, HIVE_ANSWER));
    say_out("kinds, refused", hive_kinds(TEXT(OPEN), NULL, 0, answer, HIVE_ANSWER));
    say_out("kinds, answer of 15", hive_kinds(TEXT(NOTED), out, sizeof out, answer, 15));
}

/* Four fixes over two midnights: the first is passed at a K line, the second at an F line, by a fall of 43,201 seconds. */
#define NIGHT_LINES                                                                                                                                                      \
    "AXYZ001\r\nHFDTE150724\r\nB2359585130000N00015000WA0010000120\r\nK000001\r\nB0000020000000S18000000EV-001299999\r\nB1200019000000S00000000WA00000-9999\r\nF000000\r\n" \
    "B0000005130000N00015000WA0010000120\r\nGABC\r\n"
static const char NIGHT[] = NIGHT_LINES;
/* A line behind the G line that may not come there. */
static const char SPOILED[] = NIGHT_LINES "D11234\r\n";

/* Two fixes with finer digits, the second earlier by them and not by its seconds: TDS has no part in the time order. */
static const char START[] =
    "AXYZ001\r\nHFDTE150724\r\nI033636TDS3740LAD4144LOD\r\nB1200005130000N00015000WA0010000120512340009\r\nB1200009000000S18000000EV0010000120400000000\r\nGABC\r\n";

/* A record as the library lays it out; where C does not, this does not compile. */
typedef char a_record_has_64_bytes[sizeof(struct hive_record) == 64 ? 1 : -1];
typedef char its_fix_starts_at_8[offsetof(struct hive_record, fix) == 8 ? 1 : -1];
typedef char its_places_are_plain[offsetof(struct hive_fix_values, lat) == 8 && offsetof(struct hive_fix_values, lon) == 24 && offsetof(struct hive_fix_values, validity) == 40 ? 1 : -1];
typedef char its_decimals_are_plain[offsetof(struct hive_time, decimals) == 4 && offsetof(struct hive_position, letter) == 8 && offsetof(struct hive_position, decimals) == 9 ? 1 : -1];
typedef char its_heights_are_plain[offsetof(struct hive_fix_values, pressure) == 44 && offsetof(struct hive_fix_values, gnss) == 48 ? 1 : -1];

static void tracks(void) {
    say_list("track", hive_track(TEXT(NIGHT), list, 5, answer, HIVE_ANSWER));
    say_list("track, list of 4", hive_track(TEXT(NIGHT), list, 4, answer, HIVE_ANSWER));
    say_list("track, list of 3", hive_track(TEXT(NIGHT), list, 3, answer, HIVE_ANSWER));
    say_list("track, no fixes and no list", hive_track(TEXT(SHORT), NULL, 0, answer, HIVE_ANSWER));
    say_list("track, with columns", hive_track(TEXT(FIVE), list, 5, answer, HIVE_ANSWER));
    say_list("track, finer", hive_track(TEXT(START), list, 5, answer, HIVE_ANSWER));
    say_list("track, refused", hive_track(TEXT(SPOILED), list, 5, answer, HIVE_ANSWER));
    say_list("track, refused and short", hive_track(TEXT(SPOILED), list, 3, answer, HIVE_ANSWER));
    say_list("track, answer of 15", hive_track(TEXT(NIGHT), list, 5, answer, 15));
}

/* Three fixes with a K line and a note between them. FLP is -5, 12 and 0; QQQ, which nobody has listed, holds a space, then a number, then letters. */
static const char ROWS[] =
    "AXYZ001\r\nHFDTE150724\r\nI033638FLP3940SIU4143QQQ\r\nJ010810HDT\r\nB1200005130000N00015000WA0010000120-0508 12\r\nK120001007\r\n"
    "B1200025130000N00015000WA001000012001209-12\r\nLXYZ\r\nB1200045130000N00015000WV001000012000000A1B\r\nGABC\r\n";
/* Fourteen codes; thirteen are as many as may be asked for. */
static const char FOURTEEN[] = "AAAAABAACAADAAEAAFAAGAAHAAIAAJAAKAALAAMAAN";

/* Every number of the list, also those that the call is not lent. */
static void say_cells(const char *name, uint32_t returned) {
    printf("%s: numbers", name);
    for (int i = 0; i < 8; i++)
        printf(" %lld", (long long)cells[i]);
    printf("\n");
    say(name, returned);
}

static void columns(void) {
    say_cells("columns", hive_columns(TEXT(ROWS), 'B', TEXT("QQQFLP"), cells, 8, answer, HIVE_ANSWER));
    say_cells("columns, list of 6", hive_columns(TEXT(ROWS), 'B', TEXT("FLPQQQ"), cells, 6, answer, HIVE_ANSWER));
    say_cells("columns, list of 5", hive_columns(TEXT(ROWS), 'B', TEXT("FLPQQQ"), cells, 5, answer, HIVE_ANSWER));
    say_cells("columns of K lines", hive_columns(TEXT(ROWS), 'K', TEXT("HDT"), cells, 8, answer, HIVE_ANSWER));
    say_cells("columns of N lines", hive_columns(TEXT(SEVEN), 'N', TEXT("HRT"), cells, 1, answer, HIVE_ANSWER));
    say_cells("columns, no lines and no list", hive_columns(TEXT("AXYZ001\r\nHFDTE150724\r\nI013638FXA\r\n"), 'B', TEXT("FXA"), NULL, 0, answer, HIVE_ANSWER));
    say_cells("columns of L lines", hive_columns(TEXT(ROWS), 'L', TEXT("SIU"), cells, 8, answer, HIVE_ANSWER));
    say_cells("columns, no codes", hive_columns(TEXT(ROWS), 'B', NULL, 0, cells, 8, answer, HIVE_ANSWER));
    say_cells("columns, five bytes", hive_columns(TEXT(ROWS), 'B', TEXT("SIUFL"), cells, 8, answer, HIVE_ANSWER));
    say_cells("columns, a code twice", hive_columns(TEXT(ROWS), 'B', TEXT("SIUFLPSIU"), cells, 8, answer, HIVE_ANSWER));
    say_cells("columns, an absent code twice", hive_columns(TEXT(ROWS), 'B', TEXT("ENLENL"), cells, 8, answer, HIVE_ANSWER));
    say_cells("columns, 14 codes", hive_columns(TEXT(ROWS), 'B', TEXT(FOURTEEN), cells, 8, answer, HIVE_ANSWER));
    say_cells("columns, 13 codes", hive_columns(TEXT(ROWS), 'B', TEXT(FOURTEEN + 3), cells, 8, answer, HIVE_ANSWER));
    say_cells("columns, absent", hive_columns(TEXT(ROWS), 'B', TEXT("SIUENL"), cells, 8, answer, HIVE_ANSWER));
    say_cells("columns, absent and short", hive_columns(TEXT(ROWS), 'B', TEXT("SIUENL"), cells, 5, answer, HIVE_ANSWER));
    say_cells("columns of N lines, no M line", hive_columns(TEXT(ROWS), 'N', TEXT("HRT"), cells, 8, answer, HIVE_ANSWER));
    say_cells("columns, refused", hive_columns(TEXT(SPOILED), 'L', TEXT("SIU"), cells, 8, answer, HIVE_ANSWER));
    say_cells("columns, answer of 15", hive_columns(TEXT(ROWS), 'B', TEXT("FLPQQQ"), cells, 8, answer, 15));
}

/* 257 fixes, one a second from noon on, each a metre higher and a thousandth of a minute further north and west than the one before it. */
static const char *climb(void) {
    static char file[257 * 37 + 32];
    size_t length = 0;
    length += sprintf(file, "AXYZ001\r\nHFDTE150724\r\n");
    for (int i = 0; i < 257; i++)
        length += sprintf(file + length, "B12%02d%02d5130%03dN00015%03dWA%05d00120\r\n", i / 60, i % 60, i, i, i);
    sprintf(file + length, "GABC\r\n");
    return file;
}

/* The numbers for the whole, for two runs, and the one behind them. */
static void say_figures(const char *name, uint32_t returned) {
    for (int k = 0; k < 4; k++) {
        printf("%s: %s", name, k == 0 ? "whole" : k == 1 ? "run 0" : k == 2 ? "run 1" : "then");
        for (int i = k * HIVE_TOLD; i <= 3 * HIVE_TOLD && i < (k + 1) * HIVE_TOLD; i++)
            printf(" %d", (int)figures[i]);
        printf("\n");
    }
    say(name, returned);
}

static void summaries(void) {
    say_figures("summary", hive_summary(TEXT(NIGHT), 0, figures, 25, answer, HIVE_ANSWER));
    say_figures("summary, list of 24", hive_summary(TEXT(NIGHT), 4, figures, 24, answer, HIVE_ANSWER));
    say_figures("summary, list of 23", hive_summary(TEXT(NIGHT), 4, figures, 23, answer, HIVE_ANSWER));
    say_figures("summary, five old fixes", hive_summary(TEXT(NIGHT), 5, figures, 23, answer, HIVE_ANSWER));
    say_figures("summary, no fixes", hive_summary(TEXT(SHORT), 0, figures, 12, answer, HIVE_ANSWER));
    say_figures("summary, no fixes, list of 11", hive_summary(TEXT(SHORT), 0, figures, 11, answer, HIVE_ANSWER));
    say_figures("summary, refused", hive_summary(TEXT(SPOILED), 5, figures, 23, answer, HIVE_ANSWER));
    say_figures("summary, finer digits", hive_summary(TEXT(START), 0, figures, 25, answer, HIVE_ANSWER));
    say_figures("summary of a climb", hive_summary(TEXT(climb()), 0, figures, 37, answer, HIVE_ANSWER));
    say_figures("summary of a climb, 255 old fixes", hive_summary(TEXT(climb()), 255, figures, 36, answer, HIVE_ANSWER));
    say_figures("summary of a climb, 256 old fixes", hive_summary(TEXT(climb()), 256, figures, 37, answer, HIVE_ANSWER));
    say_figures("summary of a climb, 257 old fixes", hive_summary(TEXT(climb()), 257, figures, 37, answer, HIVE_ANSWER));
    say_figures("summary of a climb, list of 35", hive_summary(TEXT(climb()), 257, figures, 35, answer, HIVE_ANSWER));
    say_figures("summary of a climb, 258 old fixes", hive_summary(TEXT(climb()), 258, figures, 35, answer, HIVE_ANSWER));
    say_figures("summary, answer of 15", hive_summary(TEXT(NIGHT), 0, figures, 25, answer, 15));
}

/* Two files of 22 bytes, which the usual check takes. */
static const char PAIR[] = "AXYZ001\r\nHFDTE150724\r\n";
static const char OTHER[] = "AXYZ002\r\nHFDTE160724\r\n";

/* A shelf with room for three bodies of 22 bytes, and one with room for 65. */
static uint8_t shelf[768 + 3 * 22];
static uint8_t wide[768 + 65 * 22];

/* The bytes of each entry that is not all zero; then the part of the bodies, a zero byte as a dot. */
static void say_shelf(const char *name, uint32_t returned) {
    static const uint8_t none[12];
    for (int n = 0; n < 64; n++)
        if (memcmp(shelf + 12 * n, none, 12) != 0) {
            printf("%s: entry %d:", name, n);
            for (int i = 0; i < 12; i++)
                printf(" %02x", shelf[12 * n + i]);
            printf("\n");
        }
    printf("%s: bodies ", name);
    for (size_t i = 768; i < sizeof shelf; i++)
        shelf[i] == '\r' ? printf("<CR>") : shelf[i] == '\n' ? printf("<LF>") : printf("%c", shelf[i] == 0 ? '.' : shelf[i]);
    printf("\n");
    say(name, returned);
}

static void shelves(void) {
    say_shelf("shelf, first flight", hive_shelf_add(shelf, sizeof shelf, 7, TEXT(PAIR), answer, HIVE_ANSWER));
    say_shelf("shelf, second flight", hive_shelf_add(shelf, sizeof shelf, 0x01020304, TEXT(OTHER), answer, HIVE_ANSWER));
    say_shelf("shelf, full to the byte", hive_shelf_add(shelf, sizeof shelf, 4294967295, TEXT(PAIR), answer, HIVE_ANSWER));
    say_shelf("shelf, no run", hive_shelf_add(shelf, sizeof shelf, 8, TEXT(PAIR), answer, HIVE_ANSWER));
    say("shelf, number in use", hive_shelf_add(shelf, sizeof shelf, 7, TEXT(PAIR), answer, HIVE_ANSWER));
    say("shelf, number 0", hive_shelf_add(shelf, sizeof shelf, 0, TEXT(PAIR), answer, HIVE_ANSWER));
    say("shelf, file refused", hive_shelf_add(shelf, sizeof shelf, 0, TEXT(OPEN), answer, HIVE_ANSWER));
    say("shelf, asked", hive_shelf_ask(shelf, sizeof shelf, 0x01020304, answer, HIVE_ANSWER));
    say("shelf, asked for 0", hive_shelf_ask(shelf, sizeof shelf, 0, answer, HIVE_ANSWER));
    say("shelf, asked for 8", hive_shelf_ask(shelf, sizeof shelf, 8, answer, HIVE_ANSWER));
    say("shelf, asked with an answer of 15", hive_shelf_ask(shelf, sizeof shelf, 7, answer, 15));
    say_shelf("shelf, answer of 15, removed", hive_shelf_remove(shelf, sizeof shelf, 7, answer, 15));
    say_shelf("shelf, removed", hive_shelf_remove(shelf, sizeof shelf, 7, answer, HIVE_ANSWER));
    say("shelf, removed again", hive_shelf_remove(shelf, sizeof shelf, 7, answer, HIVE_ANSWER));
    say("shelf, removed 0", hive_shelf_remove(shelf, sizeof shelf, 0, answer, HIVE_ANSWER));
    say_shelf("shelf, answer of 15, packed", hive_shelf_pack(shelf, sizeof shelf, answer, 15));
    say_shelf("shelf, packed", hive_shelf_pack(shelf, sizeof shelf, answer, HIVE_ANSWER));
    say_shelf("shelf, answer of 15, added", hive_shelf_add(shelf, sizeof shelf, 9, TEXT(OTHER), answer, 15));
    say_shelf("shelf, longer than what is free", hive_shelf_add(shelf, sizeof shelf, 9, TEXT(FOUR), answer, HIVE_ANSWER));
    say_shelf("shelf, just what is free", hive_shelf_add(shelf, sizeof shelf, 9, TEXT(OTHER), answer, HIVE_ANSWER));
    shelf[12 * 63 + 11] = 1; /* the last entry is free, and one of its bytes is not 0 */
    say_shelf("shelf, broken, added", hive_shelf_add(shelf, sizeof shelf, 0, TEXT(OPEN), answer, HIVE_ANSWER));
    say("shelf, broken, asked", hive_shelf_ask(shelf, sizeof shelf, 9, answer, HIVE_ANSWER));
    say("shelf, broken, removed", hive_shelf_remove(shelf, sizeof shelf, 9, answer, HIVE_ANSWER));
    say("shelf, broken, packed", hive_shelf_pack(shelf, sizeof shelf, answer, HIVE_ANSWER));
    say("shelf of 767 bytes", hive_shelf_pack(wide, 767, answer, HIVE_ANSWER));
    say("shelf of 768 bytes", hive_shelf_pack(wide, 768, answer, HIVE_ANSWER));
    say("shelf of 768 bytes, added", hive_shelf_add(wide, 768, 1, TEXT(PAIR), answer, HIVE_ANSWER));
    for (uint32_t n = 1; n < 64; n++)
        hive_shelf_add(wide, sizeof wide, n, TEXT(PAIR), answer, HIVE_ANSWER);
    say("shelf, 64 flights", hive_shelf_add(wide, sizeof wide, 64, TEXT(PAIR), answer, HIVE_ANSWER));
    say("shelf, 65 flights", hive_shelf_add(wide, sizeof wide, 65, TEXT(PAIR), answer, HIVE_ANSWER));
}

/* A declaration with no turn points: its head in line 4, behind 28 bytes, and four points, behind 59, 87, 107 and 128 bytes. */
static const char TASK[] =
    "AXYZ001\r\nHFDTE150724\r\nLXYZ\r\nC150724093000160724000700TASK\r\nC5130000N00015000WTAKE-OFF\r\nC5230000S00115000E\r\nC0000000N18000000EX\r\nC9000000S00000000WLAND\r\n";
static uint64_t points[4 * HIVE_POINT + 1];

/* A declaration's points, and the number behind the last. */
static void say_points(const char *name, uint32_t returned) {
    printf("%s: points", name);
    for (int i = 0; i <= 4 * HIVE_POINT; i++) {
        printf(" %llu", (unsigned long long)points[i]);
        points[i] = 9;
    }
    printf("\n");
    say(name, returned);
}

static void declarations(void) {
    for (int i = 0; i <= 4 * HIVE_POINT; i++)
        points[i] = 9;
    say_points("declaration", hive_declaration(TEXT(TASK), points, 4 * HIVE_POINT + 1, answer, HIVE_ANSWER));
    say_points("declaration, list of 24", hive_declaration(TEXT(TASK), points, 4 * HIVE_POINT, answer, HIVE_ANSWER));
    say_points("declaration, list of 23", hive_declaration(TEXT(TASK), points, 4 * HIVE_POINT - 1, answer, HIVE_ANSWER));
    say_points("declaration of none", hive_declaration(TEXT(FIVE), NULL, 0, answer, HIVE_ANSWER));
    say_points("declaration, not finished", hive_declaration(TEXT(OPEN), points, 4 * HIVE_POINT, answer, HIVE_ANSWER));
    say_points("declaration, answer of 15", hive_declaration(TEXT(TASK), points, 4 * HIVE_POINT, answer, 15));
}

static void words(void) {
    say_out("name 9", hive_name(9, out, sizeof out, answer, HIVE_ANSWER));
    say_out("name 21, text of 10", hive_name(21, out, 10, answer, HIVE_ANSWER));
    say_out("name 21, text of 9", hive_name(21, out, 9, answer, HIVE_ANSWER));
    say_out("name 0", hive_name(0, out, sizeof out, answer, HIVE_ANSWER));
    say_out("name 25", hive_name(25, out, sizeof out, answer, HIVE_ANSWER));
    say_out("name 26", hive_name(26, out, sizeof out, answer, HIVE_ANSWER));
    say_out("name 31", hive_name(31, out, sizeof out, answer, HIVE_ANSWER));
    say_out("name 32, no text", hive_name(32, NULL, 0, answer, HIVE_ANSWER));
    say_out("name, answer of 15", hive_name(9, out, sizeof out, answer, 15));
    say_text("explain", hive_explain(TEXT(FIVE), 9, 4, 8, text, sizeof text, answer, HIVE_ANSWER));
    say_text("explain, no line", hive_explain(NULL, 0, 1, 0, 0, text, 26, answer, HIVE_ANSWER));
    say_text("explain, text of 25", hive_explain(NULL, 0, 1, 0, 0, text, 25, answer, HIVE_ANSWER));
    say_text("explain, no byte", hive_explain(TEXT(FIVE), 7, 5, 0, text, sizeof text, answer, HIVE_ANSWER));
    say_text("explain, past the last line", hive_explain(TEXT(FIVE), 16, 6, 0, text, sizeof text, answer, HIVE_ANSWER));
    say_text("explain, byte 121", hive_explain(TEXT(FIVE), 3, 4, 121, text, sizeof text, answer, HIVE_ANSWER));
    say_text("explain 26", hive_explain(TEXT(FIVE), 26, 0, 0, text, sizeof text, answer, HIVE_ANSWER));
    say_text("explain 29", hive_explain(TEXT(FIVE), 29, 0, 0, text, sizeof text, answer, HIVE_ANSWER));
    say_text("explain 32", hive_explain(TEXT(FIVE), 32, 4, 8, text, sizeof text, answer, HIVE_ANSWER));
    say_text("explain, answer of 15", hive_explain(TEXT(FIVE), 9, 4, 8, text, sizeof text, answer, 15));
}

int main(void) {
    fresh();
    files();
    lines();
    looks();
    others();
    writers();
    merging();
    kinds();
    tracks();
    columns();
    summaries();
    shelves();
    declarations();
    words();
    return 0;
}
