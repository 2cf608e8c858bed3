/* Measures the library's track of a file against its check alone, and against the same records made by hand in C over the check that is written by hand:
       track [REPETITIONS]
   For each file the shortest processor time of each counts. Ends with status 1 where the two tracks differ in a record, or a record past the last fix is changed. */
#define _POSIX_C_SOURCE 200809L
#include <stdio.h>
#include <stdlib.h>
#include <string.h>
#include <time.h>

#include "check.h"
#include "flights.h"
#include "hivebasket.h"

enum { MIB = 1024 * 1024, MOST_REPETITIONS = 101, SPARE = 2 };

static double now(void)
{
    struct timespec t;
    clock_gettime(CLOCK_PROCESS_CPUTIME_ID, &t);
    return t.tv_sec + t.tv_nsec / 1e9;
}

static void *room(size_t size)
{
    void *memory = malloc(size);
    if (!memory)
        exit(2);
    return memory;
}

/* ---- the track by hand: the file is checked, then each line that has a time is read where the table says that it stands */

static uint32_t digits(const uint8_t *text, size_t width)
{
    uint32_t value = 0;
    for (size_t n = 0; n < width; n++)
        value = value * 10 + (text[n] - '0');
    return value;
}

static uint32_t seconds_of(const uint8_t *line)
{
    return digits(line + 1, 2) * 3600 + digits(line + 3, 2) * 60 + digits(line + 5, 2);
}

static int32_t metres_of(const uint8_t *text)
{
    return *text == '-' ? -(int32_t)digits(text + 1, 4) : (int32_t)digits(text, 5);
}

/* Where a column of finer digits stands in a B line, and how many digits it has: none without an I line that tells it. */
struct finer {
    size_t at, wide;
};

struct columns {
    struct finer time, lat, lon;
};

static struct finer column_of(const uint8_t *layout, const char *code)
{
    for (uint32_t n = 0; n < digits(layout + 1, 2); n++) {
        const uint8_t *entry = layout + 3 + 7 * n;
        if (memcmp(entry + 4, code, 3) == 0)
            return (struct finer){digits(entry, 2) - 1, digits(entry + 2, 2) + 1 - digits(entry, 2)};
    }
    return (struct finer){0, 0};
}

static uint64_t refined(uint64_t count, const uint8_t *line, struct finer column)
{
    for (size_t n = 0; n < column.wide; n++)
        count = count * 10 + (line[column.at + n] - '0');
    return count;
}

static struct hive_fix_values fix_of(const uint8_t *line, const struct columns *finer)
{
    return (struct hive_fix_values){{refined(seconds_of(line), line, finer->time), finer->time.wide},
                                    {refined(digits(line + 7, 2) * 60000 + digits(line + 9, 5), line, finer->lat), line[14], finer->lat.wide},
                                    {refined(digits(line + 15, 3) * 60000 + digits(line + 18, 5), line, finer->lon), line[23], finer->lon.wide},
                                    line[24],
                                    metres_of(line + 25),
                                    metres_of(line + 30)};
}

static uint32_t track_by_hand(const uint8_t *file, size_t length, uint32_t *table, size_t entries, struct hive_record *list, size_t records, size_t *count)
{
    struct answer checked = check(file, length, table, entries);
    struct columns finer = {{0, 0}, {0, 0}, {0, 0}};
    uint32_t clock = 0, day = 0;
    if (checked.number)
        return checked.number;
    if (records < checked.b_lines)
        return HIVE_NO_ROOM;
    *count = 0;
    for (uint32_t n = 0; n < checked.lines; n++) {
        const uint8_t *line = file + table[n];
        if (*line == 'I')
            finer = (struct columns){column_of(line, "TDS"), column_of(line, "LAD"), column_of(line, "LOD")};
        if (!strchr("BEFKN", *line))
            continue;
        uint32_t seconds = seconds_of(line);
        day += clock > seconds && clock - seconds > 43200;
        clock = seconds;
        if (*line == 'B')
            list[(*count)++] = (struct hive_record){n + 1, day, fix_of(line, &finer)};
    }
    return 0;
}

/* ---- the two compared */

static int is_same_position(struct hive_position a, struct hive_position b)
{
    return a.count == b.count && a.letter == b.letter && a.decimals == b.decimals;
}

static int is_same(const struct hive_record *a, const struct hive_record *b)
{
    return a->line == b->line && a->day == b->day && a->fix.time.count == b->fix.time.count && a->fix.time.decimals == b->fix.time.decimals &&
           is_same_position(a->fix.lat, b->fix.lat) && is_same_position(a->fix.lon, b->fix.lon) &&
           a->fix.validity == b->fix.validity && a->fix.pressure == b->fix.pressure && a->fix.gnss == b->fix.gnss;
}

/* A file, the memory that each way is lent, and the shortest time of each way. */
struct course {
    uint8_t *file;
    size_t length, lines, records;
    uint32_t *table;
    struct hive_record *list, *other;
    double check, track, by_hand;
};

static void least(double *shortest, double took)
{
    if (*shortest == 0 || took < *shortest)
        *shortest = took;
}

/* Each way once. */
static int run_once(struct course *c)
{
    uint64_t answer[HIVE_ANSWER], told[HIVE_ANSWER];
    size_t count = 0;
    double began = now();
    uint32_t refused = hive_check(c->file, c->length, c->table, c->lines, answer, HIVE_ANSWER);
    double checked = now();
    refused |= hive_track(c->file, c->length, c->list, c->records, told, HIVE_ANSWER);
    double tracked = now();
    refused |= track_by_hand(c->file, c->length, c->table, c->lines, c->other, c->records, &count);
    double done = now();
    least(&c->check, checked - began);
    least(&c->track, tracked - checked);
    least(&c->by_hand, done - tracked);
    return !refused && told[HIVE_RECORDS] == answer[HIVE_B_LINES] && told[HIVE_RECORDS] == count && count + SPARE == c->records;
}

static void measure(size_t size, const struct flight *flight, int repetitions)
{
    struct course c = {room(size), 0, 0, SPARE, NULL, NULL, NULL, 0, 0, 0};
    int is_good = 1;
    c.length = make_flight(c.file, size, flight);
    for (size_t n = 0; n < c.length; n++) {
        c.lines += c.file[n] == '\n';
        c.records += c.file[n] == 'B' && (n == 0 || c.file[n - 1] == '\n');
    }
    c.table = room(c.lines * sizeof *c.table);
    c.list = memset(room(c.records * sizeof *c.list), 0xA5, c.records * sizeof *c.list);
    c.other = memset(room(c.records * sizeof *c.other), 0xA5, c.records * sizeof *c.other);
    for (int n = 0; n < repetitions; n++)
        is_good &= run_once(&c);
    for (size_t n = 0; n < c.records; n++)
        is_good &= is_same(&c.list[n], &c.other[n]);
    if (!is_good) {
        printf("bench: FAILED: %s: the tracks differ, or are not as the file was made\n", flight->name);
        exit(1);
    }
    printf("%-38s%4zu%8zu | %8.2f%8.2f%8.2f |%8.2f%8.2f\n", flight->name, size / MIB, c.records - SPARE, c.check * 1e3, c.track * 1e3, c.by_hand * 1e3, c.track / c.check, c.track / c.by_hand);
    fflush(stdout);
    free(c.file);
    free(c.table);
    free(c.list);
    free(c.other);
}

int main(int count, char **words)
{
    int repetitions = count > 1 ? atoi(words[1]) : 15;
    if (repetitions < 1 || repetitions > MOST_REPETITIONS)
        return 2;
    printf("%-50s | %24s |%16s\n", "the track of a file", "ms", "track over");
    printf("%-38s%4s%8s | %8s%8s%8s |%8s%8s\n", "", "MiB", "fixes", "check", "track", "in C", "check", "in C");
    measure(1 * MIB, &flights[0], repetitions);
    measure(4 * MIB, &flights[0], repetitions);
    measure(16 * MIB, &flights[0], repetitions);
    for (int n = 1; n < FLIGHTS; n++)
        if (!flights[n].is_damaged)
            measure(4 * MIB, &flights[n], repetitions);
    return 0;
}
