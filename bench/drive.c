/* Measures the library's check against those that are written by hand in C, on the same files, one after the other in one process:
       drive [REPETITIONS]        prints the table of speeds and ratios, how the time of a byte grows with the size, what a line's readers take, and a listing beside the check
       drive once NUMBER          each check once, on 1 MiB of the flight of that number alone, where instructions are counted
       drive write FIXES          writes a flight with so many fixes to standard output, for the programs
   Ends with status 1 where two of the checks give different answers or tables. */
#define _POSIX_C_SOURCE 200809L
#include <cpuid.h>
#include <stdio.h>
#include <stdlib.h>
#include <string.h>
#include <time.h>

#include "check.h"
#include "flights.h"
#include "hivebasket.h"

enum { MIB = 1024 * 1024, MOST_REPETITIONS = 101, CHECKS = 4 };

/* The checks in the order in which they take turns: the library's, in one pass by hand, in the library's shape by hand, and the rival. */
enum { LIBRARY, CHECK, AHEAD, RIVAL };

static const char *const names[CHECKS] = {"library", "check.c", "ahead.c", "rival.c"};

static struct answer (*const by_hand[CHECKS])(const uint8_t *, size_t, uint32_t *, size_t) = {NULL, check, ahead, rival};

/* The processor time of this program, so that other programs disturb little. */
static double now(void)
{
    struct timespec t;
    clock_gettime(CLOCK_PROCESS_CPUTIME_ID, &t);
    return t.tv_sec + t.tv_nsec / 1e9;
}

static void *room(size_t size)
{
    void *memory = malloc(size);
    if (!memory)
        exit(2);
    return memory;
}

/* A check's answer in the library's terms: the number, then the answer. */
struct said {
    uint64_t number, answer[HIVE_ANSWER];
};

static struct said told(struct answer a)
{
    return (struct said){a.number, {a.line, a.byte, a.day, a.month, a.year, a.lines, a.b_lines, a.k_lines, a.b_length, a.k_length, a.n_lines, a.n_length, a.has_seal}};
}

/* One check timed. */
static double timed(int which, const uint8_t *file, size_t length, uint32_t *table, size_t entries, struct said *said)
{
    double began = now(), took;
    if (which == LIBRARY) {
        said->number = hive_check(file, length, table, entries, said->answer, HIVE_ANSWER);
        return now() - began;
    }
    struct answer answer = by_hand[which](file, length, table, entries);
    took = now() - began;
    *said = told(answer);
    return took;
}

/* Whether a check runs on an emulated processor, as far as that can be told: QEMU's own emulation names itself. */
static int is_emulated(void)
{
    unsigned a, b, c, d;
    char name[13] = "";
    __cpuid(1, a, b, c, d);
    if (!(c >> 31 & 1))
        return 0;
    __cpuid(0x40000000, a, b, c, d);
    memcpy(name, &b, 4);
    memcpy(name + 4, &c, 4);
    memcpy(name + 8, &d, 4);
    return strcmp(name, "TCGTCGTCGTCG") == 0;
}

/* What the checks took for a byte, the shortest of the runs. */
struct measured {
    double each[CHECKS];
};

/* The file's answer as it must be: accepted, or the damaged line refused where its latitude stands. */
static int is_expected(const struct said *said, const struct flight *flight, size_t lines)
{
    if (flight->is_damaged)
        return said->number == HIVE_POSITION && said->answer[HIVE_REFUSED_LINE] == lines - 1 && said->answer[HIVE_REFUSED_BYTE] == 8;
    return said->number == 0 && said->answer[HIVE_LINES] == lines;
}

/* Each check on a file, each as often as is said, in turn. The tables hold other numbers before, so that what is not to be written shows. */
static struct measured run_checks(const uint8_t *file, size_t length, const struct flight *flight, size_t lines, int repetitions)
{
    struct measured least;
    struct said said[CHECKS];
    uint32_t *tables[CHECKS];
    size_t entries = lines + 8, bytes = entries * sizeof(uint32_t);
    for (int which = 0; which < CHECKS; which++)
        tables[which] = memset(room(bytes), 0xA5, bytes);
    for (int n = 0; n < repetitions; n++)
        for (int which = 0; which < CHECKS; which++) {
            double took = timed(which, file, length, tables[which], entries, &said[which]) / length;
            if (n == 0 || took < least.each[which])
                least.each[which] = took;
        }
    for (int which = 0; which < CHECKS; which++)
        if (!is_expected(&said[which], flight, lines) || memcmp(&said[0], &said[which], sizeof said[0]) != 0 || memcmp(tables[0], tables[which], bytes) != 0) {
            printf("bench: FAILED: %s: answers or tables differ, or are not as the file was made\n", flight->name);
            exit(1);
        }
    for (int which = 0; which < CHECKS; which++)
        free(tables[which]);
    return least;
}

/* A line of the table: the flight, what each check does in a second, and the library's time over that of each in C. */
static struct measured measure(size_t size, const struct flight *flight, int repetitions)
{
    uint8_t *file = room(size);
    size_t length = make_flight(file, size, flight), lines = 0;
    for (size_t n = 0; n < length; n++)
        lines += file[n] == '\n';
    struct measured took = run_checks(file, length, flight, lines, repetitions);
    printf("%-38s%4zu%8zu |", flight->name, size / MIB, lines);
    for (int which = 0; which < CHECKS; which++)
        printf("%9.0f", 1e-6 / took.each[which]);
    printf(" |");
    for (int which = CHECK; which < CHECKS; which++)
        printf("%9.2f", took.each[LIBRARY] / took.each[which]);
    printf("\n");
    fflush(stdout);
    free(file);
    return took;
}

static void measure_checks(int repetitions)
{
    printf("%-50s | %35s | %26s\n", "the check of a file", "MB/s", "time of the library over");
    printf("%-38s%4s%8s |%9s%9s%9s%9s |%9s%9s%9s\n", "", "MiB", "lines", "library", "check.c", "ahead.c", "rival.c", "check.c", "ahead.c", "rival.c");
    struct measured one = measure(1 * MIB, &flights[0], repetitions);
    measure(4 * MIB, &flights[0], repetitions);
    struct measured sixteen = measure(16 * MIB, &flights[0], repetitions);
    for (int n = 1; n < FLIGHTS; n++)
        measure(4 * MIB, &flights[n], repetitions);
    printf("all gave the same answer and the same table for each file\ntime of a byte at 16 MiB over that at 1 MiB:");
    for (int which = 0; which < CHECKS; which++)
        printf(" %s %.2f%s", names[which], sixteen.each[which] / one.each[which], which == RIVAL ? "\n" : ",");
}

/* What a reading of a B line leaves, and what the looks into it answer. */
struct reading {
    uint64_t answer[HIVE_ANSWER], entries[HIVE_ENTRIES], place[HIVE_ANSWER];
    int32_t heights[HIVE_HEIGHTS];
    int64_t number[HIVE_NUMBER];
};

/* A line of a file, or its I line. */
struct text {
    const uint8_t *bytes;
    size_t length;
};

static uint32_t read_fix(struct text line, struct text layout, struct reading *r)
{
    return hive_fix(line.bytes, line.length, layout.bytes, layout.length, r->answer, HIVE_ANSWER, r->heights, HIVE_HEIGHTS, r->entries, HIVE_ENTRIES);
}

static uint32_t look(struct text line, const uint8_t *code, struct reading *r)
{
    return hive_look(line.bytes, line.length, r->entries, HIVE_ENTRIES, code[0], code[1], code[2], r->place, HIVE_ANSWER);
}

static uint32_t look_number(struct text line, const uint8_t *code, struct reading *r)
{
    return hive_look_number(line.bytes, line.length, r->entries, HIVE_ENTRIES, code[0], code[1], code[2], r->place, HIVE_ANSWER, r->number, HIVE_NUMBER);
}

/* The usual three columns of a line, each as text and as a number. */
static uint32_t look_all(struct text line, struct reading *r)
{
    uint32_t refused = 0;
    for (const char *code = "FXASIUENL"; *code; code += 3)
        refused |= look(line, (const uint8_t *)code, r) | look_number(line, (const uint8_t *)code, r);
    return refused;
}

/* One fix with its columns, the look for one of them and for its number, and a fix with three columns, each as text and as a number, all asked of the same B line;
   nanoseconds, the shortest of the rounds. */
static void measure_readers(int repetitions)
{
    static const char text[] = "B1200005130000N00015000WA001000012001208123";
    const uint8_t *enl = (const uint8_t *)"ENL";
    struct text line = {(const uint8_t *)text, strlen(text)}, layout = {(const uint8_t *)flights[0].fixes, strlen(flights[0].fixes)};
    enum { CALLS = 20000, KINDS = 4 };
    struct reading r;
    double least[KINDS] = {0};
    uint32_t refused = 0;
    for (int round = 0; round < repetitions; round++)
        for (int kind = 0; kind < KINDS; kind++) {
            double began = now(), took;
            for (int n = 0; n < CALLS; n++) {
                if (kind == 0 || kind == 3)
                    refused |= read_fix(line, layout, &r);
                if (kind == 1)
                    refused |= look(line, enl, &r);
                if (kind == 2)
                    refused |= look_number(line, enl, &r);
                if (kind == 3)
                    refused |= look_all(line, &r);
            }
            took = (now() - began) / CALLS * 1e9;
            if (round == 0 || took < least[kind])
                least[kind] = took;
        }
    if (refused || r.number[0] != 123) {
        printf("bench: FAILED: a reader refuses\n");
        exit(1);
    }
    printf("a fix read from its line with its columns in %.0f ns, a column found in %.0f ns, a column's number in %.0f ns\n", least[0], least[1], least[2]);
    printf("a fix with three columns, each as text and as a number, in %.0f ns; seven readings of the line take %.0f ns\n", least[3], 7 * least[0]);
}

/* Every fix of a file that was checked, with its three columns, as c/fixes.c lists them but nothing printed; returns how many there are. */
static size_t list_fixes(const uint8_t *file, size_t length, const uint32_t *table, size_t lines)
{
    struct text layout = {file, 0};
    struct reading r;
    size_t fixes = 0;
    for (size_t n = 1; n <= lines; n++) {
        uint64_t place[HIVE_ANSWER];
        if (hive_line(file, length, table, lines, n, place, HIVE_ANSWER) != 0)
            return 0;
        struct text line = {file + place[HIVE_START], place[HIVE_LINE_LENGTH]};
        if (line.bytes[0] == 'I')
            layout = line;
        if (line.bytes[0] == 'B')
            fixes += read_fix(line, layout, &r) == 0 && look_all(line, &r) == 0;
    }
    return fixes;
}

/* The listing of a file of 300,000 fixes with three columns beside its check. */
static void measure_listing(int repetitions)
{
    enum { FIXES = 300000 };
    size_t size = 1024 + 64 * (size_t)FIXES, lines = FIXES + 8;
    uint8_t *file = room(size);
    uint32_t *table = room(lines * sizeof *table);
    size_t length = make_fixes(file, size, FIXES);
    struct said said = {0, {0}};
    double check = 0, list = 0;
    for (int n = 0; n < repetitions; n++) {
        double took = timed(LIBRARY, file, length, table, lines, &said), began = now();
        if (said.number != 0 || list_fixes(file, length, table, said.answer[HIVE_LINES]) != FIXES) {
            printf("bench: FAILED: the listing has not every fix\n");
            exit(1);
        }
        double listed = now() - began;
        if (n == 0 || took < check)
            check = took;
        if (n == 0 || listed < list)
            list = listed;
    }
    printf("300,000 fixes with three columns, each as text and as a number: %.1f ms; the check of their file: %.1f ms; %.1f times\n", list * 1e3, check * 1e3, list / check);
    free(table);
    free(file);
}

static int write_fixes(size_t fixes)
{
    size_t size = 1024 + 64 * fixes;
    uint8_t *file = room(size);
    size_t length = make_fixes(file, size, fixes);
    int is_written = fwrite(file, 1, length, stdout) == length && fflush(stdout) == 0;
    free(file);
    return is_written ? 0 : 2;
}

int main(int count, char **words)
{
    if (count == 3 && strcmp(words[1], "write") == 0)
        return write_fixes(strtoul(words[2], NULL, 10));
    if (count == 3 && strcmp(words[1], "once") == 0) {
        measure(1 * MIB, &flights[strtoul(words[2], NULL, 10) % FLIGHTS], 1);
        return 0;
    }
    int repetitions = count > 1 ? atoi(words[1]) : 15;
    if (repetitions < 1 || repetitions > MOST_REPETITIONS)
        return 2;
    if (is_emulated())
        printf("bench: the processor is emulated: the figures say little\n");
    measure_checks(repetitions);
    measure_readers(repetitions);
    measure_listing(repetitions);
    return 0;
}
