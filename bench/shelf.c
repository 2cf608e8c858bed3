/* Measures the calls on a full shelf of 64 flights beside the check and the copying of a file, and packing beside the copying of what it moves:
       shelf [REPETITIONS]
   The shortest processor time of each counts. Ends with status 1 where a call does not answer as the shelf was made. */
#define _POSIX_C_SOURCE 200809L
#include <stdio.h>
#include <stdlib.h>
#include <string.h>
#include <time.h>

#include "flights.h"
#include "hivebasket.h"

enum { FILE_SIZE = 64 * 1024, TURNS = 64, MOST_REPETITIONS = 101 };

static uint8_t shelf[HIVE_SHELF_LEAST + HIVE_SHELF_FLIGHTS * FILE_SIZE];
static uint8_t file[FILE_SIZE];
static uint8_t copy[FILE_SIZE];
static uint32_t table[FILE_SIZE / 3];
static uint64_t answer[HIVE_ANSWER];

static double now(void)
{
    struct timespec t;
    clock_gettime(CLOCK_PROCESS_CPUTIME_ID, &t);
    return t.tv_sec + t.tv_nsec / 1e9;
}

static void hold(int is_so, const char *what)
{
    if (!is_so) {
        printf("bench: FAILED: shelf: %s\n", what);
        exit(1);
    }
}

static void least(double *shortest, double took)
{
    if (*shortest == 0 || took < *shortest)
        *shortest = took;
}

/* Each call on the flight that was added last, whose entry is looked at last. */
static void run_once(size_t length, double *check, double *copying, double *ask, double *removing, double *adding)
{
    uint32_t last = HIVE_SHELF_FLIGHTS;
    double began;
    for (int n = 0; n < TURNS; n++) {
        began = now();
        hold(hive_check(file, length, table, FILE_SIZE / 3, answer, HIVE_ANSWER) == 0, "the file is refused");
        double checked = now();
        memcpy(copy, file, length);
        double copied = now();
        hold(memcmp(copy, file, length) == 0, "a copy is not the same");
        least(check, checked - began);
        least(copying, copied - checked);
        began = now();
        hold(hive_shelf_ask(shelf, sizeof shelf, last, answer, HIVE_ANSWER) == 0 && answer[HIVE_LINE_LENGTH] == length, "a flight is not found");
        least(ask, now() - began);
    }
    for (int n = 0; n < TURNS; n++) {
        began = now();
        hold(hive_shelf_remove(shelf, sizeof shelf, last, answer, HIVE_ANSWER) == 0, "a flight is not removed");
        double removed = now();
        hold(hive_shelf_add(shelf, sizeof shelf, last, file, length, answer, HIVE_ANSWER) == 0, "a flight is not added");
        least(removing, removed - began);
        least(adding, now() - removed);
    }
}

/* Every second flight removed, the shelf packed, and the flights put back. */
static void pack_once(size_t length, double *pack)
{
    for (uint32_t n = 1; n < HIVE_SHELF_FLIGHTS; n += 2)
        hold(hive_shelf_remove(shelf, sizeof shelf, n, answer, HIVE_ANSWER) == 0, "a flight is not removed");
    double began = now();
    hold(hive_shelf_pack(shelf, sizeof shelf, answer, HIVE_ANSWER) == 0, "the shelf is not packed");
    least(pack, now() - began);
    for (uint32_t n = 2; n <= HIVE_SHELF_FLIGHTS; n += 2) {
        hold(hive_shelf_ask(shelf, sizeof shelf, n, answer, HIVE_ANSWER) == 0, "a flight is not found");
        hold(answer[HIVE_START] == HIVE_SHELF_LEAST + (n / 2 - 1) * length, "a flight is not where packing puts it");
        hold(memcmp(shelf + answer[HIVE_START], file, length) == 0, "a flight's bytes have changed");
    }
    for (uint32_t n = 1; n < HIVE_SHELF_FLIGHTS; n += 2)
        hold(hive_shelf_add(shelf, sizeof shelf, n, file, length, answer, HIVE_ANSWER) == 0, "a flight is not added");
    for (uint32_t n = 1; n <= HIVE_SHELF_FLIGHTS; n++)
        hold(hive_shelf_remove(shelf, sizeof shelf, n, answer, HIVE_ANSWER) == 0, "a flight is not removed");
    for (uint32_t n = 1; n <= HIVE_SHELF_FLIGHTS; n++)
        hold(hive_shelf_add(shelf, sizeof shelf, n, file, length, answer, HIVE_ANSWER) == 0, "a flight is not added");
}

int main(int count, char **words)
{
    int repetitions = count > 1 ? atoi(words[1]) : 15;
    double check = 0, copying = 0, ask = 0, removing = 0, adding = 0, pack = 0;
    if (repetitions < 1 || repetitions > MOST_REPETITIONS)
        return 2;
    size_t length = make_flight(file, FILE_SIZE, &flights[0]);
    for (uint32_t n = 1; n <= HIVE_SHELF_FLIGHTS; n++)
        hold(hive_shelf_add(shelf, sizeof shelf, n, file, length, answer, HIVE_ANSWER) == 0, "a flight is not added");
    for (int n = 0; n < repetitions; n++)
        run_once(length, &check, &copying, &ask, &removing, &adding);
    for (int n = 0; n < repetitions; n++)
        pack_once(length, &pack);
    printf("%-50s | %9s\n", "a shelf of 64 flights of 64 KiB", "us");
    printf("%-50s | %9.2f\n", "ask", ask * 1e6);
    printf("%-50s | %9.2f\n", "remove", removing * 1e6);
    printf("%-50s | %9.2f\n", "add", adding * 1e6);
    printf("%-50s | %9.2f\n", "of that the file's check", check * 1e6);
    printf("%-50s | %9.2f\n", "of that the copying, by memcpy", copying * 1e6);
    printf("%-50s | %9.2f\n", "left of it", (adding - check - copying) * 1e6);
    printf("%-50s | %9.2f\n", "pack, 32 flights moved", pack * 1e6);
    printf("%-50s | %9.2f\n", "their copying, by memcpy", 32 * copying * 1e6);
    return 0;
}
