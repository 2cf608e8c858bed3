/* Measures three calls on a whole file, natively; bench/whole.mjs measures the same in WebAssembly:
       whole FILE [REPETITIONS]
   prints the shortest times of the check, the track and one column (ENL of the B lines), in ms. */
#define _POSIX_C_SOURCE 200809L
#include <stdio.h>
#include <stdlib.h>
#include <time.h>

#include "hivebasket.h"

enum { MOST = 16777216, LINES = 1000000 };
static uint8_t file[MOST + 1];
static uint32_t table[LINES];
static struct hive_record records[LINES];
static int64_t numbers[LINES];

static double now(void)
{
    struct timespec t;
    clock_gettime(CLOCK_MONOTONIC, &t);
    return t.tv_sec * 1e3 + t.tv_nsec / 1e6;
}

int main(int argc, char **argv)
{
    FILE *from = argc > 1 ? fopen(argv[1], "rb") : NULL;
    if (!from)
        return 2;
    size_t length = fread(file, 1, sizeof file, from);
    int repetitions = argc > 2 ? atoi(argv[2]) : 15;
    uint64_t answer[HIVE_ANSWER];
    double least[3] = {1e9, 1e9, 1e9};
    for (int turn = 0; turn < repetitions; turn++) {
        double t[4] = {now()};
        uint32_t refused = hive_check(file, length, table, LINES, answer, HIVE_ANSWER);
        t[1] = now();
        refused |= hive_track(file, length, records, LINES, answer, HIVE_ANSWER);
        t[2] = now();
        refused |= hive_columns(file, length, 'B', (const uint8_t *)"ENL", 3, numbers, LINES, answer, HIVE_ANSWER);
        t[3] = now();
        if (refused)
            return 1;
        for (int i = 0; i < 3; i++)
            if (t[i + 1] - t[i] < least[i])
                least[i] = t[i + 1] - t[i];
    }
    printf("%.2f %.2f %.2f\n", least[0], least[1], least[2]);
    return 0;
}
