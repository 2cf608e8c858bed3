/* Measures the library's merge of two copies of a file, each with so many notes of 60 bytes, all different, and writes the notes for another program to sort:
       merge NOTES ORDER REPETITIONS FOLDER
   ORDER is how they stand in the copies: random, ascending, descending, or alike, which is random with 50 bytes the same in front. Prints the shortest processor time in
   seconds. FOLDER gets first.txt and second.txt, the notes of each copy, and merged.txt, those of the merged file, each with its CR LF.
   Ends with status 1 where the merge is refused, or has another length than all notes have. */
#define _POSIX_C_SOURCE 200809L
#include <stdio.h>
#include <stdlib.h>
#include <string.h>
#include <time.h>

#include "hivebasket.h"

enum { NOTE = 60, LINE = NOTE + 2, ALIKE = 50, NUMBER = 8 };

static const char front[] = "AXYZ001\r\nHFDTE150724\r\nGABC\r\n";
enum { FRONT = sizeof front - 1 };

static double now(void)
{
    struct timespec t;
    clock_gettime(CLOCK_PROCESS_CPUTIME_ID, &t);
    return t.tv_sec + t.tv_nsec / 1e9;
}

static uint8_t *room(size_t size)
{
    uint8_t *memory = malloc(size);
    if (!memory)
        exit(2);
    return memory;
}

/* A capital, from a state that is moved on. */
static uint8_t capital(uint64_t *state)
{
    *state = *state * 6364136223846793005u + 1442695040888963407u;
    return 'A' + (*state >> 33) % 26;
}

/* A note: L and capitals, and at its end its number, so that no two are the same. Where the order is by the number, that stands in front. */
static void put_note(uint8_t *line, const char *order, size_t number, size_t all, uint64_t *state)
{
    char digits[NUMBER + 1];
    int is_ascending = strcmp(order, "ascending") == 0, is_descending = strcmp(order, "descending") == 0;
    snprintf(digits, sizeof digits, "%08zu", is_descending ? all - number : number);
    line[0] = 'L';
    for (size_t n = 1; n < NOTE; n++)
        line[n] = strcmp(order, "alike") == 0 && n < ALIKE ? 'A' : capital(state);
    memcpy(line + (is_ascending || is_descending ? 1 : NOTE - NUMBER), digits, NUMBER);
    memcpy(line + NOTE, "\r\n", 2);
}

static void write_notes(const char *folder, const char *name, const uint8_t *notes, size_t length)
{
    char path[4096];
    snprintf(path, sizeof path, "%s/%s", folder, name);
    FILE *file = fopen(path, "wb");
    if (!file || fwrite(notes, 1, length, file) != length || fclose(file) != 0) {
        fprintf(stderr, "merge: %s could not be written\n", path);
        exit(2);
    }
}

int main(int count, char **words)
{
    if (count != 5)
        return 2;
    size_t notes = strtoul(words[1], NULL, 10), length = FRONT + notes * LINE, most = FRONT + 2 * notes * LINE;
    uint8_t *first = room(length), *second = room(length), *out = room(most);
    uint64_t answer[HIVE_ANSWER], state = 1;
    double least = 1e9;
    memcpy(first, front, FRONT);
    memcpy(second, front, FRONT);
    for (size_t n = 0; n < 2 * notes; n++)
        put_note((n % 2 ? second : first) + FRONT + n / 2 * LINE, words[2], n, 2 * notes, &state);
    for (int n = atoi(words[3]); n > 0; n--) {
        double began = now();
        uint32_t refused = hive_merge(first, length, second, length, out, most, answer, HIVE_ANSWER);
        double took = now() - began;
        if (refused || answer[HIVE_MERGED_LENGTH] != most) {
            fprintf(stderr, "merge: refused with %u, or %llu bytes long\n", refused, (unsigned long long)answer[HIVE_MERGED_LENGTH]);
            return 1;
        }
        least = took < least ? took : least;
    }
    write_notes(words[4], "first.txt", first + FRONT, length - FRONT);
    write_notes(words[4], "second.txt", second + FRONT, length - FRONT);
    write_notes(words[4], "merged.txt", out + FRONT, most - FRONT);
    printf("%.6f\n", least);
    return 0;
}
