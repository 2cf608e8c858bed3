/* Opens an IGC file and prints what it says: its counts, each fix with its columns; or why it is refused.
       fixes FILE
   The lines printed are those of the listing program, which has plain counts: the digits of TDS, LAD and LOD are told as columns. */
#include <stdio.h>
#include <stdlib.h>

#include "hivebasket.h"

/* A line of the file, or the I line; length 0 where there is none. */
struct text {
    const uint8_t *bytes;
    size_t length;
};

/* Column n of a line that was read, by the look for its code. */
static void print_column(struct text line, const uint64_t *entries, size_t n) {
    uint64_t answer[HIVE_ANSWER];
    uint64_t packed = entries[HIVE_COLUMN_CODE(n)];
    uint8_t code[3] = {(uint8_t)(packed >> 16), (uint8_t)(packed >> 8), (uint8_t)packed};
    if (hive_look(line.bytes, line.length, entries, HIVE_ENTRIES, code[0], code[1], code[2], answer, HIVE_ANSWER) != 0)
        return;
    printf("COL %.3s %.*s\n", (const char *)code, (int)answer[HIVE_COLUMN_LENGTH], (const char *)line.bytes + answer[HIVE_START]);
}

/* A count without its extra decimals. */
static unsigned long long plain(uint64_t count, uint64_t decimals) {
    for (; 0 < decimals; decimals--)
        count /= 10;
    return count;
}

static void print_fix(uint64_t number, struct text line, struct text layout) {
    uint64_t answer[HIVE_ANSWER];
    int32_t heights[HIVE_HEIGHTS];
    uint64_t entries[HIVE_ENTRIES];
    if (hive_fix(line.bytes, line.length, layout.bytes, layout.length, answer, HIVE_ANSWER, heights, HIVE_HEIGHTS, entries, HIVE_ENTRIES) != 0)
        return;
    printf("FIX %llu %llu %llu %c %llu %c %c %d %d\n", (unsigned long long)number,
           plain(answer[HIVE_SECONDS], answer[HIVE_SECONDS_DECIMALS]),
           plain(answer[HIVE_LATITUDE], answer[HIVE_LATITUDE_DECIMALS]), (char)answer[HIVE_LATITUDE_LETTER],
           plain(answer[HIVE_LONGITUDE], answer[HIVE_LONGITUDE_DECIMALS]), (char)answer[HIVE_LONGITUDE_LETTER],
           (char)answer[HIVE_VALIDITY], (int)heights[HIVE_PRESSURE], (int)heights[HIVE_GNSS]);
    for (size_t n = 0; n < entries[HIVE_COLUMNS]; n++)
        print_column(line, entries, n);
}

static void print_file(const uint8_t *file, size_t length, uint32_t *table, size_t lines) {
    uint64_t answer[HIVE_ANSWER];
    uint32_t refused = hive_check(file, length, table, lines, answer, HIVE_ANSWER);
    if (refused != 0) {
        printf("REFUSED %u %llu %llu\n", (unsigned)refused, (unsigned long long)answer[HIVE_REFUSED_LINE],
               (unsigned long long)answer[HIVE_REFUSED_BYTE]);
        return;
    }
    printf("OK %llu %llu %llu %llu %llu %llu %llu\n", (unsigned long long)answer[HIVE_LINES], (unsigned long long)answer[HIVE_B_LINES],
           (unsigned long long)answer[HIVE_K_LINES], (unsigned long long)answer[HIVE_B_LENGTH],
           (unsigned long long)answer[HIVE_K_LENGTH], (unsigned long long)answer[HIVE_N_LINES],
           (unsigned long long)answer[HIVE_N_LENGTH]);
    struct text layout = {file, 0};
    uint64_t count = answer[HIVE_LINES];
    for (uint64_t n = 1; n <= count; n++) {
        if (hive_line(file, length, table, lines, n, answer, HIVE_ANSWER) != 0)
            return;
        struct text line = {file + answer[HIVE_START], answer[HIVE_LINE_LENGTH]};
        if (line.bytes[0] == 'I')
            layout = line;
        if (line.bytes[0] == 'B')
            print_fix(n, line, layout);
    }
}

int main(int argc, char **argv) {
    if (argc != 2) {
        fprintf(stderr, "usage: fixes FILE\n");
        return 2;
    }
    FILE *in = fopen(argv[1], "rb");
    if (in == NULL) {
        perror(argv[1]);
        return 2;
    }
    /* One byte more than a file may have, so that a longer one is refused as such. */
    size_t most = 16777217;
    uint8_t *file = malloc(most);
    if (file == NULL) {
        perror("fixes");
        return 2;
    }
    size_t length = fread(file, 1, most, in);
    fclose(in);
    /* A good line has at least one byte and its CR LF. */
    size_t lines = length / 3 + 1;
    uint32_t *table = malloc(lines * sizeof *table);
    if (table == NULL) {
        perror("fixes");
        return 2;
    }
    print_file(file, length, table, lines);
    free(table);
    free(file);
    return 0;
}
