/* The check of a whole IGC file by the rules of documents 01 and 02, written by hand in C to measure the library against. */
#ifndef BENCH_CHECK_H
#define BENCH_CHECK_H

#include <stddef.h>
#include <stdint.h>

/* The answer of a check: the number is 0 where the file is accepted, else line and byte say where it is refused; the values are 0 where refused. */
struct answer {
    uint32_t number, line, byte;
    uint32_t day, month, year;
    uint32_t lines, b_lines, k_lines;
    uint32_t b_length, k_length;
    uint32_t n_lines, n_length;
    uint32_t has_seal; /* 1 where there is a G line, else 0 */
};

/* The usual check of a file; the table gets the offset of each good line, and its other entries stay. */
struct answer check(const uint8_t *file, size_t length, uint32_t *table, size_t entries);

/* The same, with the lines that are surely good taken in runs: in the shape that the library's own check has, and as fast as we can in C. */
struct answer ahead(const uint8_t *file, size_t length, uint32_t *table, size_t entries);
struct answer rival(const uint8_t *file, size_t length, uint32_t *table, size_t entries);

#endif
