/* The flights that the checks are measured on. */
#ifndef BENCH_FLIGHTS_H
#define BENCH_FLIGHTS_H

#include <stddef.h>
#include <stdint.h>

/* What a flight is made of: its layouts (a J line or none), what its columns hold, which lines stand between its fixes, and how many L lines behind each. */
struct flight {
    const char *name, *fixes, *notes;
    enum { DIGITS, LETTERS, TEXT, SIGNED } columns;
    int has_events, is_damaged, remarks;
};

enum { FLIGHTS = 10 };

extern const struct flight flights[FLIGHTS];

/* A flight of nearly `size` bytes with a fix each second; returns its length. */
size_t make_flight(uint8_t *file, size_t size, const struct flight *flight);

/* A flight of the first kind with so many fixes, into memory of `size` bytes; returns its length. */
size_t make_fixes(uint8_t *file, size_t size, size_t fixes);

#endif
