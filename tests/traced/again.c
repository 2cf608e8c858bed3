/* Makes the calls of a trace again, and holds what they return and leave against it:
       again MACHINE < TRACE
   Status 1 where a call answers otherwise, or where a function of the library is never called. */
#include <stdio.h>
#include <stdlib.h>
#include <string.h>
#include "trace.h"
#include "names.inc"

static uint8_t *kept[KEPT];
static unsigned next;
static unsigned long calls, of[256];
static const char *machine;

/* What is passed in a call, one part after the other, each from a multiple of 64 on. */
enum { ROOM = 1 << 28 };
static uint8_t *room;
static size_t used;

static void take(void *to, size_t size)
{
    if (size && fread(to, 1, size, stdin) != size) {
        printf("again: %s: the trace ends inside call %lu\n", machine, calls);
        exit(1);
    }
}

static uint64_t get(size_t size)
{
    uint64_t value = 0;
    take(&value, size);
    return value;
}

static void *get_part(size_t size, size_t *length)
{
    *length = get(8);
    size_t total = *length * size, how = get(1);
    uint8_t *at = room + used;
    used += (total + 64) / 64 * 64;
    if (how == AGAIN) {
        memcpy(at, kept[get(1)], total);
    } else if (how == REPEATED) {
        take(at, 8);
        for (size_t i = 8; i < total; i++)
            at[i] = at[i - 8];
    } else {
        take(at, total);
        if (total >= KEPT_LEAST) {
            kept[next] = realloc(kept[next], total);
            memcpy(kept[next], at, total);
            next = (next + 1) % KEPT;
        }
    }
    return at;
}

static void same(const char *what, uint32_t wanted, uint32_t found)
{
    if (wanted == found)
        return;
    printf("again: %s: call %lu, %s: %lu, wanted %lu\n", machine, calls, what, (unsigned long)found, (unsigned long)wanted);
    exit(1);
}

int main(int argc, char **argv)
{
    void *p[24];
    size_t n[24];
    uint8_t kind;
    machine = argc > 1 ? argv[1] : "this machine";
    room = malloc(ROOM);
    while (fread(&kind, 1, 1, stdin) == 1) {
        used = 0;
        calls++;
        of[kind]++;
        switch (kind) {
#include "again.inc"
        default:
            printf("again: %s: call %lu is of no function\n", machine, calls);
            return 1;
        }
    }
    for (unsigned i = 0; i < FUNCTIONS; i++)
        if (!of[i]) {
            printf("again: %s: %s is never called\n", machine, NAMES[i]);
            return 1;
        }
    printf("again: %s: %lu calls of all %d functions: the same\n", machine, calls, FUNCTIONS);
    return 0;
}
