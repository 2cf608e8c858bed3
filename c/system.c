/* What the kit's libraries os and libc ask of C: a program's words, the error of the last call, and memory. Not proved.

   The kit has this code for x86-64 alone (c/libos_c.a, c/liblibc_c.a). The static programs take it from here on every machine (c/static). The meaning of each function is the
   contract that os and libc assume of it (rattle/os/src/c.rt and rattle/libc/src/heap.rt of the kit). */
#include <errno.h>
#include <stddef.h>
#include <stdint.h>
#include <stdlib.h>
#include <sys/types.h>

extern char **environ;

static size_t count;
static char **words;

/* Keeps the words of main. glibc passes them to what runs before main. */
__attribute__((constructor)) static void keep_words(int argc, char **argv)
{
    count = (size_t)argc;
    words = argv;
}

size_t rattle_arg_count(void)
{
    return count;
}

/* Puts a text at the start of out and returns its length; -1 where there is none; -2 where it does not fit, and then out is full. */
static ssize_t put(const char *text, uint8_t *out, size_t length)
{
    if (!text)
        return -1;
    size_t n = 0;
    for (; text[n]; n++) {
        if (n == length)
            return -2;
        out[n] = (uint8_t)text[n];
    }
    return (ssize_t)n;
}

/* Word i, and the value of a variable of the environment, put so. */
ssize_t rattle_arg(size_t i, uint8_t *out, size_t length)
{
    return put(i < count ? words[i] : NULL, out, length);
}

ssize_t rattle_env(const char *name, uint8_t *out, size_t length)
{
    return put(getenv(name), out, length);
}

/* Entry i of the environment, put so. */
ssize_t rattle_env_at(size_t i, uint8_t *out, size_t length)
{
    size_t n = 0;
    while (environ && environ[n] && n < i)
        n++;
    return put(environ ? environ[n] : NULL, out, length);
}

int32_t rattle_errno(void)
{
    return errno;
}

void rattle_set_errno(int32_t error)
{
    errno = error;
}

/* Whether there is memory, and the pointer to it, which is never NULL. */
struct tried {
    uint64_t ok;
    void *place;
};

static struct tried tried(void *place)
{
    static char none;
    return place ? (struct tried){1, place} : (struct tried){0, &none};
}

/* Memory for size bytes. malloc aligns it as far as 16, which is the most that is asked; a size of 0 takes a block too. */
struct tried rattle_alloc(size_t size, size_t align)
{
    return tried(malloc(size ? size : align));
}

/* The same block with another size, its first `kept` bytes as they were; where there is no memory it stays as it is. */
struct tried rattle_realloc(void *place, size_t kept, size_t size, size_t align)
{
    (void)kept;
    return tried(realloc(place, size ? size : align));
}

void rattle_dealloc(void *place)
{
    free(place);
}

#ifndef __x86_64__
/* As it begins, a program asks glibc whether the processor has what its code for x86-64 uses. The code for another machine uses none of that. */
const void *__x86_get_cpuid_feature_leaf(unsigned leaf)
{
    static uint32_t all[8] = {~0u, ~0u, ~0u, ~0u, ~0u, ~0u, ~0u, ~0u};
    (void)leaf;
    return all;
}
#endif
