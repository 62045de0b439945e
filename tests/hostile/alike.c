/* Values, or names, that hash alike: all of them begin at one place of a hashed table of the kit, however large it grows.

       alike values COUNT
       alike names COUNT

   One a line, each once. A table of the kit hashes by a seed that is fixed, so whoever picks what is recorded can do this too. */
#include <inttypes.h>
#include <stdint.h>
#include <stdio.h>
#include <stdlib.h>
#include <string.h>

/* A table of 147,456 entries has so many places that a search may begin at, as a power of two. */
enum { PLACES = 14, LONGEST = 16 };

static const uint64_t START = 0x243f6a8885a308d3u;
static const uint64_t MULTIPLIER = 0x9e3779b97f4a7c15u;
static const char LETTERS[] = "0123456789abcdefghijklmnopqrstuvwxyzABCDEFGHIJKLMNOPQRSTUVWXYZ_.-";

/* The state after so many bytes, 8 at most, that read as this number. */
static uint64_t fed(uint64_t state, uint64_t number, uint64_t bytes)
{
    unsigned __int128 product = (unsigned __int128)(state ^ number) * (MULTIPLIER ^ 2 * bytes);
    return (uint64_t)product ^ (uint64_t)(product >> 64);
}

/* Where a search for what has this hash begins. */
static uint32_t place(uint64_t hash)
{
    return (uint32_t)(hash ^ hash >> 32) & ((1u << PLACES) - 1);
}

static uint64_t hash_of_value(uint64_t value)
{
    return fed(START, value, 8);
}

/* A name is fed its length, and then each byte by itself, which reads as three of it. */
static uint64_t hash_of_name(const char *name)
{
    uint64_t hash = fed(START, strlen(name), 8);
    for (; *name != '\0'; name++)
        hash = fed(hash, (uint64_t)(unsigned char)*name * 0x10101, 1);
    return hash;
}

/* The name that stands for a number: k and its digits, the last first. */
static void name_of(uint64_t number, char *name)
{
    const uint64_t base = sizeof LETTERS - 1;
    *name++ = 'k';
    do {
        *name++ = LETTERS[number % base];
        number /= base;
    } while (number > 0);
    *name = '\0';
}

static void print_values(long count)
{
    for (uint64_t value = 1; count > 0; value++)
        if (place(hash_of_value(value)) == 0) {
            printf("%" PRIu64 "\n", value);
            count--;
        }
}

static void print_names(long count)
{
    char name[LONGEST];
    for (uint64_t number = 0; count > 0; number++) {
        name_of(number, name);
        if (place(hash_of_name(name)) == 0) {
            puts(name);
            count--;
        }
    }
}

int main(int words, char **word)
{
    if (words != 3)
        return 64;
    long count = atol(word[2]);
    if (strcmp(word[1], "values") == 0)
        print_values(count);
    else
        print_names(count);
    return fflush(stdout) == 0 ? 0 : 1;
}
