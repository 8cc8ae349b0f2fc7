#include "random.h"

#include <stdio.h>
#include <stdlib.h>
#include <string.h>

static uint64_t reel;

void reseed(uint64_t seed)
{
    reel = seed;
}

/* splitmix64 */
uint64_t draw(void)
{
    uint64_t z = reel += UINT64_C(0x9E3779B97F4A7C15);

    z = (z ^ (z >> 30)) * UINT64_C(0xBF58476D1CE4E5B9);
    z = (z ^ (z >> 27)) * UINT64_C(0x94D049BB133111EB);
    return z ^ (z >> 31);
}

size_t below(size_t n)
{
    return (size_t)(draw() % n);
}

bool once_in(size_t n)
{
    return below(n) == 0;
}

/* Whole words, since most of the time of a short case goes here. */
void strip_noise(struct strip *strip, size_t length)
{
    size_t n = GUARD + length + GUARD;

    strip->length = length;
    for (size_t i = 0; i < n; i += 8) {
        uint64_t word = draw();
        for (size_t j = i; j < i + 8 && j < n; j++, word >>= 8)
            strip->peer[j] = (uint8_t)word;
    }
}

void strip_copy(struct strip *strip)
{
    memcpy(strip->kit, strip->peer, GUARD + strip->length + GUARD);
}

bool strip_differs(const struct strip *strip, const char *program, const char *name)
{
    size_t n = GUARD + strip->length + GUARD;
    size_t i = 0;

    if (memcmp(strip->peer, strip->kit, n) == 0)
        return false;
    while (strip->peer[i] == strip->kit[i])
        i++;
    printf("%s: %s, byte %ld: peer %02X, library %02X\n",
           program, name, (long)i - GUARD, strip->peer[i], strip->kit[i]);
    return true;
}

static bool take_number(const char *text, uint64_t *number)
{
    char *end;

    *number = strtoull(text, &end, 10);
    return *text >= '0' && *text <= '9' && *end == '\0';
}

bool take_arguments(int argc, char **argv, uint64_t *seed, uint64_t *count)
{
    return argc <= 3 && (argc < 2 || take_number(argv[1], seed))
           && (argc < 3 || take_number(argv[2], count));
}
