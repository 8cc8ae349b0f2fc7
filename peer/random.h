/* What the comparing programs share: a generator that its seed decides, the
 * memory that is lent to both sides, and the comparison of it. */
#ifndef PEER_RANDOM_H
#define PEER_RANDOM_H

#include <stdbool.h>
#include <stddef.h>
#include <stdint.h>

#define GUARD 64
#define ROOM 66560 /* 130 blocks; above every length that is drawn */

/* Memory for the peer and the same for the kit, guard bytes on both sides of
 * its `length`. A call may be lent less than that: the rest guards too. */
struct strip {
    size_t length;
    uint8_t peer[GUARD + ROOM + GUARD];
    uint8_t kit[GUARD + ROOM + GUARD];
};

void reseed(uint64_t seed);
uint64_t draw(void);
size_t below(size_t n);

/* True in one of n draws. */
bool once_in(size_t n);

/* Noise over the peer's side, guards included; the kit's side is not set. */
void strip_noise(struct strip *strip, size_t length);

/* The kit's side becomes what the peer's is, guards included. */
void strip_copy(struct strip *strip);

/* Prints the first place where the two sides differ, counted from the lent
 * part's own front: below 0 and past its length are guard bytes. */
bool strip_differs(const struct strip *strip, const char *program, const char *name);

/* [SEED [COUNT]]; what is not given stays. False on anything else. */
bool take_arguments(int argc, char **argv, uint64_t *seed, uint64_t *count);

#endif
