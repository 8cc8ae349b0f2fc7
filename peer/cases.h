/* The list of calls in vectors.stdin. */
#ifndef PEER_CASES_H
#define PEER_CASES_H

#include <stddef.h>

/* One call: its letter and six numbers, as in a line of vectors.stdin. */
struct call {
    char verb;
    unsigned field[6];
};

/* Lays the calls down and returns how many there are. */
size_t cases_list(const struct call **calls);

#endif
