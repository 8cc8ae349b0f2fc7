/* The listing of the program `rehearse`. */
#ifndef PEER_REHEARSAL_H
#define PEER_REHEARSAL_H

#include <stdio.h>

/* Returns 0, or 1 where the writer's listing is not the one that was agreed on. */
int rehearsal_stdout(FILE *to);

#endif
