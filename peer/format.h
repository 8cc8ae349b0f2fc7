/* The worked block of docs/FORMAT.md. */
#ifndef PEER_FORMAT_H
#define PEER_FORMAT_H

#include <stdio.h>

/* Writes its key, nonce, header, payload and 512 bytes in hex. Returns 0. */
int format_block(FILE *to);

#endif
