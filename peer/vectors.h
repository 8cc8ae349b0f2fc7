/* The stored cases of the program `vectors`: its input, one call a line, and
 * the output it must give: the paper's tables and vectors, starts of a recording
 * at the edges of image and zone, and the answer to each call of the input.
 *
 * A line of the input is a letter and six numbers of five digits, 38 bytes
 * with its LF. Byte i of a buffer with seed s begins as s + 17i + 3(i/256),
 * modulo 256; seeds: state 1, key 2, nonce 3, data 4, message or cipher 5,
 * out 6. The letters and their numbers:
 *   p, q  permute, permute back: state length
 *   u, g  put, get: state length, byte count, domain
 *   e, d  enc, dec: state length, byte count, domain, out length
 *   s     seal: lengths of key, nonce, data, message, out
 *   o     open: lengths of key, nonce, data, sealed bytes, out; then which
 *         sealed byte is damaged by xor 01, from 1, or 0 for none
 * What `o` opens is the message pattern, sealed with a whole key and nonce and
 * at most 65,536 bytes of data and cut to its length; past the limit of a
 * message it is the bare message pattern.
 * The answer is the line, " = " and the number, then state and out as they
 * are afterwards, so far as the call is lent them: whole up to 80 bytes, else
 * the first and last 16 bytes and the sum h = 31h + byte modulo 2^32. */
#ifndef PEER_VECTORS_H
#define PEER_VECTORS_H

#include <stdio.h>

/* Each returns 0, or 1 where a published number, or one that NUMBERS has, is missed. */
int vectors_stdin(FILE *to);
int vectors_stdout(FILE *to);

#endif
