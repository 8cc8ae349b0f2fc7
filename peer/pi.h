/* The permutation of the STRIBOBr2 paper (1.1), its undoing, and both a single
 * round at a time. Written from the definitions: a matrix product over
 * GF(2^8), not the paper's scattering code. */
#ifndef PEER_PI_H
#define PEER_PI_H

#include <stddef.h>
#include <stdint.h>

#define PI_BYTES 64
#define PI_ROUNDS 12

/* Table 1.1, as printed. */
extern const uint8_t pi_table[256];

/* The same byte by the miniboxes of Table 1.2. */
uint8_t pi_by_miniboxes(uint8_t byte);

/* How many of the 256 entries of Table 1.1 differ from the minibox rule. */
int pi_table_faults(void);

void pi_round(uint8_t state[PI_BYTES], int round);
void pi_round_back(uint8_t state[PI_BYTES], int round);

void pi_forward(uint8_t state[PI_BYTES]);
void pi_back(uint8_t state[PI_BYTES]);

/* The calls as a caller sees them: 0, or 2 for a state that is not 64 bytes. */
uint8_t pi_permute(uint8_t *state, size_t state_length);
uint8_t pi_permute_back(uint8_t *state, size_t state_length);

/* A round in which 64 bytes of the caller's stand for the constants; 2 too for
 * a key of another length. */
uint8_t pi_keyed(uint8_t *state, size_t state_length, const uint8_t *key, size_t key_length);
uint8_t pi_keyed_back(uint8_t *state, size_t state_length, const uint8_t *key, size_t key_length);

#endif
