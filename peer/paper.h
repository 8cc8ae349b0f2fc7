/* The published numbers of the STRIBOBr2 paper, sections 1.3.1 and 1.3.2. */
#ifndef PEER_PAPER_H
#define PEER_PAPER_H

#include <stdint.h>

#define PAPER_TRACE 5   /* permutations in the trace of 1.3.2 */
#define PAPER_KEY 24
#define PAPER_NONCE 16
#define PAPER_DATA 32
#define PAPER_MESSAGE 38
#define PAPER_SEALED 54

extern const uint8_t paper_x0[64];
extern const uint8_t paper_x1[64];
extern const uint8_t paper_x10[64];
extern const uint8_t paper_x12[64];

extern const char paper_key[PAPER_KEY + 1];
extern const char paper_nonce[PAPER_NONCE + 1];
extern const char paper_data[PAPER_DATA + 1];
extern const char paper_message[PAPER_MESSAGE + 1];

extern const uint8_t paper_block[PAPER_TRACE][64];
extern const uint8_t paper_pi_out[PAPER_TRACE][64];
extern const uint8_t paper_sealed[PAPER_SEALED];

#endif
