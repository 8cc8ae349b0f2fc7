/* The work that is counted, as one side does it: the kit's static library (by_kit.c), or plain C (by_c.c). Key, nonce, id and recording number
   are fixed; the image has 128 blocks and a zone of 8. */
#ifndef BENCHMARKS_SIDE_H
#define BENCHMARKS_SIDE_H

#include <stddef.h>
#include <stdint.h>

enum { SIDE_ID = 7, SIDE_RECORDING = 2026, SIDE_CAPACITY = 128, SIDE_ZONE = 8 };

#define IMAGE_BYTES 65536
#define BUFFER_BYTES 31232

static const uint8_t side_key[24] = "192-bit Secret Key value", side_nonce[16] = "Nonces Used Once";

unsigned side_permute(uint8_t state[64]);
unsigned side_permute_back(uint8_t state[64]); /* the kit alone has it; plain C gives 2 */

/* No associated data; `sealed` has n + 16 bytes. The call's number. */
unsigned side_seal(const uint8_t *message, size_t n, uint8_t *sealed);
unsigned side_open(const uint8_t *sealed, size_t n, uint8_t *message);

/* Each writes at `position` and gives the position afterwards. */
size_t side_start(uint8_t *image);
size_t side_record(size_t position, const uint8_t *bytes, size_t n, uint8_t *image);
size_t side_mark(size_t position, uint8_t *image);
size_t side_close(size_t position, uint8_t *image);

/* 0 record, 1 mark, 2 end, 3 bad, 4 stray, 5 cut, 6 refused, on both sides. */
unsigned side_read(const uint8_t *image, size_t p, uint8_t *buffer, size_t *data, size_t *next);
void side_report(const uint8_t *image, size_t counts[6]);

#endif
