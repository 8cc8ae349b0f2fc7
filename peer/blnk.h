/* The four BLNK block operations (1.2.1), byte by byte like the paper's
 * pseudocode. Each returns 0, or 2 or 9 with every buffer left as it was. */
#ifndef PEER_BLNK_H
#define PEER_BLNK_H

#include <stddef.h>
#include <stdint.h>

#define BLNK_RATE 32
#define BLNK_LIMIT 65536 /* bytes in one operation */

#define BLNK_END 0x01
#define BLNK_FIN 0x02
#define BLNK_KEY 0x10
#define BLNK_NPUB 0x20
#define BLNK_AAD 0x40
#define BLNK_MSG 0x50
#define BLNK_MAC 0x60

/* What byte 32 takes between two full groups. The paper's pseudocode says
 * END and the domain byte, its trace shows the domain byte alone; the trace
 * decides, and `published` runs both. */
enum blnk_reading { BLNK_DOMAIN_ALONE, BLNK_WITH_END };
extern enum blnk_reading blnk_reading;

/* Called around every permutation of an operation, where it is set. */
extern void (*blnk_watch)(const uint8_t before[64], const uint8_t after[64]);

uint8_t blnk_put(uint8_t *state, size_t state_length,
                 const uint8_t *bytes, size_t bytes_length, uint8_t domain);
uint8_t blnk_get(uint8_t *state, size_t state_length,
                 uint8_t *out, size_t out_length, uint8_t domain);
uint8_t blnk_enc(uint8_t *state, size_t state_length,
                 const uint8_t *message, size_t message_length,
                 uint8_t *out, size_t out_length, uint8_t domain);
uint8_t blnk_dec(uint8_t *state, size_t state_length,
                 const uint8_t *cipher, size_t cipher_length,
                 uint8_t *out, size_t out_length, uint8_t domain);

#endif
