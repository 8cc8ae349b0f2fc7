/* Sealing and opening (1.2.2). Total: every length is an argument.
 * seal gives 0, 2 or 9; open gives 0, 2, 9 or 7. A refusal leaves every
 * buffer as it was, but for 7, which makes the receiving buffer zero. */
#ifndef PEER_SEAL_H
#define PEER_SEAL_H

#include <stddef.h>
#include <stdint.h>

#define SEAL_KEY 24
#define SEAL_NONCE 16
#define SEAL_TAG 16
#define SEAL_DATA_LIMIT 65536
#define SEAL_MESSAGE_LIMIT 65520

uint8_t seal(const uint8_t *key, size_t key_length,
             const uint8_t *nonce, size_t nonce_length,
             const uint8_t *data, size_t data_length,
             const uint8_t *message, size_t message_length,
             uint8_t *out, size_t out_length);

/* Named unseal because POSIX has an open of its own. */
uint8_t unseal(const uint8_t *key, size_t key_length,
               const uint8_t *nonce, size_t nonce_length,
               const uint8_t *data, size_t data_length,
               const uint8_t *sealed, size_t sealed_length,
               uint8_t *out, size_t out_length);

#endif
