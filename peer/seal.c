#include "seal.h"

#include "blnk.h"
#include "pi.h"

/* The sums are on the longer side, so that no length can run over. */
static uint8_t refusal(size_t key, size_t nonce, size_t data,
                       size_t message_side, size_t sealed_side)
{
    if (key != SEAL_KEY || nonce != SEAL_NONCE)
        return 2;
    if (sealed_side < SEAL_TAG || sealed_side - SEAL_TAG != message_side)
        return 2;
    if (data > SEAL_DATA_LIMIT || message_side > SEAL_MESSAGE_LIMIT)
        return 9;
    return 0;
}

/* The part both directions share: everything before the message. */
static void lead_in(uint8_t state[PI_BYTES], const uint8_t *key,
                    const uint8_t *nonce, const uint8_t *data, size_t data_length)
{
    for (int i = 0; i < PI_BYTES; i++)
        state[i] = 0;
    blnk_put(state, PI_BYTES, key, SEAL_KEY, BLNK_KEY);
    blnk_put(state, PI_BYTES, nonce, SEAL_NONCE, BLNK_NPUB);
    blnk_put(state, PI_BYTES, data, data_length, BLNK_AAD);
}

uint8_t seal(const uint8_t *key, size_t key_length,
             const uint8_t *nonce, size_t nonce_length,
             const uint8_t *data, size_t data_length,
             const uint8_t *message, size_t message_length,
             uint8_t *out, size_t out_length)
{
    uint8_t state[PI_BYTES];
    uint8_t number = refusal(key_length, nonce_length, data_length,
                             message_length, out_length);

    if (number != 0)
        return number;
    lead_in(state, key, nonce, data, data_length);
    blnk_enc(state, PI_BYTES, message, message_length, out, message_length, BLNK_MSG);
    for (int i = 0; i < SEAL_TAG; i++)
        out[message_length + i] = state[i];
    return 0;
}

uint8_t unseal(const uint8_t *key, size_t key_length,
               const uint8_t *nonce, size_t nonce_length,
               const uint8_t *data, size_t data_length,
               const uint8_t *sealed, size_t sealed_length,
               uint8_t *out, size_t out_length)
{
    uint8_t state[PI_BYTES];
    uint8_t unlike = 0;
    uint8_t number = refusal(key_length, nonce_length, data_length,
                             out_length, sealed_length);

    if (number != 0)
        return number;
    lead_in(state, key, nonce, data, data_length);
    blnk_dec(state, PI_BYTES, sealed, out_length, out, out_length, BLNK_MSG);
    for (int i = 0; i < SEAL_TAG; i++)
        unlike |= state[i] ^ sealed[out_length + i];
    if (unlike == 0)
        return 0;
    for (size_t i = 0; i < out_length; i++)
        out[i] = 0;
    return 7;
}
