/* The block operations in plain C, a group of 32 bytes at a time: what peer/blnk.c does byte by byte, so that the comparison is not with
   slow C. */
#include <string.h>

#include "../peer/blnk.h"
#include "../peer/pi.h"

static uint8_t refusal(size_t state_length, size_t in, size_t out)
{
    if (state_length != PI_BYTES || in != out)
        return 2;
    return in > BLNK_LIMIT ? 9 : 0;
}

static void between(uint8_t *state, uint8_t domain)
{
    state[BLNK_RATE] ^= domain;
    pi_forward(state);
}

static void close_operation(uint8_t *state, size_t n, uint8_t domain)
{
    state[n] ^= BLNK_END;
    state[BLNK_RATE] ^= BLNK_FIN ^ domain;
    pi_forward(state);
}

static void add(uint8_t *state, const uint8_t *bytes, size_t n)
{
    for (size_t i = 0; i < n; i++)
        state[i] ^= bytes[i];
}

uint8_t blnk_put(uint8_t *state, size_t state_length,
                 const uint8_t *bytes, size_t n, uint8_t domain)
{
    uint8_t number = refusal(state_length, n, n);

    if (number != 0)
        return number;
    for (; n > BLNK_RATE; n -= BLNK_RATE, bytes += BLNK_RATE) {
        add(state, bytes, BLNK_RATE);
        between(state, domain);
    }
    add(state, bytes, n);
    close_operation(state, n, domain);
    return 0;
}

uint8_t blnk_enc(uint8_t *state, size_t state_length,
                 const uint8_t *message, size_t n,
                 uint8_t *out, size_t out_length, uint8_t domain)
{
    uint8_t number = refusal(state_length, n, out_length);

    if (number != 0)
        return number;
    for (; n > BLNK_RATE; n -= BLNK_RATE, message += BLNK_RATE, out += BLNK_RATE) {
        add(state, message, BLNK_RATE);
        memcpy(out, state, BLNK_RATE);
        between(state, domain);
    }
    add(state, message, n);
    memcpy(out, state, n);
    close_operation(state, n, domain);
    return 0;
}

static void take(uint8_t *state, const uint8_t *cipher, uint8_t *out, size_t n)
{
    for (size_t i = 0; i < n; i++)
        out[i] = state[i] ^ cipher[i];
    memcpy(state, cipher, n);
}

uint8_t blnk_dec(uint8_t *state, size_t state_length,
                 const uint8_t *cipher, size_t n,
                 uint8_t *out, size_t out_length, uint8_t domain)
{
    uint8_t number = refusal(state_length, n, out_length);

    if (number != 0)
        return number;
    for (; n > BLNK_RATE; n -= BLNK_RATE, cipher += BLNK_RATE, out += BLNK_RATE) {
        take(state, cipher, out, BLNK_RATE);
        between(state, domain);
    }
    take(state, cipher, out, n);
    close_operation(state, n, domain);
    return 0;
}
