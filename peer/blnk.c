#include "blnk.h"

#include <string.h>

#include "pi.h"

enum blnk_reading blnk_reading = BLNK_DOMAIN_ALONE;
void (*blnk_watch)(const uint8_t before[64], const uint8_t after[64]) = NULL;

/* A head over the state: where the next byte of the operation goes. */
struct head {
    uint8_t *state;
    int place; /* 0 to 32 */
    uint8_t domain;
};

static void permute(uint8_t *state)
{
    uint8_t before[PI_BYTES];

    memcpy(before, state, PI_BYTES);
    pi_forward(state);
    if (blnk_watch)
        blnk_watch(before, state);
}

/* The head on a free rate byte: a full group is passed on first. */
static uint8_t *advance(struct head *head)
{
    if (head->place == BLNK_RATE) {
        if (blnk_reading == BLNK_WITH_END)
            head->state[BLNK_RATE] ^= BLNK_END;
        head->state[BLNK_RATE] ^= head->domain;
        permute(head->state);
        head->place = 0;
    }
    return &head->state[head->place++];
}

/* An operation of no bytes is closed as well. */
static void close_operation(struct head *head)
{
    head->state[head->place] ^= BLNK_END;
    head->state[BLNK_RATE] ^= BLNK_FIN;
    head->state[BLNK_RATE] ^= head->domain;
    permute(head->state);
}

static uint8_t refusal(size_t state_length, size_t in, size_t out)
{
    if (state_length != PI_BYTES || in != out)
        return 2;
    return in > BLNK_LIMIT ? 9 : 0;
}

uint8_t blnk_put(uint8_t *state, size_t state_length,
                 const uint8_t *bytes, size_t bytes_length, uint8_t domain)
{
    struct head head = {state, 0, domain};
    uint8_t number = refusal(state_length, bytes_length, bytes_length);

    if (number != 0)
        return number;
    for (size_t j = 0; j < bytes_length; j++)
        *advance(&head) ^= bytes[j];
    close_operation(&head);
    return 0;
}

uint8_t blnk_get(uint8_t *state, size_t state_length,
                 uint8_t *out, size_t out_length, uint8_t domain)
{
    struct head head = {state, 0, domain};
    uint8_t number = refusal(state_length, out_length, out_length);

    if (number != 0)
        return number;
    for (size_t j = 0; j < out_length; j++)
        out[j] = *advance(&head);
    close_operation(&head);
    return 0;
}

uint8_t blnk_enc(uint8_t *state, size_t state_length,
                 const uint8_t *message, size_t message_length,
                 uint8_t *out, size_t out_length, uint8_t domain)
{
    struct head head = {state, 0, domain};
    uint8_t number = refusal(state_length, message_length, out_length);

    if (number != 0)
        return number;
    for (size_t j = 0; j < message_length; j++) {
        uint8_t *place = advance(&head);
        *place ^= message[j];
        out[j] = *place;
    }
    close_operation(&head);
    return 0;
}

uint8_t blnk_dec(uint8_t *state, size_t state_length,
                 const uint8_t *cipher, size_t cipher_length,
                 uint8_t *out, size_t out_length, uint8_t domain)
{
    struct head head = {state, 0, domain};
    uint8_t number = refusal(state_length, cipher_length, out_length);

    if (number != 0)
        return number;
    for (size_t j = 0; j < cipher_length; j++) {
        uint8_t *place = advance(&head);
        out[j] = *place ^ cipher[j];
        *place = cipher[j]; /* the state keeps the ciphertext, not the plaintext */
    }
    close_operation(&head);
    return 0;
}
