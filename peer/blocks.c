#include "blocks.h"

#include <string.h>

#include "seal.h"

uint64_t image_capacity(size_t image_length)
{
    size_t blocks = image_length / BLOCK_BYTES;

    if (image_length % BLOCK_BYTES != 0)
        return 0;
    return blocks >= IMAGE_FEWEST && blocks <= IMAGE_MOST ? blocks : 0;
}

/* Numbers are big-endian on the tape. */
static void put_number(uint8_t *at, uint64_t number, int bytes)
{
    for (int i = bytes - 1; i >= 0; i--) {
        at[i] = (uint8_t)(number % 256);
        number /= 256;
    }
}

static uint64_t take_number(const uint8_t *at, int bytes)
{
    uint64_t number = 0;

    for (int i = 0; i < bytes; i++)
        number = 256 * number + at[i];
    return number;
}

static void make_nonce(uint8_t nonce[SEAL_NONCE],
                       const struct identity *identity, uint32_t number)
{
    put_number(nonce, identity->cartridge, 4);
    put_number(nonce + 4, identity->recording, 8);
    put_number(nonce + 12, number, 4);
}

static bool blank_from(const struct block *block, size_t from)
{
    for (size_t i = from; i < BLOCK_PAYLOAD; i++)
        if (block->payload[i] != 0)
            return false;
    return true;
}

bool block_lawful(const struct block *block)
{
    switch (block->kind) {
    case KIND_START:
    case KIND_CONTINUED:
        if (block->last == 0)
            return block->used == BLOCK_PAYLOAD;
        return block->last == 1 && block->used >= 1 && block->used <= BLOCK_PAYLOAD
               && blank_from(block, block->used);
    case KIND_MARK:
    case KIND_END:
        return block->last == 0 && block->used == 0 && blank_from(block, 0);
    default:
        return false;
    }
}

void block_seal(uint8_t *place, const struct identity *identity,
                uint32_t number, const struct block *block)
{
    uint8_t nonce[SEAL_NONCE];

    make_nonce(nonce, identity, number);
    put_number(place, number, 4);
    place[4] = block->kind;
    place[5] = block->last;
    put_number(place + 6, block->used, 2);
    seal(identity->key, identity->key_length, nonce, SEAL_NONCE,
         place, BLOCK_LEADER, block->payload, BLOCK_PAYLOAD,
         place + BLOCK_LEADER, BLOCK_PAYLOAD + SEAL_TAG);
}

bool block_opens(const uint8_t *place, const struct identity *identity,
                 uint32_t number, struct block *block)
{
    uint8_t nonce[SEAL_NONCE];

    make_nonce(nonce, identity, number);
    block->kind = place[4];
    block->last = place[5];
    block->used = (uint16_t)take_number(place + 6, 2);
    if (unseal(identity->key, identity->key_length, nonce, SEAL_NONCE,
               place, BLOCK_LEADER, place + BLOCK_LEADER, BLOCK_PAYLOAD + SEAL_TAG,
               block->payload, BLOCK_PAYLOAD) != 0)
        return false;
    return take_number(place, 4) == number && block_lawful(block);
}
