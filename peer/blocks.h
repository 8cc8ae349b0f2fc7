/* The cartridge image and one block of it at its place. */
#ifndef PEER_BLOCKS_H
#define PEER_BLOCKS_H

#include <stdbool.h>
#include <stddef.h>
#include <stdint.h>

#define BLOCK_BYTES 512
#define BLOCK_LEADER 8 /* bytes before the payload; the associated data */
#define BLOCK_PAYLOAD 488
#define IMAGE_FEWEST 4
#define IMAGE_MOST 128
#define RECORD_BLOCKS 64
#define RECORD_BYTES 31232

enum block_kind { KIND_START = 1, KIND_CONTINUED = 2, KIND_MARK = 3, KIND_END = 4 };

/* What a block is sealed under: the key, and the numbers of every nonce. */
struct identity {
    const uint8_t *key;
    size_t key_length;
    uint32_t cartridge;
    uint64_t recording;
};

/* A block in the clear. Any numbers; `block_lawful` says which may stand. */
struct block {
    uint8_t kind;
    uint8_t last;
    uint16_t used;
    uint8_t payload[BLOCK_PAYLOAD];
};

/* The capacity in blocks, or 0 for an image that is not 4 to 128 whole ones. */
uint64_t image_capacity(size_t image_length);

bool block_lawful(const struct block *block);

/* Writes the 512 bytes at `place` and none beyond. The key has its length. */
void block_seal(uint8_t *place, const struct identity *identity,
                uint32_t number, const struct block *block);

/* Whether the 512 bytes at `place` open at `number`. Where they don't, what
 * `block` then holds means nothing. */
bool block_opens(const uint8_t *place, const struct identity *identity,
                 uint32_t number, struct block *block);

#endif
