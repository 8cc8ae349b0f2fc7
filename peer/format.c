#include "format.h"

#include <stdint.h>
#include <string.h>

#include "blocks.h"
#include "seal.h"

#define NUMBER 2

static void hex(FILE *to, const char *name, const uint8_t *bytes, size_t count)
{
    for (size_t i = 0; i < count; i++) {
        if (i % 32 == 0)
            fprintf(to, "%s%-8s", i ? "\n" : "", i ? "" : name);
        fprintf(to, " %02X", bytes[i]);
    }
    fputc('\n', to);
}

int format_block(FILE *to)
{
    uint8_t key[SEAL_KEY], place[BLOCK_BYTES];
    static const uint8_t nonce[SEAL_NONCE] = {0, 0, 0, 7, 0, 0, 0, 0, 0, 0, 0x07, 0xEA, 0, 0, 0, NUMBER};
    struct block block = {.kind = KIND_START, .last = 1, .used = 5};
    struct identity identity = {key, sizeof key, 7, 2026};
    struct block back;

    for (size_t i = 0; i < sizeof key; i++)
        key[i] = (uint8_t)i;
    memcpy(block.payload, "hello", 5);
    block_seal(place, &identity, NUMBER, &block);
    hex(to, "key", key, sizeof key);
    hex(to, "nonce", nonce, sizeof nonce);
    hex(to, "header", place, BLOCK_LEADER);
    hex(to, "payload", block.payload, block.used);
    hex(to, "block", place, sizeof place);
    return block_opens(place, &identity, NUMBER, &back) ? 0 : 1;
}
