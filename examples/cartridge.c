/* Writes records until early warning, closes the cartridge, spoils a block and walks what is left.
 *
 *     cc -Iinclude examples/cartridge.c target/staticlib/libnotchbadger.a && ./a.out
 */
#include <stdio.h>
#include <string.h>

#include "notchbadger.h"

#define BLOCKS 8
#define ZONE 3

/* A new recording number for each recording: no nonce may come twice under a key. */
#define ID 1
#define RECORDING 1

static uint8_t image[BLOCKS * NB_BLOCK_BYTES], buffer[NB_RECORD_MAX];
static const uint8_t key[NB_KEY_BYTES + 1] = "192-bit Secret Key value";

static int refused(const char *call, unsigned number)
{
    printf("%s: refused, %u\n", call, number);
    return 1;
}

static const char *name(uint8_t outcome)
{
    switch (outcome) {
    case NB_GOT_RECORD: return "record";
    case NB_GOT_MARK: return "mark";
    case NB_GOT_END: return "end";
    case NB_GOT_BAD: return "bad";
    case NB_GOT_STRAY: return "stray";
    default: return "cut";
    }
}

static int walk(void)
{
    size_t p = 0;

    while (p < BLOCKS) {
        nb_got got = nb_read(key, NB_KEY_BYTES, ID, RECORDING, image, sizeof image, p, buffer, sizeof buffer);
        if (got.number != NB_DONE)
            return refused("read", got.number);
        printf("%u %s %u\n", (unsigned)p, name(got.outcome), (unsigned)got.data);
        if (got.outcome == NB_GOT_END)
            break;
        p = got.next;
    }
    return 0;
}

int main(void)
{
    uint8_t bytes[600];
    nb_wrote wrote = nb_start(ID, RECORDING, ZONE, image, sizeof image);

    if (wrote.number != NB_DONE)
        return refused("start", wrote.number);
    memset(bytes, 0x5A, sizeof bytes);
    do {
        wrote = nb_record(wrote.state, key, NB_KEY_BYTES, bytes, sizeof bytes, image, sizeof image);
        if (wrote.number != NB_DONE)
            return refused("record", wrote.number);
        printf("record at %u: %s\n", (unsigned)wrote.state.position, wrote.reply == NB_WARNED ? "warned" : "plain");
    } while (wrote.reply != NB_WARNED);
    wrote = nb_close(wrote.state, key, NB_KEY_BYTES, image, sizeof image);
    if (wrote.number != NB_DONE)
        return refused("close", wrote.number);
    printf("closed at %u\n", (unsigned)wrote.state.position);
    image[2 * NB_BLOCK_BYTES + 40] ^= 1;
    return walk();
}
