/* Writes a cartridge and stores it: the image in one file, the key in another. `walk` then tells what is on it.
 *
 *     cc -Iinclude examples/reel.c target/staticlib/libnotchbadger.a -o reel && ./reel IMAGE KEY
 *     walk IMAGE KEY 7 2026
 */
#include <stdio.h>
#include <string.h>

#include "notchbadger.h"

#define BLOCKS 28
#define ZONE 4

/* A new recording number for each recording: no nonce may come twice under a key. */
#define ID 7
#define RECORDING 2026

static uint8_t image[BLOCKS * NB_BLOCK_BYTES], bytes[4 * NB_BLOCK_PAYLOAD];
/* Yours: a key that is kept. */
static const uint8_t key[NB_KEY_BYTES + 1] = "192-bit Secret Key value";

static int refused(const char *call, unsigned number)
{
    fprintf(stderr, "reel: %s was refused, %u\n", call, number);
    return 1;
}

static int store(const char *path, const uint8_t *from, size_t length)
{
    FILE *file = fopen(path, "wb");

    if (!file || fwrite(from, 1, length, file) != length || fclose(file) != 0) {
        perror(path);
        return 1;
    }
    return 0;
}

/* Files of three records, of 1, 2 and 4 blocks, with a mark behind each file, until early warning: a record's or a mark's. */
static int record_files(nb_state *state)
{
    static const size_t lengths[] = {100, 600, 4 * NB_BLOCK_PAYLOAD};
    size_t i = 0;

    for (;;) {
        nb_wrote wrote = i < 3 ? nb_record(*state, key, NB_KEY_BYTES, bytes, lengths[i], image, sizeof image)
                               : nb_mark(*state, key, NB_KEY_BYTES, image, sizeof image);
        if (wrote.number != NB_DONE)
            return refused(i < 3 ? "record" : "mark", wrote.number);
        *state = wrote.state;
        if (wrote.reply == NB_WARNED)
            return 0;
        i = (i + 1) % 4;
    }
}

int main(int argc, char **argv)
{
    nb_wrote wrote;
    nb_state state;

    if (argc != 3) {
        fputs("usage: reel IMAGE KEY\n", stderr);
        return 1;
    }
    memset(bytes, 0x5A, sizeof bytes);
    wrote = nb_start(ID, RECORDING, ZONE, image, sizeof image);
    if (wrote.number != NB_DONE)
        return refused("start", wrote.number);
    state = wrote.state;
    if (record_files(&state) != 0)
        return 1;
    wrote = nb_close(state, key, NB_KEY_BYTES, image, sizeof image);
    if (wrote.number != NB_DONE)
        return refused("close", wrote.number);
    printf("cartridge %d, recording %d: closed at block %u of %d\n", ID, RECORDING, (unsigned)wrote.state.position, BLOCKS);
    return store(argv[1], image, sizeof image) || store(argv[2], key, NB_KEY_BYTES);
}
