/* A panel that shows after each call which file the writer is in and at which block. Both stand in the writer's state, so nothing is walked
 * for it; a walk at the end counts the same file marks.
 *
 *     cc -Iinclude examples/panel.c target/staticlib/libnotchbadger.a && ./a.out
 */
#include <stdio.h>
#include <string.h>

#include "notchbadger.h"

#define BLOCKS 8
#define ZONE 2

/* A new recording number for each recording: no nonce may come twice under a key. */
#define ID 1
#define RECORDING 1

/* two blocks and one */
#define LONGER 900
#define SHORTER 300

static uint8_t image[BLOCKS * NB_BLOCK_BYTES], bytes[LONGER];
static const uint8_t key[NB_KEY_BYTES + 1] = "192-bit Secret Key value";

/* Gives the state to go on from: where the call was refused, the one that was given. */
static nb_state show(const char *call, nb_wrote wrote)
{
    static const char *const replies[] = {"plain", "warned", "refused"};

    printf("%-6s %-7s  file %u, block %u\n", call, replies[wrote.reply], (unsigned)wrote.state.marks, (unsigned)wrote.state.position);
    return wrote.state;
}

static nb_state record(nb_state state, size_t length)
{
    return show("record", nb_record(state, key, NB_KEY_BYTES, bytes, length, image, sizeof image));
}

static nb_state mark(nb_state state)
{
    return show("mark", nb_mark(state, key, NB_KEY_BYTES, image, sizeof image));
}

int main(void)
{
    nb_state state = show("start", nb_start(ID, RECORDING, ZONE, image, sizeof image));
    nb_tally tally;

    memset(bytes, 0x5A, sizeof bytes);
    state = record(state, LONGER);
    state = mark(state);
    state = record(state, SHORTER);
    state = mark(state);
    state = record(state, LONGER);
    /* only the block that is held for the end of data is left */
    state = mark(state);
    state = show("close", nb_close(state, key, NB_KEY_BYTES, image, sizeof image));
    tally = nb_report(key, NB_KEY_BYTES, ID, RECORDING, image, sizeof image);
    if (tally.number != NB_DONE)
        return 1;
    printf("a walk counts %u file marks\n", (unsigned)tally.marks);
    return tally.marks == state.marks ? 0 : 1;
}
