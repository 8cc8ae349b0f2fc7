/* The tail of the reel: one writer stops at early warning, ends its file with a mark, which is warned too, and closes in time; another
 * ignores the warning, is refused for what no longer fits, and can still close.
 *
 *     cc -Iinclude examples/tail.c target/staticlib/libnotchbadger.a && ./a.out
 */
#include <stdio.h>
#include <string.h>

#include "notchbadger.h"

#define BLOCKS 8
#define ZONE 3

/* Each of the two recordings has a number of its own: no nonce may come twice under a key. */
#define ID 1
#define CAREFUL 1
#define HEEDLESS 2

/* two blocks and one */
#define LONGER 900
#define SHORTER 300

static uint8_t image[BLOCKS * NB_BLOCK_BYTES], buffer[NB_RECORD_MAX], bytes[LONGER];
static const uint8_t key[NB_KEY_BYTES + 1] = "192-bit Secret Key value";

static int refused(const char *call, unsigned number)
{
    printf("%s: refused, %u\n", call, number);
    return 1;
}

/* Tells how a call went. Refused, the state comes back as it was: the writer can go on from it. */
static nb_wrote told(nb_wrote wrote)
{
    if (wrote.number != NB_DONE)
        printf("refused, %u\n", wrote.number);
    else
        printf("%s\n", wrote.reply == NB_WARNED ? "warned" : "plain");
    return wrote;
}

static nb_wrote record(nb_state state, size_t length)
{
    printf("record of %u at %u: ", (unsigned)length, (unsigned)state.position);
    return told(nb_record(state, key, NB_KEY_BYTES, bytes, length, image, sizeof image));
}

static nb_wrote mark(nb_state state)
{
    printf("mark at %u: ", (unsigned)state.position);
    return told(nb_mark(state, key, NB_KEY_BYTES, image, sizeof image));
}

/* What a read has found at p; 1 where it is not what was written. */
static int show(size_t p, nb_got got)
{
    if (got.outcome == NB_GOT_END) {
        printf("%u end\n", (unsigned)p);
    } else if (got.outcome == NB_GOT_MARK) {
        printf("%u mark\n", (unsigned)p);
    } else if (got.outcome == NB_GOT_RECORD && got.data <= sizeof bytes && memcmp(buffer, bytes, got.data) == 0) {
        printf("%u record of %u\n", (unsigned)p, (unsigned)got.data);
    } else {
        printf("%u is not as it was written\n", (unsigned)p);
        return 1;
    }
    return 0;
}

/* Closes, and walks what was written: every record comes back as it was given. */
static int close_and_walk(nb_state state)
{
    nb_wrote wrote = nb_close(state, key, NB_KEY_BYTES, image, sizeof image);
    size_t p = 0;

    if (wrote.number != NB_DONE)
        return refused("close", wrote.number);
    printf("closed, %u of %u blocks\n", (unsigned)wrote.state.position, BLOCKS);
    while (p < BLOCKS) {
        nb_got got = nb_read(key, NB_KEY_BYTES, ID, state.recording, image, sizeof image, p, buffer, sizeof buffer);
        if (got.number != NB_DONE)
            return refused("read", got.number);
        if (show(p, got) != 0)
            return 1;
        if (got.outcome == NB_GOT_END)
            return 0;
        p = got.next;
    }
    puts("no end of data");
    return 1;
}

static int careful(void)
{
    nb_wrote wrote = nb_start(ID, CAREFUL, ZONE, image, sizeof image);

    if (wrote.number != NB_DONE)
        return refused("start", wrote.number);
    puts("the careful writer");
    do {
        wrote = record(wrote.state, LONGER);
        if (wrote.number != NB_DONE)
            return 1;
    } while (wrote.reply != NB_WARNED);
    /* the mark that ends the file: it fits, and is in the zone too */
    wrote = mark(wrote.state);
    if (wrote.reply != NB_WARNED)
        return 1;
    return close_and_walk(wrote.state);
}

static int heedless(void)
{
    nb_wrote wrote = nb_start(ID, HEEDLESS, ZONE, image, sizeof image);

    if (wrote.number != NB_DONE)
        return refused("start", wrote.number);
    puts("the heedless writer");
    do
        wrote = record(wrote.state, LONGER);
    while (wrote.number == NB_DONE);
    if (wrote.number != NB_NO_ROOM)
        return 1;
    /* what is shorter may still fit, up to the block that is held for the end of data */
    do
        wrote = record(wrote.state, SHORTER);
    while (wrote.number == NB_DONE);
    if (wrote.number != NB_NO_ROOM)
        return 1;
    return close_and_walk(wrote.state);
}

int main(void)
{
    memset(bytes, 0x5A, sizeof bytes);
    return careful() || heedless();
}
