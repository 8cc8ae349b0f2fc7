/* How deep each call goes into the stack. Every call runs on a thread whose stack is our own memory, painted before; what lost its paint
 * was used. The images are those that lead the recursive calls deepest. Prints a line a call and exits 1 where one is above the limit or refused.
 * A new call is a line of CALLS: the call and the answer that shows it was carried out. */
#define _XOPEN_SOURCE 600
#include <pthread.h>
#include <stdio.h>
#include <stdlib.h>
#include <string.h>

#include "notchbadger.h"

#define LIMIT 65536
#define ROOM (1 << 20)
#define PAINT 0xA5
#define BLOCKS NB_IMAGE_MOST
#define LONG 4096

#define KEY key, sizeof key
#define NONCE nonce, sizeof nonce
#define STATE state, sizeof state
#define IMAGE image, sizeof image
#define REEL reel, sizeof reel

static int faults;
static uint8_t *stack;
static uint8_t image[BLOCKS * NB_BLOCK_BYTES], reel[BLOCKS * NB_BLOCK_BYTES], buffer[NB_RECORD_MAX], state[NB_STATE_BYTES], other[NB_STATE_BYTES];
static uint8_t text[LONG], sealed[LONG + NB_TAG_BYTES], back[LONG];
static const uint8_t key[NB_KEY_BYTES] = {1, 2, 3}, nonce[NB_NONCE_BYTES] = {4, 5};

/* lawful for the reel: each call of the writer on it is taken */
static const nb_state blank = {1, 1, BLOCKS, 1, 0, 0, 0};

static int read_everywhere(void)
{
    size_t p;

    for (p = 0; p < BLOCKS; p++)
        if (nb_read(KEY, 1, 1, IMAGE, p, buffer, sizeof buffer).number != NB_DONE)
            return 0;
    return 1;
}

/* name, call with its answer */
#define CALLS(X) \
    X(nb_version, nb_version() == NB_VERSION) \
    X(nb_permute, nb_permute(STATE) == NB_DONE) \
    X(nb_permute_back, nb_permute_back(STATE) == NB_DONE) \
    X(nb_round, nb_round(STATE, other, sizeof other) == NB_DONE) \
    X(nb_round_back, nb_round_back(STATE, other, sizeof other) == NB_DONE) \
    X(nb_minibox, nb_minibox(1) == 0x23) \
    X(nb_put, nb_put(STATE, text, LONG, 0) == NB_DONE) \
    X(nb_get, nb_get(STATE, back, LONG, 0) == NB_DONE) \
    X(nb_enc, nb_enc(STATE, text, LONG, back, LONG, 0) == NB_DONE) \
    X(nb_dec, nb_dec(STATE, text, LONG, back, LONG, 0) == NB_DONE) \
    X(nb_seal, nb_seal(KEY, NONCE, text, LONG, text, LONG, sealed, sizeof sealed) == NB_DONE) \
    X(nb_open, nb_open(KEY, NONCE, text, LONG, sealed, sizeof sealed, back, LONG) == NB_DONE) \
    X(nb_start, nb_start(1, 1, 1, REEL).number == NB_DONE) \
    X(nb_record, nb_record(blank, KEY, buffer, sizeof buffer, REEL).number == NB_DONE) \
    X(nb_mark, nb_mark(blank, KEY, REEL).number == NB_DONE) \
    X(nb_close, nb_close(blank, KEY, REEL).number == NB_DONE) \
    X(nb_read, read_everywhere()) \
    X(nb_record_part, nb_record_part(buffer, sizeof buffer, 1).length == 1) \
    X(nb_look, nb_look(IMAGE, 1).length == NB_BLOCK_BYTES) \
    X(nb_look_number, nb_look_number(IMAGE, 1) == NB_DONE) \
    X(nb_space, nb_space(KEY, 1, 1, IMAGE, 0, BLOCKS + 1).number == NB_DONE) \
    X(nb_report, nb_report(KEY, 1, 1, IMAGE).number == NB_DONE)

#define FUNCTION(name, call) static void *run_##name(void *unused) { faults += !(call); return unused; }
#define ROW(name, call) {#name, run_##name},

CALLS(FUNCTION)

static const struct {
    const char *name;
    void *(*run)(void *);
} calls[] = {CALLS(ROW)};

static void *run_nothing(void *unused)
{
    return unused;
}

/* The bytes of a fresh stack that lose their paint. */
static size_t used(void *(*run)(void *))
{
    pthread_attr_t attr;
    pthread_t thread;
    size_t i = 0;

    memset(stack, PAINT, ROOM);
    if (pthread_attr_init(&attr) || pthread_attr_setstack(&attr, stack, ROOM) || pthread_create(&thread, &attr, run, NULL) || pthread_join(thread, NULL)) {
        puts("tests/stack.c: no thread on a stack of its own");
        exit(1);
    }
    pthread_attr_destroy(&attr);
    while (i < ROOM && stack[i] == PAINT)
        i++;
    return ROOM - i;
}

static void big_endian(uint8_t *at, int n, size_t x)
{
    while (n-- > 0) {
        at[n] = (uint8_t)x;
        x >>= 8;
    }
}

/* Block p as docs/FORMAT.md has it, under id 1 and recording 1, with 488 bytes of zeros; a record's block that is not its last has byte 5 clear. */
static void lay(size_t p, uint8_t kind, uint8_t last)
{
    uint8_t *block = image + p * NB_BLOCK_BYTES, number[NB_NONCE_BYTES] = {0, 0, 0, 1, 0, 0, 0, 0, 0, 0, 0, 1};

    big_endian(number + 12, 4, p);
    big_endian(block, 4, p);
    block[4] = kind;
    block[5] = last;
    big_endian(block + 6, 2, kind < 3 ? NB_BLOCK_PAYLOAD : 0);
    faults += nb_seal(KEY, number, sizeof number, block, 8, text, NB_BLOCK_PAYLOAD, block + 8, NB_BLOCK_BYTES - 8) != NB_DONE;
}

/* Each image and what the report must say of it, so that it is what its name says. */
static const char *const images[] = {"zeros", "starts", "starts and following blocks", "records of 64 blocks", "marks"};

static int make(int which)
{
    nb_tally t;
    size_t p;

    memset(image, 0, sizeof image);
    for (p = 0; p < BLOCKS; p++) {
        if (which == 1)
            lay(p, 1, 0);
        if (which == 2)
            lay(p, 1 + p % 2, 0);
        if (which == 3)
            lay(p, p % 64 == 0 ? 1 : 2, p % 64 == 63);
        if (which == 4)
            lay(p, 3, 0);
    }
    t = nb_report(KEY, 1, 1, IMAGE);
    return (which == 0 && t.bads == BLOCKS) || (which == 1 && t.cuts == BLOCKS) || (which == 2 && t.cuts == BLOCKS / 2) || (which == 3 && t.records == 2) ||
           (which == 4 && t.marks == BLOCKS);
}

int main(void)
{
    size_t deepest[sizeof calls / sizeof *calls] = {0}, empty, n, i;
    int over[sizeof calls / sizeof *calls] = {0}, which, above = 0;
    void *memory = NULL;

    if (posix_memalign(&memory, 65536, ROOM))
        return 1;
    stack = memory;
    empty = used(run_nothing);
    for (which = 0; which < 5; which++) {
        if (!make(which)) {
            printf("tests/stack.c: the image of %s is none\n", images[which]);
            return 1;
        }
        for (i = 0; i < sizeof calls / sizeof *calls; i++) {
            calls[i].run(NULL); /* once here, so that the loader binds its names on this stack */
            n = used(calls[i].run) - empty;
            if (n > deepest[i]) {
                deepest[i] = n;
                over[i] = which;
            }
        }
    }
    for (i = 0; i < sizeof calls / sizeof *calls; i++) {
        printf("%-16s %6lu bytes of stack, over %s\n", calls[i].name, (unsigned long)deepest[i], images[over[i]]);
        above += deepest[i] > LIMIT;
    }
    free(memory);
    printf("tests/stack.c: %d above %d, %d refused\n", above, LIMIT, faults);
    return above + faults != 0;
}
