/* The calls that hold a verdict, public once they return, under valgrind's lackey: for other keys and payloads with the same verdict the trace of
 * instructions and addresses must be the same.
 *
 *     traces names            prints the scenarios, each with 1 behind it, or 0 where nothing is opened, so that no control could be seen
 *     traces make SEED >FILE  makes keys, sealings and images; what is public (lengths, places, numbers, nonces) is the same for all seeds
 *     traces run <FILE        makes each call between `traced_from` and `traced_to`, which tests/regions.c finds in the trace; exit 1 where the
 *                             verdict is not the one that the scenario means */
#include <stdio.h>
#include <stdlib.h>
#include <string.h>

#include "notchbadger.h"

#define BLOCKS 8
#define ID 7
#define RECORDING 2026
#define TEXT 100
#define HEADER 8

enum { REEL, SPOILED, FORGED, IMAGES };
enum call { OPEN, READ, SPACE, REPORT };

struct sealing {
    uint8_t key[NB_KEY_BYTES], nonce[NB_NONCE_BYTES], data[HEADER], sealed[TEXT + NB_TAG_BYTES];
};

/* `which` is a sealing or an image, `at` the length of a message, a position or a count of marks. The verdict of an open is its number; of a read
 * outcome, data and next; of a spacing kind, position and marks; of a report records, marks, ends, bads, strays and cuts. */
static const struct scenario {
    const char *name;
    enum call call;
    int which;
    size_t at, verdict[6];
} scenarios[] = {
    {"open 0 bytes", OPEN, 0, 0, {NB_DONE}},
    {"open 1 byte", OPEN, 1, 1, {NB_DONE}},
    {"open 32 bytes", OPEN, 2, 32, {NB_DONE}},
    {"open 100 bytes", OPEN, 3, TEXT, {NB_DONE}},
    {"open, the tag's first byte wrong", OPEN, 4, TEXT, {NB_WRONG_TAG}},
    {"open, the tag's last byte wrong", OPEN, 5, TEXT, {NB_WRONG_TAG}},
    {"open, the ciphertext wrong", OPEN, 6, TEXT, {NB_WRONG_TAG}},
    {"open, the key wrong", OPEN, 7, TEXT, {NB_WRONG_TAG}},
    {"open, the nonce wrong", OPEN, 8, TEXT, {NB_WRONG_TAG}},
    {"open, the associated data wrong", OPEN, 9, TEXT, {NB_WRONG_TAG}},
    {"read a record of 1 block", READ, REEL, 0, {NB_GOT_RECORD, NB_BLOCK_PAYLOAD, 1}},
    {"read a mark", READ, REEL, 1, {NB_GOT_MARK, 0, 2}},
    {"read a record of 3 blocks", READ, REEL, 2, {NB_GOT_RECORD, 1000, 5}},
    {"read a stray", READ, REEL, 3, {NB_GOT_STRAY, 0, 4}},
    {"read a record of 1 byte", READ, REEL, 6, {NB_GOT_RECORD, 1, 7}},
    {"read the end of data", READ, REEL, 7, {NB_GOT_END, 0, 7}},
    {"read zeros at 0", READ, SPOILED, 0, {NB_GOT_BAD, 0, 1}},
    {"read a tag that fails", READ, SPOILED, 1, {NB_GOT_BAD, 0, 2}},
    {"read a record cut by damage", READ, SPOILED, 2, {NB_GOT_CUT, 3, 4}},
    {"read a mark from another place", READ, SPOILED, 5, {NB_GOT_BAD, 0, 6}},
    {"read zeros at 6", READ, SPOILED, 6, {NB_GOT_BAD, 0, 7}},
    {"read, a byte behind the used ones", READ, FORGED, 0, {NB_GOT_BAD, 0, 1}},
    {"read kind 9", READ, FORGED, 1, {NB_GOT_BAD, 0, 2}},
    {"read a mark with a payload", READ, FORGED, 2, {NB_GOT_BAD, 0, 3}},
    {"read a record cut by a mark", READ, FORGED, 3, {NB_GOT_CUT, 4, 4}},
    {"read a wrong number under the key", READ, FORGED, 5, {NB_GOT_BAD, 0, 6}},
    {"read a record cut by a forged block", READ, FORGED, 6, {NB_GOT_CUT, 7, 8}},
    {"space over 0 marks", SPACE, REEL, 0, {NB_SPACED_AT, 0, 0}},
    {"space over 1 mark", SPACE, REEL, 1, {NB_SPACED_AT, 2, 0}},
    {"space over 2 marks", SPACE, REEL, 2, {NB_SPACED_AT, 6, 0}},
    {"space over 9 marks", SPACE, REEL, 9, {NB_SPACED_SHORT, 7, 2}},
    {"report on a whole image", REPORT, REEL, 0, {3, 2, 1, 0, 0, 0}},
    {"report on spoiled blocks", REPORT, SPOILED, 0, {0, 0, 1, 4, 1, 1}},
    {"report on forged blocks", REPORT, FORGED, 0, {0, 1, 0, 4, 0, 2}},
};

#define SCENARIOS (sizeof scenarios / sizeof *scenarios)
#define SEALINGS 10

static struct {
    struct sealing opened[SEALINGS];
    uint8_t key[NB_KEY_BYTES], image[IMAGES][BLOCKS * NB_BLOCK_BYTES];
} in;

static uint8_t text[BLOCKS * NB_BLOCK_BYTES], buffer[NB_RECORD_MAX];
static int faults;

#define KEY in.key, sizeof in.key
#define NAMED KEY, ID, RECORDING

/* ---- Making. */
static uint64_t drawn;

static size_t below(size_t n)
{
    drawn = drawn * 6364136223846793005u + 1442695040888963407u;
    return (size_t)(drawn >> 33) % n;
}

static uint8_t other_than_zero(void)
{
    return (uint8_t)(1 + below(255));
}

static void fill(uint8_t *at, size_t n)
{
    for (; n > 0; n--, at++)
        *at = (uint8_t)below(256);
}

/* The first four are good; each other is wrong in one thing. */
static void make_sealing(int i, size_t n)
{
    struct sealing *s = &in.opened[i];

    fill(s->key, sizeof s->key);
    fill(text, n);
    memset(s->nonce, 4, sizeof s->nonce);
    memset(s->data, 5, sizeof s->data);
    faults += nb_seal(s->key, sizeof s->key, s->nonce, sizeof s->nonce, s->data, sizeof s->data, text, n, s->sealed, n + NB_TAG_BYTES) != NB_DONE;
    switch (i) {
    case 4: s->sealed[n] ^= other_than_zero(); break;
    case 5: s->sealed[n + NB_TAG_BYTES - 1] ^= other_than_zero(); break;
    case 6: s->sealed[n / 2] ^= other_than_zero(); break;
    case 7: s->key[below(sizeof s->key)] ^= other_than_zero(); break;
    case 8: s->nonce[3] ^= 1; break;
    case 9: s->data[3] ^= 1; break;
    default: break;
    }
}

/* A record of 1 block, a mark, a record of 3 blocks, a mark, a record of 1 byte, the end of data. */
static void make_reel(void)
{
    uint8_t *image = in.image[REEL];
    size_t size = sizeof in.image[REEL];
    nb_state s = nb_start(ID, RECORDING, 1, image, size).state;

    fill(text, sizeof text);
    s = nb_record(s, KEY, text, NB_BLOCK_PAYLOAD, image, size).state;
    s = nb_mark(s, KEY, image, size).state;
    s = nb_record(s, KEY, text + 600, 1000, image, size).state;
    s = nb_mark(s, KEY, image, size).state;
    s = nb_record(s, KEY, text + 1700, 1, image, size).state;
    faults += nb_close(s, KEY, image, size).state.position != BLOCKS;
}

/* The reel with zeros at 0 and 6, a tag that fails at 1, damage at 3 and the mark of 1 at 5. */
static void make_spoiled(void)
{
    uint8_t *image = in.image[SPOILED];

    memcpy(image, in.image[REEL], sizeof in.image[REEL]);
    memcpy(image + 5 * NB_BLOCK_BYTES, image + NB_BLOCK_BYTES, NB_BLOCK_BYTES);
    memset(image, 0, NB_BLOCK_BYTES);
    memset(image + 6 * NB_BLOCK_BYTES, 0, NB_BLOCK_BYTES);
    image[2 * NB_BLOCK_BYTES - 1] ^= other_than_zero();
    image[3 * NB_BLOCK_BYTES + HEADER + below(NB_BLOCK_PAYLOAD)] ^= other_than_zero();
}

/* Seals at place p, with the key in hand, what need not be lawful: `number` is what its header says, `used` bytes are drawn, and `stray` others behind
 * them, at a place that is drawn too. */
static void forge(size_t p, size_t number, uint8_t kind, uint8_t last, size_t used, size_t stray)
{
    uint8_t *block = in.image[FORGED] + p * NB_BLOCK_BYTES, payload[NB_BLOCK_PAYLOAD] = {0};
    uint8_t nonce[NB_NONCE_BYTES] = {0, 0, 0, ID, 0, 0, 0, 0, 0, 0, RECORDING >> 8, RECORDING & 0xFF, 0, 0, 0, (uint8_t)p};

    memset(block, 0, HEADER);
    block[3] = (uint8_t)number;
    block[4] = kind;
    block[5] = last;
    block[6] = (uint8_t)(used >> 8);
    block[7] = (uint8_t)used;
    fill(payload, used);
    for (; stray > 0; stray--)
        payload[used + below(NB_BLOCK_PAYLOAD - used)] = other_than_zero();
    faults += nb_seal(KEY, nonce, sizeof nonce, block, HEADER, payload, sizeof payload, block + HEADER, NB_BLOCK_BYTES - HEADER) != NB_DONE;
}

static int make(uint64_t seed)
{
    drawn = seed;
    fill(in.key, sizeof in.key);
    for (size_t i = 0; i < SEALINGS; i++)
        make_sealing((int)i, scenarios[i].at);
    make_reel();
    make_spoiled();
    forge(0, 0, 1, 1, 100, 1);
    forge(1, 1, 9, 0, NB_BLOCK_PAYLOAD, 0);
    forge(2, 2, 3, 0, 0, 1);
    forge(3, 3, 1, 0, NB_BLOCK_PAYLOAD, 0);
    forge(4, 4, 3, 0, 0, 0);
    forge(5, 4, 3, 0, 0, 0);
    forge(6, 6, 1, 0, NB_BLOCK_PAYLOAD, 0);
    forge(7, 7, 2, 1, 3, 1);
    return faults != 0 || fwrite(&in, sizeof in, 1, stdout) != 1;
}

/* ---- Running. */
__attribute__((noinline)) void traced_from(void)
{
    __asm__ volatile("" ::: "memory");
}

__attribute__((noinline)) void traced_to(void)
{
    __asm__ volatile("" ::: "memory");
}

static void traced_open(const struct scenario *s, size_t said[6])
{
    const struct sealing *o = &in.opened[s->which];

    traced_from();
    said[0] = nb_open(o->key, sizeof o->key, o->nonce, sizeof o->nonce, o->data, sizeof o->data, o->sealed, s->at + NB_TAG_BYTES, text, s->at);
    traced_to();
}

static void traced_read(const struct scenario *s, size_t said[6])
{
    nb_got got;

    traced_from();
    got = nb_read(NAMED, in.image[s->which], sizeof in.image[s->which], s->at, buffer, sizeof buffer);
    traced_to();
    said[0] = got.outcome;
    said[1] = got.data;
    said[2] = got.next;
}

static void traced_space(const struct scenario *s, size_t said[6])
{
    nb_spaced spaced;

    traced_from();
    spaced = nb_space(NAMED, in.image[s->which], sizeof in.image[s->which], 0, s->at);
    traced_to();
    said[0] = spaced.kind;
    said[1] = spaced.position;
    said[2] = spaced.marks;
}

static void traced_report(const struct scenario *s, size_t said[6])
{
    nb_tally tally;

    traced_from();
    tally = nb_report(NAMED, in.image[s->which], sizeof in.image[s->which]);
    traced_to();
    said[0] = tally.records;
    said[1] = tally.marks;
    said[2] = tally.ends;
    said[3] = tally.bads;
    said[4] = tally.strays;
    said[5] = tally.cuts;
}

static int run(void)
{
    static void (*const by_call[])(const struct scenario *, size_t *) = {traced_open, traced_read, traced_space, traced_report};

    if (fread(&in, sizeof in, 1, stdin) != 1)
        return 2;
    /* once before, for tables that are made at the first call */
    faults += nb_seal(KEY, in.key, NB_NONCE_BYTES, in.key, 0, in.key, 0, text, NB_TAG_BYTES) != NB_DONE;
    for (size_t i = 0; i < SCENARIOS; i++) {
        size_t said[6] = {0};

        by_call[scenarios[i].call](&scenarios[i], said);
        if (memcmp(said, scenarios[i].verdict, sizeof said) == 0)
            continue;
        faults++;
        printf("tests/traces.c: %s:", scenarios[i].name);
        for (int k = 0; k < 6; k++)
            printf(" %lu", (unsigned long)said[k]);
        printf(" is not the verdict that is meant\n");
    }
    return faults != 0;
}

static int names(void)
{
    for (size_t i = 0; i < SCENARIOS; i++)
        printf("%s|%d\n", scenarios[i].name, scenarios[i].call != SPACE || scenarios[i].at != 0);
    return 0;
}

int main(int argc, char **argv)
{
    if (argc == 2 && strcmp(argv[1], "names") == 0)
        return names();
    if (argc == 2 && strcmp(argv[1], "run") == 0)
        return run();
    if (argc == 3 && strcmp(argv[1], "make") == 0)
        return make(strtoull(argv[2], NULL, 10));
    return 2;
}
