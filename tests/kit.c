/* Links the static library by its header alone and calls every function, valid and refused; holds the header's constants against what the
 * calls do. Prints what fails and exits 1, else one line and 0. What the calls should answer is the word of docs/FORMAT.md and docs/NUMBERS.md, not the library's. */
#include <stdio.h>
#include <stdlib.h>
#include <string.h>

#include "notchbadger.h"

static int faults;

#define IS(what) ((what) ? (void)0 : (faults++, (void)printf("tests/kit.c:%d: %s\n", __LINE__, #what)))

#define BLOCKS 8

static uint8_t image[BLOCKS * NB_BLOCK_BYTES], buffer[NB_RECORD_MAX + 1];
static const uint8_t key[NB_KEY_BYTES] = {1, 2, 3}, nonce[NB_NONCE_BYTES] = {4, 5};

/* The paper's 1.3.1 and back, and a state of another length. */
static void permutation(void)
{
    static const uint8_t front[4] = {0x3F, 0x72, 0xC2, 0x60};
    uint8_t state[NB_STATE_BYTES] = {
        0x77, 0x38, 0xE1, 0xB5, 0x41, 0xA0, 0x36, 0xEA, 0x45, 0x8D, 0x50, 0xF8, 0x0F, 0xA0, 0x1C, 0x44,
        0x72, 0x88, 0xCE, 0x97, 0xD1, 0xA0, 0xDC, 0xF0, 0x16, 0x95, 0xFF, 0xD6, 0xE7, 0x1D, 0x09, 0x25,
        0x33, 0xBE, 0x30, 0x9F, 0x01, 0x2A, 0x59, 0x09, 0x72, 0x91, 0x14, 0x59, 0x5F, 0x08, 0x6E, 0x76,
        0x07, 0x18, 0xAF, 0xE3, 0x65, 0xBC, 0x09, 0xDE, 0xB6, 0xAF, 0xA1, 0x80, 0xBC, 0xEC, 0x2A, 0x98};

    IS(nb_permute(state, NB_STATE_BYTES) == NB_DONE);
    IS(memcmp(state, front, sizeof front) == 0);
    IS(nb_permute_back(state, NB_STATE_BYTES) == NB_DONE && state[0] == 0x77 && state[63] == 0x98);
    IS(nb_permute(state, NB_STATE_BYTES - 1) == NB_WRONG_LENGTH && state[0] == 0x77);
    IS(nb_permute_back(state, 0) == NB_WRONG_LENGTH);
}

/* Table 1.1 by the miniboxes: the paper's 00, 01 and 80, and 256 values, each once. */
static void miniboxes(void)
{
    uint8_t seen[256] = {0};
    int x;

    IS(nb_minibox(0x00) == 0x18 && nb_minibox(0x01) == 0x23 && nb_minibox(0x80) == 0x97);
    for (x = 0; x < 256; x++)
        seen[nb_minibox((uint8_t)x)]++;
    for (x = 0; x < 256; x++)
        IS(seen[x] == 1);
}

/* Twelve rounds with the constants, row 0 of round r having the table's entries from 8r on, are the permutation; a round is undone with its
 * key; lengths that are refused. */
static void rounds(void)
{
    uint8_t state[NB_STATE_BYTES], whole[NB_STATE_BYTES], before[NB_STATE_BYTES], constants[NB_STATE_BYTES] = {0}, longer[NB_STATE_BYTES + 1] = {0};
    int r, j;

    for (j = 0; j < NB_STATE_BYTES; j++)
        before[j] = (uint8_t)(7 * j + 3);
    memcpy(state, before, sizeof state);
    memcpy(whole, before, sizeof whole);
    for (r = 0; r < 12; r++) {
        for (j = 0; j < 8; j++)
            constants[j] = nb_minibox((uint8_t)(8 * r + j));
        IS(nb_round(state, sizeof state, constants, sizeof constants) == NB_DONE);
    }
    IS(nb_permute(whole, sizeof whole) == NB_DONE && memcmp(state, whole, sizeof state) == 0);
    memcpy(state, before, sizeof state);
    IS(nb_round(state, sizeof state, whole, sizeof whole) == NB_DONE && memcmp(state, before, sizeof state) != 0);
    IS(nb_round_back(state, sizeof state, whole, sizeof whole) == NB_DONE && memcmp(state, before, sizeof state) == 0);
    IS(nb_round(state, sizeof state, longer, sizeof longer) == NB_WRONG_LENGTH && nb_round(state, 63, whole, sizeof whole) == NB_WRONG_LENGTH);
    IS(nb_round_back(state, sizeof state, whole, 0) == NB_WRONG_LENGTH && memcmp(state, before, sizeof state) == 0);
    IS(nb_round_back(longer, sizeof longer, whole, sizeof whole) == NB_WRONG_LENGTH && longer[0] == 0 && longer[NB_STATE_BYTES] == 0);
}

static void operations(void)
{
    uint8_t here[NB_STATE_BYTES] = {0}, there[NB_STATE_BYTES] = {0}, cipher[33], back[33], tag[NB_TAG_BYTES];
    uint8_t *most = calloc(NB_OPERATION_MAX + 1, 1), *room = calloc(NB_OPERATION_MAX + 1, 1);

    IS(nb_put(here, sizeof here, key, sizeof key, NB_DOMAIN_KEY) == NB_DONE);
    IS(nb_put(there, sizeof there, key, sizeof key, NB_DOMAIN_KEY) == NB_DONE);
    IS(nb_enc(here, sizeof here, buffer, 33, cipher, sizeof cipher, NB_DOMAIN_MESSAGE) == NB_DONE);
    IS(nb_dec(there, sizeof there, cipher, sizeof cipher, back, sizeof back, NB_DOMAIN_MESSAGE) == NB_DONE);
    IS(memcmp(here, there, sizeof here) == 0 && memcmp(back, buffer, sizeof back) == 0);
    IS(nb_get(here, sizeof here, tag, sizeof tag, NB_DOMAIN_TAG) == NB_DONE && memcmp(tag, there, sizeof tag) == 0);
    IS(nb_enc(here, sizeof here, buffer, 33, cipher, 32, 0) == NB_WRONG_LENGTH);
    IS(nb_dec(here, 63, cipher, 33, back, 33, 0) == NB_WRONG_LENGTH);
    IS(nb_get(here, 65, tag, sizeof tag, 0) == NB_WRONG_LENGTH);
    IS(nb_put(here, sizeof here, most, NB_OPERATION_MAX, 0) == NB_DONE);
    IS(nb_put(here, sizeof here, most, NB_OPERATION_MAX + 1, 0) == NB_ABOVE_LIMIT);
    IS(nb_get(here, sizeof here, most, NB_OPERATION_MAX + 1, 0) == NB_ABOVE_LIMIT);
    IS(nb_enc(here, sizeof here, most, NB_OPERATION_MAX + 1, room, NB_OPERATION_MAX + 1, 0) == NB_ABOVE_LIMIT);
    IS(nb_dec(here, sizeof here, most, NB_OPERATION_MAX + 1, room, NB_OPERATION_MAX + 1, 0) == NB_ABOVE_LIMIT);
    free(most);
    free(room);
}

static void sealing(void)
{
    uint8_t sealed[5 + NB_TAG_BYTES], back[5] = {9, 9, 9, 9, 9}, zeros[5] = {0};
    uint8_t *most = calloc(NB_MESSAGE_MAX + 1 + NB_TAG_BYTES, 1), *room = calloc(NB_MESSAGE_MAX + 1 + NB_TAG_BYTES, 1);

    IS(nb_seal(key, 24, nonce, 16, key, 0, (const uint8_t *)"reel7", 5, sealed, sizeof sealed) == NB_DONE);
    IS(nb_open(key, 23, nonce, 16, key, 0, sealed, sizeof sealed, back, 5) == NB_WRONG_LENGTH && back[0] == 9);
    IS(nb_open(key, 24, nonce, 16, key, 0, sealed, sizeof sealed, back, 5) == NB_DONE && memcmp(back, "reel7", 5) == 0);
    IS(nb_open(key, 24, nonce, 16, key, 1, sealed, sizeof sealed, back, 5) == NB_WRONG_TAG && memcmp(back, zeros, 5) == 0);
    IS(nb_open(key, 24, nonce, 16, key, 0, sealed, 15, back, 0) == NB_WRONG_LENGTH);
    IS(nb_seal(key, 24, nonce, 15, key, 0, back, 5, sealed, sizeof sealed) == NB_WRONG_LENGTH);
    IS(nb_seal(key, 24, nonce, 16, key, 0, most, NB_MESSAGE_MAX, room, NB_MESSAGE_MAX + NB_TAG_BYTES) == NB_DONE);
    IS(nb_seal(key, 24, nonce, 16, key, 0, most, NB_MESSAGE_MAX + 1, room, NB_MESSAGE_MAX + 1 + NB_TAG_BYTES) == NB_ABOVE_LIMIT);
    free(most);
    free(room);
}

static nb_wrote record(nb_state s, size_t n)
{
    return nb_record(s, key, sizeof key, buffer, n, image, sizeof image);
}

static nb_wrote mark(nb_state s)
{
    return nb_mark(s, key, sizeof key, image, sizeof image);
}

static nb_wrote finish(nb_state s)
{
    return nb_close(s, key, sizeof key, image, sizeof image);
}

/* By the number, with the state as it was given. */
static int refused(nb_wrote w, uint8_t number, nb_state given)
{
    nb_state s = w.state;

    return w.reply == NB_REFUSED && w.number == number && s.id == given.id && s.recording == given.recording && s.capacity == given.capacity
           && s.zone == given.zone && s.position == given.position && s.closed == given.closed && s.marks == given.marks;
}

static void starting(void)
{
    static const nb_state none = {0, 0, 0, 0, 0, 1, 0};
    nb_wrote w = nb_start(1, 1, BLOCKS, image, sizeof image);

    IS(refused(w, NB_WRONG_ZONE, none) && refused(record(w.state, 1), NB_UNLAWFUL, none));
    IS(refused(nb_start(1, 1, 1, image, 3 * NB_BLOCK_BYTES), NB_WRONG_IMAGE, none));
    w = nb_start(1, 1, 3, image, sizeof image);
    IS(w.reply == NB_PLAIN && w.number == 0 && w.state.id == 1 && w.state.recording == 1 && w.state.capacity == BLOCKS);
    IS(w.state.zone == 3 && w.state.position == 0 && w.state.closed == 0 && w.state.marks == 0);
}

/* The rehearsal. */
static nb_state writing(void)
{
    nb_state s = nb_start(1, 1, 3, image, sizeof image).state;
    nb_wrote w;

    memset(buffer, 0x5A, sizeof buffer);
    s = record(s, 5).state;
    w = record(s, NB_BLOCK_PAYLOAD + 1);
    IS(w.state.position == 3 && w.state.marks == 0 && w.reply == NB_PLAIN);
    w = mark(w.state);
    IS(w.state.position == 4 && w.state.marks == 1 && w.reply == NB_PLAIN);
    w = record(w.state, 3 * NB_BLOCK_PAYLOAD);
    IS(w.state.position == 7 && w.reply == NB_WARNED && w.number == 0);
    s = w.state;
    IS(refused(record(s, 1), NB_NO_ROOM, s) && refused(mark(s), NB_NO_ROOM, s));
    IS(refused(record(s, 0), NB_WRONG_RECORD, s) && refused(record(s, NB_RECORD_MAX + 1), NB_WRONG_RECORD, s));
    w = finish(s);
    IS(w.state.position == 8 && w.state.closed == 1 && w.state.marks == 1 && w.reply == NB_PLAIN);
    s = w.state;
    IS(refused(record(s, 1), NB_CLOSED, s) && refused(mark(s), NB_CLOSED, s) && refused(finish(s), NB_CLOSED, s));
    return s;
}

/* A record and a mark are warned alike, by the position afterwards: plain up to c - e, warned above it; a closing never is. */
static void warning(void)
{
    nb_state s = nb_start(1, 3, 3, image, sizeof image).state;

    for (s.position = 0; s.position < BLOCKS - 1; s.position++) {
        uint8_t reply = s.position + 1 > BLOCKS - 3 ? NB_WARNED : NB_PLAIN;
        nb_wrote r = record(s, 1), m = mark(s), f = finish(s);

        IS(r.reply == reply && m.reply == reply && f.reply == NB_PLAIN);
        IS(r.number == 0 && m.number == 0 && f.number == 0);
        IS(m.state.position == s.position + 1 && m.state.marks == 1);
    }
    IS(refused(record(s, 1), NB_NO_ROOM, s) && refused(mark(s), NB_NO_ROOM, s) && finish(s).reply == NB_PLAIN);
}

/* States that are not lawful for the image, a closed flag that is neither 0 nor 1 among them: 8, behind 1 and 2. */
static void unlawful(nb_state s)
{
    static const uint8_t odd[] = {2, 255};
    static uint8_t before[sizeof image];
    size_t i;

    memcpy(before, image, sizeof before);
    for (i = 0; i < sizeof odd; i++) {
        s.closed = odd[i];
        IS(refused(record(s, 1), NB_UNLAWFUL, s) && refused(mark(s), NB_UNLAWFUL, s) && refused(finish(s), NB_UNLAWFUL, s));
        IS(refused(nb_mark(s, key, 23, image, sizeof image), NB_WRONG_LENGTH, s));
        IS(refused(nb_close(s, key, 23, image, 100), NB_WRONG_IMAGE, s));
    }
    s.closed = 0;
    IS(refused(finish(s), NB_UNLAWFUL, s) && refused(nb_record(s, key, 25, buffer, 1, image, sizeof image), NB_WRONG_LENGTH, s));
    s.closed = 1;
    s.marks = s.position + 1;
    IS(refused(record(s, 1), NB_UNLAWFUL, s) && refused(mark(s), NB_UNLAWFUL, s) && refused(finish(s), NB_UNLAWFUL, s));
    s.marks = SIZE_MAX;
    IS(refused(mark(s), NB_UNLAWFUL, s));
    s.marks = s.position;
    IS(refused(mark(s), NB_CLOSED, s));
    s.closed = 0;
    s.position = 2;
    s.marks = 3;
    IS(refused(record(s, 1), NB_UNLAWFUL, s) && refused(mark(s), NB_UNLAWFUL, s) && refused(finish(s), NB_UNLAWFUL, s));
    s.position = 0;
    s.closed = 1;
    s.marks = 0;
    IS(refused(mark(s), NB_UNLAWFUL, s));
    IS(memcmp(before, image, sizeof before) == 0);
}

/* A single block by hand: the mark that the rehearsal wrote at 3 is docs/FORMAT.md's eight bytes and what nb_seal gives under its nonce. */
static void one_block(void)
{
    static const uint8_t front[8] = {0, 0, 0, 3, 3, 0, 0, 0}, payload[NB_BLOCK_PAYLOAD] = {0};
    static const uint8_t number[NB_NONCE_BYTES] = {0, 0, 0, 1, 0, 0, 0, 0, 0, 0, 0, 1, 0, 0, 0, 3};
    uint8_t block[NB_BLOCK_BYTES];

    memcpy(block, front, sizeof front);
    IS(nb_seal(key, sizeof key, number, sizeof number, front, sizeof front, payload, sizeof payload, block + 8, sizeof block - 8) == NB_DONE);
    IS(memcmp(block, image + 3 * NB_BLOCK_BYTES, sizeof block) == 0);
}

static nb_got read_at(size_t p, size_t room)
{
    return nb_read(key, sizeof key, 1, 1, image, sizeof image, p, buffer, room);
}

static void reading(void)
{
    nb_got got = read_at(1, NB_RECORD_MAX);
    nb_part part = nb_record_part(buffer, sizeof buffer, got.data);
    nb_tally tally = nb_report(key, sizeof key, 1, 1, image, sizeof image);
    nb_spaced spaced = nb_space(key, sizeof key, 1, 1, image, sizeof image, 0, 1);

    IS(got.outcome == NB_GOT_RECORD && got.data == NB_BLOCK_PAYLOAD + 1 && got.next == 3);
    IS(part.offset == 0 && part.length == got.data && buffer[got.data - 1] == 0x5A && buffer[got.data] == 0);
    IS(nb_record_part(buffer, 4, 5).length == 0);
    IS(read_at(3, NB_RECORD_MAX).outcome == NB_GOT_MARK && read_at(2, NB_RECORD_MAX).outcome == NB_GOT_STRAY);
    IS(read_at(7, NB_RECORD_MAX).outcome == NB_GOT_END && read_at(7, NB_RECORD_MAX).next == 7);
    IS(read_at(8, NB_RECORD_MAX).number == NB_UNLAWFUL && read_at(0, NB_RECORD_MAX - 1).number == NB_WRONG_LENGTH);
    IS(nb_look(image, sizeof image, 2).offset == 2 * NB_BLOCK_BYTES && nb_look(image, sizeof image, 2).length == NB_BLOCK_BYTES);
    IS(nb_look_number(image, sizeof image, BLOCKS) == NB_UNLAWFUL && nb_look(image, sizeof image, BLOCKS).length == 0);
    IS(nb_look_number(image, sizeof image, BLOCKS - 1) == NB_DONE && nb_look_number(image, 100, 0) == NB_WRONG_IMAGE);
    IS(spaced.kind == NB_SPACED_AT && spaced.position == 4);
    spaced = nb_space(key, sizeof key, 1, 1, image, sizeof image, 0, 2);
    IS(spaced.kind == NB_SPACED_SHORT && spaced.marks == 1 && spaced.position == 7);
    IS(nb_space(key, 1, 1, 1, image, sizeof image, 0, 1).number == NB_WRONG_LENGTH);
    IS(tally.number == 0 && tally.records == 3 && tally.marks == 1 && tally.ends == 1 && tally.bads + tally.strays + tally.cuts == 0);
    image[NB_BLOCK_BYTES + 9] ^= 1;
    IS(read_at(1, NB_RECORD_MAX).outcome == NB_GOT_BAD && buffer[0] == 0);
    image[NB_BLOCK_BYTES + 9] ^= 1;
    image[2 * NB_BLOCK_BYTES + 9] ^= 1;
    IS(read_at(1, NB_RECORD_MAX).outcome == NB_GOT_CUT && read_at(1, NB_RECORD_MAX).data == 2 && read_at(1, NB_RECORD_MAX).next == 3);
    IS(nb_report(key, sizeof key, 1, 1, image, 100).number == NB_WRONG_IMAGE);
    IS(nb_space(key, sizeof key, 1, 1, image, sizeof image, BLOCKS, 0).kind == NB_SPACED_REFUSED);
}

/* An empty part as (NULL, 0), for every slice of every call: taken or refused as its length says. */
static void nothing_sealed(void)
{
    uint8_t here[NB_STATE_BYTES] = {0}, there[NB_STATE_BYTES] = {0}, one[1] = {7}, tag[NB_TAG_BYTES], same[NB_TAG_BYTES], sealed[1 + NB_TAG_BYTES];

    IS(nb_permute(NULL, 0) == NB_WRONG_LENGTH && nb_permute_back(NULL, 0) == NB_WRONG_LENGTH);
    IS(nb_round(NULL, 0, here, sizeof here) == NB_WRONG_LENGTH && nb_round(here, sizeof here, NULL, 0) == NB_WRONG_LENGTH);
    IS(nb_round_back(NULL, 0, here, sizeof here) == NB_WRONG_LENGTH && nb_round_back(here, sizeof here, NULL, 0) == NB_WRONG_LENGTH);

    IS(nb_put(NULL, 0, one, 1, 0) == NB_WRONG_LENGTH && nb_get(NULL, 0, one, 1, 0) == NB_WRONG_LENGTH);
    IS(nb_enc(NULL, 0, one, 1, tag, 1, 0) == NB_WRONG_LENGTH && nb_dec(NULL, 0, one, 1, tag, 1, 0) == NB_WRONG_LENGTH);
    IS(nb_enc(here, sizeof here, NULL, 0, one, 1, 0) == NB_WRONG_LENGTH && nb_enc(here, sizeof here, one, 1, NULL, 0, 0) == NB_WRONG_LENGTH);
    IS(nb_dec(here, sizeof here, NULL, 0, one, 1, 0) == NB_WRONG_LENGTH && nb_dec(here, sizeof here, one, 1, NULL, 0, 0) == NB_WRONG_LENGTH);
    IS(memcmp(here, there, sizeof here) == 0 && one[0] == 7);
    IS(nb_put(here, sizeof here, NULL, 0, 1) == NB_DONE && nb_put(there, sizeof there, one, 0, 1) == NB_DONE);
    IS(nb_get(here, sizeof here, NULL, 0, 2) == NB_DONE && nb_get(there, sizeof there, one, 0, 2) == NB_DONE);
    IS(nb_enc(here, sizeof here, NULL, 0, NULL, 0, 3) == NB_DONE && nb_enc(there, sizeof there, one, 0, tag, 0, 3) == NB_DONE);
    IS(nb_dec(here, sizeof here, NULL, 0, NULL, 0, 4) == NB_DONE && nb_dec(there, sizeof there, one, 0, tag, 0, 4) == NB_DONE);
    IS(memcmp(here, there, sizeof here) == 0 && one[0] == 7);

    IS(nb_seal(NULL, 0, nonce, 16, NULL, 0, NULL, 0, tag, sizeof tag) == NB_WRONG_LENGTH);
    IS(nb_seal(key, 24, NULL, 0, NULL, 0, NULL, 0, tag, sizeof tag) == NB_WRONG_LENGTH);
    IS(nb_seal(key, 24, nonce, 16, NULL, 0, NULL, 0, NULL, 0) == NB_WRONG_LENGTH);
    IS(nb_seal(NULL, 0, NULL, 0, NULL, 0, NULL, 0, NULL, 0) == NB_WRONG_LENGTH);
    IS(nb_seal(key, 24, nonce, 16, NULL, 0, NULL, 0, tag, sizeof tag) == NB_DONE);
    IS(nb_seal(key, 24, nonce, 16, one, 0, one, 0, same, sizeof same) == NB_DONE && memcmp(tag, same, sizeof tag) == 0);
    IS(nb_seal(key, 24, nonce, 16, NULL, 0, one, 1, sealed, sizeof sealed) == NB_DONE);
    IS(nb_open(NULL, 0, nonce, 16, NULL, 0, tag, sizeof tag, NULL, 0) == NB_WRONG_LENGTH);
    IS(nb_open(key, 24, NULL, 0, NULL, 0, tag, sizeof tag, NULL, 0) == NB_WRONG_LENGTH);
    IS(nb_open(key, 24, nonce, 16, NULL, 0, NULL, 0, NULL, 0) == NB_WRONG_LENGTH);
    IS(nb_open(key, 24, nonce, 16, NULL, 0, sealed, sizeof sealed, NULL, 0) == NB_WRONG_LENGTH);
    IS(nb_open(key, 24, nonce, 16, NULL, 0, sealed, sizeof sealed, one, 1) == NB_DONE && one[0] == 7);
    IS(nb_open(key, 24, nonce, 16, NULL, 0, tag, sizeof tag, NULL, 0) == NB_DONE);
    tag[0] ^= 1;
    IS(nb_open(key, 24, nonce, 16, NULL, 0, tag, sizeof tag, NULL, 0) == NB_WRONG_TAG);
}

static void nothing_recorded(void)
{
    static const nb_state none = {0, 0, 0, 0, 0, 1, 0};
    nb_state s = nb_start(1, 2, 3, image, sizeof image).state;
    nb_part part = nb_record_part(NULL, 0, 5), look = nb_look(NULL, 0, 0);

    IS(s.capacity == BLOCKS && refused(nb_start(1, 2, 3, NULL, 0), NB_WRONG_IMAGE, none));
    IS(refused(nb_record(s, NULL, 0, buffer, 1, image, sizeof image), NB_WRONG_LENGTH, s));
    IS(refused(nb_record(s, key, sizeof key, NULL, 0, image, sizeof image), NB_WRONG_RECORD, s));
    IS(refused(nb_record(s, key, sizeof key, buffer, 1, NULL, 0), NB_WRONG_IMAGE, s));
    IS(refused(nb_mark(s, NULL, 0, image, sizeof image), NB_WRONG_LENGTH, s) && refused(nb_mark(s, key, sizeof key, NULL, 0), NB_WRONG_IMAGE, s));
    IS(refused(nb_close(s, NULL, 0, image, sizeof image), NB_WRONG_LENGTH, s) && refused(nb_close(s, key, sizeof key, NULL, 0), NB_WRONG_IMAGE, s));

    IS(nb_read(NULL, 0, 1, 2, image, sizeof image, 0, buffer, sizeof buffer).number == NB_WRONG_LENGTH);
    IS(nb_read(key, sizeof key, 1, 2, NULL, 0, 0, buffer, sizeof buffer).number == NB_WRONG_IMAGE);
    IS(nb_read(key, sizeof key, 1, 2, image, sizeof image, 0, NULL, 0).number == NB_WRONG_LENGTH);
    IS(part.offset == 0 && part.length == 0 && nb_record_part(NULL, 0, 0).length == 0);
    IS(look.offset == 0 && look.length == 0 && nb_look_number(NULL, 0, 0) == NB_WRONG_IMAGE);
    IS(nb_space(NULL, 0, 1, 2, image, sizeof image, 0, 0).number == NB_WRONG_LENGTH);
    IS(nb_space(key, sizeof key, 1, 2, NULL, 0, 0, 1).number == NB_WRONG_IMAGE);
    IS(nb_report(NULL, 0, 1, 2, image, sizeof image).number == NB_WRONG_LENGTH);
    IS(nb_report(key, sizeof key, 1, 2, NULL, 0).number == NB_WRONG_IMAGE);
}

int main(void)
{
    IS(nb_version() == NB_VERSION);
    IS(NB_IMAGE_FEWEST == 4 && NB_IMAGE_MOST == 128 && NB_RATE_BYTES == 32 && NB_DOMAIN_NONCE == 0x20 && NB_DOMAIN_DATA == 0x40);
    IS(NB_RECORD_BLOCKS * NB_BLOCK_PAYLOAD == NB_RECORD_MAX);
    permutation();
    miniboxes();
    rounds();
    operations();
    sealing();
    starting();
    warning();
    unlawful(writing());
    one_block();
    reading();
    nothing_sealed();
    nothing_recorded();
    if (faults == 0)
        puts("tests/kit.c: every call answers as it should");
    return faults != 0;
}
