/* compare-images [SEED [IMAGES]]: holds the peer's reader and that of the
 * kit's static library against each other on random images: written, damaged,
 * and forged with the key in hand. Every position is read and looked at, the
 * record asked for, spaced from, and the report made: each field of an answer,
 * all lent memory and the guard bytes. Exit 1 at the first difference, or where
 * a sort of answer never came up, 2 on wrong arguments. */
#include <inttypes.h>
#include <stdbool.h>
#include <stdio.h>
#include <string.h>

#include "notchbadger.h"
#include "random.h"
#include "reader.h"
#include "seal.h"
#include "writer.h"

#define DEFAULT_SEED 20150828u
#define DEFAULT_IMAGES 3000u
#define LARGE_EVERY 20 /* images, one is large */
#define LARGE 64       /* blocks at least: a record can reach its limit */

/* The outcomes of a read, and a cut by what cut it. */
enum sort {
    RECORD, MARK, END, BAD, STRAY, CUT_BAD, CUT_KIND, CUT_LIMIT, CUT_IMAGE, REFUSED, SORTS
};

static const char *const sorts[SORTS] = {
    "record", "mark", "end", "bad", "stray", "cut at a bad block", "cut at another kind",
    "cut after 64 blocks", "cut at the image's end", "refused",
};

static const char program[] = "compare-images";
static uint64_t counts[SORTS];

/* The image and the key fill their strips from the front; noise follows. */
static struct strip image, key, out;

/* What the image was written with, and how large it is. */
static struct {
    size_t blocks;
    struct identity identity;
    const char *sort;
} made;

/* What the reader is given: mostly the same. */
static struct {
    size_t image, key;
    uint32_t id;
    uint64_t recording;
} asked;

static uint8_t *place(size_t p)
{
    return image.peer + GUARD + BLOCK_BYTES * p;
}

static void fill(uint8_t *bytes, size_t n)
{
    for (size_t i = 0; i < n; i++)
        bytes[i] = (uint8_t)draw();
}

/* Making an image. */

static size_t draw_record_length(void)
{
    static const size_t edges[] = {1, 487, 488, 489, 976, 977, RECORD_BYTES};

    if (made.blocks >= LARGE && once_in(3))
        return RECORD_BYTES - below(3 * BLOCK_PAYLOAD);
    return once_in(2) ? edges[below(sizeof edges / sizeof edges[0])]
                      : 1 + below(4 * BLOCK_PAYLOAD);
}

/* A chain over the whole of the image, closed in most cases. */
static void write_chain(void)
{
    static uint8_t record[RECORD_BYTES];
    uint8_t *front = place(0);
    size_t length = made.blocks * BLOCK_BYTES;
    size_t items = 1 + below(made.blocks);
    const struct identity *with = &made.identity;
    struct writer writer =
        writer_start(front, length, with->cartridge, with->recording, 1).writer;

    for (size_t i = 0; i < items; i++) {
        size_t n = draw_record_length();
        if (once_in(3)) {
            writer = writer_mark(writer, front, length, with->key, SEAL_KEY).writer;
            continue;
        }
        fill(record, n);
        writer = writer_record(writer, front, length, with->key, SEAL_KEY, record, n).writer;
    }
    if (!once_in(6))
        writer_close(writer, front, length, with->key, SEAL_KEY);
}

/* A lawful block: a record's pieces most of all, the end seldom. */
static struct block lawful_block(uint8_t kind, bool last)
{
    struct block block;

    memset(&block, 0, sizeof block);
    block.kind = kind;
    if (kind == KIND_MARK || kind == KIND_END)
        return block;
    block.last = last;
    block.used = (uint16_t)(last && !once_in(4) ? 1 + below(BLOCK_PAYLOAD) : BLOCK_PAYLOAD);
    fill(block.payload, block.used);
    return block;
}

static struct block draw_block(void)
{
    static const uint8_t kinds[] = {1, 1, 1, 1, 1, 2, 2, 2, 2, 2, 2, 2, 3, 3, 3, 4};

    return lawful_block(kinds[below(sizeof kinds)], once_in(3));
}

/* Most of these are unlawful, each by one thing; some are lawful still. */
static void spoil(struct block *block)
{
    static const uint16_t used[] = {0, 1, 256, 487, 488, 489, 489, 744, 65535};

    switch (below(10)) {
    case 0: block->kind = (uint8_t)(once_in(2) ? below(7) : below(256)); break;
    case 1: block->last = (uint8_t)(once_in(2) ? below(3) : below(256)); break;
    case 2: case 8: block->used = used[below(sizeof used / sizeof used[0])]; break;
    case 3: block->payload[BLOCK_PAYLOAD - 1] = (uint8_t)(1 + below(255)); break;
    case 4: block->payload[block->used % BLOCK_PAYLOAD] ^= (uint8_t)(1 + below(255)); break;
    case 5: block->last ^= 1; break;
    case 6: case 7: /* a last block of no bytes, or a mark or an end that is last */
        memset(block->payload, 0, BLOCK_PAYLOAD);
        block->last = 1;
        block->used = 0;
        break;
    default: block->payload[below(BLOCK_PAYLOAD)] ^= (uint8_t)(1u << below(8)); break;
    }
}

/* Sealed for place p, while the number it bears is another: only the key's
 * owner can make one, and it doesn't open anywhere. */
static void misnumber(size_t p, const struct block *block)
{
    uint8_t leader[BLOCK_LEADER], nonce[SEAL_NONCE];
    const struct identity *with = &made.identity;

    block_seal(place(p), with, (uint32_t)p, block);
    memcpy(leader, place(p), BLOCK_LEADER);
    leader[below(4)] ^= (uint8_t)(1u << below(8));
    for (int i = 0; i < 4; i++) {
        nonce[i] = (uint8_t)(with->cartridge >> (24 - 8 * i));
        nonce[12 + i] = (uint8_t)(p >> (24 - 8 * i));
    }
    for (int i = 0; i < 8; i++)
        nonce[4 + i] = (uint8_t)(with->recording >> (56 - 8 * i));
    seal(with->key, SEAL_KEY, nonce, SEAL_NONCE, leader, BLOCK_LEADER,
         block->payload, BLOCK_PAYLOAD, place(p) + BLOCK_LEADER, BLOCK_PAYLOAD + SEAL_TAG);
    memcpy(place(p), leader, BLOCK_LEADER);
}

static void forge(size_t p)
{
    struct block block = draw_block();

    if (once_in(4))
        spoil(&block);
    if (once_in(25))
        misnumber(p, &block);
    else
        block_seal(place(p), &made.identity, (uint32_t)(once_in(25) ? p + 1 : p), &block);
}

/* A long record of 63 to 66 blocks, so far as the image goes, with or without
 * its last block, at the front, where it just ends with the image, or anywhere;
 * what stood behind it stays, or is blank and does not open. */
static void forge_long(void)
{
    size_t c = made.blocks;
    size_t n = once_in(3) ? 64 : 63 + below(4);
    size_t p = once_in(2) ? below(4) : once_in(2) ? (c - 62 - below(5)) % c : below(c);
    bool ends = once_in(2);

    for (size_t i = 0; i < n && p + i < c; i++) {
        struct block block = lawful_block(i == 0 ? KIND_START : KIND_CONTINUED,
                                          ends && i == n - 1);
        block_seal(place(p + i), &made.identity, (uint32_t)(p + i), &block);
    }
    if (p + n < c && once_in(2))
        memset(place(p + n), 0, BLOCK_BYTES);
}

static void flip(size_t p)
{
    static const size_t from[] = {0, 4, BLOCK_LEADER, BLOCK_LEADER + BLOCK_PAYLOAD, BLOCK_BYTES};
    size_t part = below(4);

    place(p)[from[part] + below(from[part + 1] - from[part])] ^= (uint8_t)(1u << below(8));
}

static void damage(void)
{
    size_t p = below(made.blocks), q = below(made.blocks);
    uint8_t kept[BLOCK_BYTES];

    switch (below(6)) {
    case 0:
        memcpy(kept, place(p), BLOCK_BYTES);
        memmove(place(p), place(q), BLOCK_BYTES);
        memcpy(place(q), kept, BLOCK_BYTES);
        break;
    case 1: memmove(place(p), place(q), BLOCK_BYTES); break;
    case 2: memset(place(p), 0, BLOCK_BYTES); break;
    case 3: fill(place(p), BLOCK_BYTES); break;
    default: flip(p); break;
    }
}

static void lay_image(void)
{
    size_t way = below(10);
    size_t dents = way < 2 || way == 8 ? 0 : way == 9 ? 1 : 1 + below(3);
    bool reaching = made.blocks >= LARGE && way >= 2;
    bool dented = once_in(3); /* the long record too */

    made.sort = way < 2 ? "whole" : way < 5 ? "damaged" : way < 8 ? "forged into" : "forged";
    if (way < 8)
        write_chain();
    for (size_t p = 0; way >= 8 && p < made.blocks; p++)
        forge(p);
    if (reaching && dented)
        forge_long();
    for (size_t i = 0; i < dents; i++) {
        if (way >= 5 && way < 8)
            forge(below(made.blocks));
        else
            damage();
    }
    if (reaching && !dented)
        forge_long();
}

/* Another key than the one it was written with, by a bit. */
static void draw_asked(void)
{
    static const size_t wrong[] = {0, 1, 16, 23, 25, 32, 48};
    size_t whole = made.blocks * BLOCK_BYTES;

    asked.image = whole;
    asked.key = SEAL_KEY;
    asked.id = made.identity.cartridge;
    asked.recording = made.identity.recording;
    switch (below(80)) {
    case 0: asked.image = whole - 1 - below(BLOCK_BYTES - 1); break;
    case 1: asked.image = (IMAGE_FEWEST - 1) * BLOCK_BYTES; break;
    case 2: asked.image = (IMAGE_MOST + 1) * BLOCK_BYTES; break;
    case 3: asked.image = once_in(2) ? 0 : whole + 1; break;
    case 4: asked.id ^= (uint32_t)1 << below(32); break;
    case 5: asked.recording ^= (uint64_t)1 << below(64); break;
    case 6: key.peer[GUARD + below(SEAL_KEY)] ^= (uint8_t)(1u << below(8)); break;
    case 7: case 8: case 9: case 10: case 11: case 12:
        asked.image = (1 + below(made.blocks)) * BLOCK_BYTES;
        break;
    default: break;
    }
    if (once_in(image_capacity(asked.image) == 0 ? 2 : 30))
        asked.key = wrong[below(sizeof wrong / sizeof wrong[0])];
}

static void draw_image(uint64_t number)
{
    bool large = number % LARGE_EVERY == 0;

    strip_noise(&image, ROOM);
    strip_noise(&key, 64);
    made.blocks = IMAGE_FEWEST + below(9);
    if (large)
        made.blocks = LARGE + below(once_in(4) ? IMAGE_MOST - LARGE + 1 : 9);
    made.identity.key = key.peer + GUARD;
    made.identity.key_length = SEAL_KEY;
    made.identity.cartridge = (uint32_t)draw();
    made.identity.recording = draw();
    lay_image();
    draw_asked();
    strip_copy(&image);
    strip_copy(&key);
}

/* Comparing. Each of these prints what differs and returns false. */

#define PEER_IMAGE image.peer + GUARD, asked.image
#define KIT_KEY key.kit + GUARD, asked.key, asked.id, asked.recording
#define KIT_IMAGE image.kit + GUARD, asked.image

static struct identity peer_key(void)
{
    struct identity identity = {key.peer + GUARD, asked.key, asked.id, asked.recording};

    return identity;
}

static bool same(const char *what, uint64_t peer, uint64_t kit)
{
    if (peer != kit)
        printf("%s: %s: peer %" PRIu64 ", library %" PRIu64 "\n", program, what, peer, kit);
    return peer == kit;
}

static bool same_part(const char *what, struct part peer, const uint8_t *front, nb_part kit)
{
    bool offset = same(what, (uint64_t)(peer.bytes - front), kit.offset);

    return same(what, peer.length, kit.length) && offset;
}

static enum sort sort_of(size_t p, const struct answer *answer)
{
    static const enum sort plain[] = {RECORD, MARK, END, BAD, STRAY};

    if (answer->outcome == OUTCOME_REFUSED)
        return REFUSED;
    if (answer->outcome != OUTCOME_CUT)
        return plain[answer->outcome];
    if (answer->next != answer->data)
        return CUT_BAD;
    if (answer->data == asked.image / BLOCK_BYTES)
        return CUT_IMAGE;
    return answer->data == p + RECORD_BLOCKS ? CUT_LIMIT : CUT_KIND;
}

static bool agree_part(size_t length)
{
    struct part peer = reader_record_part(out.peer + GUARD, out.length, length);
    nb_part kit = nb_record_part(out.kit + GUARD, out.length, length);

    return same_part("record part", peer, out.peer + GUARD, kit);
}

static bool agree_parts(size_t length)
{
    size_t n = out.length;

    return agree_part(length) && agree_part(length + 1) && agree_part(0)
           && agree_part(n) && agree_part(n + 1) && agree_part(n / 2)
           && agree_part(n - 1) && agree_part(SIZE_MAX) && agree_part((size_t)draw());
}

static bool agree_read(size_t p, size_t out_length)
{
    struct identity identity = peer_key();

    strip_noise(&out, out_length);
    strip_copy(&out);
    struct answer peer = reader_read(&identity, PEER_IMAGE, p, out.peer + GUARD, out_length);
    nb_got kit = nb_read(KIT_KEY, KIT_IMAGE, p, out.kit + GUARD, out_length);
    bool refused = peer.outcome == OUTCOME_REFUSED;
    bool agreed = same("read's outcome", peer.outcome, kit.outcome);

    agreed = same("read's number", refused ? peer.data : 0, kit.number) && agreed;
    agreed = same("read's data", refused ? 0 : peer.data, kit.data) && agreed;
    agreed = same("read's next", peer.next, kit.next) && agreed;
    counts[sort_of(p, &peer)]++;
    agreed = agree_parts(kit.data) && agreed;
    return !strip_differs(&out, program, "buffer") && agreed;
}

/* A buffer that will do, and at times one that will not. */
static bool agree_reads(size_t p)
{
    size_t spare = once_in(4) ? 1 + below(3000) : 0;
    bool agreed = agree_read(p, RECORD_BYTES + spare);

    if (agreed && once_in(10))
        agreed = agree_read(p, once_in(3) ? below(RECORD_BYTES) : RECORD_BYTES - 1);
    return agreed;
}

static bool agree_look(size_t p)
{
    struct part peer = reader_look(PEER_IMAGE, p);
    bool part = same_part("look", peer, image.peer + GUARD, nb_look(KIT_IMAGE, p));

    return same("look's number", reader_look_number(asked.image, p),
                nb_look_number(KIT_IMAGE, p)) && part;
}

static bool agree_space(size_t p, size_t n)
{
    struct identity identity = peer_key();
    struct spacing peer = reader_space(&identity, PEER_IMAGE, p, n);
    nb_spaced kit = nb_space(KIT_KEY, KIT_IMAGE, p, n);
    bool agreed = same("spacing's kind", peer.spaced, kit.kind);

    agreed = same("spacing's number", peer.number, kit.number) && agreed;
    agreed = same("spacing's position", peer.place, kit.position) && agreed;
    agreed = same("spacing's marks", peer.marks, kit.marks) && agreed;
    if (!agreed)
        printf("%s: over %" PRIu64 " marks\n", program, (uint64_t)n);
    return agreed;
}

/* Where it costs nothing, all the counts. Else no marks and one count more from
 * every position, and at times a third from 0. */
static bool agree_spaces(size_t p)
{
    static const size_t marks[] = {0, 1, 2, 3, 200, SIZE_MAX};
    size_t c = asked.image / BLOCK_BYTES;

    for (size_t i = 0; p >= c && i < sizeof marks / sizeof marks[0]; i++)
        if (!agree_space(p, marks[i]))
            return false;
    if (p >= c)
        return true;
    if (!agree_space(p, 0))
        return false;
    if (p == 0 && once_in(2) && !agree_space(p, 200))
        return false;
    return agree_space(p, marks[1 + below(4)]);
}

static bool agree_report(void)
{
    struct identity identity = peer_key();
    struct report peer = reader_report(&identity, PEER_IMAGE);
    nb_tally kit = nb_report(KIT_KEY, KIT_IMAGE);
    bool agreed = same("report's number", peer.number, kit.number);

    agreed = same("report's records", peer.counts[OUTCOME_RECORD], kit.records) && agreed;
    agreed = same("report's marks", peer.counts[OUTCOME_MARK], kit.marks) && agreed;
    agreed = same("report's ends", peer.counts[OUTCOME_END], kit.ends) && agreed;
    agreed = same("report's bads", peer.counts[OUTCOME_BAD], kit.bads) && agreed;
    agreed = same("report's strays", peer.counts[OUTCOME_STRAY], kit.strays) && agreed;
    return same("report's cuts", peer.counts[OUTCOME_CUT], kit.cuts) && agreed;
}

static bool lent_whole(void)
{
    bool differs = strip_differs(&image, program, "image");

    return !strip_differs(&key, program, "key") && !differs;
}

static bool agree_at(size_t p)
{
    bool agreed = agree_reads(p) && agree_look(p) && agree_spaces(p);

    agreed = lent_whole() && agreed;
    if (!agreed)
        printf("%s: at position %" PRIu64 "\n", program, (uint64_t)p);
    return agreed;
}

/* Every position, and those beyond: some that look right in their low bits, or
 * once they are counted in bytes. */
static bool agree(void)
{
    size_t c = asked.image / BLOCK_BYTES;
    const size_t beyond[] = {
        c, c + 1, IMAGE_MOST, SIZE_MAX, SIZE_MAX - below(70),
        (SIZE_MAX >> 9) + 1 + below(c + 1), ((size_t)1 << 32) + below(c + 1),
    };

    for (size_t p = 0; p < c; p++)
        if (!agree_at(p))
            return false;
    for (size_t i = 0; i < sizeof beyond / sizeof beyond[0]; i++)
        if (!agree_at(beyond[i]))
            return false;
    bool agreed = agree_report();
    return lent_whole() && agreed;
}

static void print_image(uint64_t seed, uint64_t number)
{
    printf("%s: DIFFERENT at image %" PRIu64 " of seed %" PRIu64 ": %s, %lu blocks; lengths: "
           "image %lu, key %lu\n", program, number, seed, made.sort,
           (unsigned long)made.blocks, (unsigned long)asked.image, (unsigned long)asked.key);
}

static bool all_came_up(void)
{
    bool all = true;

    for (int i = 0; i < SORTS; i++) {
        if (counts[i] > 0)
            continue;
        printf("%s: never came up: %s\n", program, sorts[i]);
        all = false;
    }
    return all;
}

static void print_agreed(uint64_t seed, uint64_t images)
{
    uint64_t reads = 0;

    for (int i = 0; i < SORTS; i++)
        reads += counts[i];
    printf("%s: %" PRIu64 " images, %" PRIu64 " reads (", program, images, reads);
    for (int i = 0; i < SORTS; i++)
        printf("%s%s %" PRIu64, i > 0 ? ", " : "", sorts[i], counts[i]);
    printf(") agree (seed %" PRIu64 ")\n", seed);
}

int main(int argc, char **argv)
{
    uint64_t seed = DEFAULT_SEED, images = DEFAULT_IMAGES;

    if (!take_arguments(argc, argv, &seed, &images)) {
        fputs("usage: compare-images [SEED [IMAGES]]\n", stderr);
        return 2;
    }
    reseed(seed);
    for (uint64_t i = 0; i < images; i++) {
        draw_image(i);
        if (!agree()) {
            print_image(seed, i);
            return 1;
        }
    }
    if (!all_came_up())
        return 1;
    print_agreed(seed, images);
    return 0;
}
