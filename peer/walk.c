/* walk IMAGE KEY ID RECORDING: the peer's own version of the program `walk`: its page on standard output, and its status, 0 clean, 1 damage,
 * 2 refused. Arguments and files are trusted here: what the program says of bad ones, tests/programs has.
 * walk --reels FOLDER SEED COUNT: the images that it is tried on, all of cartridge 7 and recording 2026, and their key: every outcome once
 * (spoiled), a clean one, a full one of 128 blocks, one that is still open, and COUNT random ones, random-0 and on. */
#include <inttypes.h>
#include <stdio.h>
#include <stdlib.h>
#include <string.h>

#include "random.h"
#include "reader.h"
#include "writer.h"

#define CARTRIDGE 7
#define RECORDING 2026
#define ROW 32

static uint8_t key[24], reel[RECORD_BYTES], image[IMAGE_MOST * BLOCK_BYTES + 1];

static struct identity identity = {key, sizeof key, CARTRIDGE, RECORDING};

/* ---- The page. */
static void paint(char *picture, uint64_t from, uint64_t to, char c)
{
    for (uint64_t p = from; p < to; p++)
        picture[p] = c;
}

/* Every block gets the character of the answer that passes over it. */
static void paint_answer(char *picture, uint64_t position, struct answer answer)
{
    static const char glyphs[] = "RMExsc";

    paint(picture, position, position + 1, glyphs[answer.outcome]);
    if (answer.outcome == OUTCOME_RECORD)
        paint(picture, position + 1, answer.next, 'r');
    if (answer.outcome == OUTCOME_CUT) {
        paint(picture, position, answer.data, 'c');
        paint(picture, answer.data, answer.next, 'x');
    }
}

static void print_picture(const struct answer *answers, size_t count, size_t blocks)
{
    char picture[IMAGE_MOST];
    uint64_t position = 0;

    paint(picture, 0, blocks, '.');
    for (size_t i = 0; i < count; i++) {
        paint_answer(picture, position, answers[i]);
        position = answers[i].next;
    }
    for (size_t row = 0; row < blocks; row += ROW)
        printf("%2zu  %.*s\n", row, (int)(blocks - row < ROW ? blocks - row : ROW), picture + row);
    puts("R record, r its other blocks, M mark, E end of data, x bad, s stray, c cut, . unused\n");
}

static void print_list(const struct answer *answers, size_t count)
{
    static const char *const names[] = {"record", "mark", "end", "bad", "stray", "cut"};
    uint64_t position = 0;

    for (size_t i = 0; i < count; i++) {
        printf("%" PRIu64 " %s", position, names[answers[i].outcome]);
        if (answers[i].outcome == OUTCOME_RECORD || answers[i].outcome == OUTCOME_CUT)
            printf(" %" PRIu64, answers[i].data);
        putchar('\n');
        position = answers[i].next;
    }
}

/* The counts, what to do, and the status. */
static int print_report(const uint64_t *counts)
{
    uint64_t damage = counts[OUTCOME_BAD] + counts[OUTCOME_STRAY] + counts[OUTCOME_CUT];
    uint64_t all = counts[OUTCOME_RECORD] + counts[OUTCOME_MARK] + counts[OUTCOME_END] + damage;

    printf("records %" PRIu64 " marks %" PRIu64 " ends %" PRIu64 " bads %" PRIu64 " strays %" PRIu64 " cuts %" PRIu64 "\n\n",
           counts[OUTCOME_RECORD], counts[OUTCOME_MARK], counts[OUTCOME_END], counts[OUTCOME_BAD],
           counts[OUTCOME_STRAY], counts[OUTCOME_CUT]);
    if (counts[OUTCOME_BAD] == all)
        puts("Nothing opens: the key, the cartridge id or the recording number may be wrong.");
    else if (counts[OUTCOME_END] == 0)
        puts("No end of data: the image may be cut short, or the recording was not closed.");
    else if (damage > 0)
        puts("Damaged: what is listed as a record or a mark is whole; blocks shown as x, s and c are lost.");
    else
        puts("Clean: end of data was met, and nothing before it is damaged.");
    return damage > 0 || counts[OUTCOME_END] == 0;
}

static int print_page(size_t length)
{
    struct answer answers[IMAGE_MOST];
    size_t count;
    struct report report = reader_report(&identity, image, length);

    if (report.number != 0 || reader_walk(&identity, image, length, answers, &count) != 0)
        return 2;
    printf("cartridge %" PRIu32 ", recording %" PRIu64 ", blocks %zu\n\n", identity.cartridge, identity.recording, length / BLOCK_BYTES);
    print_picture(answers, count, length / BLOCK_BYTES);
    print_list(answers, count);
    return print_report(report.counts);
}

/* ---- Files. */
static size_t load(const char *name, uint8_t *bytes, size_t room)
{
    FILE *file = strcmp(name, "-") == 0 ? stdin : fopen(name, "rb");
    size_t length = file ? fread(bytes, 1, room, file) : 0;

    if (file && file != stdin)
        fclose(file);
    return length;
}

static void save(const char *folder, const char *name, const uint8_t *bytes, size_t length)
{
    char path[4096];
    FILE *file;

    snprintf(path, sizeof path, "%s/%s", folder, name);
    file = fopen(path, "wb");
    if (!file || fwrite(bytes, 1, length, file) != length || fclose(file) != 0) {
        fprintf(stderr, "walk: can't write %s\n", path);
        exit(2);
    }
}

/* ---- Reels. */
static struct writer writer;
static size_t length;

static void begin(size_t blocks)
{
    length = blocks * BLOCK_BYTES;
    writer = writer_start(image, length, CARTRIDGE, RECORDING, 1).writer;
}

static bool record(size_t n)
{
    struct reply reply = writer_record(writer, image, length, key, sizeof key, reel, n);

    writer = reply.writer;
    return reply.result != RESULT_REFUSED;
}

static void mark(void)
{
    writer = writer_mark(writer, image, length, key, sizeof key).writer;
}

static void end(void)
{
    writer = writer_close(writer, image, length, key, sizeof key).writer;
}

static void forge(uint32_t place, uint8_t kind, uint8_t last, uint16_t used)
{
    struct block block = {kind, last, used, {0}};

    memset(block.payload, 0x5A, used);
    block_seal(image + place * BLOCK_BYTES, &identity, place, &block);
}

/* Records of 1, 2 and 4 blocks and marks, with or without a closing. */
static void write_reel(bool closed)
{
    begin(16);
    record(5);    /* 0 */
    record(600);  /* 1, 2 */
    mark();       /* 3 */
    record(976);  /* 4, 5 */
    record(488);  /* 6 */
    mark();       /* 7 */
    record(1);    /* 8 */
    mark();       /* 9 */
    record(1900); /* 10 to 13 */
    if (closed)
        end(); /* 14 */
}

/* Blocks 2 and 6 are damaged, block 5 zeroed, and with the key in hand a stray is forged at 9 and a mark into the long record at 12: every
 * outcome comes up. */
static void spoil_reel(void)
{
    image[2 * BLOCK_BYTES + 100] ^= 0x10;
    image[6 * BLOCK_BYTES + 3] ^= 0x01;
    memset(image + 5 * BLOCK_BYTES, 0, BLOCK_BYTES);
    forge(9, KIND_CONTINUED, 1, 3);
    forge(12, KIND_MARK, 0, 0);
}

/* To the last block: a record of 64 blocks is the longest, and 63 more fit. */
static void write_full(void)
{
    begin(IMAGE_MOST);
    record(RECORD_BYTES);
    while (record(488 * below(5) + 1))
        if (once_in(4))
            mark();
    end();
}

static void spoil(size_t blocks)
{
    size_t p = below(blocks), q = below(blocks);
    uint8_t kept[BLOCK_BYTES];

    switch (below(4)) {
    case 0:
        image[p * BLOCK_BYTES + below(BLOCK_BYTES)] ^= (uint8_t)(1u << below(8));
        break;
    case 1:
        memset(image + p * BLOCK_BYTES, 0, BLOCK_BYTES);
        break;
    case 2:
        memcpy(kept, image + p * BLOCK_BYTES, BLOCK_BYTES);
        memcpy(image + p * BLOCK_BYTES, image + q * BLOCK_BYTES, BLOCK_BYTES);
        memcpy(image + q * BLOCK_BYTES, kept, BLOCK_BYTES);
        break;
    default:
        forge((uint32_t)p, (uint8_t)(1 + below(3)), 1, 0);
        break;
    }
}

static void write_random(void)
{
    size_t blocks = IMAGE_FEWEST + below(once_in(4) ? IMAGE_MOST - IMAGE_FEWEST + 1 : 20);

    begin(blocks);
    while (record(1 + below(488 * (1 + below(blocks)))) && !once_in(blocks))
        if (once_in(3))
            mark();
    if (!once_in(5))
        end();
    for (size_t n = below(4); n > 0; n--)
        spoil(blocks);
    if (once_in(8) && blocks > IMAGE_FEWEST)
        length -= BLOCK_BYTES * (1 + below(blocks - IMAGE_FEWEST));
}

static int reels(const char *folder, uint64_t seed, uint64_t count)
{
    char name[64];

    for (size_t i = 0; i < sizeof key; i++)
        key[i] = (uint8_t)(3 * i + 1);
    for (size_t i = 0; i < sizeof reel; i++)
        reel[i] = (uint8_t)(i * 5 + 2);
    save(folder, "key", key, sizeof key);
    write_reel(true);
    save(folder, "clean", image, length);
    spoil_reel();
    save(folder, "spoiled", image, length);
    write_reel(false);
    save(folder, "open", image, length);
    reseed(seed);
    write_full();
    save(folder, "full", image, length);
    for (uint64_t i = 0; i < count; i++) {
        write_random();
        snprintf(name, sizeof name, "random-%" PRIu64, i);
        save(folder, name, image, length);
    }
    return 0;
}

int main(int argc, char **argv)
{
    if (argc != 5)
        return 2;
    if (strcmp(argv[1], "--reels") == 0)
        return reels(argv[2], strtoull(argv[3], NULL, 10), strtoull(argv[4], NULL, 10));
    identity.cartridge = (uint32_t)strtoull(argv[3], NULL, 10);
    identity.recording = strtoull(argv[4], NULL, 10);
    identity.key_length = load(argv[2], key, sizeof key);
    return print_page(load(argv[1], image, sizeof image));
}
