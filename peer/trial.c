/* The peer's writer and reader on trial: the format's edges, the damaged and
 * the forged chain, and random recordings played back. Exit 0 if all hold. */
#include <stdio.h>
#include <string.h>

#include "reader.h"
#include "seal.h"
#include "writer.h"

#define MOST_BYTES (IMAGE_MOST * BLOCK_BYTES)

static const uint8_t key[SEAL_KEY] = "the key of the trial...";
static const struct identity identity = {key, SEAL_KEY, 7, 9};
static uint8_t image[MOST_BYTES], before[MOST_BYTES];
static uint8_t programme[RECORD_BYTES + 1], heard[RECORD_BYTES + 8];
static int checks, faults;

static void check(const char *what, bool holds)
{
    checks++;
    if (!holds) {
        faults++;
        printf("trial: %s FAILS\n", what);
    }
}

static struct writer start(uint64_t blocks, uint64_t zone)
{
    return writer_start(image, blocks * BLOCK_BYTES, 7, 9, zone).writer;
}

static struct reply record(struct writer writer, size_t length)
{
    return writer_record(writer, image, writer.capacity * BLOCK_BYTES, key, SEAL_KEY,
                         programme, length);
}

static struct reply mark(struct writer writer)
{
    return writer_mark(writer, image, writer.capacity * BLOCK_BYTES, key, SEAL_KEY);
}

static struct reply finish(struct writer writer)
{
    return writer_close(writer, image, writer.capacity * BLOCK_BYTES, key, SEAL_KEY);
}

static bool answers(uint64_t blocks, uint64_t p, enum outcome outcome,
                    uint64_t data, uint64_t next)
{
    struct answer a = reader_read(&identity, image, blocks * BLOCK_BYTES, p,
                                  heard, sizeof heard);

    return a.outcome == outcome && a.data == data && a.next == next;
}

static bool refused(struct reply reply, uint8_t number)
{
    return reply.result == RESULT_REFUSED && reply.number == number;
}

static void try_fitting(void)
{
    struct writer writer = start(16, 4);

    check("P10, one block", record(writer, 488).writer.position == 1);
    check("P10, two blocks", record(writer, 489).writer.position == 2);
    check("P10, 64 blocks", record(start(128, 4), RECORD_BYTES).writer.position == 64);
    writer = start(16, 4);
    writer.position = 11;
    check("P11, position 12", record(writer, 1).result == RESULT_PLAIN);
    check("position 12 behind a mark", mark(writer).result == RESULT_PLAIN);
    writer.position = 12;
    check("P11, position 13", record(writer, 1).result == RESULT_WARNED);
    check("position 13 behind a mark", mark(writer).result == RESULT_WARNED);
    check("a closing carries no warning", finish(writer).result == RESULT_PLAIN);
    writer.position = 13;
    check("P12, at 13", record(writer, 489).result == RESULT_WARNED);
    writer.position = 14;
    check("P12, at 14", refused(record(writer, 489), 5));
    writer.position = 15;
    check("the held block takes no mark", refused(mark(writer), 5));
    check("the held block takes the end", finish(writer).writer.position == 16);
}

static void try_writer_refusals(void)
{
    struct writer writer = start(4, 1), odd;
    struct reply none = writer_start(image, 3 * BLOCK_BYTES, 7, 9, 1);

    check("three blocks", refused(none, 1) && none.writer.closed
          && none.writer.cartridge == 0 && none.writer.recording == 0);
    check("zone 0", refused(writer_start(image, 4 * BLOCK_BYTES, 7, 9, 0), 3));
    check("zone c", refused(writer_start(image, 4 * BLOCK_BYTES, 7, 9, 4), 3));
    check("a refused start is lawful nowhere",
          refused(writer_mark(none.writer, image, 2048, key, SEAL_KEY), 8));
    check("length 0", refused(record(writer, 0), 4));
    check("length 31,233", refused(record(writer, RECORD_BYTES + 1), 4));
    odd = writer;
    odd.position = UINT64_MAX;
    check("a far position", refused(record(odd, 1), 8));
    odd.position = 4;
    check("open at c", refused(mark(odd), 8));
    odd.closed = true;
    check("closed at c", refused(record(odd, 0), 6));
    odd.position = 0;
    check("closed at 0", refused(finish(odd), 8));
    odd = writer;
    odd.marks = 1;
    check("more marks than blocks", refused(mark(odd), 8));
    odd.position = 1;
    check("as many marks as blocks", mark(odd).result == RESULT_PLAIN);
    odd.closed = true;
    check("closed, as many", refused(mark(odd), 6));
    odd.marks = 2;
    check("closed, more", refused(mark(odd), 8));
    check("2 before 8", refused(writer_close(odd, image, 2048, key, 23), 2));
    check("1 before 2", refused(writer_close(odd, image, 2047, key, 23), 1));
}

/* record 5, record 489, mark, record 1464, end: blocks 0, 1-2, 3, 4-6, 7. */
static void lay_programme(void)
{
    struct writer writer = start(8, 3);

    writer = record(writer, 5).writer;
    writer = record(writer, 489).writer;
    writer = mark(writer).writer;
    writer = record(writer, 1464).writer;
    finish(writer);
}

static void try_sound(void)
{
    struct report report;

    lay_programme();
    memset(heard, 0xEE, sizeof heard);
    check("record of one block", answers(8, 0, OUTCOME_RECORD, 5, 1));
    check("record of two", answers(8, 1, OUTCOME_RECORD, 489, 3)
          && memcmp(heard, programme, 489) == 0
          && heard[489] == 0 && heard[RECORD_BYTES - 1] == 0
          && heard[RECORD_BYTES] == 0xEE);
    check("stray", answers(8, 2, OUTCOME_STRAY, 0, 3) && heard[0] == 0);
    check("mark", answers(8, 3, OUTCOME_MARK, 0, 4));
    check("record of three", answers(8, 4, OUTCOME_RECORD, 1464, 7));
    check("end", answers(8, 7, OUTCOME_END, 0, 7));
    check("read at c", answers(8, 8, OUTCOME_REFUSED, 8, 8));
    report = reader_report(&identity, image, 8 * BLOCK_BYTES);
    check("report", report.number == 0 && report.counts[OUTCOME_RECORD] == 3
          && report.counts[OUTCOME_MARK] == 1 && report.counts[OUTCOME_END] == 1
          && report.counts[OUTCOME_BAD] + report.counts[OUTCOME_STRAY]
             + report.counts[OUTCOME_CUT] == 0);
}

static void try_damaged(void)
{
    lay_programme();
    image[2 * BLOCK_BYTES + 100] ^= 1;
    check("cut at a block that doesn't open", answers(8, 1, OUTCOME_CUT, 2, 3));
    check("bad", answers(8, 2, OUTCOME_BAD, 0, 3));
    lay_programme();
    memcpy(image + 3 * BLOCK_BYTES, image + 7 * BLOCK_BYTES, BLOCK_BYTES);
    check("a block out of its place", answers(8, 3, OUTCOME_BAD, 0, 4));
    memset(image, 0, 8 * BLOCK_BYTES);
    check("zeros", answers(8, 0, OUTCOME_BAD, 0, 1));
}

static bool spaces(uint64_t p, uint64_t n, enum spaced how, uint64_t marks, uint64_t place)
{
    struct spacing s = reader_space(&identity, image, 8 * BLOCK_BYTES, p, n);

    return s.spaced == how && s.marks == marks && s.place == place;
}

static void forge(uint64_t number, uint8_t kind, uint8_t last, uint16_t used)
{
    struct block block;

    memset(&block, 0, sizeof block);
    block.kind = kind;
    block.last = last;
    block.used = used;
    block_seal(image + BLOCK_BYTES * number, &identity, (uint32_t)number, &block);
}

static void try_spacing(void)
{
    lay_programme();
    check("no marks", spaces(5, 0, SPACED_AT, 0, 5));
    check("one mark", spaces(0, 1, SPACED_AT, 0, 4));
    check("short of two", spaces(0, 2, SPACED_SHORT, 1, 7));
    check("short from the end", spaces(7, UINT64_MAX, SPACED_SHORT, 0, 7));
    check("refused at c", spaces(8, 0, SPACED_REFUSED, 0, 8));
    forge(7, KIND_MARK, 0, 0);
    check("the mark in the last block", spaces(4, 1, SPACED_AT, 0, 8));
    check("short at c", spaces(0, 3, SPACED_SHORT, 2, 8));
}

static void try_forged(void)
{
    static const struct { uint8_t kind, last; uint16_t used; } unlawful[] = {
        {0, 0, 0}, {5, 0, 0}, {1, 0, 487}, {1, 1, 0}, {1, 1, 489}, {1, 2, 488},
        {2, 0, 1}, {3, 1, 0}, {3, 0, 1}, {4, 1, 0}, {4, 0, 488}, {1, 255, 1},
    };

    start(8, 1);
    for (size_t i = 0; i < sizeof unlawful / sizeof unlawful[0]; i++) {
        forge(0, unlawful[i].kind, unlawful[i].last, unlawful[i].used);
        check("an unlawful block", answers(8, 0, OUTCOME_BAD, 0, 1));
    }
    forge(1, KIND_START, 0, 488);
    forge(2, KIND_START, 1, 3);
    check("cut at a block that opened", answers(8, 1, OUTCOME_CUT, 2, 2));
    check("and the sound record there", answers(8, 2, OUTCOME_RECORD, 3, 3));
    forge(7, KIND_START, 0, 488);
    check("cut at c", answers(8, 7, OUTCOME_CUT, 8, 8));
    start(128, 1);
    forge(1, KIND_START, 0, 488);
    for (uint64_t q = 2; q < 70; q++)
        forge(q, KIND_CONTINUED, 0, 488);
    check("cut at 64 blocks", answers(128, 1, OUTCOME_CUT, 65, 65));
    forge(64, KIND_CONTINUED, 1, 488);
    check("record of 64 blocks", answers(128, 1, OUTCOME_RECORD, RECORD_BYTES, 65));
}

static uint64_t turn = 20150828;

static uint64_t draw(uint64_t below)
{
    turn ^= turn << 13;
    turn ^= turn >> 7;
    turn ^= turn << 17;
    return turn % below;
}

/* Only the item's own blocks may have changed since the last look. */
static bool only_between(uint64_t from, uint64_t to)
{
    bool kept = memcmp(image, before, from * BLOCK_BYTES) == 0
                && memcmp(image + to * BLOCK_BYTES, before + to * BLOCK_BYTES,
                          MOST_BYTES - to * BLOCK_BYTES) == 0;

    memcpy(before, image, MOST_BYTES);
    return kept;
}

/* One random recording; what was accepted is kept to be held against. */
static size_t lay_random(uint64_t blocks, struct answer kept[IMAGE_MOST])
{
    struct writer writer = start(blocks, 1 + draw(blocks - 1));
    size_t count = 0;

    memcpy(before, image, MOST_BYTES);
    for (int item = 0; item < 12; item++) {
        bool is_mark = draw(4) == 0;
        size_t length = 1 + draw(draw(3) ? 1500 : RECORD_BYTES);
        struct reply reply = is_mark ? mark(writer) : record(writer, length);
        check("own blocks alone", only_between(writer.position, reply.writer.position));
        check("a mark counts where it was taken", reply.writer.marks - writer.marks
              == (is_mark && reply.result != RESULT_REFUSED));
        if (reply.result != RESULT_REFUSED) {
            struct answer made = {is_mark ? OUTCOME_MARK : OUTCOME_RECORD,
                                  is_mark ? 0 : length, reply.writer.position};
            kept[count++] = made;
        }
        writer = reply.writer;
    }
    struct answer end = {OUTCOME_END, 0, writer.position};
    kept[count++] = end;
    check("closed", finish(writer).result == RESULT_PLAIN);
    return count;
}

static void try_random(void)
{
    struct answer kept[IMAGE_MOST], walked[IMAGE_MOST];

    for (int recording = 0; recording < 200; recording++) {
        uint64_t blocks = IMAGE_FEWEST + draw(IMAGE_MOST - IMAGE_FEWEST + 1);
        size_t count = lay_random(blocks, kept), found = 0;
        check("walked", reader_walk(&identity, image, blocks * BLOCK_BYTES,
                                    walked, &found) == 0 && found == count);
        for (size_t i = 0; i < count && i < found; i++)
            check("the accepted items come back",
                  walked[i].outcome == kept[i].outcome && walked[i].data == kept[i].data
                  && walked[i].next == kept[i].next);
    }
}

int main(void)
{
    for (size_t i = 0; i < sizeof programme; i++)
        programme[i] = (uint8_t)(1 + i % 251);
    try_fitting();
    try_writer_refusals();
    try_sound();
    try_damaged();
    try_spacing();
    try_forged();
    try_random();
    printf("trial: %d checks, %d fail\n", checks, faults);
    return faults != 0;
}
