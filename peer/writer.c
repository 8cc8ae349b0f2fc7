#include "writer.h"

#include <string.h>

#include "seal.h"

static struct reply refused(struct writer writer, uint8_t number)
{
    struct reply reply = {writer, RESULT_REFUSED, number};

    return reply;
}

static struct reply accepted(struct writer writer, enum result result)
{
    struct reply reply = {writer, result, 0};

    return reply;
}

bool writer_lawful(struct writer writer, size_t image_length)
{
    uint64_t c = image_capacity(image_length);

    if (c == 0 || writer.capacity != c || writer.zone < 1 || writer.zone > c - 1)
        return false;
    if (writer.marks > writer.position)
        return false;
    if (writer.closed)
        return writer.position >= 1 && writer.position <= c;
    return writer.position <= c - 1;
}

/* The causes that record, mark and close have in common, in their order. */
static uint8_t common_cause(struct writer writer, size_t image_length, size_t key_length)
{
    if (image_capacity(image_length) == 0)
        return 1;
    if (key_length != SEAL_KEY)
        return 2;
    if (!writer_lawful(writer, image_length))
        return 8;
    return writer.closed ? 6 : 0;
}

/* For a lawful open state: its numbers are small by now. The last block is
 * held for the end of data. */
static bool fits(struct writer writer, uint64_t blocks)
{
    return writer.position + blocks <= writer.capacity - 1;
}

static void lay_block(struct writer *writer, uint8_t *image, const uint8_t *key,
                      const struct block *block)
{
    struct identity identity = {key, SEAL_KEY, writer->cartridge, writer->recording};

    block_seal(image + BLOCK_BYTES * writer->position, &identity,
               (uint32_t)writer->position, block);
    writer->position++;
}

/* A mark or the end of data: a block with nothing in it. */
static void lay_blank(struct writer *writer, uint8_t *image, const uint8_t *key,
                      enum block_kind kind)
{
    struct block block;

    memset(&block, 0, sizeof block);
    block.kind = (uint8_t)kind;
    lay_block(writer, image, key, &block);
}

static void lay_record(struct writer *writer, uint8_t *image, const uint8_t *key,
                       const uint8_t *record, size_t length)
{
    struct block block;

    for (size_t from = 0; from < length; from += BLOCK_PAYLOAD) {
        size_t left = length - from;
        memset(&block, 0, sizeof block);
        block.kind = from == 0 ? KIND_START : KIND_CONTINUED;
        block.last = left <= BLOCK_PAYLOAD;
        block.used = (uint16_t)(block.last ? left : BLOCK_PAYLOAD);
        memcpy(block.payload, record + from, block.used);
        lay_block(writer, image, key, &block);
    }
}

/* A record and a mark are warned alike, by the position behind them. */
static enum result by_place(const struct writer *writer)
{
    return writer->position > writer->capacity - writer->zone ? RESULT_WARNED : RESULT_PLAIN;
}

struct reply writer_start(uint8_t *image, size_t image_length,
                          uint32_t cartridge, uint64_t recording, uint64_t zone)
{
    struct writer none = {0, 0, 0, 0, 0, true, 0};
    uint64_t c = image_capacity(image_length);
    struct writer writer = {cartridge, recording, c, zone, 0, false, 0};

    if (c == 0)
        return refused(none, 1);
    if (zone < 1 || zone > c - 1)
        return refused(none, 3);
    memset(image, 0, image_length);
    return accepted(writer, RESULT_PLAIN);
}

struct reply writer_record(struct writer writer, uint8_t *image, size_t image_length,
                           const uint8_t *key, size_t key_length,
                           const uint8_t *record, size_t record_length)
{
    uint8_t number = common_cause(writer, image_length, key_length);

    if (number != 0)
        return refused(writer, number);
    if (record_length == 0 || record_length > RECORD_BYTES)
        return refused(writer, 4);
    if (!fits(writer, (record_length + BLOCK_PAYLOAD - 1) / BLOCK_PAYLOAD))
        return refused(writer, 5);
    lay_record(&writer, image, key, record, record_length);
    return accepted(writer, by_place(&writer));
}

struct reply writer_mark(struct writer writer, uint8_t *image, size_t image_length,
                         const uint8_t *key, size_t key_length)
{
    uint8_t number = common_cause(writer, image_length, key_length);

    if (number != 0)
        return refused(writer, number);
    if (!fits(writer, 1))
        return refused(writer, 5);
    lay_blank(&writer, image, key, KIND_MARK);
    writer.marks++;
    return accepted(writer, by_place(&writer));
}

struct reply writer_close(struct writer writer, uint8_t *image, size_t image_length,
                          const uint8_t *key, size_t key_length)
{
    uint8_t number = common_cause(writer, image_length, key_length);

    if (number != 0)
        return refused(writer, number);
    lay_blank(&writer, image, key, KIND_END);
    writer.closed = true;
    return accepted(writer, RESULT_PLAIN);
}
