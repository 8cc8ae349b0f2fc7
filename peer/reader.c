#include "reader.h"

#include <string.h>

#include "seal.h"

/* A loaded cartridge whose image and key are known to be of lawful length. */
struct loaded {
    const struct identity *identity;
    const uint8_t *image;
    uint64_t capacity;
};

static struct answer answer(enum outcome outcome, uint64_t data, uint64_t next)
{
    struct answer made = {outcome, data, next};

    return made;
}

static bool opens(const struct loaded *loaded, uint64_t place, struct block *block)
{
    return block_opens(loaded->image + BLOCK_BYTES * place, loaded->identity,
                       (uint32_t)place, block);
}

static void gather(uint8_t gathered[RECORD_BYTES], uint64_t *length,
                   const struct block *block)
{
    memcpy(gathered + *length, block->payload, block->used);
    *length += block->used;
}

/* A start that wasn't the record's last block stands at p; its payload is
 * gathered. Only a full chain fills 64 blocks, so `gathered` has the room. */
static struct answer follow(const struct loaded *loaded, uint64_t p,
                            uint8_t gathered[RECORD_BYTES], uint64_t length)
{
    struct block block;

    for (uint64_t q = p + 1;; q++) {
        if (q == loaded->capacity || q == p + RECORD_BLOCKS)
            return answer(OUTCOME_CUT, q, q);
        if (!opens(loaded, q, &block))
            return answer(OUTCOME_CUT, q, q + 1);
        if (block.kind != KIND_CONTINUED)
            return answer(OUTCOME_CUT, q, q);
        gather(gathered, &length, &block);
        if (block.last)
            return answer(OUTCOME_RECORD, length, q + 1);
    }
}

static struct answer read_at(const struct loaded *loaded, uint64_t p,
                             uint8_t gathered[RECORD_BYTES])
{
    struct block block;
    uint64_t length = 0;

    if (!opens(loaded, p, &block))
        return answer(OUTCOME_BAD, 0, p + 1);
    switch (block.kind) {
    case KIND_CONTINUED: return answer(OUTCOME_STRAY, 0, p + 1);
    case KIND_MARK: return answer(OUTCOME_MARK, 0, p + 1);
    case KIND_END: return answer(OUTCOME_END, 0, p);
    default: break;
    }
    gather(gathered, &length, &block);
    if (block.last)
        return answer(OUTCOME_RECORD, length, p + 1);
    return follow(loaded, p, gathered, length);
}

/* Causes 1 and 2, and the cartridge loaded where there is none. */
static uint8_t load(struct loaded *loaded, const struct identity *identity,
                    const uint8_t *image, size_t image_length)
{
    loaded->identity = identity;
    loaded->image = image;
    loaded->capacity = image_capacity(image_length);
    if (loaded->capacity == 0)
        return 1;
    return identity->key_length == SEAL_KEY ? 0 : 2;
}

struct answer reader_read(const struct identity *identity,
                          const uint8_t *image, size_t image_length,
                          uint64_t position, uint8_t *out, size_t out_length)
{
    uint8_t gathered[RECORD_BYTES];
    struct loaded loaded;
    uint8_t number = load(&loaded, identity, image, image_length);

    if (number == 0 && out_length < RECORD_BYTES)
        number = 2;
    if (number == 0 && position >= loaded.capacity)
        number = 8;
    if (number != 0)
        return answer(OUTCOME_REFUSED, number, position);
    struct answer found = read_at(&loaded, position, gathered);
    memset(out, 0, RECORD_BYTES);
    if (found.outcome == OUTCOME_RECORD)
        memcpy(out, gathered, (size_t)found.data);
    return found;
}

struct part reader_record_part(const uint8_t *out, size_t out_length, uint64_t length)
{
    struct part part = {out, length <= out_length ? (size_t)length : 0};

    return part;
}

uint8_t reader_look_number(size_t image_length, uint64_t position)
{
    uint64_t c = image_capacity(image_length);

    if (c == 0)
        return 1;
    return position < c ? 0 : 8;
}

struct part reader_look(const uint8_t *image, size_t image_length, uint64_t position)
{
    struct part part = {image, 0};

    if (reader_look_number(image_length, position) == 0) {
        part.bytes += BLOCK_BYTES * position;
        part.length = BLOCK_BYTES;
    }
    return part;
}

static struct spacing spaced(enum spaced how, uint64_t marks, uint64_t place, uint8_t number)
{
    struct spacing made = {how, marks, place, number};

    return made;
}

struct spacing reader_space(const struct identity *identity,
                            const uint8_t *image, size_t image_length,
                            uint64_t position, uint64_t marks)
{
    uint8_t gathered[RECORD_BYTES];
    struct loaded loaded;
    uint64_t p = position, passed = 0;
    uint8_t number = load(&loaded, identity, image, image_length);

    if (number == 0 && position >= loaded.capacity)
        number = 8;
    if (number != 0)
        return spaced(SPACED_REFUSED, 0, position, number);
    while (passed < marks && p < loaded.capacity) {
        struct answer found = read_at(&loaded, p, gathered);
        if (found.outcome == OUTCOME_END)
            return spaced(SPACED_SHORT, passed, p, 0);
        if (found.outcome == OUTCOME_MARK)
            passed++;
        p = found.next;
    }
    if (passed < marks)
        return spaced(SPACED_SHORT, passed, p, 0);
    return spaced(SPACED_AT, 0, p, 0);
}

uint8_t reader_walk(const struct identity *identity,
                    const uint8_t *image, size_t image_length,
                    struct answer answers[IMAGE_MOST], size_t *count)
{
    uint8_t gathered[RECORD_BYTES];
    struct loaded loaded;
    uint8_t number = load(&loaded, identity, image, image_length);

    *count = 0;
    if (number != 0)
        return number;
    for (uint64_t p = 0; p < loaded.capacity; p = answers[*count - 1].next) {
        answers[*count] = read_at(&loaded, p, gathered);
        ++*count;
        if (answers[*count - 1].outcome == OUTCOME_END)
            break;
    }
    return 0;
}

struct report reader_report(const struct identity *identity,
                            const uint8_t *image, size_t image_length)
{
    struct answer answers[IMAGE_MOST];
    struct report report = {0, {0}};
    size_t count;

    report.number = reader_walk(identity, image, image_length, answers, &count);
    for (size_t i = 0; i < count; i++)
        report.counts[answers[i].outcome]++;
    return report;
}
