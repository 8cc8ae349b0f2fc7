/* The reader: single reads, the record by its length, a raw look, spacing over
 * marks, the walk and its report. */
#ifndef PEER_READER_H
#define PEER_READER_H

#include "blocks.h"

enum outcome {
    OUTCOME_RECORD,
    OUTCOME_MARK,
    OUTCOME_END,
    OUTCOME_BAD,
    OUTCOME_STRAY,
    OUTCOME_CUT,
    OUTCOME_REFUSED,
    OUTCOMES
};

/* data: a Record's length, a Cut's place, a refusal's number, else 0. */
struct answer {
    enum outcome outcome;
    uint64_t data;
    uint64_t next;
};

/* 1, 2, 8. The first 31,232 bytes of `out` become the record and zeros, or
 * zeros alone; a refusal leaves them, and bytes past them always stay. */
struct answer reader_read(const struct identity *identity,
                          const uint8_t *image, size_t image_length,
                          uint64_t position, uint8_t *out, size_t out_length);

/* A part of somebody else's bytes. */
struct part {
    const uint8_t *bytes;
    size_t length;
};

/* The first `length` bytes; the empty part where the buffer has fewer. */
struct part reader_record_part(const uint8_t *out, size_t out_length, uint64_t length);

/* The block's own 512 bytes of the image, or the empty part at its front. */
struct part reader_look(const uint8_t *image, size_t image_length, uint64_t position);

/* The number of that look: 0, 1 or 8. */
uint8_t reader_look_number(size_t image_length, uint64_t position);

enum spaced { SPACED_AT, SPACED_SHORT, SPACED_REFUSED };

struct spacing {
    enum spaced spaced;
    uint64_t marks; /* passed, where it fell short, else 0 */
    uint64_t place;
    uint8_t number; /* of a refusal, else 0 */
};

/* 1, 2, 8 */
struct spacing reader_space(const struct identity *identity,
                            const uint8_t *image, size_t image_length,
                            uint64_t position, uint64_t marks);

/* The answers of the walk from 0; 1, 2. A walk has at most a read a block. */
uint8_t reader_walk(const struct identity *identity,
                    const uint8_t *image, size_t image_length,
                    struct answer answers[IMAGE_MOST], size_t *count);

struct report {
    uint8_t number;
    uint64_t counts[OUTCOMES]; /* by outcome */
};

/* 1, 2 */
struct report reader_report(const struct identity *identity,
                            const uint8_t *image, size_t image_length);

#endif
