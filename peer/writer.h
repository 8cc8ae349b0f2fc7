/* The writer with early warning. Its state travels by value; a call answers
 * with the state that holds afterwards. */
#ifndef PEER_WRITER_H
#define PEER_WRITER_H

#include "blocks.h"

/* Any numbers are let in: each call tests them against the image first. */
struct writer {
    uint32_t cartridge;
    uint64_t recording;
    uint64_t capacity;
    uint64_t zone; /* of the early warning */
    uint64_t position;
    bool closed;
    uint64_t marks; /* file marks written so far */
};

enum result { RESULT_PLAIN, RESULT_WARNED, RESULT_REFUSED };

struct reply {
    struct writer writer;
    enum result result;
    uint8_t number; /* of a refusal, else 0 */
};

bool writer_lawful(struct writer writer, size_t image_length);

/* 1, 3 */
struct reply writer_start(uint8_t *image, size_t image_length,
                          uint32_t cartridge, uint64_t recording, uint64_t zone);

/* 1, 2, 8, 6, 4, 5 */
struct reply writer_record(struct writer writer, uint8_t *image, size_t image_length,
                           const uint8_t *key, size_t key_length,
                           const uint8_t *record, size_t record_length);

/* 1, 2, 8, 6, 5 */
struct reply writer_mark(struct writer writer, uint8_t *image, size_t image_length,
                         const uint8_t *key, size_t key_length);

/* 1, 2, 8, 6 */
struct reply writer_close(struct writer writer, uint8_t *image, size_t image_length,
                          const uint8_t *key, size_t key_length);

#endif
