/* The same work by plain C: the peer's sealing, blocks, writer and reader, over groups.c and one of the permutations here. */
#include "../peer/pi.h"
#include "../peer/reader.h"
#include "../peer/seal.h"
#include "../peer/writer.h"
#include "side.h"

#define KEY side_key, sizeof side_key
#define NONCE side_nonce, sizeof side_nonce

static const struct identity identity = {KEY, SIDE_ID, SIDE_RECORDING};

static struct writer open_at(size_t position)
{
    struct writer writer = {SIDE_ID, SIDE_RECORDING, SIDE_CAPACITY, SIDE_ZONE, position, false, 0};

    return writer;
}

unsigned side_permute(uint8_t state[64])
{
    pi_forward(state);
    return 0;
}

unsigned side_permute_back(uint8_t state[64])
{
    (void)state;
    return 2;
}

unsigned side_seal(const uint8_t *message, size_t n, uint8_t *sealed)
{
    return seal(KEY, NONCE, side_key, 0, message, n, sealed, n + SEAL_TAG);
}

unsigned side_open(const uint8_t *sealed, size_t n, uint8_t *message)
{
    return unseal(KEY, NONCE, side_key, 0, sealed, n + SEAL_TAG, message, n);
}

size_t side_start(uint8_t *image)
{
    return writer_start(image, IMAGE_BYTES, SIDE_ID, SIDE_RECORDING, SIDE_ZONE).writer.position;
}

size_t side_record(size_t position, const uint8_t *bytes, size_t n, uint8_t *image)
{
    return writer_record(open_at(position), image, IMAGE_BYTES, KEY, bytes, n).writer.position;
}

size_t side_mark(size_t position, uint8_t *image)
{
    return writer_mark(open_at(position), image, IMAGE_BYTES, KEY).writer.position;
}

size_t side_close(size_t position, uint8_t *image)
{
    return writer_close(open_at(position), image, IMAGE_BYTES, KEY).writer.position;
}

unsigned side_read(const uint8_t *image, size_t p, uint8_t *buffer, size_t *data, size_t *next)
{
    struct answer answer = reader_read(&identity, image, IMAGE_BYTES, p, buffer, BUFFER_BYTES);

    *data = answer.data;
    *next = answer.next;
    return answer.outcome;
}

void side_report(const uint8_t *image, size_t counts[6])
{
    struct report report = reader_report(&identity, image, IMAGE_BYTES);

    for (int i = 0; i < 6; i++)
        counts[i] = report.counts[i];
}
