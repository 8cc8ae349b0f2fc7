/* The work by the kit's static library. */
#include "notchbadger.h"
#include "side.h"

#define KEY side_key, sizeof side_key
#define NONCE side_nonce, sizeof side_nonce

static nb_state open_at(size_t position)
{
    nb_state state = {SIDE_ID, SIDE_RECORDING, SIDE_CAPACITY, SIDE_ZONE, position, 0, 0};

    return state;
}

unsigned side_permute(uint8_t state[64])
{
    return nb_permute(state, 64);
}

unsigned side_permute_back(uint8_t state[64])
{
    return nb_permute_back(state, 64);
}

unsigned side_seal(const uint8_t *message, size_t n, uint8_t *sealed)
{
    return nb_seal(KEY, NONCE, side_key, 0, message, n, sealed, n + NB_TAG_BYTES);
}

unsigned side_open(const uint8_t *sealed, size_t n, uint8_t *message)
{
    return nb_open(KEY, NONCE, side_key, 0, sealed, n + NB_TAG_BYTES, message, n);
}

size_t side_start(uint8_t *image)
{
    return nb_start(SIDE_ID, SIDE_RECORDING, SIDE_ZONE, image, IMAGE_BYTES).state.position;
}

size_t side_record(size_t position, const uint8_t *bytes, size_t n, uint8_t *image)
{
    return nb_record(open_at(position), KEY, bytes, n, image, IMAGE_BYTES).state.position;
}

size_t side_mark(size_t position, uint8_t *image)
{
    return nb_mark(open_at(position), KEY, image, IMAGE_BYTES).state.position;
}

size_t side_close(size_t position, uint8_t *image)
{
    return nb_close(open_at(position), KEY, image, IMAGE_BYTES).state.position;
}

unsigned side_read(const uint8_t *image, size_t p, uint8_t *buffer, size_t *data, size_t *next)
{
    nb_got got = nb_read(KEY, SIDE_ID, SIDE_RECORDING, image, IMAGE_BYTES, p, buffer, BUFFER_BYTES);

    *data = got.data;
    *next = got.next;
    return got.outcome;
}

void side_report(const uint8_t *image, size_t counts[6])
{
    nb_tally tally = nb_report(KEY, SIDE_ID, SIDE_RECORDING, image, IMAGE_BYTES);

    counts[0] = tally.records;
    counts[1] = tally.marks;
    counts[2] = tally.ends;
    counts[3] = tally.bads;
    counts[4] = tally.strays;
    counts[5] = tally.cuts;
}
