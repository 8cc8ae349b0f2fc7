/* The calls that tests/secrets.c and tests/traces.c make, by the peer's C over a permutation with tables (benchmarks/pi64.c; back and by rounds
 * peer/pi.c): linked instead of the archive it must be reported, or the two programs see nothing. peer/pi.c is compiled with its pi_forward renamed. */
#include "../peer/blnk.h"
#include "../peer/pi.h"
#include "../peer/reader.h"
#include "../peer/seal.h"
#include "../peer/writer.h"
#include "notchbadger.h"

#define IDENTITY {key, key_len, id, recording}

uint8_t nb_permute(uint8_t *state, size_t state_len)
{
    if (state_len != PI_BYTES)
        return NB_WRONG_LENGTH;
    pi_forward(state);
    return NB_DONE;
}

uint8_t nb_permute_back(uint8_t *state, size_t state_len)
{
    return pi_permute_back(state, state_len);
}

uint8_t nb_round(uint8_t *state, size_t state_len, const uint8_t *key, size_t key_len)
{
    return pi_keyed(state, state_len, key, key_len);
}

uint8_t nb_round_back(uint8_t *state, size_t state_len, const uint8_t *key, size_t key_len)
{
    return pi_keyed_back(state, state_len, key, key_len);
}

uint8_t nb_minibox(uint8_t x)
{
    return pi_by_miniboxes(x);
}

uint8_t nb_put(uint8_t *state, size_t state_len, const uint8_t *bytes, size_t bytes_len, uint8_t domain)
{
    return blnk_put(state, state_len, bytes, bytes_len, domain);
}

/* What zeros are encrypted to is the state itself: benchmarks/groups.c has no get of its own. */
uint8_t nb_get(uint8_t *state, size_t state_len, uint8_t *out, size_t out_len, uint8_t domain)
{
    static const uint8_t zeros[NB_OPERATION_MAX];

    return out_len > sizeof zeros ? NB_ABOVE_LIMIT : blnk_enc(state, state_len, zeros, out_len, out, out_len, domain);
}

uint8_t nb_enc(uint8_t *state, size_t state_len, const uint8_t *message, size_t message_len, uint8_t *out, size_t out_len, uint8_t domain)
{
    return blnk_enc(state, state_len, message, message_len, out, out_len, domain);
}

uint8_t nb_dec(uint8_t *state, size_t state_len, const uint8_t *cipher, size_t cipher_len, uint8_t *out, size_t out_len, uint8_t domain)
{
    return blnk_dec(state, state_len, cipher, cipher_len, out, out_len, domain);
}

uint8_t nb_seal(const uint8_t *key, size_t key_len, const uint8_t *nonce, size_t nonce_len, const uint8_t *data, size_t data_len,
                const uint8_t *message, size_t message_len, uint8_t *out, size_t out_len)
{
    return seal(key, key_len, nonce, nonce_len, data, data_len, message, message_len, out, out_len);
}

uint8_t nb_open(const uint8_t *key, size_t key_len, const uint8_t *nonce, size_t nonce_len, const uint8_t *data, size_t data_len,
                const uint8_t *sealed, size_t sealed_len, uint8_t *out, size_t out_len)
{
    return unseal(key, key_len, nonce, nonce_len, data, data_len, sealed, sealed_len, out, out_len);
}

static struct writer taken(nb_state s)
{
    struct writer writer = {s.id, s.recording, s.capacity, s.zone, s.position, s.closed != 0, s.marks};

    return writer;
}

static nb_wrote wrote(struct reply reply)
{
    struct writer w = reply.writer;
    nb_wrote made = {{w.cartridge, w.recording, w.capacity, w.zone, w.position, w.closed, w.marks}, (uint8_t)reply.result, reply.number};

    return made;
}

nb_wrote nb_start(uint32_t id, uint64_t recording, size_t zone, uint8_t *image, size_t image_len)
{
    return wrote(writer_start(image, image_len, id, recording, zone));
}

nb_wrote nb_record(nb_state state, const uint8_t *key, size_t key_len, const uint8_t *bytes, size_t bytes_len, uint8_t *image, size_t image_len)
{
    return wrote(writer_record(taken(state), image, image_len, key, key_len, bytes, bytes_len));
}

nb_wrote nb_mark(nb_state state, const uint8_t *key, size_t key_len, uint8_t *image, size_t image_len)
{
    return wrote(writer_mark(taken(state), image, image_len, key, key_len));
}

nb_wrote nb_close(nb_state state, const uint8_t *key, size_t key_len, uint8_t *image, size_t image_len)
{
    return wrote(writer_close(taken(state), image, image_len, key, key_len));
}

nb_got nb_read(const uint8_t *key, size_t key_len, uint32_t id, uint64_t recording, const uint8_t *image, size_t image_len, size_t p,
               uint8_t *buffer, size_t buffer_len)
{
    struct identity identity = IDENTITY;
    struct answer answer = reader_read(&identity, image, image_len, p, buffer, buffer_len);
    int refused = answer.outcome == OUTCOME_REFUSED;
    nb_got got = {(uint8_t)answer.outcome, refused ? (uint8_t)answer.data : 0, refused ? 0 : answer.data, answer.next};

    return got;
}

nb_spaced nb_space(const uint8_t *key, size_t key_len, uint32_t id, uint64_t recording, const uint8_t *image, size_t image_len, size_t p, size_t n)
{
    struct identity identity = IDENTITY;
    struct spacing spacing = reader_space(&identity, image, image_len, p, n);
    nb_spaced spaced = {(uint8_t)spacing.spaced, spacing.number, spacing.place, spacing.marks};

    return spaced;
}

nb_tally nb_report(const uint8_t *key, size_t key_len, uint32_t id, uint64_t recording, const uint8_t *image, size_t image_len)
{
    struct identity identity = IDENTITY;
    struct report r = reader_report(&identity, image, image_len);
    nb_tally tally = {r.number, r.counts[0], r.counts[1], r.counts[2], r.counts[3], r.counts[4], r.counts[5]};

    return tally;
}
