/* notchbadger.h: the permutation, the block operations, the sealing and the
 * cartridge image of the Notchbadger kit, for C99 and C++.
 *
 * What is proved about these calls is proved for memory that is as the caller
 * says it is. C can break that, and then no contract covers what happens:
 *  - a pointer that is NULL while its length is not 0, or that dangles;
 *  - a length beyond the memory behind its pointer;
 *  - two lent parts that overlap, where the call writes into one of them;
 *  - another thread that touches lent memory during the call.
 * A part of length 0 may have any pointer, NULL too: (NULL, 0) is an empty
 * part, taken or refused as its length says.
 *
 * The owner's duty: a nonce must never come twice under one key. The calls
 * cannot see it, and sealing two messages so loses the secrecy of both. What
 * this asks of recording numbers stands at the writer.
 *
 * The rule for states: give each call the state that the last one returned,
 * never an older one.
 *
 * A call returns a number, alone or in a struct, unless it says "no number":
 * NB_DONE when it was carried out, else the first cause in the order given at
 * the call. A refusal is number != 0. A refused call (any cause but 7) leaves
 * all lent memory as it was. 7 leaves the receiving buffer all zero.
 *
 * Compare structs field by field: nb_state, nb_wrote, nb_got, nb_spaced and
 * nb_tally have padding, whose bytes are nobody's, so memcmp on them can tell
 * equal answers apart.
 *
 * The library keeps nothing between calls. A call takes at most 64 KiB of
 * stack, whatever the image (measured, not proved), so that a thread with a
 * small stack can make it. No table is indexed and no branch taken by a byte of
 * a key, a state or a message, but by the verdict that the call returns (tried
 * on the archive, not proved).
 */
#ifndef NOTCHBADGER_H
#define NOTCHBADGER_H

#include <stddef.h>
#include <stdint.h>

/* A dropped answer is a bug: a refusal that nobody saw. */
#if defined(__GNUC__)
#define NB_MUST_USE __attribute__((warn_unused_result))
#elif defined(__cplusplus) && __cplusplus >= 201703L
#define NB_MUST_USE [[nodiscard]]
#else
#define NB_MUST_USE
#endif

#ifdef __cplusplus
extern "C" {
#endif

/* The version of this header, and of the archive that is linked: they should be
 * the same. No number. Writes nothing. */
#define NB_VERSION 2
uint32_t nb_version(void);

/* The numbers. The c of an image is how many blocks it has. */
#define NB_DONE 0
#define NB_WRONG_IMAGE 1  /* an image that is not 4 to 128 whole blocks */
#define NB_WRONG_LENGTH 2 /* a key, a nonce or a buffer of a wrong length */
#define NB_WRONG_ZONE 3   /* a warning zone outside 1 to c - 1 */
#define NB_WRONG_RECORD 4 /* a record of no bytes or above NB_RECORD_MAX */
#define NB_NO_ROOM 5      /* an item that does not fit before the held block */
#define NB_CLOSED 6       /* a recording that is closed */
#define NB_WRONG_TAG 7    /* a tag that does not fit */
#define NB_UNLAWFUL 8     /* a position or a state not lawful for the image */
#define NB_ABOVE_LIMIT 9  /* more bytes than the longest that is taken */

/* Sealing, and what it is made of. Causes up to nb_open, beside 7:
 *   2  a key, nonce or receiving buffer of wrong length, a state or round key
 *      that is not 64 bytes, sealed bytes under 16
 *   9  associated data or message above its limit; a block operation on more
 *      than NB_OPERATION_MAX bytes
 */
#define NB_STATE_BYTES 64
#define NB_RATE_BYTES 32
#define NB_KEY_BYTES 24
#define NB_NONCE_BYTES 16
#define NB_TAG_BYTES 16

/* The longest that is taken; the limits themselves are accepted. */
#define NB_OPERATION_MAX 65536
#define NB_DATA_MAX 65536
#define NB_MESSAGE_MAX 65520

/* The domain bytes that sealing uses. The block operations take any byte. */
#define NB_DOMAIN_KEY 0x10
#define NB_DOMAIN_NONCE 0x20
#define NB_DOMAIN_DATA 0x40
#define NB_DOMAIN_MESSAGE 0x50
#define NB_DOMAIN_TAG 0x60

/* Runs the permutation over the state, in place. 2. Writes the state alone,
 * and only when it returns 0. */
NB_MUST_USE
uint8_t nb_permute(uint8_t *state, size_t state_len);

/* Undoes nb_permute, in place. 2. Writes the state alone, and only when it
 * returns 0. */
NB_MUST_USE
uint8_t nb_permute_back(uint8_t *state, size_t state_len);

/* Runs one round of the permutation over the state, in place: substitutes,
 * shifts and mixes, and takes in the round key, of NB_STATE_BYTES bytes, by
 * xor. 2 (state or key). Writes the state alone, and only when it returns
 * 0. */
NB_MUST_USE
uint8_t nb_round(uint8_t *state, size_t state_len,
                 const uint8_t *key, size_t key_len);

/* Undoes nb_round with the same key, in place. 2 (state or key). Writes the
 * state alone, and only when it returns 0. */
NB_MUST_USE
uint8_t nb_round_back(uint8_t *state, size_t state_len,
                      const uint8_t *key, size_t key_len);

/* What Table 1.1 of the STRIBOBr2 paper has for the byte x, worked out from
 * the three miniboxes. Takes every byte; no number. Writes nothing. */
uint8_t nb_minibox(uint8_t x);

/* Takes bytes into the state and closes the operation. No bytes are an
 * operation too. 2, 9. Writes the state alone, and only when it returns 0. */
NB_MUST_USE
uint8_t nb_put(uint8_t *state, size_t state_len,
               const uint8_t *bytes, size_t bytes_len, uint8_t domain);

/* Fills out from the state and closes the operation; out_len is how many
 * bytes are asked for. 2, 9. Writes state and out, and only when it
 * returns 0. */
NB_MUST_USE
uint8_t nb_get(uint8_t *state, size_t state_len,
               uint8_t *out, size_t out_len, uint8_t domain);

/* Encrypts the message into out, of the same length, and closes the operation;
 * the state goes on from the ciphertext. 2 (also where the two lengths
 * differ), 9. Writes state and out, and only when it returns 0. */
NB_MUST_USE
uint8_t nb_enc(uint8_t *state, size_t state_len,
               const uint8_t *message, size_t message_len,
               uint8_t *out, size_t out_len, uint8_t domain);

/* Decrypts the ciphertext into out, of the same length, and closes the
 * operation; from the state that nb_enc began with it ends in the state that
 * nb_enc ended in. 2 (also where the two lengths differ), 9. Writes state and
 * out, and only when it returns 0. */
NB_MUST_USE
uint8_t nb_dec(uint8_t *state, size_t state_len,
               const uint8_t *cipher, size_t cipher_len,
               uint8_t *out, size_t out_len, uint8_t domain);

/* Seals the message: out gets its ciphertext and the tag behind it, so
 * out_len is message_len + NB_TAG_BYTES exactly. The associated data is
 * covered by the tag and not stored. 2 (key, nonce or out), 9 (data above
 * NB_DATA_MAX or message above NB_MESSAGE_MAX). Writes out alone, and only
 * when it returns 0. */
NB_MUST_USE
uint8_t nb_seal(const uint8_t *key, size_t key_len,
                const uint8_t *nonce, size_t nonce_len,
                const uint8_t *data, size_t data_len,
                const uint8_t *message, size_t message_len,
                uint8_t *out, size_t out_len);

/* Opens what nb_seal made: out gets the message, so out_len is
 * sealed_len - NB_TAG_BYTES exactly. The whole tag is compared, after full
 * processing. 2 (key, nonce, out, or sealed_len under NB_TAG_BYTES), 9 (data
 * above NB_DATA_MAX or sealed_len above NB_MESSAGE_MAX + NB_TAG_BYTES), 7.
 * Writes out alone: the message on 0, zeros on 7, nothing on 2 and 9. */
NB_MUST_USE
uint8_t nb_open(const uint8_t *key, size_t key_len,
                const uint8_t *nonce, size_t nonce_len,
                const uint8_t *data, size_t data_len,
                const uint8_t *sealed, size_t sealed_len,
                uint8_t *out, size_t out_len);

/* The cartridge image: 4 to 128 blocks of 512 bytes, each with its own tag.
 * The capacity c is the number of blocks; positions count blocks from 0. */
#define NB_BLOCK_BYTES 512
#define NB_BLOCK_PAYLOAD 488
#define NB_IMAGE_FEWEST 4
#define NB_IMAGE_MOST 128

/* The longest record, in bytes and in blocks. */
#define NB_RECORD_MAX 31232
#define NB_RECORD_BLOCKS 64

/* The writer. Its state goes in by value and comes back from each call:
 * s = nb_record(s, ..).state. The library keeps none of it.
 *
 * The owner's duty: a recording number for each recording that the cartridge
 * id never had before under this key, also where an image is started anew; and
 * the rule for states, at the top. Going on from a state that an accepted call
 * has replaced seals other bytes under nonces already used, and no call can
 * see that.
 *
 * 2 is the key's length; 5 keeps the last block free, which is held for the end
 * of data. 8 is a state that is not lawful for the image: its capacity is not
 * c, its zone is outside 1 to c - 1, its position is above c - 1 while open, or
 * is 0 or above c when closed, its marks are above its position, or closed is
 * neither 0 nor 1. The id, the recording number and the bytes of the image are
 * not looked at.
 *
 * marks is the number of the file that the writer is in, for a panel that can't
 * wait for a walk: 0 after a start, one more with each accepted mark, the same
 * after anything else, taken or refused. From an accepted start on, while each
 * call gets the state and the image that the last one left, under one key, it
 * is what nb_report counts as marks in the image as it stands. */

/* nb_wrote's reply. What is warned was written: its number is 0. Records and
 * file marks are warned, a closing never is. */
#define NB_PLAIN 0
#define NB_WARNED 1
#define NB_REFUSED 2

typedef struct {
    uint32_t id;
    uint64_t recording;
    size_t capacity;
    size_t zone;     /* of the early warning */
    size_t position; /* where the next item begins */
    uint8_t closed;  /* 0 or 1 */
    size_t marks;    /* file marks written so far */
} nb_state;

typedef struct {
    nb_state state;
    uint8_t reply;
    uint8_t number; /* of a refusal, else 0 */
} nb_wrote;

/* Begins a recording: fills the image with zeros and gives an open state at
 * position 0, with no marks. 1, 3; refused, the state is all zeros but for
 * closed, which is 1, and no image takes it (8). Writes the image, and only
 * when not refused. */
NB_MUST_USE
nb_wrote nb_start(uint32_t id, uint64_t recording, size_t zone,
                  uint8_t *image, size_t image_len);

/* Writes a record of 1 to NB_RECORD_MAX bytes at the position, in blocks of
 * NB_BLOCK_PAYLOAD bytes, the last of which may be shorter. Warned exactly if
 * the position afterwards is above capacity - zone. 1, 2, 8, 6, 4, 5; refused,
 * the state comes back as it was given, every field of it. Writes its own
 * blocks of the image, and only when not refused. */
NB_MUST_USE
nb_wrote nb_record(nb_state state, const uint8_t *key, size_t key_len,
                   const uint8_t *bytes, size_t bytes_len,
                   uint8_t *image, size_t image_len);

/* Writes a file mark, one block, at the position, and adds one to marks. Warned
 * exactly if the position afterwards is above capacity - zone. 1, 2, 8, 6, 5;
 * refused, the state comes back as it was given. Writes its own block of the
 * image, and only when not refused. */
NB_MUST_USE
nb_wrote nb_mark(nb_state state, const uint8_t *key, size_t key_len,
                 uint8_t *image, size_t image_len);

/* Writes the end of data, one block, at the position and closes the recording;
 * while it is open there is always room. Never warned, wherever it stands. 1,
 * 2, 8, 6; refused, the state comes back as it was given. Writes its own block
 * of the image, and only when not refused. */
NB_MUST_USE
nb_wrote nb_close(nb_state state, const uint8_t *key, size_t key_len,
                  uint8_t *image, size_t image_len);

/* The reader. It takes any image: a block opens at p only when it was sealed
 * under this key, id and recording number for place p and is lawful. 2 is the
 * key's length, at nb_read also a buffer under NB_RECORD_MAX; 8 is a position
 * of c or more. */

/* nb_got's outcome. */
#define NB_GOT_RECORD 0
#define NB_GOT_MARK 1
#define NB_GOT_END 2   /* of data */
#define NB_GOT_BAD 3   /* the block does not open */
#define NB_GOT_STRAY 4 /* a block from the middle of a record */
#define NB_GOT_CUT 5   /* a record that breaks off */
#define NB_GOT_REFUSED 6

typedef struct {
    uint8_t outcome;
    uint8_t number; /* of a refusal, else 0 */
    size_t data;    /* a record's length, the place of a cut, else 0 */
    size_t next;    /* where to read on; may be c */
} nb_got;

/* A part of lent memory, counted from its front. */
typedef struct {
    size_t offset;
    size_t length;
} nb_part;

/* nb_spaced's kind. */
#define NB_SPACED_AT 0
#define NB_SPACED_SHORT 1
#define NB_SPACED_REFUSED 2

typedef struct {
    uint8_t kind;
    uint8_t number; /* of a refusal, else 0 */
    size_t position;
    size_t marks; /* passed, where it fell short, else 0 */
} nb_spaced;

typedef struct {
    uint8_t number; /* of a refusal, else 0 */
    size_t records;
    size_t marks;
    size_t ends;
    size_t bads;
    size_t strays;
    size_t cuts;
} nb_tally;

/* Reads at position p. Next is the block behind what was read; at the end of
 * data it is p; after a cut it is the place of the cut, or the block behind
 * it where the block there does not open. A record is cut where the image
 * ends, after NB_RECORD_BLOCKS blocks without its last, at a block that does
 * not open and at one of another kind. 1, 2, 8; refused, next is p. Writes the
 * first NB_RECORD_MAX bytes of the buffer, and only when not refused: a record
 * and zeros behind it, or zeros alone.
 *
 * A walk, to copy. It stops at the end of data itself: next is p there, and a
 * loop by next alone would not end. Else, not refused, next is above p.
 *
 *     for (p = 0; p < image_len / NB_BLOCK_BYTES; p = got.next) {
 *         got = nb_read(key, NB_KEY_BYTES, id, recording, image, image_len,
 *                       p, buffer, NB_RECORD_MAX);
 *         if (got.number != NB_DONE)
 *             return got.number;
 *         if (got.outcome == NB_GOT_END)
 *             break;
 *         if (got.outcome == NB_GOT_RECORD)
 *             take(buffer, got.data);
 *     }
 */
NB_MUST_USE
nb_got nb_read(const uint8_t *key, size_t key_len, uint32_t id, uint64_t recording,
               const uint8_t *image, size_t image_len, size_t p,
               uint8_t *buffer, size_t buffer_len);

/* The record that nb_read left in the buffer, by its length: the front part, or
 * the empty part at the front where length is above buffer_len. No number.
 * Writes nothing. */
NB_MUST_USE
nb_part nb_record_part(const uint8_t *buffer, size_t buffer_len, size_t length);

/* Block p as it stands in the image, unopened: its NB_BLOCK_BYTES bytes; where
 * it is refused, the empty part at the front. No number: nb_look_number tells
 * why. Writes nothing. */
NB_MUST_USE
nb_part nb_look(const uint8_t *image, size_t image_len, size_t p);

/* The number of nb_look with the same arguments. 1, 8. Writes nothing. */
NB_MUST_USE
uint8_t nb_look_number(const uint8_t *image, size_t image_len, size_t p);

/* Reads on from position p past n file marks. At: the position behind the nth
 * mark, which may be c; for n = 0 it is p, unread. Short: the marks passed, and
 * the place of the end of data, or c where none came. 1, 2, 8; refused, the
 * position is p. Writes nothing. */
NB_MUST_USE
nb_spaced nb_space(const uint8_t *key, size_t key_len, uint32_t id, uint64_t recording,
                   const uint8_t *image, size_t image_len, size_t p, size_t n);

/* Counts the outcomes of the walk: the reads from 0 on, each at the next of
 * the one before, up to the end of data or c. 1, 2; refused, all counts are
 * zero. Writes nothing. */
NB_MUST_USE
nb_tally nb_report(const uint8_t *key, size_t key_len, uint32_t id, uint64_t recording,
                   const uint8_t *image, size_t image_len);

#ifdef __cplusplus
}
#endif

#endif
