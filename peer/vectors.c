#include "vectors.h"

#include <stdint.h>
#include <string.h>

#include "blnk.h"
#include "cases.h"
#include "paper.h"
#include "pi.h"
#include "seal.h"
#include "writer.h"

#define ROOM 100000 /* no field of a line is above 99999 */
#define SHOWN_WHOLE 80
#define SHOWN_END 16

enum seed { SEED_STATE = 1, SEED_KEY, SEED_NONCE, SEED_DATA, SEED_MESSAGE, SEED_OUT };

/* Every buffer a call can be lent. */
static uint8_t state[ROOM], key[ROOM], nonce[ROOM], data[ROOM], message[ROOM], out[ROOM];
static uint8_t sealed[ROOM];

static void record_pattern(uint8_t *buffer, enum seed seed)
{
    for (unsigned i = 0; i < ROOM; i++)
        buffer[i] = (uint8_t)(seed + 17 * i + 3 * (i / 256));
}

static void rewind_buffers(void)
{
    record_pattern(state, SEED_STATE);
    record_pattern(key, SEED_KEY);
    record_pattern(nonce, SEED_NONCE);
    record_pattern(data, SEED_DATA);
    record_pattern(message, SEED_MESSAGE);
    record_pattern(out, SEED_OUT);
}

static void print_hex(FILE *to, const uint8_t *bytes, size_t n)
{
    for (size_t i = 0; i < n; i++)
        fprintf(to, "%02X", bytes[i]);
}

static void print_buffer(FILE *to, const char *name, const uint8_t *bytes, size_t n)
{
    uint32_t sum = 0;

    fprintf(to, "%s ", name);
    if (n <= SHOWN_WHOLE) {
        print_hex(to, bytes, n);
    } else {
        for (size_t i = 0; i < n; i++)
            sum = sum * 31 + bytes[i];
        print_hex(to, bytes, SHOWN_END);
        fputc(' ', to);
        print_hex(to, bytes + n - SHOWN_END, SHOWN_END);
        fprintf(to, " %08lX", (unsigned long)sum);
    }
    fputc('\n', to);
}

static void print_call(FILE *to, const struct call *call)
{
    fputc(call->verb, to);
    for (int i = 0; i < 6; i++)
        fprintf(to, " %05u", call->field[i]);
}

/* The bytes an `o` line opens: sealed under lawful lengths, whatever the
 * line's own, and damaged where the line names a byte. */
static void make_sealed(const struct call *call)
{
    size_t length = call->field[3];
    size_t data_length = call->field[2];
    size_t message_length = length < SEAL_TAG ? 0 : length - SEAL_TAG;

    if (data_length > SEAL_DATA_LIMIT)
        data_length = SEAL_DATA_LIMIT;
    if (message_length > SEAL_MESSAGE_LIMIT)
        memcpy(sealed, message, length);
    else
        seal(key, SEAL_KEY, nonce, SEAL_NONCE, data, data_length,
             message, message_length, sealed, message_length + SEAL_TAG);
    if (call->field[5] > 0)
        sealed[call->field[5] - 1] ^= 0x01;
}

static uint8_t run_sealing(const struct call *call)
{
    const unsigned *f = call->field;

    if (call->verb == 's')
        return seal(key, f[0], nonce, f[1], data, f[2], message, f[3], out, f[4]);
    make_sealed(call);
    return unseal(key, f[0], nonce, f[1], data, f[2], sealed, f[3], out, f[4]);
}

static uint8_t run(const struct call *call)
{
    const unsigned *f = call->field;
    uint8_t domain = (uint8_t)f[2];

    switch (call->verb) {
    case 'p': return pi_permute(state, f[0]);
    case 'q': return pi_permute_back(state, f[0]);
    case 'u': return blnk_put(state, f[0], message, f[1], domain);
    case 'g': return blnk_get(state, f[0], out, f[1], domain);
    case 'e': return blnk_enc(state, f[0], message, f[1], out, f[3], domain);
    case 'd': return blnk_dec(state, f[0], message, f[1], out, f[3], domain);
    default: return run_sealing(call);
    }
}

static void print_answer(FILE *to, const struct call *call)
{
    const unsigned *f = call->field;

    rewind_buffers();
    uint8_t number = run(call);
    print_call(to, call);
    fprintf(to, " = %u\n", number);
    if (call->verb != 's' && call->verb != 'o')
        print_buffer(to, "state", state, f[0]);
    switch (call->verb) {
    case 'g': print_buffer(to, "out", out, f[1]); break;
    case 'e':
    case 'd': print_buffer(to, "out", out, f[3]); break;
    case 's':
    case 'o': print_buffer(to, "out", out, f[4]); break;
    default: break;
    }
}

static void print_table(FILE *to)
{
    uint8_t row[16];

    fputs("# table 1.1 by the miniboxes\n", to);
    for (int high = 0; high < 16; high++) {
        for (int low = 0; low < 16; low++)
            row[low] = pi_by_miniboxes((uint8_t)(16 * high + low));
        print_hex(to, row, 16);
        fputc('\n', to);
    }
}

/* The published state after so many rounds, or NULL where none is printed. */
static const uint8_t *printed_state(int rounds)
{
    switch (rounds) {
    case 0: return paper_x0;
    case 1: return paper_x1;
    case 10: return paper_x10;
    case 12: return paper_x12;
    default: return NULL;
    }
}

/* Where the paper prints a state its numbers are the ones written. */
static int print_state(FILE *to, int rounds, const uint8_t reel[64])
{
    const uint8_t *printed = printed_state(rounds);

    fprintf(to, "x%d ", rounds);
    print_hex(to, printed ? printed : reel, 64);
    fputc('\n', to);
    return printed && memcmp(printed, reel, 64) != 0;
}

static int print_rounds(FILE *to)
{
    uint8_t reel[64];
    int missed = 0;

    memcpy(reel, paper_x0, 64);
    fputs("# 1.3.1 forward\n", to);
    missed |= print_state(to, 0, reel);
    for (int round = 0; round < PI_ROUNDS; round++) {
        pi_round(reel, round);
        missed |= print_state(to, round + 1, reel);
    }
    fputs("# 1.3.1 back\n", to);
    missed |= print_state(to, PI_ROUNDS, reel);
    for (int round = PI_ROUNDS - 1; round >= 0; round--) {
        pi_round_back(reel, round);
        missed |= print_state(to, round, reel);
    }
    return missed;
}

/* The published sealing and its trace, back from the last permutation: the
 * program finds each line from the one before by undoing π and the padding. */
static void print_trace(FILE *to)
{
    fputs("# 1.3.2 sealed\n", to);
    print_hex(to, paper_sealed, PAPER_SEALED);
    fputs("\n# 1.3.2 trace, from its end\n", to);
    for (int k = PAPER_TRACE - 1; k >= 0; k--) {
        fprintf(to, "out %d ", k);
        print_hex(to, paper_pi_out[k], 64);
        fprintf(to, "\nBlock %d ", k);
        print_hex(to, paper_block[k], 64);
        fputc('\n', to);
    }
}

/* Image sizes at the edges, each with the number that NUMBERS has for a start with zone 1: 4 to 128 whole blocks are taken. */
static const struct {
    size_t bytes;
    uint8_t number;
} sizes[] = {
    {2048, 0},  /* 4 blocks */
    {1536, 1},  /* 3 */
    {65536, 0}, /* 128 */
    {66048, 1}, /* 129 */
    {2049, 1},  /* 4 and a byte of the next */
    {2559, 1},  /* 5 but for a byte */
    {2560, 0},  /* 5 */
    {511, 1},
    {0, 1},
};

/* Zones at the edges, for 4 blocks. */
static const struct {
    uint64_t zone;
    uint8_t number;
} zones[] = {{0, 3}, {1, 0}, {3, 0}, {4, 3}, {UINT64_MAX, 3}};

/* Size, zone, the state's capacity, result. */
static int print_start(FILE *to, size_t bytes, uint64_t zone, uint8_t number)
{
    static uint8_t image[66048];
    struct reply reply = writer_start(image, bytes, 1, 1, zone);

    fprintf(to, "start %lu %llu %llu ", (unsigned long)bytes, (unsigned long long)zone,
            (unsigned long long)reply.writer.capacity);
    if (reply.result == RESULT_REFUSED)
        fprintf(to, "refused %u\n", reply.number);
    else
        fputs("plain\n", to);
    return reply.number != number;
}

static int print_starts(FILE *to)
{
    int missed = 0;

    fputs("# starts\n", to);
    for (size_t i = 0; i < sizeof sizes / sizeof sizes[0]; i++)
        missed |= print_start(to, sizes[i].bytes, 1, sizes[i].number);
    for (size_t i = 0; i < sizeof zones / sizeof zones[0]; i++)
        missed |= print_start(to, 2048, zones[i].zone, zones[i].number);
    return missed;
}

int vectors_stdin(FILE *to)
{
    const struct call *calls;
    size_t n = cases_list(&calls);

    for (size_t i = 0; i < n; i++) {
        print_call(to, &calls[i]);
        fputc('\n', to);
    }
    return 0;
}

int vectors_stdout(FILE *to)
{
    const struct call *calls;
    size_t n = cases_list(&calls);
    int missed = pi_table_faults() != 0;

    print_table(to);
    missed |= print_rounds(to);
    print_trace(to);
    missed |= print_starts(to);
    fputs("# calls\n", to);
    for (size_t i = 0; i < n; i++)
        print_answer(to, &calls[i]);
    return missed;
}
