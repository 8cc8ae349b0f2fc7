#include "pi.h"

#include <string.h>

const uint8_t pi_table[256] = {
    0x18, 0x23, 0xC6, 0xE8, 0x87, 0xB8, 0x01, 0x4F, 0x36, 0xA6, 0xD2, 0xF5, 0x79, 0x6F, 0x91, 0x52,
    0x60, 0xBC, 0x9B, 0x8E, 0xA3, 0x0C, 0x7B, 0x35, 0x1D, 0xE0, 0xD7, 0xC2, 0x2E, 0x4B, 0xFE, 0x57,
    0x15, 0x77, 0x37, 0xE5, 0x9F, 0xF0, 0x4A, 0xDA, 0x58, 0xC9, 0x29, 0x0A, 0xB1, 0xA0, 0x6B, 0x85,
    0xBD, 0x5D, 0x10, 0xF4, 0xCB, 0x3E, 0x05, 0x67, 0xE4, 0x27, 0x41, 0x8B, 0xA7, 0x7D, 0x95, 0xD8,
    0xFB, 0xEE, 0x7C, 0x66, 0xDD, 0x17, 0x47, 0x9E, 0xCA, 0x2D, 0xBF, 0x07, 0xAD, 0x5A, 0x83, 0x33,
    0x63, 0x02, 0xAA, 0x71, 0xC8, 0x19, 0x49, 0xD9, 0xF2, 0xE3, 0x5B, 0x88, 0x9A, 0x26, 0x32, 0xB0,
    0xE9, 0x0F, 0xD5, 0x80, 0xBE, 0xCD, 0x34, 0x48, 0xFF, 0x7A, 0x90, 0x5F, 0x20, 0x68, 0x1A, 0xAE,
    0xB4, 0x54, 0x93, 0x22, 0x64, 0xF1, 0x73, 0x12, 0x40, 0x08, 0xC3, 0xEC, 0xDB, 0xA1, 0x8D, 0x3D,
    0x97, 0x00, 0xCF, 0x2B, 0x76, 0x82, 0xD6, 0x1B, 0xB5, 0xAF, 0x6A, 0x50, 0x45, 0xF3, 0x30, 0xEF,
    0x3F, 0x55, 0xA2, 0xEA, 0x65, 0xBA, 0x2F, 0xC0, 0xDE, 0x1C, 0xFD, 0x4D, 0x92, 0x75, 0x06, 0x8A,
    0xB2, 0xE6, 0x0E, 0x1F, 0x62, 0xD4, 0xA8, 0x96, 0xF9, 0xC5, 0x25, 0x59, 0x84, 0x72, 0x39, 0x4C,
    0x5E, 0x78, 0x38, 0x8C, 0xD1, 0xA5, 0xE2, 0x61, 0xB3, 0x21, 0x9C, 0x1E, 0x43, 0xC7, 0xFC, 0x04,
    0x51, 0x99, 0x6D, 0x0D, 0xFA, 0xDF, 0x7E, 0x24, 0x3B, 0xAB, 0xCE, 0x11, 0x8F, 0x4E, 0xB7, 0xEB,
    0x3C, 0x81, 0x94, 0xF7, 0xB9, 0x13, 0x2C, 0xD3, 0xE7, 0x6E, 0xC4, 0x03, 0x56, 0x44, 0x7F, 0xA9,
    0x2A, 0xBB, 0xC1, 0x53, 0xDC, 0x0B, 0x9D, 0x6C, 0x31, 0x74, 0xF6, 0x46, 0xAC, 0x89, 0x14, 0xE1,
    0x16, 0x3A, 0x69, 0x09, 0x70, 0xB6, 0xD0, 0xED, 0xCC, 0x42, 0x98, 0xA4, 0x28, 0x5C, 0xF8, 0x86,
};

/* Table 1.2. */
static const uint8_t mini_e[16] = {
    0x1, 0xB, 0x9, 0xC, 0xD, 0x6, 0xF, 0x3, 0xE, 0x8, 0x7, 0x4, 0xA, 0x2, 0x5, 0x0,
};
static const uint8_t mini_e_back[16] = {
    0xF, 0x0, 0xD, 0x7, 0xB, 0xE, 0x5, 0xA, 0x9, 0x2, 0xC, 0x1, 0x3, 0x4, 0x8, 0x6,
};
static const uint8_t mini_r[16] = {
    0x7, 0xC, 0xB, 0xD, 0xE, 0x4, 0x9, 0xF, 0x6, 0x3, 0x8, 0xA, 0x2, 0x5, 0x1, 0x0,
};

/* First row of the circulant matrix (1.5). */
static const uint8_t first_row[8] = {0x01, 0x01, 0x04, 0x01, 0x08, 0x05, 0x02, 0x09};

#define FIELD_POLYNOMIAL 0x11Du /* x^8 + x^4 + x^3 + x^2 + 1 */

/* Everything that is worked out once, before the first round is run. */
static struct {
    int ready;
    uint8_t product[256][256];
    uint8_t matrix[8][8];
    uint8_t inverse[8][8];
    uint8_t table_back[256];
} spool;

uint8_t pi_by_miniboxes(uint8_t byte)
{
    uint8_t u = mini_e[byte / 16];
    uint8_t v = mini_e_back[byte % 16];
    uint8_t w = mini_r[u ^ v];

    return (uint8_t)(16 * mini_e[u ^ w] + mini_e_back[v ^ w]);
}

int pi_table_faults(void)
{
    int faults = 0;

    for (int x = 0; x < 256; x++)
        if (pi_table[x] != pi_by_miniboxes((uint8_t)x))
            faults++;
    return faults;
}

/* The full product of two polynomials first, its remainder afterwards. */
static uint8_t field_product(uint8_t a, uint8_t b)
{
    unsigned wide = 0;

    for (int bit = 0; bit < 8; bit++)
        if (b & (1u << bit))
            wide ^= (unsigned)a << bit;
    for (int bit = 14; bit >= 8; bit--)
        if (wide & (1u << bit))
            wide ^= FIELD_POLYNOMIAL << (bit - 8);
    return (uint8_t)wide;
}

static uint8_t field_reciprocal(uint8_t a)
{
    for (int b = 1; b < 256; b++)
        if (spool.product[a][b] == 1)
            return (uint8_t)b;
    return 0;
}

/* One elimination step: a pivot into place, made 1, its column cleared. */
static void clear_column(uint8_t wide[8][16], int column)
{
    int pivot = column;

    while (pivot < 7 && wide[pivot][column] == 0)
        pivot++;
    for (int j = 0; j < 16; j++) {
        uint8_t kept = wide[column][j];
        wide[column][j] = wide[pivot][j];
        wide[pivot][j] = kept;
    }
    uint8_t scale = field_reciprocal(wide[column][column]);
    for (int j = 0; j < 16; j++)
        wide[column][j] = spool.product[scale][wide[column][j]];
    for (int i = 0; i < 8; i++) {
        uint8_t factor = wide[i][column];
        if (i == column)
            continue;
        for (int j = 0; j < 16; j++)
            wide[i][j] ^= spool.product[factor][wide[column][j]];
    }
}

/* Gaussian elimination on the matrix with the unit matrix at its side. */
static void invert_matrix(void)
{
    uint8_t wide[8][16];

    for (int i = 0; i < 8; i++)
        for (int j = 0; j < 8; j++) {
            wide[i][j] = spool.matrix[i][j];
            wide[i][8 + j] = i == j;
        }
    for (int column = 0; column < 8; column++)
        clear_column(wide, column);
    for (int i = 0; i < 8; i++)
        for (int j = 0; j < 8; j++)
            spool.inverse[i][j] = wide[i][8 + j];
}

static void make_ready(void)
{
    if (spool.ready)
        return;
    for (int a = 0; a < 256; a++) {
        for (int b = 0; b < 256; b++)
            spool.product[a][b] = field_product((uint8_t)a, (uint8_t)b);
        spool.table_back[pi_table[a]] = (uint8_t)a;
    }
    for (int i = 0; i < 8; i++)
        for (int j = 0; j < 8; j++)
            spool.matrix[i][j] = first_row[(j - i + 8) % 8];
    invert_matrix();
    spool.ready = 1;
}

/* Each row of the state, as a row vector, times the matrix. */
static void times(uint8_t state[PI_BYTES], uint8_t matrix[8][8])
{
    for (int i = 0; i < 8; i++) {
        uint8_t *row = state + 8 * i;
        uint8_t turned[8];
        for (int j = 0; j < 8; j++) {
            uint8_t sum = 0;
            for (int k = 0; k < 8; k++)
                sum ^= spool.product[matrix[k][j]][row[k]];
            turned[j] = sum;
        }
        memcpy(row, turned, 8);
    }
}

static void add_constants(uint8_t state[PI_BYTES], int round)
{
    for (int j = 0; j < 8; j++)
        state[j] ^= pi_table[8 * round + j];
}

/* Substitution, shift and mix: a round before anything is added. */
static void turn(uint8_t state[PI_BYTES])
{
    uint8_t moved[PI_BYTES];

    make_ready();
    for (int i = 0; i < 8; i++)
        for (int j = 0; j < 8; j++)
            moved[8 * ((i + j) % 8) + j] = pi_table[state[8 * i + j]];
    times(moved, spool.matrix);
    memcpy(state, moved, PI_BYTES);
}

static void turn_back(uint8_t state[PI_BYTES])
{
    uint8_t moved[PI_BYTES];

    make_ready();
    memcpy(moved, state, PI_BYTES);
    times(moved, spool.inverse);
    for (int i = 0; i < 8; i++)
        for (int j = 0; j < 8; j++)
            state[8 * i + j] = spool.table_back[moved[8 * ((i + j) % 8) + j]];
}

void pi_round(uint8_t state[PI_BYTES], int round)
{
    turn(state);
    add_constants(state, round);
}

void pi_round_back(uint8_t state[PI_BYTES], int round)
{
    add_constants(state, round);
    turn_back(state);
}

void pi_forward(uint8_t state[PI_BYTES])
{
    for (int round = 0; round < PI_ROUNDS; round++)
        pi_round(state, round);
}

void pi_back(uint8_t state[PI_BYTES])
{
    for (int round = PI_ROUNDS - 1; round >= 0; round--)
        pi_round_back(state, round);
}

uint8_t pi_permute(uint8_t *state, size_t state_length)
{
    if (state_length != PI_BYTES)
        return 2;
    pi_forward(state);
    return 0;
}

uint8_t pi_permute_back(uint8_t *state, size_t state_length)
{
    if (state_length != PI_BYTES)
        return 2;
    pi_back(state);
    return 0;
}

static void add_key(uint8_t state[PI_BYTES], const uint8_t key[PI_BYTES])
{
    for (int i = 0; i < PI_BYTES; i++)
        state[i] ^= key[i];
}

uint8_t pi_keyed(uint8_t *state, size_t state_length, const uint8_t *key, size_t key_length)
{
    if (state_length != PI_BYTES || key_length != PI_BYTES)
        return 2;
    turn(state);
    add_key(state, key);
    return 0;
}

uint8_t pi_keyed_back(uint8_t *state, size_t state_length, const uint8_t *key, size_t key_length)
{
    if (state_length != PI_BYTES || key_length != PI_BYTES)
        return 2;
    add_key(state, key);
    turn_back(state);
    return 0;
}
