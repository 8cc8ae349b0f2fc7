/* The 64-bit permutation: a row is a word, and eight tables hold what each substituted byte adds to its row's product with the matrix (16 KiB,
   the paper's 4.2). Written from 1.1: substitute, shift, mix, constants. The tables are made at the first call. */
#include <string.h>

#include "../peer/pi.h"
#include "table.h"

static const uint8_t first_row[8] = {0x01, 0x01, 0x04, 0x01, 0x08, 0x05, 0x02, 0x09};

static uint64_t part[8][256]; /* by column and byte: the row that this byte alone mixes to, column 0 lowest */
static uint64_t constants[12];
static int made;

static unsigned product(unsigned a, unsigned b)
{
    unsigned sum = 0;

    for (; b != 0; b >>= 1) {
        sum ^= b & 1 ? a : 0;
        a = a << 1 ^ (a & 0x80 ? 0x11D : 0);
    }
    return sum;
}

static void make(void)
{
    for (int j = 0; j < 8; j++)
        for (int x = 0; x < 256; x++)
            for (int k = 0; k < 8; k++)
                part[j][x] |= (uint64_t)product(wbob_sbox[x], first_row[(k - j) & 7]) << 8 * k;
    for (int r = 0; r < 12; r++)
        for (int j = 0; j < 8; j++)
            constants[r] |= (uint64_t)wbob_sbox[8 * r + j] << 8 * j;
    made = 1;
}

/* Row i takes column j from row i - j. */
#define COLUMN(i, j) part[j][w[((i) - (j)) & 7] >> 8 * (j) & 0xFF]
#define ROW(i) (COLUMN(i, 0) ^ COLUMN(i, 1) ^ COLUMN(i, 2) ^ COLUMN(i, 3) ^ COLUMN(i, 4) ^ COLUMN(i, 5) ^ COLUMN(i, 6) ^ COLUMN(i, 7))

/* The words are read as they lie in memory: a little-endian machine. */
void pi_forward(uint8_t st[64])
{
    uint64_t w[8], v[8];

    if (!made)
        make();
    memcpy(w, st, 64);
    for (int r = 0; r < 12; r++) {
        v[0] = ROW(0) ^ constants[r];
        v[1] = ROW(1);
        v[2] = ROW(2);
        v[3] = ROW(3);
        v[4] = ROW(4);
        v[5] = ROW(5);
        v[6] = ROW(6);
        v[7] = ROW(7);
        memcpy(w, v, 64);
    }
    memcpy(st, w, 64);
}
