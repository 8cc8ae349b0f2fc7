/* The 8-bit permutation: the paper's code of 1.1.5, as printed. */
#include "../peer/pi.h"
#include "table.h"

void pi_forward(uint8_t st[64])
{
    int r, i, j;
    uint8_t t[64], x, *pt;

    for (r = 0; r < 12; r++) {
        for (i = 0; i < 64; i++) {
            t[(i & 7) + ((i + (i << 3)) & 070)] =
                wbob_sbox[st[i]];
        }

        pt = (uint8_t *) &wbob_sbox[8 * r];
        for (i = 0; i < 8; i++)
            st[i] = pt[i];
        for (i = 8; i < 64; i++)
            st[i] = 0;

        for (i = 0; i < 64; i += 8) {
            pt = &st[i];
            for (j = 0; j < 8; j++) {
                x = t[i + j];
                pt[j & 7] ^= x;
                pt[(j + 1) & 7] ^= x;
                pt[(j + 3) & 7] ^= x;
                pt[(j + 5) & 7] ^= x;
                pt[(j + 7) & 7] ^= x;

                x = (x << 1) ^ (x & 0x80 ? 0x1D : 0x00);
                pt[(j + 6) & 7] ^= x;

                x = (x << 1) ^ (x & 0x80 ? 0x1D : 0x00);
                pt[(j + 2) & 7] ^= x;
                pt[(j + 5) & 7] ^= x;

                x = (x << 1) ^ (x & 0x80 ? 0x1D : 0x00);
                pt[(j + 4) & 7] ^= x;
                pt[(j + 7) & 7] ^= x;
            }
        }
    }
}
