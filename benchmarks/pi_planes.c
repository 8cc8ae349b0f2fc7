/* The permutation on planes of bits: word b holds bit b of all 64 bytes, column j in its byte j, row i in bit i of that byte. No table is indexed
   and no branch taken by what the state holds. Every byte is held plus 62: a box is then x to B(x + a) + B(a), which needs no NOT, and since
   S(62) = D5 and 03 times D5 is 62 again, the state stays so held through all rounds. The constants' planes are made at the first call. */
#include <string.h>

#include "../peer/pi.h"
#include "table.h"

/* Four planes of one column. */
struct four {
    uint8_t p0, p1, p2, p3;
};

/* A byte times 0101 is the byte twice, and times 2^j more its high byte is the byte turned by j. */
#define BY_COLUMN 0x0101, 0x0202, 0x0404, 0x0808, 0x1010, 0x2020, 0x4040, 0x8080
static const uint16_t turns[16] = {BY_COLUMN, BY_COLUMN};

static uint64_t constants[12][8];
static int made;

static void make(void)
{
    for (int r = 0; r < 12; r++)
        for (int b = 0; b < 8; b++)
            for (int j = 0; j < 8; j++)
                constants[r][b] |= (uint64_t)(wbob_sbox[8 * r + j] >> b & 1) << 8 * j;
    made = 1;
}

static inline struct four sum(struct four x, struct four y)
{
    struct four z = {x.p0 ^ y.p0, x.p1 ^ y.p1, x.p2 ^ y.p2, x.p3 ^ y.p3};

    return z;
}

/* E(x + 6) + F */
static inline struct four high_in(struct four x)
{
    uint8_t t4 = x.p0 | x.p1, t6 = x.p2 & (x.p0 ^ x.p1), t7 = x.p1 ^ x.p2, t8 = t7 & x.p0, t9 = t6 ^ t7, t10 = t4 ^ t6, t14 = t8 | x.p3;
    struct four y = {t14 & t4, t9 ^ t14, (~x.p3 & t9) ^ t10, (t10 | x.p3) ^ (~t8 & x.p1)};

    return y;
}

/* E'(x + 2) + D */
static inline struct four low_in(struct four x)
{
    uint8_t t5 = x.p3 ^ (~x.p0 & x.p1), t9 = t5 | x.p0, t10 = x.p1 ^ x.p0, t12 = x.p1 ^ (t10 & t5), t16 = ~(~x.p1 & x.p2) & t10;
    struct four y = {~t16 & t9, t10 ^ (t12 & (x.p2 ^ x.p3)), t12 ^ (t9 & x.p2), x.p0 ^ (~t5 & x.p2)};

    return y;
}

/* R(x + 2) + B */
static inline struct four between(struct four x)
{
    uint8_t t4 = x.p2 | x.p1, t6 = x.p0 ^ (x.p1 & x.p2), t7 = ~t6 & x.p1, t8 = x.p3 ^ x.p1, t12 = t7 | (x.p3 & t4), t15 = t8 ^ (~x.p0 & t12);
    struct four y = {t15, (t7 | t15) ^ x.p0 ^ t4, (t6 | t8) ^ x.p3, t12};

    return y;
}

/* E(x + 4) + D */
static inline struct four high_out(struct four x)
{
    uint8_t t5 = ~(x.p0 ^ x.p1) & x.p2, t6 = x.p2 ^ x.p1, t7 = ~t6 & x.p0, t8 = ~x.p0 & x.p1, t9 = t6 ^ t5, t11 = t8 ^ t5, t12 = t7 | x.p3;
    struct four y = {~t8 & t12, t12 ^ t9, (x.p3 | t9) ^ t11, (t7 | x.p1) ^ (~x.p3 & t11)};

    return y;
}

/* E'(x + 6) + 5 */
static inline struct four low_out(struct four x)
{
    uint8_t t5 = x.p3 ^ (~x.p0 & x.p1), t6 = ~t5 & x.p2, t7 = t6 ^ x.p1, t8 = x.p0 ^ t6, t10 = t8 ^ t5, t12 = x.p2 ^ (~t5 & t7);
    uint8_t t13 = (~t6 & t10) ^ t12, t16 = t7 ^ (~t12 & t8);
    struct four y = {t8 ^ (~t16 & (x.p2 | t13)), t16, t13, t10};

    return y;
}

/* The gates, column by column as they lie in memory: gcc takes the eight as one vector. */
static inline void substitute(const uint8_t s[64], uint8_t q[64])
{
    for (int j = 0; j < 8; j++) {
        struct four low = {s[j], s[j + 8], s[j + 16], s[j + 24]}, high = {s[j + 32], s[j + 40], s[j + 48], s[j + 56]};
        struct four u = high_in(high), v = low_in(low), w = between(sum(u, v));

        high = high_out(sum(u, w));
        low = low_out(sum(v, w));
        q[j] = low.p0;
        q[j + 8] = low.p1;
        q[j + 16] = low.p2;
        q[j + 24] = low.p3;
        q[j + 32] = high.p0;
        q[j + 40] = high.p1;
        q[j + 48] = high.p2;
        q[j + 56] = high.p3;
    }
}

#define TURNED(i, j) q[i] = (uint8_t)((uint16_t)(q[i] * turns[j]) >> 8)

/* Column j is turned by j; two planes at a time. */
static inline void shift(uint8_t q[64])
{
    for (int j = 0; j < 16; j++) {
        TURNED(j, j);
        TURNED(j + 16, j);
        TURNED(j + 32, j);
        TURNED(j + 48, j);
    }
}

#define TURN(x, columns) ((x) << 8 * (columns) | (x) >> (64 - 8 * (columns)))

/* With T for the turn by one column the mix is 1 + T((1 + T^2)(1 + T^4) + 2T(T^4 + 2(1 + T^3)(1 + 2T^2))). */
#define D(i) uint64_t d##i = p[i] ^ TURN(p[i], 3), w##i = TURN(d##i, 2)
#define A(i) uint64_t a##i = TURN(p[i], 4), b##i = p[i] ^ a##i, c##i = b##i ^ TURN(b##i, 2)
#define E(i, w) uint64_t e##i = d##i ^ (w)
#define Z(i, e) uint64_t f##i = a##i ^ (e), z##i = TURN(f##i, 1)
#define P(i, z) uint64_t g##i = c##i ^ (z); s[i] = p[i] ^ constant[i] ^ TURN(g##i, 1)

/* The mix and the constants. */
static inline void mix(const uint64_t p[8], uint64_t s[8], const uint64_t constant[8])
{
    D(7); D(6); D(5); A(7); E(7, w6); E(6, w5); Z(7, e6);
    D(0); E(0, w7); A(0); Z(0, e7); P(0, z7);
    D(1); E(1, w0); A(1); Z(1, e0); P(1, z0);
    D(2); E(2, w1 ^ w7); A(2); Z(2, e1 ^ e7); P(2, z1 ^ z7);
    D(3); E(3, w2 ^ w7); A(3); Z(3, e2 ^ e7); P(3, z2 ^ z7);
    D(4); E(4, w3 ^ w7); A(4); Z(4, e3 ^ e7); P(4, z3 ^ z7);
    E(5, w4); A(5); Z(5, e4); P(5, z4);
    A(6); Z(6, e5); P(6, z5);
    P(7, z6);
}

/* The bits of a that m has not, n places higher, change places with the bits of b that m has. */
#define CROSS(a, b, n, m) t = ((a) >> (n) ^ (b)) & (m); (a) ^= t << (n); (b) ^= t

/* Rows to planes, and planes to rows. */
static inline void transpose(uint64_t w[8])
{
    const uint64_t m1 = 0x5555555555555555, m2 = 0x3333333333333333, m4 = 0x0F0F0F0F0F0F0F0F;
    uint64_t t;

    CROSS(w[0], w[1], 1, m1); CROSS(w[2], w[3], 1, m1); CROSS(w[4], w[5], 1, m1); CROSS(w[6], w[7], 1, m1);
    CROSS(w[0], w[2], 2, m2); CROSS(w[1], w[3], 2, m2); CROSS(w[4], w[6], 2, m2); CROSS(w[5], w[7], 2, m2);
    CROSS(w[0], w[4], 4, m4); CROSS(w[1], w[5], 4, m4); CROSS(w[2], w[6], 4, m4); CROSS(w[3], w[7], 4, m4);
}

static inline void add_62(uint64_t w[8])
{
    w[1] = ~w[1];
    w[5] = ~w[5];
    w[6] = ~w[6];
}

/* The words are read as they lie in memory: a little-endian machine. */
void pi_forward(uint8_t st[64])
{
    uint64_t w[8], v[8];

    if (!made)
        make();
    memcpy(w, st, 64);
    transpose(w);
    add_62(w);
    for (int r = 0; r < 12; r++) {
        substitute((const uint8_t *)w, (uint8_t *)v);
        shift((uint8_t *)v);
        mix(v, w, constants[r]);
    }
    add_62(w);
    transpose(w);
    memcpy(st, w, 64);
}
