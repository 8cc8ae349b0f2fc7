/* compare [SEED [CASES]]: holds the peer and the kit's static library against
 * each other on random cases of the calls up to open: what is returned, every
 * lent buffer, and the guard bytes on both sides of it. Exit 1 at the first
 * difference, 2 on wrong arguments. */
#include <inttypes.h>
#include <stdbool.h>
#include <stdio.h>
#include <string.h>

#include "blnk.h"
#include "notchbadger.h"
#include "pi.h"
#include "random.h"
#include "seal.h"

#define DEFAULT_SEED 20150828u
#define DEFAULT_CASES 14000u
#define STRIPS 5 /* the most buffers one call is lent */

static const char *const calls[] = {
    "permute", "permute_back", "round", "round_back", "minibox", "put", "get", "enc", "dec", "seal", "open",
};

enum call { PERMUTE, PERMUTE_BACK, ROUND, ROUND_BACK, MINIBOX, PUT, GET, ENC, DEC, SEAL, OPEN, CALLS };

/* The strips of a call, in the order of its arguments. */
enum { STATE = 0, ROUND_KEY = 1 };                             /* permutation */
enum { IN = 1, OUT = 2 };                                      /* block operations */
enum { KEY = 0, NONCE = 1, DATA = 2, TEXT = 3, RECEIVER = 4 }; /* seal, open */

static struct strip strips[STRIPS];
static const char *const names[STRIPS] = {"strip 0", "strip 1", "strip 2", "strip 3", "strip 4"};
static struct {
    enum call call;
    uint8_t byte;  /* the domain, or what minibox takes */
    bool wild;     /* refusals crowded together, to see which cause comes first */
    size_t pinned; /* 1 to 3: every length is the limit, less 2 and plus this */
    const char *sort;
} now;

/* The edges of the groups most of all, then short ones, long ones seldom, and
 * `limit`, the one before and the one past it in one of 500. A length past the
 * limit is refused and costs no permutation, so a wild case may have many. */
static size_t draw_length(size_t limit)
{
    static const size_t edges[] = {0, 1, 15, 16, 31, 32, 33, 63, 64, 65, 95, 96, 97};
    size_t way = below(500);

    if (now.pinned > 0)
        return limit - 2 + now.pinned;
    if (now.wild && way % 2 == 0)
        return limit + 1;
    if (way == 0)
        return limit - 1 + below(3);
    if (way < 5)
        return below(8192);
    if (way < 60)
        return below(600);
    if (way < 280)
        return edges[below(sizeof edges / sizeof edges[0])];
    return below(130);
}

/* Mostly the right length; else one beside it, none, or any small one. */
static size_t draw_near(size_t right)
{
    if (now.pinned > 0)
        return right;
    switch (below(now.wild ? 8 : 60)) {
    case 0: return right + 1;
    case 1: return right > 0 ? right - 1 : 1;
    case 2: return 0;
    case 3: return below(130);
    default: return right;
    }
}

static void lend(int which, size_t length)
{
    strip_noise(&strips[which], length);
}

static uint8_t draw_domain(void)
{
    static const uint8_t named[] = {BLNK_KEY, BLNK_NPUB, BLNK_AAD, BLNK_MSG, BLNK_MAC};

    return below(2) ? named[below(sizeof named)] : (uint8_t)below(256);
}

/* minibox is lent nothing: it gets every byte in its turn. */
static void draw_permutation(void)
{
    static uint8_t turn;

    if (now.call == MINIBOX) {
        now.byte = turn++;
        return;
    }
    lend(STATE, draw_near(NB_STATE_BYTES));
    if (now.call == ROUND || now.call == ROUND_BACK)
        lend(ROUND_KEY, draw_near(NB_STATE_BYTES));
}

static void draw_operation(void)
{
    size_t n = draw_length(NB_OPERATION_MAX);

    now.byte = draw_domain();
    lend(STATE, draw_near(NB_STATE_BYTES));
    if (now.call == PUT || now.call == ENC || now.call == DEC)
        lend(IN, n);
    if (now.call == GET)
        lend(OUT, n);
    if (now.call == ENC || now.call == DEC)
        lend(OUT, draw_near(n));
}

static uint8_t *bytes(int which)
{
    return strips[which].peer + GUARD;
}

/* Sealed bytes that fit the key, nonce and data of the case, so far as those
 * can be sealed at all; otherwise the noise stays. */
static void make_sealed(void)
{
    size_t n = strips[TEXT].length;
    static uint8_t message[ROOM], sealed[ROOM];

    if (n < NB_TAG_BYTES)
        return;
    memcpy(message, bytes(TEXT), n);
    if (seal(bytes(KEY), strips[KEY].length, bytes(NONCE), strips[NONCE].length,
             bytes(DATA), strips[DATA].length, message, n - NB_TAG_BYTES,
             sealed, n) == 0)
        memcpy(bytes(TEXT), sealed, n);
}

/* One bit of the key, the nonce, the data or the sealed bytes, or of the tag
 * alone, since it is short. */
static void damage(void)
{
    int which = (int)below(STRIPS);
    size_t from = 0;

    now.sort = "damaged";
    if (which == RECEIVER) {
        which = TEXT;
        if (strips[TEXT].length >= NB_TAG_BYTES)
            from = strips[TEXT].length - NB_TAG_BYTES;
    }
    size_t n = strips[which].length - from;
    if (n > 0)
        bytes(which)[from + below(n)] ^= (uint8_t)(1u << below(8));
}

static void draw_sealing(void)
{
    size_t message = draw_length(NB_MESSAGE_MAX);
    size_t sealed = message + NB_TAG_BYTES;

    lend(KEY, draw_near(NB_KEY_BYTES));
    lend(NONCE, draw_near(NB_NONCE_BYTES));
    lend(DATA, draw_length(NB_DATA_MAX));
    if (now.call == SEAL) {
        lend(TEXT, message);
        lend(RECEIVER, draw_near(sealed));
        return;
    }
    if (now.pinned == 0 && below(30) == 0) {
        sealed = below(NB_TAG_BYTES + 1);
        message = 0;
    }
    lend(TEXT, sealed);
    lend(RECEIVER, draw_near(message));
    make_sealed();
    if (now.pinned == 0 && below(2) == 0)
        damage();
}

/* The first cases of a run are the limits of the six calls that have one; the
 * rest is left to the generator. */
static void choose_call(uint64_t number)
{
    uint64_t limited = CALLS - PUT;

    now.pinned = number < 3 * limited ? (size_t)(1 + number / limited) : 0;
    now.call = (enum call)(now.pinned > 0 ? PUT + number % limited : below(CALLS));
    now.wild = now.pinned == 0 && below(20) == 0;
    now.sort = now.pinned > 0 ? "limit" : now.wild ? "wild" : "whole";
    now.byte = 0;
}

static void draw_case(uint64_t number)
{
    for (int i = 0; i < STRIPS; i++)
        strips[i].length = 0;
    choose_call(number);
    if (now.call < PUT)
        draw_permutation();
    else if (now.call == SEAL || now.call == OPEN)
        draw_sealing();
    else
        draw_operation();
    for (int i = 0; i < STRIPS; i++)
        strip_copy(&strips[i]);
}

/* Pointer and length of a strip, as two arguments. */
#define PEER(which) strips[which].peer + GUARD, strips[which].length
#define KIT(which) strips[which].kit + GUARD, strips[which].length

static uint8_t run_peer(void)
{
    switch (now.call) {
    case PERMUTE: return pi_permute(PEER(STATE));
    case PERMUTE_BACK: return pi_permute_back(PEER(STATE));
    case ROUND: return pi_keyed(PEER(STATE), PEER(ROUND_KEY));
    case ROUND_BACK: return pi_keyed_back(PEER(STATE), PEER(ROUND_KEY));
    case MINIBOX: return pi_by_miniboxes(now.byte);
    case PUT: return blnk_put(PEER(STATE), PEER(IN), now.byte);
    case GET: return blnk_get(PEER(STATE), PEER(OUT), now.byte);
    case ENC: return blnk_enc(PEER(STATE), PEER(IN), PEER(OUT), now.byte);
    case DEC: return blnk_dec(PEER(STATE), PEER(IN), PEER(OUT), now.byte);
    case SEAL: return seal(PEER(KEY), PEER(NONCE), PEER(DATA), PEER(TEXT), PEER(RECEIVER));
    default: return unseal(PEER(KEY), PEER(NONCE), PEER(DATA), PEER(TEXT), PEER(RECEIVER));
    }
}

static uint8_t run_kit(void)
{
    switch (now.call) {
    case PERMUTE: return nb_permute(KIT(STATE));
    case PERMUTE_BACK: return nb_permute_back(KIT(STATE));
    case ROUND: return nb_round(KIT(STATE), KIT(ROUND_KEY));
    case ROUND_BACK: return nb_round_back(KIT(STATE), KIT(ROUND_KEY));
    case MINIBOX: return nb_minibox(now.byte);
    case PUT: return nb_put(KIT(STATE), KIT(IN), now.byte);
    case GET: return nb_get(KIT(STATE), KIT(OUT), now.byte);
    case ENC: return nb_enc(KIT(STATE), KIT(IN), KIT(OUT), now.byte);
    case DEC: return nb_dec(KIT(STATE), KIT(IN), KIT(OUT), now.byte);
    case SEAL: return nb_seal(KIT(KEY), KIT(NONCE), KIT(DATA), KIT(TEXT), KIT(RECEIVER));
    default: return nb_open(KIT(KEY), KIT(NONCE), KIT(DATA), KIT(TEXT), KIT(RECEIVER));
    }
}

static void print_case(uint64_t seed, uint64_t number)
{
    printf("compare: DIFFERENT at case %" PRIu64 " of seed %" PRIu64 ": %s, %s, byte %02X, "
           "lengths", number, seed, calls[now.call], now.sort, now.byte);
    for (int i = 0; i < STRIPS; i++)
        printf(" %lu", (unsigned long)strips[i].length);
    putchar('\n');
}

static bool agree(void)
{
    uint8_t peer = run_peer();
    uint8_t kit = run_kit();
    bool same = peer == kit;

    if (!same)
        printf("compare: returned: peer %u, library %u\n", peer, kit);
    for (int i = 0; i < STRIPS; i++)
        if (strip_differs(&strips[i], "compare", names[i]))
            same = false;
    return same;
}

int main(int argc, char **argv)
{
    uint64_t seed = DEFAULT_SEED, cases = DEFAULT_CASES;

    if (!take_arguments(argc, argv, &seed, &cases)) {
        fputs("usage: compare [SEED [CASES]]\n", stderr);
        return 2;
    }
    reseed(seed);
    for (uint64_t i = 0; i < cases; i++) {
        draw_case(i);
        if (!agree()) {
            print_case(seed, i);
            return 1;
        }
    }
    printf("compare: %" PRIu64 " cases of %d calls agree (seed %" PRIu64 ")\n", cases, CALLS, seed);
    return 0;
}
