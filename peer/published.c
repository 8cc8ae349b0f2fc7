/* Runs what the paper prints in 1.3.1 and 1.3.2, the latter under both
 * readings of the padding between full groups, and says which one it is.
 * Exit 0 exactly if 1.3.1 holds and the domain byte alone, and only that,
 * gives 1.3.2. */
#include <stdio.h>
#include <string.h>

#include "blnk.h"
#include "paper.h"
#include "pi.h"
#include "seal.h"

/* What went into and came out of each permutation of the latest sealing. */
static struct {
    int count;
    uint8_t before[PAPER_TRACE][64];
    uint8_t after[PAPER_TRACE][64];
} log_tape;

static void watch(const uint8_t before[64], const uint8_t after[64])
{
    if (log_tape.count < PAPER_TRACE) {
        memcpy(log_tape.before[log_tape.count], before, 64);
        memcpy(log_tape.after[log_tape.count], after, 64);
    }
    log_tape.count++;
}

static int told(const char *what, int holds)
{
    printf("%s: %s\n", what, holds ? "as published" : "DIFFERENT");
    return holds;
}

static int same(const char *what, const uint8_t *ours, const uint8_t *printed, size_t n)
{
    return told(what, memcmp(ours, printed, n) == 0);
}

static int table_holds(void)
{
    int faults = pi_table_faults();

    printf("table 1.1 by the miniboxes of table 1.2: %d of 256 entries differ\n", faults);
    return faults == 0;
}

static int rounds_hold(void)
{
    uint8_t state[64];
    int good = 1;

    memcpy(state, paper_x0, 64);
    for (int round = 0; round < PI_ROUNDS; round++) {
        pi_round(state, round);
        if (round + 1 == 1)
            good &= same("1.3.1 x1", state, paper_x1, 64);
        if (round + 1 == 10)
            good &= same("1.3.1 x10", state, paper_x10, 64);
    }
    good &= same("1.3.1 x12", state, paper_x12, 64);
    for (int round = PI_ROUNDS - 1; round >= 0; round--) {
        pi_round_back(state, round);
        if (round == 10)
            good &= same("1.3.1 back to x10", state, paper_x10, 64);
        if (round == 1)
            good &= same("1.3.1 back to x1", state, paper_x1, 64);
    }
    good &= same("1.3.1 back to x0", state, paper_x0, 64);
    pi_forward(state);
    good &= same("1.3.1 pi(x0) in one call", state, paper_x12, 64);
    pi_back(state);
    return good & same("1.3.1 pi undone in one call", state, paper_x0, 64);
}

static int trace_holds(const char *name)
{
    char what[80];
    int good;

    snprintf(what, sizeof what, "1.3.2 (%s) %d permutations", name, log_tape.count);
    good = told(what, log_tape.count == PAPER_TRACE);
    for (int i = 0; i < PAPER_TRACE && i < log_tape.count; i++) {
        snprintf(what, sizeof what, "1.3.2 (%s) Block %d", name, i);
        good &= same(what, log_tape.before[i], paper_block[i], 64);
        snprintf(what, sizeof what, "1.3.2 (%s) pi out %d", name, i);
        good &= same(what, log_tape.after[i], paper_pi_out[i], 64);
    }
    return good;
}

static uint8_t open_published(uint8_t out[PAPER_MESSAGE])
{
    return unseal((const uint8_t *)paper_key, PAPER_KEY,
                  (const uint8_t *)paper_nonce, PAPER_NONCE,
                  (const uint8_t *)paper_data, PAPER_DATA,
                  paper_sealed, PAPER_SEALED, out, PAPER_MESSAGE);
}

static int sealing_holds(enum blnk_reading reading, const char *name)
{
    uint8_t sealed[PAPER_SEALED], opened[PAPER_MESSAGE];
    char what[80];
    int good;

    blnk_reading = reading;
    log_tape.count = 0;
    blnk_watch = watch;
    seal((const uint8_t *)paper_key, PAPER_KEY,
         (const uint8_t *)paper_nonce, PAPER_NONCE,
         (const uint8_t *)paper_data, PAPER_DATA,
         (const uint8_t *)paper_message, PAPER_MESSAGE, sealed, PAPER_SEALED);
    blnk_watch = NULL;
    good = trace_holds(name);
    snprintf(what, sizeof what, "1.3.2 (%s) the 54 bytes", name);
    good &= same(what, sealed, paper_sealed, PAPER_SEALED);
    snprintf(what, sizeof what, "1.3.2 (%s) the published bytes open to the message", name);
    good &= told(what, open_published(opened) == 0
                 && memcmp(opened, paper_message, PAPER_MESSAGE) == 0);
    blnk_reading = BLNK_DOMAIN_ALONE;
    return good;
}

int main(void)
{
    int table = table_holds();
    int rounds = rounds_hold();
    int alone = sealing_holds(BLNK_DOMAIN_ALONE, "a, domain byte alone");
    int with_end = sealing_holds(BLNK_WITH_END, "b, END included");
    const char *which = alone && with_end ? "both readings"
                        : alone           ? "reading (a) alone, the domain byte without END"
                        : with_end        ? "reading (b) alone, END included"
                                          : "neither reading";

    printf("published: table and 1.3.1 %s; 1.3.2 comes out under %s\n",
           table && rounds ? "hold" : "DO NOT HOLD", which);
    return table && rounds && alone && !with_end ? 0 : 1;
}
