/* Every call that holds no verdict, under valgrind's memcheck, with key, state and message marked as undefined: a branch or an address by one of
 * their bytes, or by anything worked out of them, is then reported as one by an undefined value whose origin is a client request. Numbers, lengths,
 * places, nonces, associated data and ciphertext stay defined.
 *
 *     secrets          prints the names of the calls
 *     secrets NAME     makes this call, at several lengths; exit 1 where it did not answer as it should, so that a refusal does not pass as tried
 *
 * tests/leaks counts the reports. A run has one call: of two with the same top of the stack valgrind would show the first alone. */
#include <stdio.h>
#include <string.h>
#include <valgrind/memcheck.h>

#include "notchbadger.h"

#define BLOCKS 8
#define LONGEST 1000

#define SECRET(part) ((void)VALGRIND_MAKE_MEM_UNDEFINED(part, sizeof part))
#define KNOWN(part) ((void)VALGRIND_MAKE_MEM_DEFINED(part, sizeof part))

static int faults;

#define IS(what) ((what) ? (void)0 : (faults++, (void)printf("tests/secrets.c:%d: %s\n", __LINE__, #what)))

static const size_t lengths[] = {0, 1, 31, 32, 33, 64, 65, 200}, records[] = {1, 487, 488, 489, LONGEST};
static uint8_t state[NB_STATE_BYTES], round_key[NB_STATE_BYTES], key[NB_KEY_BYTES], text[LONGEST], out[LONGEST], image[BLOCKS * NB_BLOCK_BYTES];
static const uint8_t nonce[NB_NONCE_BYTES] = {4, 5}, data[40] = {6};

#define EACH(n, list) for (size_t i = 0, n; i < sizeof list / sizeof *list && (n = list[i], 1); i++)

static void hide(void)
{
    SECRET(state);
    SECRET(round_key);
    SECRET(key);
    SECRET(text);
}

static void show(void)
{
    KNOWN(state);
    KNOWN(round_key);
    KNOWN(key);
    KNOWN(text);
    KNOWN(out);
    KNOWN(image);
}

static void try_nb_permute(void)
{
    hide();
    IS(nb_permute(state, sizeof state) == NB_DONE);
}

static void try_nb_permute_back(void)
{
    hide();
    IS(nb_permute_back(state, sizeof state) == NB_DONE);
}

static void try_nb_round(void)
{
    hide();
    IS(nb_round(state, sizeof state, round_key, sizeof round_key) == NB_DONE);
}

static void try_nb_round_back(void)
{
    hide();
    IS(nb_round_back(state, sizeof state, round_key, sizeof round_key) == NB_DONE);
}

static void try_nb_minibox(void)
{
    hide();
    out[0] = nb_minibox(text[0]);
    show();
    IS(out[0] == 0x18);
}

static void try_nb_put(void)
{
    EACH(n, lengths) {
        hide();
        IS(nb_put(state, sizeof state, text, n, NB_DOMAIN_KEY) == NB_DONE);
    }
}

static void try_nb_get(void)
{
    EACH(n, lengths) {
        hide();
        IS(nb_get(state, sizeof state, out, n, NB_DOMAIN_TAG) == NB_DONE);
    }
}

static void try_nb_enc(void)
{
    EACH(n, lengths) {
        hide();
        IS(nb_enc(state, sizeof state, text, n, out, n, NB_DOMAIN_MESSAGE) == NB_DONE);
    }
}

/* What is taken in is ciphertext. */
static void try_nb_dec(void)
{
    EACH(n, lengths) {
        hide();
        KNOWN(text);
        IS(nb_dec(state, sizeof state, text, n, out, n, NB_DOMAIN_MESSAGE) == NB_DONE);
    }
}

static void try_nb_seal(void)
{
    EACH(n, lengths) {
        hide();
        IS(nb_seal(key, sizeof key, nonce, sizeof nonce, data, n % (sizeof data + 1), text, n, out, n + NB_TAG_BYTES) == NB_DONE);
    }
}

/* An accepted item leaves the position behind its blocks. */
static int at(nb_wrote w, size_t position)
{
    return w.number == NB_DONE && w.reply == NB_PLAIN && w.state.position == position;
}

static nb_state start(void)
{
    return nb_start(7, 2026, 1, image, sizeof image).state;
}

static void try_nb_record(void)
{
    EACH(n, records) {
        nb_state s = start();

        hide();
        IS(at(nb_record(s, key, sizeof key, text, n, image, sizeof image), (n + NB_BLOCK_PAYLOAD - 1) / NB_BLOCK_PAYLOAD));
        show();
    }
}

static void try_nb_mark(void)
{
    nb_state s = start();

    hide();
    IS(at(nb_mark(s, key, sizeof key, image, sizeof image), 1));
}

static void try_nb_close(void)
{
    nb_state s = start();

    hide();
    IS(at(nb_close(s, key, sizeof key, image, sizeof image), 1));
}

#define CALLS(X) \
    X(nb_permute) X(nb_permute_back) X(nb_round) X(nb_round_back) X(nb_minibox) X(nb_put) X(nb_get) X(nb_enc) X(nb_dec) X(nb_seal) \
    X(nb_record) X(nb_mark) X(nb_close)
#define ROW(name) {#name, try_##name},

static const struct {
    const char *name;
    void (*run)(void);
} calls[] = {CALLS(ROW)};

int main(int argc, char **argv)
{
    size_t i;

    for (i = 0; i < sizeof calls / sizeof *calls; i++) {
        if (argc < 2) {
            puts(calls[i].name);
        } else if (strcmp(argv[1], calls[i].name) == 0) {
            IS(RUNNING_ON_VALGRIND);
            calls[i].run();
            show();
            return faults != 0;
        }
    }
    return argc < 2 ? 0 : 2;
}
