/* Seals a capture and opens it again; then a byte is damaged, and it opens no more.
 *
 *     cc -Iinclude examples/seal.c target/staticlib/libnotchbadger.a && ./a.out
 */
#include <stdio.h>
#include <string.h>

#include "notchbadger.h"

static int refused(const char *call, unsigned number)
{
    printf("%s: refused, %u\n", call, number);
    return 1;
}

int main(void)
{
    /* Yours: a key that is kept, and a nonce that never comes twice under it. */
    static const uint8_t key[NB_KEY_BYTES + 1] = "192-bit Secret Key value";
    static const uint8_t nonce[NB_NONCE_BYTES + 1] = "Nonces Used Once";
    static const uint8_t label[] = "reel 7", capture[] = "what the drive said";
    static const uint8_t zeros[sizeof capture] = {0};
    uint8_t sealed[sizeof capture + NB_TAG_BYTES], back[sizeof capture], number;

    number = nb_seal(key, NB_KEY_BYTES, nonce, NB_NONCE_BYTES, label, sizeof label,
                     capture, sizeof capture, sealed, sizeof sealed);
    if (number != NB_DONE)
        return refused("seal", number);
    printf("seal %u\n", number);

    number = nb_open(key, NB_KEY_BYTES, nonce, NB_NONCE_BYTES, label, sizeof label,
                     sealed, sizeof sealed, back, sizeof back);
    if (number != NB_DONE)
        return refused("open", number);
    printf("open %u: %s\n", number, (const char *)back);

    sealed[3] ^= 1;
    number = nb_open(key, NB_KEY_BYTES, nonce, NB_NONCE_BYTES, label, sizeof label,
                     sealed, sizeof sealed, back, sizeof back);
    if (number != NB_WRONG_TAG)
        return refused("open what was damaged", number);
    printf("open %u: %s\n", number, memcmp(back, zeros, sizeof back) == 0 ? "all zero" : "not zero");
    return 0;
}
