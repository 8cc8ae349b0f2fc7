/* One piece of the work, done once to warm up and then TIMES times (1 if not given) inside `counted`, which callgrind is told to count:

       work NAME [BYTES [TIMES]]

   permute, back: π and its inverse; seal, open: of BYTES; record: one of BYTES at block 0; read: of one (0: of a file mark); walk, report: over
   the reel of 128 blocks that `fill` writes; memset: of BYTES. It prints a sum of all that came out, so that the sides can be held
   against each other. */
#include <stdio.h>
#include <stdlib.h>
#include <string.h>

#include "side.h"

static uint8_t image[IMAGE_BYTES], buffer[BUFFER_BYTES], bytes[IMAGE_BYTES], sealed[IMAGE_BYTES];
static uint8_t state[64];
static size_t said[8];

/* Records of 1 and of 4 blocks and a mark, 21 times, one mark more and the end of data: 128 blocks. */
static void fill(void)
{
    size_t p = side_start(image);

    for (int i = 0; i < 21; i++) {
        p = side_record(p, bytes, 488, image);
        p = side_record(p, bytes + 488, 1900, image);
        p = side_mark(p, image);
    }
    side_close(side_mark(p, image), image);
}

static void walk(void)
{
    size_t p = 0, data;

    while (p < 128) {
        unsigned outcome = side_read(image, p, buffer, &data, &p);
        said[outcome]++;
        if (outcome == 2)
            break;
    }
}

static void permute(size_t n) { (void)n; said[0] = side_permute(state); }
static void back(size_t n) { (void)n; said[0] = side_permute_back(state); }
static void seal(size_t n) { said[0] = side_seal(bytes, n, sealed); }
static void open(size_t n) { said[0] = side_open(sealed, n, bytes); }
static void record(size_t n) { said[0] = side_record(0, bytes, n, image); }
static void read(size_t n) { (void)n; said[0] = side_read(image, 0, buffer, &said[1], &said[2]); }
static void walk_all(size_t n) { (void)n; walk(); }
static void report(size_t n) { (void)n; side_report(image, said); }
static void clear(size_t n) { memset(buffer, 0, n); }

static void ready_open(size_t n) { side_seal(bytes, n, sealed); }
static void ready_record(size_t n) { (void)n; side_start(image); }
static void ready_read(size_t n) { side_start(image); if (n == 0) side_mark(0, image); else side_record(0, bytes, n, image); }
static void ready_reel(size_t n) { (void)n; fill(); }

static const struct work {
    const char *name;
    void (*ready)(size_t n), (*work)(size_t n);
} works[] = {
    {"permute", NULL, permute}, {"back", NULL, back}, {"seal", NULL, seal}, {"open", ready_open, open}, {"record", ready_record, record},
    {"read", ready_read, read}, {"walk", ready_reel, walk_all}, {"report", ready_reel, report}, {"memset", NULL, clear},
};

static __attribute__((noinline)) void counted(const struct work *work, size_t n)
{
    work->work(n);
    __asm__ volatile("" ::: "memory");
}

static uint64_t sum(uint64_t so_far, const void *at, size_t n)
{
    for (const uint8_t *b = at; n > 0; n--, b++)
        so_far = (so_far ^ *b) * 0x100000001B3u;
    return so_far;
}

int main(int argc, char **argv)
{
    size_t n = argc > 2 ? (size_t)atol(argv[2]) : 0, times = argc > 3 ? (size_t)atol(argv[3]) : 1;

    for (size_t i = 0; i < sizeof bytes; i++)
        bytes[i] = (uint8_t)(i * 7 + i / 256);
    for (size_t i = 0; argc > 1 && i < sizeof works / sizeof *works; i++)
        if (strcmp(argv[1], works[i].name) == 0) {
            if (works[i].ready != NULL)
                works[i].ready(n);
            works[i].work(n);
            for (; times > 0; times--)
                counted(&works[i], n);
            uint64_t all = sum(sum(sum(0xCBF29CE484222325u, image, sizeof image), buffer, sizeof buffer), bytes, sizeof bytes);
            printf("%016llx\n", (unsigned long long)sum(sum(sum(all, sealed, sizeof sealed), state, sizeof state), said, sizeof said));
            return 0;
        }
    return 2;
}
