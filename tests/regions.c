/* regions FROM TO [N]: takes lackey's trace on standard input and prints, for each part from the instruction at FROM to the one at TO (in hex), its
 * count of lines and a sum of them (FNV-1a over the text); with N, counted from 1, the lines of the Nth part instead. */
#define _XOPEN_SOURCE 600
#include <inttypes.h>
#include <stdio.h>
#include <stdlib.h>
#include <string.h>
#include <time.h>
#include <unistd.h>

/* Lackey writes line by line, and a reader that is woken for each costs more than half of the time: this one lets them gather first. */
static size_t more(char *at, size_t room)
{
    const struct timespec pause = {0, 1000000};
    ssize_t n;

    nanosleep(&pause, NULL);
    n = read(0, at, room);
    return n > 0 ? (size_t)n : 0;
}

/* The next line, without its end; NULL behind the last. */
static char *next_line(void)
{
    static char buffer[1 << 20];
    static size_t from, to;

    for (;;) {
        char *line = buffer + from, *end = memchr(line, '\n', to - from);
        size_t n;

        if (end != NULL) {
            *end = '\0';
            from = (size_t)(end - buffer) + 1;
            return line;
        }
        memmove(buffer, line, to - from);
        to -= from;
        from = 0;
        n = more(buffer + to, sizeof buffer - to);
        if (n == 0)
            return NULL;
        to += n;
    }
}

static uint64_t added(uint64_t sum, const char *line)
{
    for (; *line != '\0'; line++)
        sum = (sum ^ (unsigned char)*line) * 0x100000001B3u;
    return (sum ^ '\n') * 0x100000001B3u;
}

int main(int argc, char **argv)
{
    const uint64_t from = argc > 2 ? strtoull(argv[1], NULL, 16) : 0, to = argc > 2 ? strtoull(argv[2], NULL, 16) : 0;
    long shown = argc > 3 ? atol(argv[3]) : 0, part = 0;
    uint64_t sum = 0, lines = 0;
    int inside = 0;
    char *line;

    if (from == 0 || to == 0)
        return 2;
    while ((line = next_line()) != NULL) {
        uint64_t at = line[0] == 'I' ? strtoull(line + 1, NULL, 16) : 0;

        if (at == from) {
            inside = 1;
            part++;
            lines = 0;
            sum = 0xCBF29CE484222325u;
        }
        if (inside && at == to) {
            inside = 0;
            if (shown == 0)
                printf("%" PRIu64 " %016" PRIx64 "\n", lines, sum);
        }
        if (!inside)
            continue;
        lines++;
        sum = added(sum, line);
        if (part == shown)
            puts(line);
    }
    return inside;
}
