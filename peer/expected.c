/* expected NAME: writes the stored file NAME of a program crate; expected --list: the names, a line each. */
#include <stdio.h>
#include <string.h>

#include "format.h"
#include "rehearsal.h"
#include "vectors.h"

static const struct {
    const char *name;
    int (*write)(FILE *to);
} files[] = {
    {"vectors.stdin", vectors_stdin},
    {"vectors.stdout", vectors_stdout},
    {"rehearse.stdout", rehearsal_stdout},
    {"docs.FORMAT", format_block},
};

#define FILES (sizeof files / sizeof files[0])

static int usage(void)
{
    fputs("usage: expected NAME, where NAME is one of", stderr);
    for (size_t i = 0; i < FILES; i++)
        fprintf(stderr, " %s", files[i].name);
    fputc('\n', stderr);
    return 2;
}

static int list(void)
{
    for (size_t i = 0; i < FILES; i++)
        puts(files[i].name);
    return 0;
}

int main(int argc, char **argv)
{
    if (argc != 2)
        return usage();
    if (strcmp(argv[1], "--list") == 0)
        return list();
    for (size_t i = 0; i < FILES; i++) {
        if (strcmp(argv[1], files[i].name) != 0)
            continue;
        int missed = files[i].write(stdout);
        if (missed)
            fprintf(stderr, "expected: %s is not what the documents print\n", files[i].name);
        return missed || fflush(stdout) != 0 || ferror(stdout) ? 1 : 0;
    }
    return usage();
}
