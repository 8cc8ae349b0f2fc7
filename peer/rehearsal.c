#include "rehearsal.h"

#include <stdint.h>
#include <string.h>

#include "seal.h"
#include "writer.h"

#define BLOCKS 8
#define ZONE 3

/* As it was agreed on. */
static const char listing[] =
    "record 5 1 plain\n"
    "record 489 3 plain\n"
    "mark 0 4 plain\n"
    "record 1464 7 warned\n"
    "record 1 7 refused 5\n"
    "close 0 8 plain\n";

static uint8_t image[BLOCKS * BLOCK_BYTES];
static const uint8_t key[SEAL_KEY] = "rehearsal with the peer";
static const uint8_t programme[1464]; /* what is recorded doesn't show */

struct page {
    char text[512];
    size_t length;
};

static struct writer note(struct page *page, const char *verb, size_t length,
                          struct reply reply)
{
    static const char *const words[] = {"plain", "warned", "refused"};
    size_t room = sizeof page->text - page->length;
    char number[8] = "";

    if (reply.result == RESULT_REFUSED)
        snprintf(number, sizeof number, " %u", reply.number);
    int written = snprintf(page->text + page->length, room, "%s %lu %lu %s%s\n", verb,
                           (unsigned long)length,
                           (unsigned long)reply.writer.position,
                           words[reply.result], number);
    if (written > 0 && (size_t)written < room)
        page->length += (size_t)written;
    return reply.writer;
}

static struct writer record(struct page *page, struct writer writer, size_t length)
{
    return note(page, "record", length,
                writer_record(writer, image, sizeof image, key, SEAL_KEY,
                              programme, length));
}

int rehearsal_stdout(FILE *to)
{
    struct page page = {"", 0};
    struct writer writer = writer_start(image, sizeof image, 1, 1, ZONE).writer;

    writer = record(&page, writer, 5);
    writer = record(&page, writer, 489);
    writer = note(&page, "mark", 0,
                  writer_mark(writer, image, sizeof image, key, SEAL_KEY));
    writer = record(&page, writer, 1464);
    writer = record(&page, writer, 1);
    note(&page, "close", 0, writer_close(writer, image, sizeof image, key, SEAL_KEY));
    fputs(page.text, to);
    return strcmp(page.text, listing) != 0;
}
