/* compare-chains [SEED [CHAINS]]: holds the peer's writer and that of the
 * kit's static library against each other on random chains of calls. After
 * every call: each field of the answer, the whole image, the other lent memory
 * and the guard bytes. A chain goes on from the library's state. In some, where
 * nobody else wrote, the state's file marks are also held against those that
 * the library's report and the peer's count in the image. Exit 1 at the first
 * difference, 2 on wrong arguments. */
#include <inttypes.h>
#include <stdbool.h>
#include <stdio.h>
#include <string.h>

#include "notchbadger.h"
#include "random.h"
#include "reader.h"
#include "writer.h"

#define DEFAULT_SEED 20150828u
#define DEFAULT_CHAINS 2000u
#define LONGEST_CHAIN 40

static const char *const verbs[] = {"start", "record", "mark", "close"};

enum verb { START, RECORD, MARK, CLOSE };

/* The image fills its strip from the front; the rest of that strip is noise. */
static struct strip image, key, bytes;

static struct {
    size_t capacity;
    bool scribbled; /* foreign bytes come into the image between its calls */
    bool counted;   /* its file marks are held against a report */
    bool own;       /* all that its calls wrote since the last start is its own */
    nb_state state; /* the library's last */
} chain;

/* How often a report was asked for the file marks. */
static uint64_t reports;

/* Marks that were taken just before the zone of the early warning begins, and
 * just behind that. */
static uint64_t last_plain, first_warned;

/* One call. What is lent may be shorter or longer than the chain's own. */
static struct {
    enum verb verb;
    nb_state from;
    bool strayed; /* from a state that is not the chain's */
    size_t image, key, bytes;
} now;

static size_t draw_capacity(void)
{
    size_t way = below(20);

    if (way == 0)
        return IMAGE_FEWEST + below(IMAGE_MOST - IMAGE_FEWEST + 1);
    return IMAGE_FEWEST + below(way < 6 ? 30 : 9);
}

/* Numbers where a test, a sum or a product may go wrong: small ones, those
 * around the capacity, halves that look right, and the far end. */
static size_t draw_edge(void)
{
    size_t c = chain.capacity;

    switch (below(9)) {
    case 0: return below(3);
    case 1: return c - 2 + below(4);
    case 2: return IMAGE_MOST - 1 + below(3);
    case 3: return SIZE_MAX - below(70);
    case 4: return ((size_t)1 << (31 + below(33))) + below(c);
    case 5: return ((size_t)1 << (31 + below(33))) - below(3);
    case 6: return (size_t)draw();
    default: return below(c + 1);
    }
}

static uint8_t draw_closed(void)
{
    return (uint8_t)(once_in(3) ? below(256) : below(3));
}

/* One field or all of them. Some of these states are lawful, if not this
 * chain's, and a call from them is carried out. */
static void stray(nb_state *state)
{
    size_t way = below(11);

    now.strayed = true;
    if (way == 0 || way == 1)
        state->capacity = way == 0 ? draw_edge() : now.image / BLOCK_BYTES;
    if (way == 0 || way == 2)
        state->zone = draw_edge();
    if (way == 0 || way == 3 || way == 4)
        state->position = draw_edge();
    if (way == 0 || way == 5 || way == 6)
        state->closed = draw_closed();
    if (way == 6)
        state->position = chain.capacity - below(2) * chain.capacity;
    if (way == 0 || way == 7)
        state->id = (uint32_t)draw();
    if (way == 0 || way == 8)
        state->recording = once_in(2) ? UINT64_MAX : draw();
    if (way == 0 || way == 9)
        state->marks = draw_edge();
    if (way == 10) /* as many as blocks, or one more or less */
        state->marks = state->position - 1 + below(3);
}

static size_t draw_image_length(size_t odds)
{
    size_t right = chain.capacity * BLOCK_BYTES;

    if (!once_in(odds))
        return right;
    switch (below(8)) {
    case 0: return right - 1;
    case 1: return right + 1;
    case 2: return below(right);
    case 3: return (IMAGE_FEWEST - 1) * BLOCK_BYTES;
    case 4: return (IMAGE_MOST + 1) * BLOCK_BYTES;
    case 5: return 0;
    case 6: return right - BLOCK_BYTES;
    default: return below(IMAGE_MOST + 2) * BLOCK_BYTES;
    }
}

static size_t draw_key_length(size_t odds)
{
    static const size_t wrong[] = {0, 1, 16, 23, 25, 32, 48, 64};

    return once_in(odds) ? wrong[below(sizeof wrong / sizeof wrong[0])] : NB_KEY_BYTES;
}

static size_t draw_record_length(void)
{
    static const size_t edges[] = {0, 1, 2, 487, 488, 489, 975, 976, 977, 1464, 1465};
    size_t way = below(40);

    if (way < 3)
        return RECORD_BYTES - 1 + way;
    if (way == 3)
        return below(ROOM + 1);
    if (way < 20)
        return edges[below(sizeof edges / sizeof edges[0])];
    if (way < 26) /* as much as there is room for, or a byte or a block beyond */
        return (chain.capacity * BLOCK_PAYLOAD - below(3) * BLOCK_PAYLOAD + below(2)) % ROOM;
    return 1 + below(way < 36 ? 600 : 5 * BLOCK_PAYLOAD);
}

static enum verb draw_verb(void)
{
    size_t way = below(40);

    if (way == 0 || (chain.state.closed && way < 4))
        return START;
    if (way < 3 || (chain.state.closed && way < 6))
        return CLOSE;
    return way < 15 ? MARK : RECORD;
}

/* In a wild call the causes crowd together, to see which comes first. */
static void draw_call(bool first)
{
    bool wild = once_in(10);
    size_t odds = wild ? 3 : 25;

    now.verb = first ? START : draw_verb();
    now.image = draw_image_length(odds);
    now.key = draw_key_length(odds);
    now.bytes = now.verb == RECORD ? draw_record_length() : 0;
    now.from = chain.state;
    now.strayed = false;
    if (now.verb == START) {
        now.from.id = (uint32_t)draw();
        now.from.recording = draw();
        now.from.zone = once_in(4) ? draw_edge() : 1 + below(chain.capacity - 1);
    } else if (once_in(wild ? 2 : 7)) {
        stray(&now.from);
    }
    strip_noise(&bytes, now.bytes);
    strip_copy(&bytes);
}

/* The writer doesn't look at the image's bytes, and those of other blocks are
 * not its own to alter: over the zeros of a start that would go unseen. */
static void scribble(void)
{
    size_t from = GUARD + below(chain.capacity * BLOCK_BYTES);
    size_t n = 1 + below(2 * BLOCK_BYTES);

    for (size_t i = from; i < from + n && i < GUARD + ROOM; i++)
        image.kit[i] = image.peer[i] = (uint8_t)draw();
}

static nb_wrote as_wrote(struct reply reply)
{
    nb_wrote wrote = {
        {reply.writer.cartridge, reply.writer.recording, (size_t)reply.writer.capacity,
         (size_t)reply.writer.zone, (size_t)reply.writer.position, reply.writer.closed,
         (size_t)reply.writer.marks},
        (uint8_t)reply.result, reply.number,
    };

    return wrote;
}

static struct reply call_peer(struct writer writer)
{
    uint8_t *lent = image.peer + GUARD;

    switch (now.verb) {
    case START:
        return writer_start(lent, now.image, now.from.id, now.from.recording, now.from.zone);
    case RECORD:
        return writer_record(writer, lent, now.image, key.peer + GUARD, now.key,
                             bytes.peer + GUARD, now.bytes);
    case MARK:
        return writer_mark(writer, lent, now.image, key.peer + GUARD, now.key);
    default:
        return writer_close(writer, lent, now.image, key.peer + GUARD, now.key);
    }
}

/* The peer's closed is a truth value. Any other flag makes a state unlawful, as
 * a capacity of 0 does; the given state then comes back. */
static nb_wrote run_peer(void)
{
    bool odd = now.verb != START && now.from.closed > 1;
    struct writer writer = {
        now.from.id, now.from.recording, odd ? 0 : now.from.capacity,
        now.from.zone, now.from.position, now.from.closed == 1, now.from.marks,
    };
    nb_wrote wrote = as_wrote(call_peer(writer));

    if (odd)
        wrote.state = now.from;
    return wrote;
}

static nb_wrote run_kit(void)
{
    uint8_t *lent = image.kit + GUARD;

    switch (now.verb) {
    case START:
        return nb_start(now.from.id, now.from.recording, now.from.zone, lent, now.image);
    case RECORD:
        return nb_record(now.from, key.kit + GUARD, now.key, bytes.kit + GUARD, now.bytes,
                         lent, now.image);
    case MARK:
        return nb_mark(now.from, key.kit + GUARD, now.key, lent, now.image);
    default:
        return nb_close(now.from, key.kit + GUARD, now.key, lent, now.image);
    }
}

static bool same_state(const nb_state *a, const nb_state *b)
{
    return a->id == b->id && a->recording == b->recording && a->capacity == b->capacity
           && a->zone == b->zone && a->position == b->position && a->closed == b->closed
           && a->marks == b->marks;
}

static void print_state(const char *what, const nb_state *state)
{
    printf("compare-chains: %s id %" PRIu32 ", recording %" PRIu64 ", capacity %" PRIu64
           ", zone %" PRIu64 ", position %" PRIu64 ", closed %u, marks %" PRIu64,
           what, state->id, state->recording, (uint64_t)state->capacity,
           (uint64_t)state->zone, (uint64_t)state->position, state->closed,
           (uint64_t)state->marks);
}

static void print_answer(const char *whose, const nb_wrote *wrote)
{
    print_state(whose, &wrote->state);
    printf(", reply %u, number %u\n", wrote->reply, wrote->number);
}

static bool agree(nb_wrote *answer)
{
    nb_wrote peer = run_peer();
    nb_wrote kit = run_kit();
    bool same = same_state(&peer.state, &kit.state) && peer.reply == kit.reply
                && peer.number == kit.number;

    if (!same) {
        print_answer("peer:", &peer);
        print_answer("library:", &kit);
    }
    if (strip_differs(&image, "compare-chains", "image"))
        same = false;
    if (strip_differs(&key, "compare-chains", "key"))
        same = false;
    if (strip_differs(&bytes, "compare-chains", "record"))
        same = false;
    *answer = kit;
    return same;
}

/* What the state says of file marks, and what a report finds in the image as
 * it stands: of the library, and of the peer. */
static bool well_counted(void)
{
    const nb_state *s = &chain.state;
    struct identity identity = {key.peer + GUARD, NB_KEY_BYTES, s->id, s->recording};
    struct report peer = reader_report(&identity, image.peer + GUARD, s->capacity * BLOCK_BYTES);
    nb_tally kit = nb_report(key.kit + GUARD, NB_KEY_BYTES, s->id, s->recording,
                             image.kit + GUARD, s->capacity * BLOCK_BYTES);

    reports++;
    if (kit.number == NB_DONE && kit.marks == s->marks
        && peer.number == 0 && peer.counts[OUTCOME_MARK] == s->marks)
        return true;
    print_state("a report counts other file marks:", s);
    printf(", library %" PRIu64 ", peer %" PRIu64 "\n", (uint64_t)kit.marks,
           (uint64_t)peer.counts[OUTCOME_MARK]);
    return false;
}

static void count_edge(const nb_wrote *answer)
{
    size_t edge = answer->state.capacity - answer->state.zone;

    if (now.verb != MARK || answer->reply == NB_REFUSED)
        return;
    last_plain += answer->state.position == edge;
    first_warned += answer->state.position == edge + 1;
}

/* A strayed state is left behind; so is a refused start's in one of two. */
static void go_on(const nb_wrote *answer)
{
    bool refused = answer->reply == NB_REFUSED;

    if (now.strayed) {
        chain.own = chain.own && refused;
        return;
    }
    if (now.verb == START && refused && once_in(2))
        return;
    if (now.verb == START)
        chain.own = !refused;
    chain.state = answer->state;
}

/* A start comes first, and again until one is taken in most chains: what
 * follows a refused one is refused too. */
static bool run_chain(uint64_t *calls)
{
    static const nb_state none;
    size_t length = 1 + below(LONGEST_CHAIN);
    bool patient = !once_in(15);
    bool begun = false;

    chain.capacity = draw_capacity();
    chain.scribbled = once_in(2);
    chain.counted = !chain.scribbled && chain.capacity < 14 && once_in(3);
    chain.own = false;
    chain.state = none;
    strip_noise(&image, ROOM);
    strip_copy(&image);
    strip_noise(&key, 64);
    strip_copy(&key);
    for (size_t i = 0; i < length; i++) {
        nb_wrote answer;
        draw_call(!begun);
        if (chain.scribbled && once_in(2))
            scribble();
        ++*calls;
        if (!agree(&answer))
            return false;
        count_edge(&answer);
        go_on(&answer);
        if (chain.counted && chain.own && !well_counted())
            return false;
        begun = begun || !patient || answer.reply != NB_REFUSED;
    }
    return true;
}

static void print_call(uint64_t seed, uint64_t number, uint64_t call)
{
    print_state("given:", &now.from);
    printf("; lengths: image %lu, key %lu, record %lu\n", (unsigned long)now.image,
           (unsigned long)now.key, (unsigned long)now.bytes);
    printf("compare-chains: DIFFERENT at call %" PRIu64 " of chain %" PRIu64 " of seed %" PRIu64
           ": %s, chain of %lu blocks\n", call, number, seed, verbs[now.verb],
           (unsigned long)chain.capacity);
}

int main(int argc, char **argv)
{
    uint64_t seed = DEFAULT_SEED, chains = DEFAULT_CHAINS, total = 0;

    if (!take_arguments(argc, argv, &seed, &chains)) {
        fputs("usage: compare-chains [SEED [CHAINS]]\n", stderr);
        return 2;
    }
    reseed(seed);
    for (uint64_t i = 0; i < chains; i++) {
        uint64_t calls = 0;
        if (!run_chain(&calls)) {
            print_call(seed, i, calls - 1);
            return 1;
        }
        total += calls;
    }
    printf("compare-chains: %" PRIu64 " chains, %" PRIu64 " calls agree, behind %" PRIu64
           " of them the reports on file marks too; %" PRIu64 " marks end where the warning zone begins,"
           " %" PRIu64 " a block behind (seed %" PRIu64 ")\n",
           chains, total, reports, last_plain, first_warned, seed);
    return 0;
}
