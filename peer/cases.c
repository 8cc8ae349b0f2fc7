#include "cases.h"

#define ROOM 400
#define LIMIT 65536u /* of one operation and of the associated data */
#define TOP 65520u   /* of a message */
#define TAG 16u

static struct call list[ROOM];
static size_t count;

static const unsigned edges[] = {0, 1, 15, 16, 31, 32, 33, 63, 64, 65, 96};
static const unsigned domains[] = {16, 32, 64, 80, 96, 0, 1, 2, 3, 255};
static const unsigned group_edges[] = {31, 32, 33, 63, 64, 65};

#define COUNT(array) (sizeof(array) / sizeof((array)[0]))

static void lay(char verb, unsigned a, unsigned b, unsigned c,
                unsigned d, unsigned e, unsigned f)
{
    struct call call = {verb, {a, b, c, d, e, f}};

    if (count < ROOM)
        list[count++] = call;
}

static void lay_permutations(void)
{
    static const unsigned lengths[] = {0, 63, 64, 65};

    for (size_t i = 0; i < COUNT(lengths); i++)
        lay('p', lengths[i], 0, 0, 0, 0, 0);
    for (size_t i = 0; i < COUNT(lengths); i++)
        lay('q', lengths[i], 0, 0, 0, 0, 0);
}

/* Only enc and dec have a receiving buffer apart from their own bytes. */
static int has_out(char verb)
{
    return verb == 'e' || verb == 'd';
}

static void lay_operation(char verb, unsigned state, unsigned n, unsigned domain)
{
    lay(verb, state, n, domain, has_out(verb) ? n : 0, 0, 0);
}

/* Two passes, the domains turned between them, so that each length meets two. */
static void lay_lengths(char verb, size_t turn)
{
    for (size_t pass = 0; pass < 2; pass++)
        for (size_t i = 0; i < COUNT(edges); i++)
            lay_operation(verb, 64, edges[i],
                          domains[(i + turn + 6 * pass) % COUNT(domains)]);
}

static void lay_operation_refusals(char verb, unsigned domain)
{
    lay_operation(verb, 64, LIMIT, domain);
    lay_operation(verb, 64, LIMIT + 1, domain);
    lay_operation(verb, 0, 5, domain);
    lay_operation(verb, 63, 32, domain);
    lay_operation(verb, 65, 33, domain);
    lay_operation(verb, 0, 0, domain);
    lay_operation(verb, 63, LIMIT + 1, domain); /* 2 comes before 9 */
    if (!has_out(verb))
        return;
    lay(verb, 64, 33, domain, 32, 0, 0);
    lay(verb, 64, 33, domain, 34, 0, 0);
    lay(verb, 64, 0, domain, 1, 0, 0);
    lay(verb, 64, 1, domain, 0, 0, 0);
    lay(verb, 64, LIMIT + 1, domain, LIMIT, 0, 0);
    lay(verb, 64, LIMIT, domain, LIMIT + 1, 0, 0);
    lay(verb, 65, 16, domain, 15, 0, 0);
}

static void lay_operations(void)
{
    static const char verbs[] = {'u', 'g', 'e', 'd'};
    static const unsigned limit_domain[] = {64, 96, 80, 80};

    for (size_t v = 0; v < COUNT(verbs); v++) {
        lay_lengths(verbs[v], 3 * v);
        lay_operation_refusals(verbs[v], limit_domain[v]);
    }
}

static void lay_seal(unsigned data, unsigned message)
{
    lay('s', 24, 16, data, message, message + TAG, 0);
}

static void lay_seals(void)
{
    lay_seal(0, 0);
    lay_seal(1, 0);
    lay_seal(0, 1);
    lay_seal(32, 38); /* the lengths of the paper's 1.3.2 */
    lay_seal(8, 488); /* the lengths of a block */
    for (size_t i = 0; i < COUNT(group_edges); i++) {
        lay_seal(group_edges[i], 0);
        lay_seal(0, group_edges[i]);
        lay_seal(group_edges[i], group_edges[COUNT(group_edges) - 1 - i]);
    }
    lay_seal(LIMIT, 5);
    lay_seal(5, TOP);
}

static void lay_seal_refusals(void)
{
    lay_seal(LIMIT + 1, 5);
    lay_seal(5, TOP + 1);
    lay('s', 24, 16, 5, TOP + 1, TOP + TAG, 0); /* 2 comes before 9 */
    lay('s', 24, 16, 5, TOP, TOP + TAG + 1, 0);
    lay('s', 23, 16, LIMIT + 1, 5, 21, 0);
    lay('s', 23, 16, 8, 33, 49, 0);
    lay('s', 25, 16, 8, 33, 49, 0);
    lay('s', 0, 16, 8, 33, 49, 0);
    lay('s', 24, 15, 8, 33, 49, 0);
    lay('s', 24, 17, 8, 33, 49, 0);
    lay('s', 24, 0, 8, 33, 49, 0);
    lay('s', 24, 16, 8, 33, 48, 0);
    lay('s', 24, 16, 8, 33, 50, 0);
    lay('s', 24, 16, 8, 33, 33, 0);
    lay('s', 24, 16, 0, 0, 0, 0);
    lay('s', 24, 16, 0, 0, 15, 0);
    lay('s', 24, 16, 0, 0, 17, 0);
}

/* flip: 0 leaves the sealed bytes sound, else the byte flip-1 is damaged. */
static void lay_open(unsigned data, unsigned message, unsigned flip)
{
    lay('o', 24, 16, data, message + TAG, message, flip);
}

static void lay_opens(void)
{
    static const unsigned messages[] = {0, 1, 31, 32, 33, 63, 64, 65};

    for (size_t i = 0; i < COUNT(messages); i++) {
        unsigned n = messages[i];
        unsigned data = edges[(3 * i) % COUNT(edges)];
        lay_open(data, n, 0);
        lay_open(data, n, n + 1);   /* first byte of the tag */
        lay_open(data, n, n + TAG); /* last byte of the tag */
        if (n == 0)
            continue;
        lay_open(data, n, 1);
        if (n > 1)
            lay_open(data, n, n);
    }
    lay_open(8, 488, 0);
    lay_open(8, 488, 244);
    lay_open(LIMIT, 5, 0);
    lay_open(5, TOP, 0);
    lay_open(5, TOP, TOP); /* damaged in its last byte of ciphertext */
}

static void lay_open_refusals(void)
{
    lay('o', 24, 16, 8, 0, 0, 0);
    lay('o', 24, 16, 8, 15, 0, 0);
    lay('o', 24, 16, 8, 15, 15, 0);
    lay('o', 24, 16, 8, 16, 1, 0);
    lay('o', 24, 16, 8, 48, 31, 0);
    lay('o', 24, 16, 8, 48, 33, 0);
    lay('o', 24, 16, 8, 48, 48, 0);
    lay('o', 23, 16, 8, 48, 32, 0);
    lay('o', 25, 16, 8, 48, 32, 0);
    lay('o', 0, 16, 8, 48, 32, 0);
    lay('o', 24, 15, 8, 48, 32, 0);
    lay('o', 24, 17, 8, 48, 32, 0);
    lay('o', 23, 17, 8, 48, 32, 48); /* 2 comes before 7 */
    lay('o', 24, 16, 8, LIMIT + 1, TOP + 1, 0);
    lay('o', 24, 16, 8, LIMIT + 1, TOP, 0); /* 2 comes before 9 */
    lay('o', 24, 16, 8, LIMIT + 1, TOP + 1, 9);
    lay('o', 24, 16, LIMIT + 1, 48, 32, 48); /* 9 comes before 7 */
}

size_t cases_list(const struct call **calls)
{
    count = 0;
    lay_permutations();
    lay_operations();
    lay_seals();
    lay_seal_refusals();
    lay_opens();
    lay_open_refusals();
    *calls = list;
    return count;
}
