/* A museum's host over librove_newick.a alone: writes tree F's Newick copy, reads it back, and asks of a text that is no copy where its fault is. Exits
 * with 0 where every value is as expected. */
#include <inttypes.h>
#include <stdio.h>

#include "rove.h"

enum { NODES = 5, ROOT = 4 };

#define TIP ROVE_NO_NODE, ROVE_NO_NODE

static int wrong = 0;

static void expect(int holds, const char *what)
{
    if (!holds) {
        fprintf(stderr, "wrong: %s\n", what);
        wrong = 1;
    }
}

/* The copy of tree F, into out, and how long it is. */
static size_t write_copy(uint8_t *out, size_t out_len)
{
    const uint16_t pairs[2 * NODES] = {TIP, TIP, TIP, 0, 1, 3, 2};
    const uint16_t parents[NODES] = {3, 3, 4, 4, ROVE_NO_NODE};
    const double heights[NODES] = {0.0, 0.0, 0.0, 1.0, 2.0};
    uint64_t words[ROVE_WORDS] = {0};

    words[ROVE_ROOT] = ROOT;
    uint64_t answer = rove_write_newick(words, ROVE_WORDS, pairs, 2 * NODES, parents, NODES, heights, NODES, out, out_len);
    expect(answer == ROVE_DONE, "the copy");
    return (size_t)words[ROVE_FIRST];
}

static void read_copy(const uint8_t *copy, size_t copy_len)
{
    const uint64_t expected[NODES] = {0, 0, 0, 1000, 2000};
    uint16_t pairs[2 * NODES];
    uint64_t ages[NODES], words[ROVE_WORDS] = {0};

    uint64_t answer = rove_read_newick(words, ROVE_WORDS, copy, copy_len, pairs, 2 * NODES, ages, NODES);
    expect(answer == ROVE_DONE && words[ROVE_FIRST] == NODES, "the nodes");
    expect(pairs[6] == 0 && pairs[7] == 1 && pairs[8] == 3 && pairs[9] == 2, "the pairs");
    for (size_t k = 0; k < NODES; k++)
        expect(ages[k] == expected[k], "an age");
}

static void read_wrong(void)
{
    static const uint8_t text[] = "(0:1,1:1);";
    uint64_t words[ROVE_WORDS] = {0};

    uint64_t answer = rove_read_newick(words, ROVE_WORDS, text, sizeof text - 1, NULL, 0, NULL, 0);
    expect(answer == ROVE_REFUSED && words[ROVE_KIND] == ROVE_REFUSAL_PLACE && words[ROVE_FIRST] == 4, "the place");
    printf("refused,%" PRIu64 ",%" PRIu64 "\n", words[ROVE_KIND], words[ROVE_FIRST]);
}

int main(void)
{
    uint8_t copy[ROVE_LONGEST_NEWICK];
    size_t count = write_copy(copy, sizeof copy);
    printf("%.*s\n", (int)count, (const char *)copy);
    read_copy(copy, count);
    read_wrong();
    return wrong;
}
