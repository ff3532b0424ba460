/* Tree F of three tips, in memory: rove_new makes its parents, its Newick copy is written, a tip is dated by its stem, an age table is mended from the top,
 * and RootScale with a tuning of 0.5 moves the root from the state 1, 2, 3, 4. What comes of it is printed and compared with the documents' examples. Exits
 * with 1 where anything is wrong. */
#include <inttypes.h>
#include <stdio.h>

#include "rove.h"

#define NODES 5
#define TIPS 3
#define TIP ROVE_NO_NODE, ROVE_NO_NODE

static int wrong = 0;

static void expect(int holds, const char *what)
{
    if (!holds) {
        fprintf(stderr, "wrong: %s\n", what);
        wrong = 1;
    }
}

static void set_state(uint64_t *words)
{
    for (int k = 0; k < 4; k++)
        words[ROVE_GENERATOR + k] = k + 1;
}

/* Words that are no record, and slices that have no elements. */
static void check_refusals(void)
{
    uint64_t words[ROVE_WORDS] = {0};
    expect(rove_validate(words, ROVE_WORDS - 1, NULL, 0, NULL, 0, NULL, 0) == ROVE_NO_RECORD && words[ROVE_KIND] == 0, "too few words");
    expect(rove_validate(NULL, 0, NULL, 0, NULL, 0, NULL, 0) == ROVE_NO_RECORD, "no words");
    expect(rove_validate(words, ROVE_WORDS, NULL, 0, NULL, 0, NULL, 0) == ROVE_REFUSED, "no tree");
    expect(words[ROVE_ANSWER] == ROVE_REFUSED && words[ROVE_KIND] == ROVE_REFUSAL_SIZE && words[ROVE_FIRST] == 0, "the refusal of no tree");
}

static void check_draws(void)
{
    uint64_t words[ROVE_WORDS] = {0};
    set_state(words);
    expect(rove_next_u64(words, ROVE_WORDS) == ROVE_DONE && words[ROVE_FIRST] == 41943041, "the first draw");
    expect(rove_next_u64(words, ROVE_WORDS) == ROVE_DONE && words[ROVE_FIRST] == 58720359, "the second draw");
}

/* The Newick copy of a tree whose root is in the record. */
static void check_newick(uint64_t *words, const uint16_t *pairs, const uint16_t *parents, const double *heights)
{
    static const char copy[] = "((0:1.000,1:1.000):1.000,2:2.000);";
    uint8_t out[ROVE_LONGEST_NEWICK];
    uint64_t answer = rove_write_newick(words, ROVE_WORDS, pairs, 2 * NODES, parents, NODES, heights, NODES, out, sizeof out);
    expect(answer == ROVE_DONE && words[ROVE_FIRST] == sizeof copy - 1 && memcmp(out, copy, sizeof copy - 1) == 0, "the Newick copy");
    printf("newick=%.*s\n", (int)words[ROVE_FIRST], (const char *)out);
}

/* Tip 2 by itself, which is dated by the height of its parent, the root. */
static void check_stem(uint64_t *words, const uint16_t *pairs, const uint16_t *parents, const double *heights)
{
    const uint8_t members[TIPS] = {0, 0, 1};
    uint64_t answer = rove_clade_age(words, ROVE_WORDS, pairs, 2 * NODES, parents, NODES, heights, NODES, members, TIPS);
    expect(answer == ROVE_DONE && words[ROVE_FIRST] == 2000, "the age of tip 2's stem");
    printf("stem=%" PRIu64 "\n", words[ROVE_FIRST]);
}

/* Of an age table, tips 1 and 2 have crossed ends: the lower is named, then the other, and then the table is in order. */
static void check_ages(void)
{
    double minima[TIPS] = {0.0, 2.0, 2.0};
    const double maxima[TIPS] = {0.0, 1.0, 1.0};
    uint64_t words[ROVE_WORDS] = {[ROVE_NODE] = NODES};
    for (int k = ROVE_FBD_BIRTH; k < ROVE_FBD_ORIGIN; k++)
        words[k] = rove_bits(0.5);
    words[ROVE_FBD_ORIGIN] = rove_bits(10.0);
    for (uint64_t tip = 1; tip < TIPS; tip++) {
        expect(rove_validate_ages(words, ROVE_WORDS, minima, TIPS, maxima, TIPS) == ROVE_REFUSED, "a table with a tip at fault");
        expect(words[ROVE_KIND] == ROVE_REFUSAL_PARAMETER && words[ROVE_FIRST] == tip, "the lowest tip at fault");
        minima[tip] = 0.5;
    }
    expect(rove_validate_ages(words, ROVE_WORDS, minima, TIPS, maxima, TIPS) == ROVE_DONE, "a table in order");
}

int main(void)
{
    const uint16_t pairs[2 * NODES] = {TIP, TIP, TIP, 0, 1, 3, 2};
    uint16_t parents[NODES] = {0};
    double heights[NODES] = {0.0, 0.0, 0.0, 1.0, 2.0};
    uint64_t words[ROVE_WORDS] = {0};

    check_refusals();
    check_draws();
    check_ages();

    expect(rove_new(words, ROVE_WORDS, pairs, 2 * NODES, heights, NODES, parents, NODES) == ROVE_DONE, "rove_new");
    expect(words[ROVE_ROOT] == 4 && parents[0] == 3 && parents[2] == 4 && parents[4] == ROVE_NO_NODE, "root and parents");
    check_newick(words, pairs, parents, heights);
    check_stem(words, pairs, parents, heights);

    set_state(words);
    words[ROVE_ALLOWANCE] = 9;
    words[ROVE_TUNING] = rove_bits(0.5);
    uint64_t answer = rove_root_scale(words, ROVE_WORDS, pairs, 2 * NODES, parents, NODES, heights, NODES);
    printf("answer=%" PRIu64 " draws=%" PRIu64 "\n", answer, words[ROVE_DRAWS]);
    printf("state=%016" PRIx64 ",%016" PRIx64 ",%016" PRIx64 ",%016" PRIx64 "\n", words[0], words[1], words[2], words[3]);
    printf("ratio=%" PRIu64 ",%016" PRIx64 ",%" PRId64 "\n", words[ROVE_KIND], words[ROVE_FIRST], (int64_t)words[ROVE_SECOND]);
    printf("root=%" PRIu64 " height=%016" PRIx64 "\n", words[ROVE_ROOT], rove_bits(heights[words[ROVE_ROOT]]));

    expect(answer == ROVE_DONE && words[ROVE_ANSWER] == ROVE_DONE && words[ROVE_DRAWS] == 1, "the answer");
    expect(words[0] == 7 && words[1] == 0 && words[2] == 0x40002 && words[3] == 0xc00000000000, "the state");
    expect(words[ROVE_KIND] == ROVE_POWER && words[ROVE_FIRST] == 0x3fe0000000007800 && (int64_t)words[ROVE_SECOND] == -1, "the ratio");
    expect(words[ROVE_ROOT] == 4 && rove_bits(heights[4]) == 0x3ff0000000007800 && heights[3] == 1.0, "the root's height");
    return wrong;
}
