/* Calls each function of rove.h at least once, on tree F of three tips and on small parameters, and compares what it leaves with values that document 01
 * gives or that are worked out from it by hand. Exits with 1 at the first that is wrong, with the function's name.
 *
 * A function is here three times: how it is called (CALL or CALL_ON), what comes of it (a function under that), and its row in the table at the end.
 * hosts/c/run sees that none is left out. */
#include <math.h>
#include <stdio.h>
#include <stdlib.h>

#include "rove.h"

enum { NODES = 5, TIPS = 3, RATES = 2, COPY = 40 };

#define TIP ROVE_NO_NODE, ROVE_NO_NODE

/* What a host keeps: its record with the record's length, its tree, and the slices of the calls that take more. */
struct host {
    uint64_t words[ROVE_WORDS];
    size_t length;
    uint16_t pairs[2 * NODES], parents[NODES], order[NODES];
    double heights[NODES], rates[RATES], minima[TIPS], maxima[TIPS];
    uint8_t members[TIPS];
    uint8_t copy[COPY];
    const char *text;
    uint64_t ages[NODES + 1];
    size_t room, ages_room; /* how much is lent of the copy or the pairs, and of the ages */
};

typedef uint64_t (*call)(struct host *h);

static const char *function = "";

static void expect(int holds, const char *what)
{
    if (!holds) {
        fprintf(stderr, "%s: wrong: %s\n", function, what);
        exit(1);
    }
}

/* ---- how each function is called */

#define CALL(name) \
    static uint64_t call_##name(struct host *h) { return name(h->words, h->length); }
#define CALL_ON(name, ...) \
    static uint64_t call_##name(struct host *h) { return name(h->words, h->length, __VA_ARGS__); }
#define TREE h->pairs, 2 * NODES, h->parents, NODES, h->heights, NODES
#define PLACED h->parents, NODES, h->heights, NODES
#define AGES h->minima, TIPS, h->maxima, TIPS

CALL_ON(rove_seed, 1234567)
CALL(rove_next_u64)
CALL(rove_below)
CALL(rove_uniform)
CALL(rove_coin)
CALL(rove_scaler)

CALL_ON(rove_new, h->pairs, 2 * NODES, h->heights, NODES, h->parents, NODES)
CALL_ON(rove_validate, TREE)
CALL_ON(rove_postorder, TREE, h->order, NODES)
CALL_ON(rove_branch_length, PLACED)
CALL_ON(rove_tree_length, PLACED)

CALL_ON(rove_node_height, TREE)
CALL_ON(rove_slide_start, TREE)
CALL_ON(rove_subtree_slide, TREE)
CALL_ON(rove_narrow_exchange, TREE)
CALL_ON(rove_wide_exchange, TREE)
CALL_ON(rove_wilson_balding, TREE)
CALL_ON(rove_root_scale, TREE)
CALL_ON(rove_tree_scale, TREE)

CALL_ON(rove_node_height_unvalidated, TREE)
CALL_ON(rove_slide_start_unvalidated, TREE)
CALL_ON(rove_subtree_slide_unvalidated, TREE)
CALL_ON(rove_narrow_exchange_unvalidated, TREE)
CALL_ON(rove_wide_exchange_unvalidated, TREE)
CALL_ON(rove_wilson_balding_unvalidated, TREE)
CALL_ON(rove_root_scale_unvalidated, TREE)
CALL_ON(rove_tree_scale_unvalidated, TREE)

CALL(rove_initial_tuning)
CALL(rove_changes_fbd)
CALL(rove_changes_tree)
CALL(rove_changes_topology)

CALL_ON(rove_write_newick, TREE, h->copy, h->room)
CALL_ON(rove_read_newick, (const uint8_t *)h->text, strlen(h->text), h->pairs, h->room, h->ages, h->ages_room)

CALL(rove_scale)
CALL(rove_clock_rate_scale)
CALL(rove_birth_difference_scale)
CALL(rove_birth_rate_scale)
CALL(rove_relative_death_scale)
CALL_ON(rove_clock_sigma_scale, h->rates, RATES)
CALL_ON(rove_branch_rate_scale, h->rates, RATES)
CALL_ON(rove_clock, h->rates, RATES)
CALL_ON(rove_branch_rate, h->rates, RATES)
CALL_ON(rove_set_sigma, h->rates, RATES)
CALL_ON(rove_set_rate, h->rates, RATES)
CALL(rove_fbd_scale)
CALL(rove_validate_priors)
CALL(rove_estimates)
CALL_ON(rove_validate_ages, AGES)
CALL_ON(rove_initialize, TREE, AGES)
CALL_ON(rove_propose_age, TREE, AGES)
CALL_ON(rove_yule_log_density, TREE)
CALL_ON(rove_is_monophyletic, TREE, h->members, TIPS)
CALL_ON(rove_clade_age, TREE, h->members, TIPS)

/* ---- what every call leaves */

/* Tree F, 3=(0,1) at 1, 4=(3,2) at 2, tips at 0; the generator's state 1, 2, 3, 4, nine draws allowed and a tuning of 0.5. */
static struct host tree_f(void)
{
    struct host h = {
        .words = {1, 2, 3, 4, [ROVE_ROOT] = 4, [ROVE_ALLOWANCE] = 9},
        .length = ROVE_WORDS,
        .pairs = {TIP, TIP, TIP, 0, 1, 3, 2},
        .parents = {3, 3, 4, 4, ROVE_NO_NODE},
        .heights = {0.0, 0.0, 0.0, 1.0, 2.0},
        .rates = {1.0, 2.0},
        .text = "",
    };
    h.words[ROVE_TUNING] = rove_bits(0.5);
    return h;
}

/* The first draws from the state 1, 2, 3, 4, as the public reference of xoshiro256++ makes them. */
static const uint64_t draw[6] = {41943041, 58720359, 3588806011781223, 3591011842654386, 9228616714210784205u, 9973669472204895162u};

static double uniform(uint64_t word)
{
    return (double)(word >> 11) / 9007199254740992.0;
}

/* The first factor of a scale with a tuning of 0.5: 0.5 and the first uniform, 5/2^41, times 1.5. */
static double factor(void)
{
    return rove_real(0x3fe0000000007800);
}

/* One step of xoshiro256++. */
static void step(uint64_t *state)
{
    uint64_t t = state[1] << 17;
    state[2] ^= state[0];
    state[3] ^= state[1];
    state[1] ^= state[2];
    state[0] ^= state[3];
    state[2] ^= t;
    state[3] = state[3] << 45 | state[3] >> 19;
}

#define SAME(field) (memcmp(a->field, b->field, sizeof a->field) == 0)

static int same_tree(const struct host *a, const struct host *b)
{
    return SAME(pairs) && SAME(parents) && SAME(heights) && a->words[ROVE_ROOT] == b->words[ROVE_ROOT];
}

static int same(const struct host *a, const struct host *b)
{
    return SAME(words) && same_tree(a, b) && SAME(order) && SAME(rates) && SAME(minima) && SAME(maxima) && SAME(members) && SAME(copy) && SAME(ages);
}

/* With a record that is one word short: the code is 3, and nothing is written. */
static void short_record(call make, struct host *h)
{
    struct host before = *h;
    h->length = ROVE_WORDS - 1;
    expect(make(h) == ROVE_NO_RECORD && same(h, &before), "a record that is too short");
    h->length = ROVE_WORDS;
}

/* The call that left this, made once more with the largest allowance, leaves the same but for the word of the allowance; unless more draws were needed, or
 * the allowance was outside its limits. Functions that make no draws do not look at the word. */
static void same_with_more(call make, struct host before, const struct host *after)
{
    uint64_t given = before.words[ROVE_ALLOWANCE];
    int spent = after->words[ROVE_ANSWER] == ROVE_REFUSED && after->words[ROVE_KIND] == ROVE_REFUSAL_ALLOWANCE;
    if (spent || given < 1 || given > 65535)
        return;
    before.words[ROVE_ALLOWANCE] = 65535;
    make(&before);
    expect(before.words[ROVE_ALLOWANCE] == 65535, "the word of the allowance");
    before.words[ROVE_ALLOWANCE] = given;
    expect(same(&before, after), "what is left with a larger allowance");
}

/* Makes a call, which has to answer with this code after so many draws. Of any call: the code stands in the record too, the generator is that after the
 * draws, where the code is another than ROVE_DONE nothing else is written, and a larger allowance leaves the same. */
static void answers(call make, struct host *h, uint64_t code, uint64_t draws)
{
    short_record(make, h);
    struct host before = *h;
    expect(make(h) == code && h->words[ROVE_ANSWER] == code, "the answer's code");
    same_with_more(make, before, h);
    expect(h->words[ROVE_DRAWS] == draws, "the draws");
    for (uint64_t k = 0; k < draws; k++)
        step(before.words);
    expect(memcmp(h->words, before.words, 4 * sizeof before.words[0]) == 0, "the generator");
    for (int k = ROVE_ANSWER; k <= ROVE_SECOND; k++)
        before.words[k] = h->words[k];
    expect(code == ROVE_DONE || same(h, &before), "what a call leaves that is not done");
}

static void done(call make, struct host *h, uint64_t draws)
{
    answers(make, h, ROVE_DONE, draws);
}

static void declined(call make, struct host *h, uint64_t draws)
{
    answers(make, h, ROVE_DECLINED, draws);
    expect(h->words[ROVE_KIND] == 0 && h->words[ROVE_FIRST] == 0 && h->words[ROVE_SECOND] == 0, "the words of a declined call");
}

static void refused(call make, struct host *h, uint64_t refusal, uint64_t detail)
{
    answers(make, h, ROVE_REFUSED, 0);
    expect(h->words[ROVE_KIND] == refusal && h->words[ROVE_FIRST] == detail, "the refusal");
}

/* A call that draws, on tree F, is refused where no draw is allowed. */
static void refused_without_allowance(call make)
{
    struct host h = tree_f();
    h.words[ROVE_ALLOWANCE] = 0;
    refused(make, &h, ROVE_REFUSAL_PARAMETER, 0);
}

static void has_ratio(const struct host *h, uint64_t kind, uint64_t first, uint64_t second)
{
    expect(h->words[ROVE_KIND] == kind && h->words[ROVE_FIRST] == first && h->words[ROVE_SECOND] == second, "the ratio");
}

/* A scale with the first factor, once. */
static void scaled(call make, struct host *h)
{
    done(make, h, 1);
    has_ratio(h, ROVE_POWER, rove_bits(factor()), (uint64_t)-1);
}

static int is_float(const struct host *h, int word, double x)
{
    return h->words[word] == rove_bits(x);
}

static void put_float(struct host *h, int word, double x)
{
    h->words[word] = rove_bits(x);
}

/* Whether the internal nodes 3 and 4 have these children, and the nodes these parents. */
static int is_shaped(const struct host *h, const uint16_t *children, const uint16_t *parents)
{
    return memcmp(h->pairs + 2 * TIPS, children, 4 * sizeof *children) == 0 && memcmp(h->parents, parents, sizeof h->parents) == 0;
}

/* ---- the generator */

/* The state is the first four numbers of SplitMix64 from this seed, and no other word is written. */
static void seed(call make, struct host *h)
{
    const uint64_t numbers[4] = {6457827717110365317, 3203168211198807973, 9817491932198370423u, 4593380528125082431};
    short_record(make, h);
    struct host after = *h;
    memcpy(after.words, numbers, sizeof numbers);
    expect(make(h) == ROVE_DONE && same(h, &after), "the state");
}

static void next_u64(call make, struct host *h)
{
    for (int k = 0; k < 6; k++) {
        done(make, h, 1);
        expect(h->words[ROVE_FIRST] == draw[k], "the draw");
    }
}

static void below(call make, struct host *h)
{
    h->words[ROVE_NODE] = (uint64_t)1 << 32;
    for (int k = 0; k < 5; k++) {
        done(make, h, 1);
        expect(h->words[ROVE_FIRST] == draw[k] >> 32, "a number below 2^32");
    }
    for (int k = 0; k < 4; k++)
        h->words[ROVE_GENERATOR + k] = 0;
    h->words[ROVE_NODE] = 4;
    done(make, h, 1);
    expect(h->words[ROVE_FIRST] == 0, "a number below 4 from the state 0, 0, 0, 0");
    h->words[ROVE_NODE] = 3;
    refused(make, h, ROVE_REFUSAL_ALLOWANCE, 9);
    h->words[ROVE_NODE] = 0;
    refused(make, h, ROVE_REFUSAL_PARAMETER, 0);
}

static void draw_uniform(call make, struct host *h)
{
    for (int k = 0; k < 6; k++) {
        done(make, h, 1);
        expect(is_float(h, ROVE_FIRST, uniform(draw[k])), "the uniform");
    }
}

/* The top bit of a draw is the first side. */
static void coin(call make, struct host *h)
{
    for (int k = 0; k < 6; k++) {
        done(make, h, 1);
        expect(h->words[ROVE_FIRST] == draw[k] >> 63, "the side");
    }
}

static void scaler(call make, struct host *h)
{
    put_float(h, 13, uniform(draw[0]));
    done(make, h, 0);
    expect(is_float(h, ROVE_FIRST, factor()), "the factor");
    put_float(h, 13, 1.0);
    done(make, h, 0);
    expect(is_float(h, ROVE_FIRST, 2.0), "the factor of the uniform 1");
}

/* ---- the tree */

static void new_tree(call make, struct host *h)
{
    struct host f = *h;
    memset(h->parents, 0, sizeof h->parents);
    h->words[ROVE_ROOT] = 0;
    done(make, h, 0);
    expect(same_tree(h, &f), "root and parents");
    h->heights[2] = 3.0;
    refused(make, h, ROVE_REFUSAL_HEIGHT, 2);
    h->pairs[6] = 1;
    refused(make, h, ROVE_REFUSAL_SHAPE, 3);
}

static void validate(call make, struct host *h)
{
    done(make, h, 0);
    h->words[ROVE_ROOT] = 3;
    refused(make, h, ROVE_REFUSAL_DISCONNECTED, 0);
}

static void postorder(call make, struct host *h)
{
    const uint16_t order[NODES] = {0, 1, 3, 2, 4};
    done(make, h, 0);
    expect(memcmp(h->order, order, sizeof order) == 0, "the order");
    h->heights[0] = -1.0;
    refused(make, h, ROVE_REFUSAL_HEIGHT, 0);
}

static void branch_length(call make, struct host *h)
{
    h->words[ROVE_NODE] = 2;
    done(make, h, 0);
    expect(is_float(h, ROVE_FIRST, 2.0), "the branch above 2");
    h->words[ROVE_NODE] = 4;
    done(make, h, 0);
    expect(is_float(h, ROVE_FIRST, 0.0), "the root's branch");
    h->words[ROVE_NODE] = NODES;
    refused(make, h, ROVE_REFUSAL_PARAMETER, 0);
}

static void tree_length(call make, struct host *h)
{
    done(make, h, 0);
    expect(is_float(h, ROVE_FIRST, 5.0), "the length");
    h->parents[0] = 7;
    refused(make, h, ROVE_REFUSAL_PARAMETER, 0);
}

/* ---- the moves, checked and unvalidated */

/* Node 3, at the second uniform of the way from 0 to 2. */
static void node_height(call make, struct host *h)
{
    struct host after = *h;
    after.heights[3] = 2.0 * uniform(draw[1]);
    done(make, h, 2);
    has_ratio(h, ROVE_EVEN, 1, 1);
    expect(same_tree(h, &after), "the tree");
    refused_without_allowance(make);
}

static void slide_start(call make, struct host *h)
{
    h->words[ROVE_NODE] = 4;
    done(make, h, 3);
    expect(h->words[ROVE_NODE] == 0, "the node");
    expect(is_float(h, ROVE_FIRST, uniform(draw[1])) && is_float(h, ROVE_SECOND, uniform(draw[2])), "the uniforms");
    h->words[ROVE_ALLOWANCE] = 2;
    refused(make, h, ROVE_REFUSAL_ALLOWANCE, 2);
    refused_without_allowance(make);
}

/* Node 0 up to 3, where its parent becomes the root, and back to 1. */
static void subtree_slide(call make, struct host *h)
{
    struct host f = *h;
    h->words[ROVE_NODE] = 0;
    put_float(h, ROVE_TUNING, 2.0);
    done(make, h, 0);
    has_ratio(h, ROVE_COUNTS, 1, 2);
    expect(is_shaped(h, (const uint16_t[]){0, 4, 1, 2}, (const uint16_t[]){3, 4, 4, ROVE_NO_NODE, 3}), "the tree above");
    expect(h->words[ROVE_ROOT] == 3 && h->heights[3] == 3.0, "the root above");
    put_float(h, ROVE_TUNING, -2.0);
    done(make, h, 1);
    has_ratio(h, ROVE_COUNTS, 2, 1);
    expect(same_tree(h, &f), "the tree F again");
    put_float(h, ROVE_TUNING, -1.5);
    declined(make, h, 0);
    h->words[ROVE_NODE] = 4;
    refused(make, h, ROVE_REFUSAL_PARAMETER, 0);
    refused_without_allowance(make);
}

/* Tips 0 and 2 have changed places. */
static void exchanged(const struct host *h)
{
    expect(is_shaped(h, (const uint16_t[]){2, 1, 3, 0}, (const uint16_t[]){4, 3, 3, 4, ROVE_NO_NODE}), "the tree");
    expect(h->words[ROVE_ROOT] == 4, "the root");
}

static void narrow_exchange(call make, struct host *h)
{
    done(make, h, 6);
    has_ratio(h, ROVE_COUNTS, 1, 1);
    exchanged(h);
    refused_without_allowance(make);
}

static void wide_exchange(call make, struct host *h)
{
    done(make, h, 5);
    has_ratio(h, ROVE_EVEN, 1, 1);
    exchanged(h);
    refused_without_allowance(make);
}

/* Node 0 onto the branch of 2, at the sixth uniform of the way from 0 to 2. */
static void wilson_balding(call make, struct host *h)
{
    done(make, h, 6);
    has_ratio(h, ROVE_LENGTHS, rove_bits(2.0), rove_bits(2.0));
    expect(is_shaped(h, (const uint16_t[]){0, 2, 1, 3}, (const uint16_t[]){3, 4, 3, 4, ROVE_NO_NODE}), "the tree");
    expect(h->words[ROVE_ROOT] == 4 && h->heights[3] == 2.0 * uniform(draw[5]) && h->heights[4] == 2.0, "root and heights");
    refused_without_allowance(make);
}

static void root_scale(call make, struct host *h)
{
    struct host after = *h;
    after.heights[4] = 2.0 * factor();
    scaled(make, h);
    expect(same_tree(h, &after), "the tree");
    declined(make, h, 1);
    put_float(h, ROVE_TUNING, 2.0);
    refused(make, h, ROVE_REFUSAL_PARAMETER, 0);
    refused_without_allowance(make);
}

/* With tip 0 at 0.75 node 3 comes to stand below it, and the tree is accepted no more. */
static void tree_scale(call make, struct host *h)
{
    struct host after = *h;
    h->heights[0] = after.heights[0] = 0.75;
    after.heights[3] = factor();
    after.heights[4] = 2.0 * factor();
    done(make, h, 1);
    has_ratio(h, ROVE_POWER, rove_bits(factor()), 0);
    expect(same_tree(h, &after), "the tree");
    refused(call_rove_validate, h, ROVE_REFUSAL_HEIGHT, 0);
    refused_without_allowance(make);
}

/* ---- parameters */

static void scale(call make, struct host *h)
{
    put_float(h, 13, 3.0);
    put_float(h, 14, 9.0);
    scaled(make, h);
    expect(is_float(h, 13, 3.0 * factor()), "the value");
    put_float(h, 14, 0.25);
    declined(make, h, 1);
    put_float(h, 14, -1.0);
    refused(make, h, ROVE_REFUSAL_PARAMETER, 0);
}

static void clock_rate_scale(call make, struct host *h)
{
    declined(make, h, 0);
    h->words[13] = 1;
    put_float(h, 14, 2.0);
    scaled(make, h);
    expect(is_float(h, 14, 2.0 * factor()), "the rate");
}

/* A birth-death process, whose rates are 2 and 0.5, or a Yule process, whose one is 2. */
static void put_speciation(struct host *h, uint64_t kind)
{
    h->words[13] = kind;
    put_float(h, 14, 2.0);
    put_float(h, 15, 0.5);
    put_float(h, 16, 9.0);
}

static void birth_difference_scale(call make, struct host *h)
{
    put_speciation(h, 0);
    declined(make, h, 0);
    put_speciation(h, 1);
    scaled(make, h);
    expect(is_float(h, 14, 2.0 * factor()) && is_float(h, 15, 0.5), "the rates");
}

static void birth_rate_scale(call make, struct host *h)
{
    put_speciation(h, 1);
    declined(make, h, 0);
    put_speciation(h, 0);
    scaled(make, h);
    expect(is_float(h, 14, 2.0 * factor()), "the rate");
}

static void relative_death_scale(call make, struct host *h)
{
    put_speciation(h, 0);
    declined(make, h, 0);
    put_speciation(h, 1);
    scaled(make, h);
    expect(is_float(h, 14, 2.0) && is_float(h, 15, 0.5 * factor()), "the rates");
}

static void clock_sigma_scale(call make, struct host *h)
{
    declined(make, h, 0);
    h->words[13] = 1;
    put_float(h, 14, 0.25);
    scaled(make, h);
    expect(is_float(h, 14, 0.25 * factor()), "sigma");
}

/* The first draw chooses rate 0, and the second makes the factor 0.5 and 7/2^41 times 1.5. */
static void branch_rate_scale(call make, struct host *h)
{
    declined(make, h, 0);
    h->words[13] = 1;
    put_float(h, 14, 0.25);
    done(make, h, 2);
    has_ratio(h, ROVE_POWER, 0x3fe000000000a800, (uint64_t)-1);
    expect(rove_bits(h->rates[0]) == 0x3fe000000000a800 && h->rates[1] == 2.0, "the rates");
}

static void relaxed_clock(call make, struct host *h)
{
    put_float(h, 14, 0.25);
    done(make, h, 0);
    put_float(h, 14, 0.0);
    refused(make, h, ROVE_REFUSAL_PARAMETER, 0);
}

/* Of three nodes; where 2 is not the root it has the root's place. */
static void branch_rate(call make, struct host *h)
{
    put_float(h, 14, 0.25);
    h->words[ROVE_NODE] = 0;
    h->words[ROVE_ROOT] = 2;
    done(make, h, 0);
    expect(is_float(h, ROVE_FIRST, 1.0), "the rate of node 0");
    h->words[ROVE_NODE] = 2;
    h->words[ROVE_ROOT] = 1;
    done(make, h, 0);
    expect(is_float(h, ROVE_FIRST, 2.0), "the rate of node 2");
    h->words[ROVE_NODE] = 3;
    refused(make, h, ROVE_REFUSAL_PARAMETER, 0);
}

static void set_sigma(call make, struct host *h)
{
    put_float(h, 14, 0.25);
    put_float(h, 15, 0.5);
    done(make, h, 0);
    expect(h->words[ROVE_FIRST] == 1 && is_float(h, 14, 0.5), "a sigma that is stored");
    put_float(h, 15, -1.0);
    done(make, h, 0);
    expect(h->words[ROVE_FIRST] == 0 && is_float(h, 14, 0.5), "a sigma that is not stored");
}

static void set_rate(call make, struct host *h)
{
    put_float(h, 14, 0.25);
    put_float(h, 15, 4.0);
    h->words[ROVE_NODE] = 1;
    done(make, h, 0);
    expect(h->words[ROVE_FIRST] == 1 && h->rates[0] == 1.0 && h->rates[1] == 4.0, "a rate that is stored");
    put_float(h, 15, 0.0);
    done(make, h, 0);
    expect(h->words[ROVE_FIRST] == 0 && h->rates[1] == 4.0, "a rate that is not stored");
    h->words[ROVE_NODE] = 2;
    refused(make, h, ROVE_REFUSAL_PARAMETER, 0);
}

/* A process with its origin at 12. */
static void put_process(struct host *h)
{
    put_float(h, ROVE_FBD_BIRTH, 1.0);
    put_float(h, ROVE_FBD_DEATH, 0.5);
    put_float(h, ROVE_FBD_FOSSIL_SAMPLING, 0.25);
    put_float(h, ROVE_FBD_PRESENT_SAMPLING, 0.5);
    put_float(h, ROVE_FBD_ORIGIN, 12.0);
}

/* A prior for the origin alone. */
static void put_prior(struct host *h)
{
    h->words[ROVE_PRIOR_ORIGIN_EXCESS_MEAN] = 1;
    put_float(h, ROVE_PRIOR_ORIGIN_EXCESS_MEAN + 1, 1.0);
}

static void fbd_scale(call make, struct host *h)
{
    put_process(h);
    put_prior(h);
    put_float(h, ROVE_FBD_OFFSET, 2.0);
    h->words[ROVE_NODE] = ROVE_FIELD_BIRTH;
    declined(make, h, 0);
    h->words[ROVE_NODE] = ROVE_FIELD_ORIGIN;
    scaled(make, h);
    expect(is_float(h, ROVE_FBD_ORIGIN, 2.0 + 10.0 * factor()), "the origin");
    expect(is_float(h, ROVE_FBD_BIRTH, 1.0) && is_float(h, ROVE_FBD_PRESENT_SAMPLING, 0.5), "the other fields");
}

static void validate_priors(call make, struct host *h)
{
    refused(make, h, ROVE_REFUSAL_PARAMETER, 0);
    put_prior(h);
    done(make, h, 0);
}

/* ---- the table of moves */

static void initial_tuning(call make, struct host *h)
{
    h->words[ROVE_NODE] = ROVE_MOVE_SUBTREE_SLIDE;
    done(make, h, 0);
    expect(is_float(h, ROVE_FIRST, 1.0), "a slide's");
    h->words[ROVE_NODE] = ROVE_MOVE_BRANCH_RATE_SCALE;
    done(make, h, 0);
    expect(is_float(h, ROVE_FIRST, 0.5), "a rate's");
    h->words[ROVE_NODE] = ROVE_MOVE_NODE_HEIGHT;
    declined(make, h, 0);
    h->words[ROVE_NODE] = ROVE_MOVE_MORPHOLOGY_RATE_SCALE + 1;
    refused(make, h, ROVE_REFUSAL_PARAMETER, 0);
}

/* The answers for a move of the process, one that keeps the tree's shape, and one that changes it. */
static void changes(call make, struct host *h, uint64_t process, uint64_t height, uint64_t shape)
{
    h->words[ROVE_NODE] = ROVE_MOVE_FBD_ORIGIN_SCALE;
    done(make, h, 0);
    expect(h->words[ROVE_FIRST] == process, "FbdOriginScale");
    h->words[ROVE_NODE] = ROVE_MOVE_TREE_SCALE;
    done(make, h, 0);
    expect(h->words[ROVE_FIRST] == height, "TreeScale");
    h->words[ROVE_NODE] = ROVE_MOVE_NARROW_EXCHANGE_RATES;
    done(make, h, 0);
    expect(h->words[ROVE_FIRST] == shape, "NarrowExchangeRates");
    h->words[ROVE_NODE] = UINT64_MAX;
    refused(make, h, ROVE_REFUSAL_PARAMETER, 0);
}

static void changes_fbd(call make, struct host *h)
{
    changes(make, h, 1, 0, 0);
}

static void changes_tree(call make, struct host *h)
{
    changes(make, h, 0, 1, 1);
}

static void changes_topology(call make, struct host *h)
{
    changes(make, h, 0, 0, 1);
}

static void estimates(call make, struct host *h)
{
    h->words[ROVE_PRIOR_DEATH_MEAN] = 1;
    h->words[ROVE_NODE] = ROVE_MOVE_FBD_DEATH_SCALE;
    done(make, h, 0);
    expect(h->words[ROVE_FIRST] == 1, "a death rate with a prior");
    h->words[ROVE_NODE] = ROVE_MOVE_FBD_BIRTH_SCALE;
    done(make, h, 0);
    expect(h->words[ROVE_FIRST] == 0, "a birth rate without one");
}

/* ---- tip dating, densities and clades */

/* With nothing sampled at the present a tip there is at fault, as one is whose ages are crossed: the lower of the two is named, whichever rule it is
 * against, and ahead of an infinite field. */
static void validate_ages(call make, struct host *h)
{
    put_process(h);
    h->words[ROVE_NODE] = NODES;
    h->minima[0] = 1.0;
    h->maxima[0] = 3.0;
    done(make, h, 0);
    put_float(h, ROVE_FBD_BIRTH, INFINITY);
    refused(make, h, ROVE_REFUSAL_PARAMETER, 0);
    h->minima[2] = 1.0;
    refused(make, h, ROVE_REFUSAL_PARAMETER, 2);
    put_float(h, ROVE_FBD_PRESENT_SAMPLING, 0.0);
    refused(make, h, ROVE_REFUSAL_PARAMETER, 1);
    h->minima[1] = 1.0;
    h->minima[2] = 0.0;
    refused(make, h, ROVE_REFUSAL_PARAMETER, 1);
    h->words[ROVE_NODE] = NODES + 2;
    refused(make, h, ROVE_REFUSAL_SIZE, NODES + 2);
}

/* Tip 0 has an age from 1 to 3, of which the middle is 2. What is above it is 0.8 of the way to the origin, four times as long as the tree. */
static void initialize(call make, struct host *h)
{
    struct host after = *h;
    put_process(h);
    h->minima[0] = 1.0;
    h->maxima[0] = 3.0;
    after.heights[0] = 2.0;
    after.heights[3] = 6.0;
    after.heights[4] = 10.0;
    done(make, h, 0);
    expect(same_tree(h, &after), "the tree");
    h->minima[1] = h->minima[2] = -1.0;
    memset(h->heights, 0, sizeof h->heights);
    refused(make, h, ROVE_REFUSAL_PARAMETER, 1);
}

/* Tip 0, at the second uniform of the way from 0.25 to 0.75. */
static void propose_age(call make, struct host *h)
{
    struct host after = *h;
    put_process(h);
    h->minima[0] = 0.25;
    h->maxima[0] = 0.75;
    after.heights[0] = 0.25 + uniform(draw[1]) * 0.5;
    done(make, h, 2);
    has_ratio(h, ROVE_EVEN, 1, 1);
    expect(same_tree(h, &after), "the tree");
    h->maxima[0] = 0.25;
    declined(make, h, 1);
    h->maxima[1] = h->maxima[2] = 1.0;
    h->words[ROVE_ALLOWANCE] = 65536;
    refused(make, h, ROVE_REFUSAL_PARAMETER, 1);
}

static void yule_log_density(call make, struct host *h)
{
    put_float(h, 13, 0.5);
    done(make, h, 0);
    expect(h->words[ROVE_FIRST] == 2 && is_float(h, 14, 0.5) && is_float(h, 15, 2.5), "the terms");
    put_float(h, 13, 0.0);
    declined(make, h, 0);
}

/* The set of no tips, of tip 1, of tip 2, of tips 0 and 1, and of tips 0 and 2. */
static const uint8_t none[TIPS], tip_1[TIPS] = {0, 2, 0}, tip_2[TIPS] = {0, 0, 1}, pair[TIPS] = {1, 1, 0}, apart[TIPS] = {1, 0, 255};

/* Of the set of these tips the call gives this number. */
static void gives(call make, struct host *h, const uint8_t *members, uint64_t number, const char *what)
{
    memcpy(h->members, members, TIPS);
    done(make, h, 0);
    expect(h->words[ROVE_FIRST] == number, what);
}

static void is_monophyletic(call make, struct host *h)
{
    gives(make, h, pair, 1, "tips 0 and 1");
    gives(make, h, apart, 0, "tips 0 and 2");
    gives(make, h, tip_1, 1, "tip 1 alone");
    gives(make, h, none, 0, "no tips");
}

static void clade_age(call make, struct host *h)
{
    gives(make, h, pair, 1000, "tips 0 and 1");
    gives(make, h, apart, 2000, "tips 0 and 2");
    gives(make, h, tip_1, 1000, "the stem of tip 1");
    gives(make, h, tip_2, 2000, "the stem of tip 2");
    memcpy(h->members, none, TIPS);
    refused(make, h, ROVE_REFUSAL_PARAMETER, 0);
    memcpy(h->members, tip_2, TIPS);
    h->heights[4] = 8796093022208.0;
    refused(make, h, ROVE_REFUSAL_PARAMETER, 0);
}

/* ---- Newick copies */

/* The call is done with so many bytes or nodes. */
static void copied(call make, struct host *h, uint64_t count)
{
    done(make, h, 0);
    expect(h->words[ROVE_KIND] == 0 && h->words[ROVE_FIRST] == count && h->words[ROVE_SECOND] == 0, "the count");
}

/* The copy of F, in a slice of just its length and in a longer one; with other heights; and what is refused, in its order. */
static void write_newick(call make, struct host *h)
{
    static const char copy[] = "((0:1.000,1:1.000):1.000,2:2.000);";
    static const char dated[] = "((0:0.001,1:1.000):1.000,2:2.000);";
    struct host after = *h;
    memset(after.copy, '#', COPY);
    memcpy(after.copy, copy, sizeof copy - 1);
    h->room = sizeof copy - 2;
    refused(make, h, ROVE_REFUSAL_ROOM, 0);
    for (h->room = sizeof copy - 1; h->room <= COPY; h->room++) {
        memset(h->copy, '#', COPY);
        copied(make, h, sizeof copy - 1);
        expect(same_tree(h, &after) && memcmp(h->copy, after.copy, COPY) == 0, "the copy of F");
    }
    h->room = COPY;
    h->heights[0] = 0.9998;
    h->heights[3] = 1.0004;
    h->heights[4] = 2.0004;
    copied(make, h, sizeof dated - 1);
    expect(memcmp(h->copy, dated, sizeof dated - 1) == 0, "the copy with a dated tip");
    h->room = 0;
    h->heights[4] = 8796093022208.0;
    refused(make, h, ROVE_REFUSAL_PARAMETER, 0);
    h->heights[2] = -1.0;
    refused(make, h, ROVE_REFUSAL_HEIGHT, 2);
}

/* A text is refused at a place, with no room lent. */
static void faulty(call make, struct host *h, const char *text, uint64_t place)
{
    h->text = text;
    h->room = h->ages_room = 0;
    refused(make, h, ROVE_REFUSAL_PLACE, place);
}

/* The pairs and ages of a text, one age being lent more than it has; one pair or one age too few; and texts that are none. */
static void read_newick(call make, struct host *h)
{
    const uint64_t ages[NODES + 1] = {999, 0, 2499, 1999, 2999, 7};
    struct host before = *h;
    h->text = "(2:0.500,(0:1.000,1:1.999):1.000);";
    h->room = 2 * NODES - 1;
    h->ages_room = NODES + 1;
    refused(make, h, ROVE_REFUSAL_ROOM, 0);
    h->room = 2 * NODES;
    h->ages_room = NODES - 1;
    refused(make, h, ROVE_REFUSAL_ROOM, 0);
    memset(h->pairs, 0, sizeof h->pairs);
    h->ages_room = NODES + 1;
    h->ages[NODES] = 7;
    copied(make, h, NODES);
    expect(is_shaped(h, (const uint16_t[]){0, 1, 2, 3}, before.parents), "the pairs");
    expect(memcmp(h->pairs, before.pairs, 2 * TIPS * sizeof h->pairs[0]) == 0, "the tips");
    expect(memcmp(h->ages, ages, sizeof ages) == 0, "the ages");
    faulty(make, h, "", 0);
    faulty(make, h, "(0:1.000,1:1.000)", 17);
    faulty(make, h, "(00:1.000,1:1.000);", 2);
    faulty(make, h, "(0:1.000,1:1.000);\n", 18);
    faulty(make, h, "(5:1.000,5:1.000)x", 17);
    faulty(make, h, "(1:1.000,2:1.000);", 18);
    faulty(make, h, "(0:9007199254740.992,1:0.000);", 30);
}

/* ---- the state file, which has no record */

#define HEIGHTS "height=0000000000000000\nheight=0000000000000000\nheight=0000000000000000\nheight=3ff0000000000000\n"

/* Document 01's example. */
static void state_file(void)
{
    static const char file[] = "edition=1\ndraws=9\nstate=0000000000000001,0000000000000002,0000000000000003,0000000000000004\n"
                               "move=RootScale\nnode=0\ntuning=3fe0000000000000\ntips=3\npair=0,1\npair=3,2\n" HEIGHTS "height=4000000000000000\n";
    static const char text[] = "answer=moved\ndraws=1\nstate=0000000000000007,0000000000000000,0000000000040002,0000c00000000000\n"
                               "ratio=power,3fe0000000007800,-1\nroot=4\npair=0,1\npair=3,2\n" HEIGHTS "height=3ff0000000007800\n";
    const size_t length = sizeof text - 1;
    uint8_t answer[sizeof text] = {0}, blank[sizeof text] = {0};

    function = "rove_answer";
    expect(rove_answer((const uint8_t *)file, sizeof file - 1, answer, length - 1) == 0, "a slice that is too short");
    expect(memcmp(answer, blank, sizeof blank) == 0, "a slice that is too short, afterwards");
    expect(rove_answer((const uint8_t *)file, sizeof file - 1, answer, length) == length, "the length");
    expect(memcmp(answer, text, sizeof text) == 0, "the text");
}

/* ---- all of them */

#define ROW(name, check) {#name, call_##name, check}

static const struct {
    const char *name;
    call make;
    void (*check)(call make, struct host *h);
} functions[] = {
    ROW(rove_seed, seed),
    ROW(rove_next_u64, next_u64),
    ROW(rove_below, below),
    ROW(rove_uniform, draw_uniform),
    ROW(rove_coin, coin),
    ROW(rove_scaler, scaler),
    ROW(rove_new, new_tree),
    ROW(rove_validate, validate),
    ROW(rove_postorder, postorder),
    ROW(rove_branch_length, branch_length),
    ROW(rove_tree_length, tree_length),
    ROW(rove_node_height, node_height),
    ROW(rove_slide_start, slide_start),
    ROW(rove_subtree_slide, subtree_slide),
    ROW(rove_narrow_exchange, narrow_exchange),
    ROW(rove_wide_exchange, wide_exchange),
    ROW(rove_wilson_balding, wilson_balding),
    ROW(rove_root_scale, root_scale),
    ROW(rove_tree_scale, tree_scale),
    ROW(rove_node_height_unvalidated, node_height),
    ROW(rove_slide_start_unvalidated, slide_start),
    ROW(rove_subtree_slide_unvalidated, subtree_slide),
    ROW(rove_narrow_exchange_unvalidated, narrow_exchange),
    ROW(rove_wide_exchange_unvalidated, wide_exchange),
    ROW(rove_wilson_balding_unvalidated, wilson_balding),
    ROW(rove_root_scale_unvalidated, root_scale),
    ROW(rove_tree_scale_unvalidated, tree_scale),
    ROW(rove_initial_tuning, initial_tuning),
    ROW(rove_changes_fbd, changes_fbd),
    ROW(rove_changes_tree, changes_tree),
    ROW(rove_changes_topology, changes_topology),
    ROW(rove_write_newick, write_newick),
    ROW(rove_read_newick, read_newick),
    ROW(rove_scale, scale),
    ROW(rove_clock_rate_scale, clock_rate_scale),
    ROW(rove_birth_difference_scale, birth_difference_scale),
    ROW(rove_birth_rate_scale, birth_rate_scale),
    ROW(rove_relative_death_scale, relative_death_scale),
    ROW(rove_clock_sigma_scale, clock_sigma_scale),
    ROW(rove_branch_rate_scale, branch_rate_scale),
    ROW(rove_clock, relaxed_clock),
    ROW(rove_branch_rate, branch_rate),
    ROW(rove_set_sigma, set_sigma),
    ROW(rove_set_rate, set_rate),
    ROW(rove_fbd_scale, fbd_scale),
    ROW(rove_validate_priors, validate_priors),
    ROW(rove_estimates, estimates),
    ROW(rove_validate_ages, validate_ages),
    ROW(rove_initialize, initialize),
    ROW(rove_propose_age, propose_age),
    ROW(rove_yule_log_density, yule_log_density),
    ROW(rove_is_monophyletic, is_monophyletic),
    ROW(rove_clade_age, clade_age),
};

int main(void)
{
    const size_t count = sizeof functions / sizeof functions[0];
    for (size_t k = 0; k < count; k++) {
        struct host h = tree_f();
        function = functions[k].name;
        functions[k].check(functions[k].make, &h);
    }
    state_file();
    printf("%zu functions answer as they have to\n", count + 1);
    return 0;
}
