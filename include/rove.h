/* rove's generator, trees and moves, proved: the functions that a C host calls with its tree in memory.
 *
 * Slices. A slice is a pointer to its first element, then the number of its elements. With no elements the pointer is not followed and may be NULL.
 * The slices of one call do not overlap, and nothing else reads or writes them while it runs. A function that takes a pointer to const leaves those
 * elements as they are.
 *
 * Trees. A tree of n nodes has 2n pairs, n parents and n heights. n is odd, from 3 to 4,095; nodes 0 to (n + 1) / 2 - 1 are the tips. The children of
 * node k are pairs[2k] and pairs[2k + 1]; a tip has ROVE_NO_NODE twice. The root's parent is ROVE_NO_NODE; the root itself stands in the record.
 * A height is finite, not negative, and no greater than the parent's. rove_new fills the parents and the root from pairs and heights. The calls validate
 * the tree that they are given, and refuse what rove_new would not accept.
 *
 * The record. The first slice of a call, `words`, is its record: at least ROVE_WORDS 64-bit words, by which it is given its numbers and by which it
 * answers. A float stands in a word by its bits (rove_bits, rove_real); every NaN is one and the same. Every call takes any words and any slices.
 *
 * The answer. A call returns its answer code, ROVE_DONE to ROVE_NO_RECORD. All but rove_seed write it into word ROVE_ANSWER too, if there is a record:
 *   done      words 0-3 the generator after the draws made, where it made any; ROVE_ROOT after a move or rove_new; ROVE_ANSWER to ROVE_SECOND; the
 *             slices and parameters that the call changes;
 *   declined  words 0-3, and ROVE_ANSWER to ROVE_SECOND;
 *   refused   ROVE_ANSWER to ROVE_SECOND, and nothing else: generator, slices and parameters are as they came;
 *   no record (fewer than ROVE_WORDS words) nothing at all.
 * All other words stay as they came.
 *
 * The archives, for x86-64 Linux: librove.a has all of these functions, librove_newick.a the two of Newick copies alone. Each shows no other name and needs
 * the C library alone. The script hosts/archive makes them in target/archive; a host links one of the two. */
#ifndef ROVE_H
#define ROVE_H

#include <stddef.h>
#include <stdint.h>
#include <string.h>

#ifdef __cplusplus
extern "C" {
#endif

/* ---- the record */

enum {
    ROVE_WORDS = 32,     /* the fewest words of a record */
    ROVE_GENERATOR = 0,  /* in and out: four words, the generator's state */
    ROVE_ROOT = 4,       /* in, and out where it changes: the root */
    ROVE_ALLOWANCE = 5,  /* in: how many draws the call may make, 1 to 65,535; a larger one leaves the same, unless it was refused for want of draws */
    ROVE_NODE = 6,       /* in: a node, an index, a field, a move, an n, or a number of nodes; out: the node of rove_slide_start */
    ROVE_TUNING = 7,     /* in: the bits of a scale's tuning, from 1e-8 to 1, or of a slide's step */
    ROVE_ANSWER = 8,     /* out: the answer code */
    ROVE_DRAWS = 9,      /* out: the draws made; 0 when refused */
    ROVE_KIND = 10,      /* out: moved: the ratio's kind; refused: the refusal; else 0 */
    ROVE_FIRST = 11,     /* out: moved: the ratio's first value; refused: the refusal's detail; else as each function says, or 0 */
    ROVE_SECOND = 12,    /* out: moved: the ratio's second value; else as each function says, or 0 */
    ROVE_PARAMETERS = 13 /* words 13 to 31: the parameters of the calls that take any */
};

/* The mark of no node. */
enum { ROVE_NO_NODE = 65535 };

/* The answer code. */
enum {
    ROVE_DONE = 0,     /* moved, scaled, made, drawn, in order */
    ROVE_DECLINED = 1, /* the Rust's None: the move is not made, or of rove_initial_tuning has none; of rove_yule_log_density: minus infinity */
    ROVE_REFUSED = 2,  /* the call is turned back */
    ROVE_NO_RECORD = 3 /* fewer than ROVE_WORDS words */
};

/* The kind of a ratio, and its two values a and b, or f and k. */
enum {
    ROVE_EVEN = 0,    /* 1 over 1: 1 and 1 */
    ROVE_COUNTS = 1,  /* a over b: two numbers */
    ROVE_LENGTHS = 2, /* a over b: the bits of two floats */
    ROVE_POWER = 3    /* f to the power k: the bits of a float, and a number in two's complement */
};

/* The refusals, with their details. They are tested in this order. */
enum {
    ROVE_REFUSAL_SIZE = 1,         /* under 3 nodes, an even number, over 4,095, or lengths disagree: the number of nodes */
    ROVE_REFUSAL_SHAPE = 2,        /* the pairs make no tree: the node */
    ROVE_REFUSAL_DISCONNECTED = 3, /* they make more than one, or the given parents or root are not the pairs': 0 */
    ROVE_REFUSAL_HEIGHT = 4,       /* negative, not finite, or above the parent's: the lowest such node */
    ROVE_REFUSAL_PARAMETER = 5,    /* a parameter, the allowance too, is outside its limits: the lowest tip at fault of an age table, else 0 */
    ROVE_REFUSAL_ALLOWANCE = 6,    /* more draws are needed than allowed: the allowance */
    ROVE_REFUSAL_NOT_FINITE = 7,   /* a new height is not finite: the lowest such node */
    ROVE_REFUSAL_OUTSIDE = 8,      /* a drawn height is outside its interval: the node */
    ROVE_REFUSAL_LINE = 9,         /* of the state file alone: the line */
    ROVE_REFUSAL_PLACE = 9,        /* of rove_read_newick alone: the place in the text */
    ROVE_REFUSAL_ROOM = 10         /* of the Newick copies alone, a lent slice is too short for the result: 0 */
};

/* A float as a word, and back. */
static inline uint64_t rove_bits(double x)
{
    uint64_t bits;
    memcpy(&bits, &x, sizeof bits);
    return bits;
}

static inline double rove_real(uint64_t bits)
{
    double x;
    memcpy(&x, &bits, sizeof x);
    return x;
}

/* ---- the generator: xoshiro256++, seeded through SplitMix64 */

/* The generator of a seed, into words 0-3; no other word is written. */
uint64_t rove_seed(uint64_t *words, size_t words_len, uint64_t seed);

/* One draw, into ROVE_FIRST. Asks for no allowance. */
uint64_t rove_next_u64(uint64_t *words, size_t words_len);

/* A number below ROVE_NODE, which is 1 to 2^32, into ROVE_FIRST. */
uint64_t rove_below(uint64_t *words, size_t words_len);

/* One draw, into ROVE_FIRST: as a float on [0, 1), by its bits; and as a side, 1 being the first and 0 the other. Neither asks for an allowance. */
uint64_t rove_uniform(uint64_t *words, size_t words_len);
uint64_t rove_coin(uint64_t *words, size_t words_len);

/* The factor of a scale, s + u * (1/s - s), its bits into ROVE_FIRST: the tuning s is in ROVE_TUNING, a uniform u in word 13. Draws nothing. */
uint64_t rove_scaler(uint64_t *words, size_t words_len);

/* ---- the tree */

/* Tree::new: fills the parents, and ROVE_ROOT. */
uint64_t rove_new(uint64_t *words, size_t words_len, const uint16_t *pairs, size_t pairs_len, const double *heights, size_t heights_len,
                  uint16_t *parents, size_t parents_len);

/* Whether pairs, parents, heights and ROVE_ROOT are a tree. */
uint64_t rove_validate(uint64_t *words, size_t words_len, const uint16_t *pairs, size_t pairs_len, const uint16_t *parents, size_t parents_len,
                       const double *heights, size_t heights_len);

/* Every node with both children before their parent, into `order`, which has one place for each node. */
uint64_t rove_postorder(uint64_t *words, size_t words_len, const uint16_t *pairs, size_t pairs_len, const uint16_t *parents, size_t parents_len,
                        const double *heights, size_t heights_len, uint16_t *order, size_t order_len);

/* The length of the branch above ROVE_NODE, 0 above the root; and that of all branches, added up in the order of the nodes: the bits into ROVE_FIRST.
 * Neither validates. Parents and heights of different lengths are refused with 1 and the number of parents, a node or its parent that is none with 5. */
uint64_t rove_branch_length(uint64_t *words, size_t words_len, const uint16_t *parents, size_t parents_len, const double *heights,
                            size_t heights_len);
uint64_t rove_tree_length(uint64_t *words, size_t words_len, const uint16_t *parents, size_t parents_len, const double *heights, size_t heights_len);

/* ---- the moves. Each is given ROVE_GENERATOR, ROVE_ROOT and ROVE_ALLOWANCE. */

uint64_t rove_node_height(uint64_t *words, size_t words_len, const uint16_t *pairs, size_t pairs_len, const uint16_t *parents, size_t parents_len,
                          double *heights, size_t heights_len);

/* SubtreeSlide is two calls. The first draws its node, into ROVE_NODE, and two uniforms, whose bits go into ROVE_FIRST and ROVE_SECOND. The host
 * forms the step from these and writes it into ROVE_TUNING for the second, which takes node and step. */
uint64_t rove_slide_start(uint64_t *words, size_t words_len, const uint16_t *pairs, size_t pairs_len, const uint16_t *parents, size_t parents_len,
                          const double *heights, size_t heights_len);
uint64_t rove_subtree_slide(uint64_t *words, size_t words_len, uint16_t *pairs, size_t pairs_len, uint16_t *parents, size_t parents_len,
                            double *heights, size_t heights_len);

uint64_t rove_narrow_exchange(uint64_t *words, size_t words_len, uint16_t *pairs, size_t pairs_len, uint16_t *parents, size_t parents_len,
                              const double *heights, size_t heights_len);
uint64_t rove_wide_exchange(uint64_t *words, size_t words_len, uint16_t *pairs, size_t pairs_len, uint16_t *parents, size_t parents_len,
                            const double *heights, size_t heights_len);
uint64_t rove_wilson_balding(uint64_t *words, size_t words_len, uint16_t *pairs, size_t pairs_len, uint16_t *parents, size_t parents_len,
                             double *heights, size_t heights_len);

/* With the tuning in ROVE_TUNING. */
uint64_t rove_root_scale(uint64_t *words, size_t words_len, const uint16_t *pairs, size_t pairs_len, const uint16_t *parents, size_t parents_len,
                         double *heights, size_t heights_len);
uint64_t rove_tree_scale(uint64_t *words, size_t words_len, const uint16_t *pairs, size_t pairs_len, const uint16_t *parents, size_t parents_len,
                         double *heights, size_t heights_len);

/* The same without validating the tree, for one that was accepted and has since been changed by these calls alone; parameters and allowance are still
 * checked. On an accepted tree each does exactly what its namesake does, and what it leaves is accepted again, however many calls are made. The exception is
 * TreeScale, checked or not, on a tree with a tip whose height is not zero: a tip may have come to stand above its parent, such a tree is not accepted, and
 * a checked call or rove_validate comes next. On any other slices a call ends and stays within them; parameters and allowance are refused as ever, a refused
 * or declined call leaves the slices as they came and a refused one the generator too, and the generator is stepped as often as ROVE_DRAWS says. Which
 * answer is given there is undecided. */
uint64_t rove_node_height_unvalidated(uint64_t *words, size_t words_len, const uint16_t *pairs, size_t pairs_len, const uint16_t *parents,
                                      size_t parents_len, double *heights, size_t heights_len);
uint64_t rove_slide_start_unvalidated(uint64_t *words, size_t words_len, const uint16_t *pairs, size_t pairs_len, const uint16_t *parents,
                                      size_t parents_len, const double *heights, size_t heights_len);
uint64_t rove_subtree_slide_unvalidated(uint64_t *words, size_t words_len, uint16_t *pairs, size_t pairs_len, uint16_t *parents, size_t parents_len,
                                        double *heights, size_t heights_len);
uint64_t rove_narrow_exchange_unvalidated(uint64_t *words, size_t words_len, uint16_t *pairs, size_t pairs_len, uint16_t *parents, size_t parents_len,
                                          const double *heights, size_t heights_len);
uint64_t rove_wide_exchange_unvalidated(uint64_t *words, size_t words_len, uint16_t *pairs, size_t pairs_len, uint16_t *parents, size_t parents_len,
                                        const double *heights, size_t heights_len);
uint64_t rove_wilson_balding_unvalidated(uint64_t *words, size_t words_len, uint16_t *pairs, size_t pairs_len, uint16_t *parents, size_t parents_len,
                                         double *heights, size_t heights_len);
uint64_t rove_root_scale_unvalidated(uint64_t *words, size_t words_len, const uint16_t *pairs, size_t pairs_len, const uint16_t *parents,
                                     size_t parents_len, double *heights, size_t heights_len);
uint64_t rove_tree_scale_unvalidated(uint64_t *words, size_t words_len, const uint16_t *pairs, size_t pairs_len, const uint16_t *parents,
                                     size_t parents_len, double *heights, size_t heights_len);

/* ---- the table of moves */

/* The moves by their numbers, in the Rust's order. The functions of the table are given one in ROVE_NODE; any other number is refused with 5. */
enum {
    ROVE_MOVE_FBD_BIRTH_SCALE = 0,
    ROVE_MOVE_FBD_DEATH_SCALE = 1,
    ROVE_MOVE_FBD_SAMPLING_SCALE = 2,
    ROVE_MOVE_FBD_RHO_LOGIT = 3,
    ROVE_MOVE_FBD_ORIGIN_SCALE = 4,
    ROVE_MOVE_TIP_AGE = 5,
    ROVE_MOVE_CLOCK_RATE_SCALE = 6,
    ROVE_MOVE_NODE_HEIGHT = 7,
    ROVE_MOVE_SUBTREE_SLIDE = 8,
    ROVE_MOVE_NARROW_EXCHANGE = 9,
    ROVE_MOVE_WIDE_EXCHANGE = 10,
    ROVE_MOVE_WILSON_BALDING = 11,
    ROVE_MOVE_ROOT_SCALE = 12,
    ROVE_MOVE_TREE_SCALE = 13,
    ROVE_MOVE_BIRTH_DIFFERENCE_SCALE = 14,
    ROVE_MOVE_RELATIVE_DEATH_SCALE = 15,
    ROVE_MOVE_GAMMA_SHAPE_SCALE = 16,
    ROVE_MOVE_CLOCK_SIGMA_SCALE = 17,
    ROVE_MOVE_BRANCH_RATE_SCALE = 18,
    ROVE_MOVE_NODE_TIME_RATES = 19,
    ROVE_MOVE_ROOT_TIME_RATES = 20,
    ROVE_MOVE_CLOCK_SIGMA_RATES = 21,
    ROVE_MOVE_NARROW_EXCHANGE_RATES = 22,
    ROVE_MOVE_BIRTH_RATE_SCALE = 23,
    ROVE_MOVE_MORPHOLOGY_RATE_SCALE = 24
};

/* The slide's size or the scale's tuning that a move starts with, its bits into ROVE_FIRST; ROVE_DECLINED for a move that has none. */
uint64_t rove_initial_tuning(uint64_t *words, size_t words_len);

/* Whether a move changes the fossilized birth-death process; the tree, its heights or its shape; the tree's shape. 1 or 0 into ROVE_FIRST. */
uint64_t rove_changes_fbd(uint64_t *words, size_t words_len);
uint64_t rove_changes_tree(uint64_t *words, size_t words_len);
uint64_t rove_changes_topology(uint64_t *words, size_t words_len);

/* ---- the state file */

/* No answer to a state file has more bytes. */
enum { ROVE_LONGEST_ANSWER = 131072 };

/* The answer to a state file, as text: how many bytes of `answer` were written, or 0 where it is too short, which then stays as it is. */
size_t rove_answer(const uint8_t *file, size_t file_len, uint8_t *answer, size_t answer_len);

/* ---- Newick copies: ((0:1.000,1:1.000):1.000,2:2.000); is one. Tips have their numbers, a pair's children stand in their order, and a branch has the
 * difference of its ends' ages in thousandths, each age's rest having been dropped. Slices may be longer than the result: what is past it stays. Both
 * functions call themselves once for each level of a tree: that of 2,048 tips with the most levels takes less than 384 KB of stack. */

/* No copy has more bytes; 2,048 tips with 13 digits before the point of every length would have so many. */
enum { ROVE_LONGEST_NEWICK = 86916 };

/* The copy of a tree, without a newline, at the start of `out`, and the number of its bytes into ROVE_FIRST. After 1 to 4, a height of 2^43 or more is
 * refused with 5 and 0, then a slice that is too short with ROVE_REFUSAL_ROOM. */
uint64_t rove_write_newick(uint64_t *words, size_t words_len, const uint16_t *pairs, size_t pairs_len, const uint16_t *parents, size_t parents_len,
                           const double *heights, size_t heights_len, uint8_t *out, size_t out_len);

/* The tree of a copy with 2 to 2,048 tips and a root below 2^53 thousandths. Of its n nodes the 2n pairs, and the n ages in whole thousandths above the
 * youngest tip, at the starts of `pairs` and `ages`; n into ROVE_FIRST. Internal nodes are numbered in the order in which their parentheses close, the root
 * being n - 1. A text that is none is refused with ROVE_REFUSAL_PLACE, then slices that are too short with ROVE_REFUSAL_ROOM. The place is that, from 0, of
 * the first byte that the spelling forbids, numbers of any size being well spelled; or text_len, where only the text's end, its tip numbers, its number of
 * tips or its root's age is at fault. A text with more than 2,048 open parentheses, which is refused in any case, may take a time that grows with the
 * square of its length. */
uint64_t rove_read_newick(uint64_t *words, size_t words_len, const uint8_t *text, size_t text_len, uint16_t *pairs, size_t pairs_len, uint64_t *ages,
                          size_t ages_len);

/* ---- parameters. A flag is 0 for "missing", and any other number for "given". In and out: read, and written where the call is done. */

/* Word 13 a value (in and out), 14 its upper end; the tuning in ROVE_TUNING, here and in the scales below. */
uint64_t rove_scale(uint64_t *words, size_t words_len);

/* Word 13 a flag, 14 the mean rate of the clock (in and out). */
uint64_t rove_clock_rate_scale(uint64_t *words, size_t words_len);

/* Word 13 the kind of speciation, 0 Yule and any other birth-death; 14 and 15 its rates (in and out), of which Yule has the first alone; 16 the upper
 * end, which rove_relative_death_scale does not read. */
uint64_t rove_birth_difference_scale(uint64_t *words, size_t words_len);
uint64_t rove_birth_rate_scale(uint64_t *words, size_t words_len);
uint64_t rove_relative_death_scale(uint64_t *words, size_t words_len);

/* The relaxed clock: word 13 a flag, 14 sigma, which the first of the two scales; `rates` are its rates, one of which the second scales. */
uint64_t rove_clock_sigma_scale(uint64_t *words, size_t words_len, const double *rates, size_t rates_len);
uint64_t rove_branch_rate_scale(uint64_t *words, size_t words_len, double *rates, size_t rates_len);

/* Whether sigma in word 14 and the rates are a relaxed clock. */
uint64_t rove_clock(uint64_t *words, size_t words_len, const double *rates, size_t rates_len);

/* The bits of a node's rate into ROVE_FIRST: sigma in word 14, the node in ROVE_NODE, the root in ROVE_ROOT. */
uint64_t rove_branch_rate(uint64_t *words, size_t words_len, const double *rates, size_t rates_len);

/* A new sigma, from word 15 into 14; or a new rate from word 15, at the index in ROVE_NODE. ROVE_FIRST is 1 where it was stored, else 0. */
uint64_t rove_set_sigma(uint64_t *words, size_t words_len, const double *rates, size_t rates_len);
uint64_t rove_set_rate(uint64_t *words, size_t words_len, double *rates, size_t rates_len);

/* The fossilized birth-death process in words 13 to 17, and its priors: a flag and a value for each mean, a flag and two shapes for present sampling. */
enum {
    ROVE_FBD_BIRTH = 13,
    ROVE_FBD_DEATH = 14,
    ROVE_FBD_FOSSIL_SAMPLING = 15,
    ROVE_FBD_PRESENT_SAMPLING = 16,
    ROVE_FBD_ORIGIN = 17,
    ROVE_PRIOR_BIRTH_MEAN = 18,
    ROVE_PRIOR_DEATH_MEAN = 20,
    ROVE_PRIOR_FOSSIL_SAMPLING_MEAN = 22,
    ROVE_PRIOR_PRESENT_SAMPLING_BETA = 24,
    ROVE_PRIOR_ORIGIN_EXCESS_MEAN = 27,
    ROVE_FBD_OFFSET = 29
};

/* What rove_fbd_scale scales, in ROVE_NODE. */
enum { ROVE_FIELD_BIRTH = 0, ROVE_FIELD_DEATH = 1, ROVE_FIELD_FOSSIL_SAMPLING = 2, ROVE_FIELD_ORIGIN = 3 };

/* One field of the process (words 13 to 17, in and out), its priors in words 18 to 28 and the offset in word 29. */
uint64_t rove_fbd_scale(uint64_t *words, size_t words_len);

/* Whether the priors in words 18 to 28 are in order. */
uint64_t rove_validate_priors(uint64_t *words, size_t words_len);

/* Whether the priors in words 18 to 28 estimate what the move in ROVE_NODE changes (ROVE_MOVE_...): 1 or 0 into ROVE_FIRST. */
uint64_t rove_estimates(uint64_t *words, size_t words_len);

/* Tip dating, the process in words 13 to 17; `minima` and `maxima`, the age table, have one age for each tip. rove_validate_ages tells whether a table is in
 * order for a tree of as many nodes as ROVE_NODE says. rove_initialize puts every tip at the middle of its ages and scales the internal heights to what is
 * left under the origin. rove_propose_age is TipAge: it moves one tip, and is given ROVE_GENERATOR and ROVE_ALLOWANCE.
 *
 * A tip is at fault whose ends are not finite, negative or crossed, or reach the origin; whose interval is longer than 0 and begins at 0; or that is at 0 where
 * present sampling is 0. After 1 to 4 the lowest tip at fault is refused with 5 and its number, ahead of any other 5 of the call, which has detail 0: a field
 * of the process that is not finite; the allowance; of rove_initialize a root at 0, or an origin not above the oldest tip. */
uint64_t rove_validate_ages(uint64_t *words, size_t words_len, const double *minima, size_t minima_len, const double *maxima, size_t maxima_len);
uint64_t rove_initialize(uint64_t *words, size_t words_len, const uint16_t *pairs, size_t pairs_len, const uint16_t *parents, size_t parents_len,
                         double *heights, size_t heights_len, const double *minima, size_t minima_len, const double *maxima, size_t maxima_len);
uint64_t rove_propose_age(uint64_t *words, size_t words_len, const uint16_t *pairs, size_t pairs_len, const uint16_t *parents, size_t parents_len,
                          double *heights, size_t heights_len, const double *minima, size_t minima_len, const double *maxima, size_t maxima_len);

/* The terms of the Yule density at the rate in word 13: the tips less 1 into ROVE_FIRST, the bits of the rate into word 14, those of the rate times the
 * total into 15; ROVE_DECLINED where the density is minus infinity. */
uint64_t rove_yule_log_density(uint64_t *words, size_t words_len, const uint16_t *pairs, size_t pairs_len, const uint16_t *parents,
                               size_t parents_len, const double *heights, size_t heights_len);

/* Of a set of tips, `members` having one byte for each tip, which is not 0 where the tip is in the set: whether the set is monophyletic, 1 or 0 into
 * ROVE_FIRST, 1 for a single tip and 0 for an empty set; and the set's age, in whole thousandths, into ROVE_FIRST. A set of two tips or more is dated by the
 * height of the first node in postorder over all of them, a single tip by its stem: the height of its parent. After 1 to 4 rove_clade_age refuses an empty
 * set, and one whose age would be 2^43 or more, with 5, detail 0. */
uint64_t rove_is_monophyletic(uint64_t *words, size_t words_len, const uint16_t *pairs, size_t pairs_len, const uint16_t *parents, size_t parents_len,
                              const double *heights, size_t heights_len, const uint8_t *members, size_t members_len);
uint64_t rove_clade_age(uint64_t *words, size_t words_len, const uint16_t *pairs, size_t pairs_len, const uint16_t *parents, size_t parents_len,
                        const double *heights, size_t heights_len, const uint8_t *members, size_t members_len);

#ifdef __cplusplus
}
#endif

#endif
