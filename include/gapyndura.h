/* Gapyndura: samples, shuffles, reservoirs and weights of crate rand 0.10.3, proved equal to their definitions.
 *
 * For x86-64 Linux. `tools/install PREFIX` puts this header in PREFIX/include, the archive to link with, libgapyndura.a, in PREFIX/lib,
 * and a file for pkg-config beside the archive: cc program.c $(pkg-config --cflags --libs gapyndura). In the repository itself the
 * archive is crates/capi/out/libcapi.a, which `rt lib` in crates/capi makes.
 *
 * docs/SCOPE.md of the repository says by number all that these calls promise. SCOPE 7 below is section 7 of that page.
 *
 * What a caller owes, in every call:
 * - No pointer may be null, not even if the length that goes with it is 0.
 * - A pointer is aligned for its type. It points to as many entries as the number in brackets says, or the length that follows it.
 *   Lengths count entries, not bytes.
 * - What a pointer without const points to overlaps nothing else that the call is given, and no other thread reads or writes it
 *   during the call.
 *
 * What every call that answers a number keeps to (SCOPE 3):
 * - It answers 0 if it was carried out, else the number of the first cause in its list that applies: a refusal.
 * - A refusal other than 13 reads no word and changes neither state, nor a table, nor a slice. Only out is written, as each call says.
 */
#ifndef GAPYNDURA_H
#define GAPYNDURA_H

#include <stddef.h>
#include <stdint.h>

/* The version: 1 for the base, and one more with each request (docs/requests/). A caller can test it by #if. CHANGELOG.md says what a
 * caller has to change, if anything. */
#define GAPYNDURA_VERSION 8

#ifdef __cplusplus
extern "C" {
#endif

/* What the calls answer, by name: 0 if the call was carried out, else why it was declined (SCOPE 2). Each call below says which of them
 * it answers, and when. 14, 15 and 16 are about draw books. No call here reads a draw book, so none answers them. */
enum gapyndura_refusal {
    GAPYNDURA_DONE = 0,
    GAPYNDURA_AMOUNT_EXCEEDS_LENGTH = 1,
    GAPYNDURA_NO_WEIGHTS = 2,
    GAPYNDURA_OVERFLOW = 3,
    GAPYNDURA_INSUFFICIENT_NON_ZERO = 4,
    GAPYNDURA_PLACES_NOT_INCREASING = 5,
    GAPYNDURA_PLACE_OUT_OF_RANGE = 6,
    GAPYNDURA_INVALID_TABLE = 7,
    GAPYNDURA_SLICE_TOO_SHORT = 8,
    GAPYNDURA_SCRATCH_TOO_SHORT = 9,
    GAPYNDURA_TOO_LONG = 10,
    GAPYNDURA_INVALID_HINTS = 11,
    GAPYNDURA_ZERO_STATE = 12,
    GAPYNDURA_BUDGET_EXHAUSTED = 13,
    GAPYNDURA_CONTENTS_CUT_SHORT = 14,
    GAPYNDURA_UNKNOWN_KIND = 15,
    GAPYNDURA_LAYOUT_MISMATCH = 16,
    GAPYNDURA_PARTS_MISMATCH = 17
};

/* The text for an answer. It is a constant: do not free it. Any number may be passed. If it has no name, the text says that no call
 * answers it. */
static inline const char *gapyndura_refusal_text(uint32_t number)
{
    switch (number) {
    case GAPYNDURA_DONE: return "the call was carried out";
    case GAPYNDURA_AMOUNT_EXCEEDS_LENGTH: return "the amount is above the length";
    case GAPYNDURA_NO_WEIGHTS: return "there are no weights";
    case GAPYNDURA_OVERFLOW: return "the weights sum above 2^32 - 1";
    case GAPYNDURA_INSUFFICIENT_NON_ZERO: return "every weight is 0";
    case GAPYNDURA_PLACES_NOT_INCREASING: return "a changed place is not above the one before it";
    case GAPYNDURA_PLACE_OUT_OF_RANGE: return "a changed place is not below the count of weights";
    case GAPYNDURA_INVALID_TABLE: return "the cumulative weights are those of no list of weights";
    case GAPYNDURA_SLICE_TOO_SHORT: return "a slice has too few entries";
    case GAPYNDURA_SCRATCH_TOO_SHORT: return "the scratch slice is shorter than the length";
    case GAPYNDURA_TOO_LONG: return "a length or a count is too large";
    case GAPYNDURA_INVALID_HINTS: return "the bounds on what remains do not hold of the items";
    case GAPYNDURA_ZERO_STATE: return "all four words of the generator's state are 0";
    case GAPYNDURA_BUDGET_EXHAUSTED: return "the budget of words is used up";
    case GAPYNDURA_CONTENTS_CUT_SHORT: return "the book's contents are cut short or of more than 64 jobs";
    case GAPYNDURA_UNKNOWN_KIND: return "a job of the book is of an unknown kind";
    case GAPYNDURA_LAYOUT_MISMATCH: return "the book's bodies do not lie as they must, or it is too long";
    case GAPYNDURA_PARTS_MISMATCH: return "the lists of parts differ in count, or the whole is too long";
    default: return "no call answers this number";
    }
}

/* The generator is xoshiro256++ of Blackman and Vigna: four words of state, which the caller keeps (SCOPE 4).
 *
 * A bounded draw below r is that of rand built with its feature unbiased (SCOPE 5). Say that k words are read and X is these words as one
 * number, the first word highest. The value is then floor(X * r / 2^(32 * k)), and the draw reads on as long as more words could change
 * it. One word is enough but for fewer than r of the 2^32 words, and two are enough but for fewer than r of the 2^64 pairs. No number of
 * words is always enough. So every call that may need more than one word takes a budget: the most words that it may read. If it needs one
 * word more, it answers 13. It has then read exactly budget words, and says below what it leaves. If it needs no word, it never answers 13,
 * not even with a budget of 0. */

/* Writes to state the generator of 32 seed bytes: four little-endian words. If all bytes are 0, which makes no generator, it writes what
 * gapyndura_seed_from_u64 writes for 0. Never declines. SCOPE 4. */
void gapyndura_from_seed(const uint8_t seed[32], uint64_t state[4]);

/* Writes to state the generator of a seed that is one number: the first four outputs of SplitMix64 from it. Never declines. SCOPE 4. */
void gapyndura_seed_from_u64(uint64_t seed, uint64_t state[4]);

/* Draws one word of 32 bits from the generator and advances it. SCOPE 15.
 *
 * Answers 0, or
 *   12  all four words of state are 0: that is no generator
 *
 * On every answer:
 *   state    is the generator after the word: unchanged on 12;
 *   out[0]   is the count of words read: 1 on 0, and 0 on 12;
 *   out[1]   is the word on 0, and 0 on 12. */
uint32_t gapyndura_next_u32(uint64_t state[4], uint64_t out[2]);

/* Draws amount distinct indices below length, in random order, to the front of indices. SCOPE 7.
 *
 * rand's own rule chooses one of three methods by length and amount:
 *   amount below 12    Floyd's method;
 *   amount 12 to 162   the method in place if length is small (to 350 for 12, to 43610 for 162), else Floyd's;
 *   amount from 163    the method in place if length is below some 270 times the amount (37 times, from length 500000 on), else rejection.
 * The method in place needs length entries of scratch, the others none. budget is the most words that the call may read, by any method.
 * Rejection keeps what it has found in local arrays. So a call by rejection uses some 5 KiB of stack for amounts to 1000, some 65 KiB to 20000
 * and some 641 KiB above. The other methods use less than 1 KiB.
 *
 * Answers 0 if the sample is drawn, else the first of these that applies:
 *   12  all four words of state are 0: that is no generator
 *   10  length is above 2^32 - 1
 *    1  amount is above length
 *    8  indices_len is below amount
 *    9  the method in place is due, and scratch_len is below length
 *   13  a word is needed, and budget words are read
 *
 * On every answer:
 *   state    is the generator after the words read;
 *   out[0]   is the count of words read: exactly budget on 13, 0 on other refusals;
 *   out[1]   is the count of indices written: amount on 0, 0 on refusals other than 13;
 *   indices  has out[1] indices at its front, on 0 the sample in the order drawn, and is unchanged behind them;
 *   scratch  is unchanged unless the method in place has drawn. Then its first length entries are all the indices below length as they
 *            were exchanged, the first amount of them the sample, and it is unchanged behind them.
 *
 * What 13 leaves, by method:
 *   Floyd's    out[1] is the count of finished draws, and indices has as many entries as these have left them. They are distinct, but a
 *              later draw could still have replaced one: they are not the front of the sample that more words would give.
 *   in place   out[1] is 0 and indices is unchanged. The first length entries of scratch are the indices below length as the finished
 *              exchanges have arranged them: in increasing order if none is finished.
 *   rejection  out[1] is the count of indices found, and these are the front of the sample that more words would give. */
uint32_t gapyndura_sample(uint64_t state[4], uint64_t length, uint64_t amount, uint64_t budget,
                          uint32_t *indices, size_t indices_len, uint32_t *scratch, size_t scratch_len, uint64_t out[2]);

/* Draws a stratified sample: from each part of a whole as many distinct indices as are wanted of it. The samples of the parts stand one
 * behind the other at the front of indices. SCOPE 8.
 *
 * Part i has lengths[i] indices. They begin at its start, the sum of the lengths before it. amounts[i] of them are wanted. budget is the
 * most words that the call may read, for all parts together.
 *
 * Each part in turn is drawn by gapyndura_sample with its own length and amount, and so by the method that these choose, from the
 * generator that the part before has left and with what is left of budget. Then the part's start is added to its indices. All parts use
 * the same scratch; no start is added there. A part with amount 0 reads no word, but its length counts for the starts behind it. There may
 * be no parts: then no word is read. A call uses as much stack as the largest of these samples.
 *
 * Answers 0 if all parts are drawn, else the first of these that applies to any of them:
 *   12  all four words of state are 0: that is no generator
 *   17  lengths_len and amounts_len differ, or the lengths add up to more than 2^32 - 1
 *    1  an amount is above its length
 *    8  indices_len is below the sum of the amounts
 *    9  the method in place is due for a part, and scratch_len is below its length
 *   13  a word is needed, and budget words are read
 * All but 13 are settled for all parts before the first word is read.
 *
 * On every answer:
 *   state    is the generator after the words read;
 *   out[0]   is the count of words read: exactly budget on 13, 0 on other refusals;
 *   out[1]   is the count of indices written: the sum of the amounts on 0, 0 on refusals other than 13;
 *   indices  has out[1] indices at its front, on 0 the samples of the parts, each in the order drawn, and is unchanged behind them;
 *   scratch  is unchanged unless the method in place has drawn: each part drawn by it leaves what its gapyndura_sample leaves, over what
 *            the parts before have left.
 *
 * On 13 indices has the samples of all finished parts. Behind them is what gapyndura_sample leaves on 13 of the part that is not finished,
 * with its start added. out[1] counts both. */
uint32_t gapyndura_sample_stratified(uint64_t state[4], const uint64_t *lengths, size_t lengths_len, const uint64_t *amounts,
                                     size_t amounts_len, uint64_t budget, uint32_t *indices, size_t indices_len,
                                     uint32_t *scratch, size_t scratch_len, uint64_t out[2]);

/* Shuffles amount of the len items to the end of the slice. This tail starts at n = len - amount, or at n = 0 if amount is above len. The
 * items before n, the head, are the others; their order is not shuffled. A caller has both parts by n and the slice: the tail is the len - n
 * entries from items + n on, the head the n entries from items on. SCOPE 9.
 *
 * One bounded draw serves up to 12 exchanges. budget is the most words that the draws may read. No word is needed if amount is 0 or len is
 * below 2.
 *
 * Answers 0 if the shuffle is done, else the first of these that applies:
 *   12  all four words of state are 0: that is no generator
 *   10  len is above 2^32 - 2
 *   13  a word is needed, and budget words are read
 *
 * On every answer:
 *   state    is the generator after the words read;
 *   out[0]   is the count of words read: exactly budget on 13, 0 on other refusals;
 *   out[1]   is n on 0, and 0 on every refusal, on 13 too;
 *   items    has the same entries as before. On 0 they are rearranged. On 13 all exchanges that come before the unfinished draw are done.
 *            On other refusals they are unchanged. */
uint32_t gapyndura_partial_shuffle(uint64_t state[4], uint32_t *items, size_t len, uint64_t amount, uint64_t budget,
                                   uint64_t out[2]);

/* Shuffles all of the len items: gapyndura_partial_shuffle with len as the amount. SCOPE 9. If len is below 2, the items stay as they are
 * and no word is read.
 *
 * Answers 0, 12, 10 or 13, and writes state, out and items, as gapyndura_partial_shuffle does. So out[1], which is n, is 0 on every
 * answer. */
uint32_t gapyndura_shuffle(uint64_t state[4], uint32_t *items, size_t len, uint64_t budget, uint64_t out[2]);

/* Fills buf with a sample of as many items as it has entries, or with all items if they are fewer. The order in buf is neither that of the
 * items nor random. SCOPE 10.
 *
 * A draw is made for each item past the first buf_len, also if buf_len is 0. If there are no such items, no word is read. budget is the most
 * words that the call may read.
 *
 * Answers 0 if buf is filled, else the first of these that applies:
 *   12  all four words of state are 0: that is no generator
 *   10  items_len is above 2^32 - 2 (buf_len may be any length)
 *   13  a word is needed, and budget words are read
 *
 * On every answer:
 *   state    is the generator after the words read;
 *   out[0]   is the count of words read: exactly budget on 13, 0 on other refusals;
 *   out[1]   is the count of entries of buf that are filled: the lesser of items_len and buf_len on 0, and 0 on every refusal, on 13 too;
 *   buf      has out[1] items at its front on 0, and is unchanged behind them. On 13 it has the first buf_len items, but for those that the
 *            draws before the unfinished one have replaced by later items. On other refusals it is unchanged. */
uint32_t gapyndura_sample_fill(uint64_t state[4], const uint32_t *items, size_t items_len,
                               uint32_t *buf, size_t buf_len, uint64_t budget, uint64_t out[2]);

/* A table of weights is a record, table = { count, total }, and the running sums of all weights but the last. The caller keeps these at the
 * front of a slice cumulative_weights: entry i adds weights 0 to i, so there are count - 1 sums. The total adds all weights. Entries behind
 * the sums are the caller's own and are neither read nor written. A call is given the record that the last call which answered 0 has
 * written, and the slice as the last call left it. Weights have 32 bits, and so has their total (SCOPE 13).
 *
 * A table is whole if it is that of some list of weights: count and total are at least 1, total is at most 2^32 - 1, cumulative_len is at
 * least count - 1, and no sum is below the one before it or above the total. The three calls that are given a table read all its sums to
 * see this, and answer 7 if it is not: then it is broken.
 *
 * Of these four calls only gapyndura_weights_pick reads words. */

/* Makes the table of count weights. SCOPE 13.
 *
 * Answers 0 if it is made, else the first of these that applies:
 *   10  count is above 2^32 - 2
 *    2  count is 0
 *    8  cumulative_len is below count - 1
 *    3  the weights add up to more than 2^32 - 1
 *    4  every weight is 0
 *
 * On every answer:
 *   table               is { count, total } on 0, and unchanged on a refusal;
 *   cumulative_weights  has the count - 1 sums at its front on 0, and is unchanged behind them; on a refusal it is unchanged. */
uint32_t gapyndura_weights_new(const uint32_t *weights, size_t count, uint32_t *cumulative_weights, size_t cumulative_len,
                               uint64_t table[2]);

/* Changes weights: the weight at places[j] becomes weights[j]. Places must increase. An empty change is accepted. The new total is checked
 * when all weights are changed, so a list may first raise one weight and then lower another. SCOPE 13.
 *
 * Answers 0 if the table is changed, else the first of these that applies:
 *   10  the count, or weights_len, is above 2^32 - 2
 *    7  the table is broken (see above)
 *    8  places_len and weights_len differ
 *   then for each place in turn:
 *    5  it is not above the one before
 *    6  it is not below the count
 *   and after all of them:
 *    3  the changed weights add up to more than 2^32 - 1
 *    4  every weight would be 0
 *
 * On every answer:
 *   table               is { count, the new total } on 0, and unchanged on a refusal;
 *   cumulative_weights  has the new sums at its front on 0, and is unchanged behind them; on a refusal it is unchanged. */
uint32_t gapyndura_weights_update(uint64_t table[2], uint32_t *cumulative_weights, size_t cumulative_len,
                                  const uint64_t *places, size_t places_len, const uint32_t *weights, size_t weights_len);

/* Looks up the weight at a place. SCOPE 13.
 *
 * Answers 0, also if the place is beyond the last, else the first of these that applies:
 *   10  the count is above 2^32 - 2
 *    7  the table is broken (see above)
 *
 * On every answer out is { 1, the weight } if there is one, and { 0, 0 } beyond the last place and on a refusal. Nothing else is written. */
uint32_t gapyndura_weights_weight(const uint64_t table[2], const uint32_t *cumulative_weights, size_t cumulative_len,
                                  uint64_t place, uint64_t out[2]);

/* Picks an item by its weight w: exactly w * floor(2^32 / total) of the 2^32 words pick it. The words that pick no item are dropped, and the
 * next word is read. budget is the most words that the call may read. SCOPE 14.
 *
 * Answers 0 if an item is picked, else the first of these that applies:
 *   12  all four words of state are 0: that is no generator
 *   10  the count is above 2^32 - 2
 *    7  the table is broken (see above)
 *   13  budget words are read, and all of them were dropped
 *
 * On every answer:
 *   state    is the generator after the words read;
 *   out[0]   is the count of words read: exactly budget on 13, 0 on other refusals;
 *   out[1]   is the item's index on 0, which is below the count; it is 0 on a refusal. */
uint32_t gapyndura_weights_pick(uint64_t state[4], const uint64_t table[2], const uint32_t *cumulative_weights,
                                size_t cumulative_len, uint64_t budget, uint64_t out[2]);

/* Chooses one of the items as rand does when it reads them one after another with hints of how many remain. SCOPE 12.
 *
 * For each place p from 0 to items_len the hints say that at least lower[p] and at most upper[p] items remain from p on. So both lists have
 * items_len + 1 entries. An upper hint of 2^32 - 1 means that there is none. Better hints make the call faster. They also change which words
 * it reads, and so which item is chosen: if both hints at place 0 are equal, one draw decides; a lower hint of 2 or more is one draw for so
 * many items; else coins are flipped for each item. budget is the most words that the call may read.
 *
 * Answers 0, also if there is no item, else the first of these that applies:
 *   12  all four words of state are 0: that is no generator
 *   10  items_len is above 2^32 - 2
 *   11  lower_len or upper_len is not items_len + 1, or a hint is false: at some p, lower[p] is above items_len - p or upper[p] is below it
 *   13  a word is needed, and budget words are read
 *
 * On every answer:
 *   state    is the generator after the words read;
 *   out[0]   is the count of words read: exactly budget on 13, 0 on other refusals;
 *   out[1]   is 1 if an item is chosen, and 0 if there is no item and on a refusal;
 *   out[2]   is the item, or 0 if out[1] is 0. */
uint32_t gapyndura_choose(uint64_t state[4], const uint32_t *items, size_t items_len, const uint32_t *lower, size_t lower_len,
                          const uint32_t *upper, size_t upper_len, uint64_t budget, uint64_t out[3]);

/* Chooses one of the items with coins for each of them, whatever the hints are: with the same items, state and budget, any two pairs of
 * lower and upper hints that are not false give the same answer, words and generator. SCOPE 12.
 *
 * Answers 0, 12, 10, 11 or 13, and writes state and out, as gapyndura_choose does. */
uint32_t gapyndura_choose_stable(uint64_t state[4], const uint32_t *items, size_t items_len, const uint32_t *lower,
                                 size_t lower_len, const uint32_t *upper, size_t upper_len, uint64_t budget, uint64_t out[3]);

#ifdef __cplusplus
}
#endif

#endif
