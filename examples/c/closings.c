/* Which closings of a gate are measured again: every kind of call of gapyndura.h, from one seed. After tools/install has installed the library,
 *
 *     cc closings.c $(pkg-config --cflags --libs gapyndura) -o closings
 *
 * examples/rust/closings.rs makes the same calls, and both print examples/closings.stdout. */
#include <inttypes.h>
#include <stdio.h>
#include <stdlib.h>

#include <gapyndura.h>

/* The calls are made as version 8 has them; CHANGELOG.md says what a later one changes. */
#if GAPYNDURA_VERSION != 8
#error "this program is written for version 8 of gapyndura.h"
#endif

/* The most words that a call may read. Without a budget a call that draws could read on for ever. */
#define BUDGET 1000

/* Ends the program if a call that must be carried out was declined. */
static void must(const char *call, uint32_t number)
{
    if (number != GAPYNDURA_DONE) {
        fprintf(stderr, "%s is refused with %" PRIu32 ": %s\n", call, number, gapyndura_refusal_text(number));
        exit(1);
    }
}

static void print_list(const char *title, const uint32_t *list, size_t len, uint64_t words)
{
    printf("%s:", title);
    for (size_t i = 0; i < len; i++)
        printf(" %" PRIu32, list[i]);
    printf(" (words read: %" PRIu64 ")\n", words);
}

/* Five of a hundred closings, and the order in which they are measured. Five are drawn by Floyd's method, which needs no scratch. No
 * pointer may be null, so one entry is lent with a length of 0. */
static void sample_and_shuffle(uint64_t state[4])
{
    uint32_t closings[5], scratch[1];
    uint64_t out[2];
    must("sample", gapyndura_sample(state, 100, 5, BUDGET, closings, 5, scratch, 0, out));
    print_list("closings", closings, out[1], out[0]);
    must("shuffle", gapyndura_shuffle(state, closings, 5, BUDGET, out));
    print_list("in the order", closings, 5, out[0]);
}

/* Twenty of fifty closings by the method in place, which needs fifty entries of scratch. */
static void sample_in_place(uint64_t state[4])
{
    uint32_t closings[20], scratch[50];
    uint64_t out[2];
    must("sample", gapyndura_sample(state, 50, 20, BUDGET, closings, 20, scratch, 50, out));
    print_list("in place", closings, out[1], out[0]);
}

/* From each of three gates as many closings as are wanted of it. One numbering goes through all gates: that of the last begins at 65. */
static void sample_each_gate(uint64_t state[4])
{
    const uint64_t lengths[3] = {40, 25, 10}, amounts[3] = {3, 0, 2};
    uint32_t closings[5], scratch[1];
    uint64_t out[2];
    must("stratified sample", gapyndura_sample_stratified(state, lengths, 3, amounts, 3, BUDGET, closings, 5, scratch, 0, out));
    print_list("of each gate", closings, out[1], out[0]);
}

/* Two of the five staffs at hand, at the end of their slice, and three of them into a buffer. */
static void share_out_staffs(uint64_t state[4])
{
    uint32_t staffs[5] = {11, 12, 13, 14, 15}, kept[3];
    uint64_t out[2];
    must("fill", gapyndura_sample_fill(state, staffs, 5, kept, 3, BUDGET, out));
    print_list("three staffs", kept, out[1], out[0]);
    must("partial shuffle", gapyndura_partial_shuffle(state, staffs, 5, 2, BUDGET, out));
    print_list("two staffs", staffs + out[1], 5 - out[1], out[0]);
}

/* A gate by its weight, before a change of the weights and after it. */
static void pick_gates(uint64_t state[4])
{
    const uint32_t weights[3] = {2, 0, 3}, new_weights[1] = {4};
    const uint64_t places[1] = {1};
    uint32_t sums[2];
    uint64_t table[2], out[2];
    must("new table", gapyndura_weights_new(weights, 3, sums, 2, table));
    must("pick", gapyndura_weights_pick(state, table, sums, 2, BUDGET, out));
    printf("gate %" PRIu64 " of total weight %" PRIu64 " (words read: %" PRIu64 ")\n", out[1], table[1], out[0]);
    must("change", gapyndura_weights_update(table, sums, 2, places, 1, new_weights, 1));
    must("pick", gapyndura_weights_pick(state, table, sums, 2, BUDGET, out));
    printf("gate %" PRIu64 " of total weight %" PRIu64 " (words read: %" PRIu64 ")\n", out[1], table[1], out[0]);
    must("lookup", gapyndura_weights_weight(table, sums, 2, 1, out));
    printf("gate 1 has weight %" PRIu64 "\n", out[1]);
}

/* One of three readers, with hints that say exactly how many remain, and without. */
static void choose_reader(uint64_t state[4])
{
    const uint32_t readers[3] = {7, 8, 9}, exact[4] = {3, 2, 1, 0}, least[4] = {0, 0, 0, 0};
    const uint32_t none[4] = {UINT32_MAX, UINT32_MAX, UINT32_MAX, UINT32_MAX};
    uint64_t out[3];
    must("choose", gapyndura_choose(state, readers, 3, exact, 4, exact, 4, BUDGET, out));
    printf("reader %" PRIu64 " (words read: %" PRIu64 ")\n", out[2], out[0]);
    must("choose stable", gapyndura_choose_stable(state, readers, 3, least, 4, none, 4, BUDGET, out));
    printf("reader %" PRIu64 " (words read: %" PRIu64 ")\n", out[2], out[0]);
}

/* Calls that are declined: the answer is the number of the cause, and nothing has changed. Only if the budget is used up, its words are read. */
static void be_refused(uint64_t state[4])
{
    const uint64_t lengths[2] = {40, 25}, amounts[1] = {3};
    uint32_t closings[200], scratch[1], number;
    uint64_t out[2];
    number = gapyndura_sample(state, 3, 4, BUDGET, closings, 200, scratch, 0, out);
    printf("refused with %" PRIu32 ": %s (words read: %" PRIu64 ")\n", number, gapyndura_refusal_text(number), out[0]);
    number = gapyndura_sample_stratified(state, lengths, 2, amounts, 1, BUDGET, closings, 200, scratch, 0, out);
    printf("refused with %" PRIu32 ": %s (words read: %" PRIu64 ")\n", number, gapyndura_refusal_text(number), out[0]);
    number = gapyndura_sample(state, 1000000, 200, 7, closings, 200, scratch, 0, out);
    if (number == GAPYNDURA_BUDGET_EXHAUSTED)
        printf("refused with %" PRIu32 ": %s (words read: %" PRIu64 ", found: %" PRIu64 ")\n", number, gapyndura_refusal_text(number), out[0],
               out[1]);
}

int main(void)
{
    uint64_t state[4];
    gapyndura_seed_from_u64(1, state);
    sample_and_shuffle(state);
    sample_in_place(state);
    share_out_staffs(state);
    pick_gates(state);
    choose_reader(state);
    sample_each_gate(state);
    be_refused(state);
    return 0;
}
