// Random plain clocks, which what settle leaves must cover.
#include "settle_calls.h"
#include <stdio.h>
#include <stdlib.h>

enum { MOST_ROWS = 256, WALKS = 2, CLOCKS = 8, COUNTS = 4 };

static unsigned counts[COUNTS];

// A walk at hand: which rows are state rows, and which of these had a number that their start does not cover; the numbers that the last
// clock brought, and those of all rows.
static struct {
    int is_state[MOST_ROWS], has_left[MOST_ROWS];
    uint64_t brought[MOST_ROWS], number[MOST_ROWS];
} walk;

static uint64_t any_covered(const struct draft *d, size_t row)
{
    uint64_t mask = d->mask[row];
    return d->value[row] | (percent(10) ? mask : percent(10) ? 0 : draw() & mask);
}

static void start_walk(const struct clocked *q)
{
    for (size_t i = 0; i < q->d.widths; i++) {
        walk.is_state[i] = walk.has_left[i] = 0;
        walk.number[i] = walk.brought[i] = any_covered(&q->d, i);
    }
    for (size_t i = 0; i < q->state_count; i++)
        walk.is_state[q->states[i]] = 1;
}

// Other numbers for the rows that are no state rows.
static void bring(const struct clocked *q)
{
    int others = 0;
    for (size_t i = 0; i < q->d.widths; i++)
        if (!walk.is_state[i]) {
            walk.number[i] = any_covered(&q->d, i);
            others |= walk.number[i] != walk.brought[i];
            walk.brought[i] = walk.number[i];
        }
    counts[1] += others != 0;
}

// Ends the program where what is left does not cover a row, or does not cover a state row alone.
static void expect_covered(const struct clocked *q, const struct draft *left, int clock, int states_alone)
{
    for (size_t i = 0; i < q->d.widths; i++) {
        struct ref_vector v = {left->mask[i], left->value[i]};
        if ((states_alone && !walk.is_state[i]) || ref_covers(v, walk.number[i]))
            continue;
        printf("call %zu, settle: the number %llu of row %zu, %s plain clock %d, is not covered by mask %08x and value %08x\n", call_number,
               (unsigned long long)walk.number[i], i, states_alone ? "a state row after" : "after the run of", clock, v.mask, v.value);
        exit(1);
    }
}

// The next rows' numbers go to the state rows, all together. Counts those that the start does not cover, and that are the first of their row.
static void move_states(const struct clocked *q, int clock)
{
    uint64_t next[MAX_PAIRS];
    for (size_t i = 0; i < q->state_count; i++)
        next[i] = walk.number[q->nexts[i]];
    for (size_t i = 0; i < q->state_count; i++) {
        uint32_t row = q->states[i];
        struct ref_vector start = {q->d.mask[row], q->d.value[row]};
        walk.number[row] = next[i];
        if (!ref_covers(start, next[i]) && !walk.has_left[row]) {
            walk.has_left[row] = 1;
            counts[clock == 1 ? 2 : 3]++;
        }
    }
}

void walk_clocks(struct clocked *q, const struct draft *left)
{
    struct ref_table t = slices(&q->d);
    for (int n = 0; n < WALKS; n++) {
        start_walk(q);
        for (int clock = 1; clock <= CLOCKS; clock++) {
            if (clock > 1)
                bring(q);
            ref_plain_run(&t, walk.number);
            expect_covered(q, left, clock, 0);
            move_states(q, clock);
            expect_covered(q, left, clock, 1);
            counts[0]++;
        }
    }
}

int report_clocks(void)
{
    return report_counts("plain clocks; with other inputs than the clock before; state rows that leave their start by the first clock, by a "
                         "later one", NULL, counts, COUNTS);
}
