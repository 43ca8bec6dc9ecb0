// Random calls of settle.
#include "settle_calls.h"
#include <stdio.h>
#include <stdlib.h>
#include <string.h>

enum { ROUNDS = 5, BOUNDS = 2, MANY_BITS = 8 };

static unsigned rounds[ROUNDS], bounds[BOUNDS];

// What the reference answers, and the draft with the rows that it leaves; exact as of ref_settle.
static struct ref_answer reference_answer(struct clocked *q, struct draft *left, int *exact)
{
    *left = q->d;
    struct ref_table t = slices(left);
    struct ref_pairs p = pairs_of(q);
    return ref_settle(&t, &p, q->limit, exact);
}

// What the library answers and leaves, compared with these. Where they differ the program ends.
static void judge(struct clocked *q, const struct draft *left, struct ref_answer right)
{
    struct ref_table r, t = lend_table(&q->d, &r);
    struct ref_pairs other, p = pairs_of(q);
    p.states = lend(q->states, 4 * q->state_count, &other.states);
    p.nexts = lend(q->nexts, 4 * q->next_count, &other.nexts);
    memcpy(r.mask, left->mask, 4 * left->masks);
    memcpy(r.value, left->value, 4 * left->values);
    compare(SETTLE, library_settle(&t, &p), right);
}

// Counts the rounds. They must be at most the state bits plus one.
static void count_rounds(const struct clocked *q, size_t n)
{
    size_t bits = 0;
    for (size_t i = 0; i < q->state_count; i++)
        bits += q->d.width[q->states[i]];
    if (n < 1 || n > bits + 1) {
        printf("call %zu, settle: %zu rounds, of %zu state bits\n", call_number, n, bits);
        exit(1);
    }
    rounds[n == 1 ? 0 : n == 2 ? 1 : n < 8 ? 2 : n < 64 ? 3 : 4]++;
    bounds[0] += n == bits + 1 && bits >= MANY_BITS && q->state_count == 1;
    bounds[1] += n == bits + 1 && q->state_count >= MANY_BITS;
}

void call_settle(void)
{
    static struct clocked q;
    static struct draft left;
    struct ref_answer right;
    int exact;
    do { // the choices may not settle a run: draw another
        draw_clocked(&q);
        right = reference_answer(&q, &left, &exact);
    } while (!exact);
    judge(&q, &left, right);
    if (right.refusal != RIFFLERLEEK_DONE) {
        count_refused(&q, right);
        return;
    }
    count_rounds(&q, right.result);
    walk_clocks(&q, &left);
    count_shape(&q);
    if (percent(25))
        count_mistakes(&q, &left, right.result);
}

int report_settles(void)
{
    int missing = report_counts("settle in 1 round, 2, 3 to 7, 8 to 63, 64 or more", NULL, rounds, ROUNDS);
    missing += report_counts("settle in as many rounds as there can be, of one state row of 8 bits or more, of 8 state rows or more", NULL,
                             bounds, BOUNDS);
    missing += report_shapes();
    missing += report_mistakes();
    missing += report_refused_pairs();
    return missing + report_clocks();
}
