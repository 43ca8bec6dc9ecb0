// Whether rounds with a mistake answer or leave something else.
#include "settle_calls.h"
#include <string.h>

enum { ONE_BY_ONE, NOT_PUT_BACK, MISTAKES };

static unsigned counts[MISTAKES];

static struct ref_vector row_of(const struct ref_table *t, size_t i)
{
    return (struct ref_vector){t->mask[i], t->value[i]};
}

// Puts back the rows that are no state rows.
static void put_back(const struct clocked *q, struct ref_table *t)
{
    struct ref_vector state[MAX_PAIRS];
    for (size_t i = 0; i < q->state_count; i++)
        state[i] = row_of(t, q->states[i]);
    memcpy(t->mask, q->d.mask, 4 * t->masks);
    memcpy(t->value, q->d.value, 4 * t->values);
    for (size_t i = 0; i < q->state_count; i++) {
        t->mask[q->states[i]] = state[i].mask;
        t->value[q->states[i]] = state[i].value;
    }
}

// Widens the state rows in place, all together or one by one. Whether one changed.
static int widen(const struct clocked *q, struct ref_table *t, int one_by_one)
{
    struct ref_vector next[MAX_PAIRS];
    int changed = 0;
    for (size_t i = 0; i < q->state_count; i++)
        next[i] = row_of(t, q->nexts[i]);
    for (size_t i = 0; i < q->state_count; i++) {
        size_t row = q->states[i];
        struct ref_vector old = row_of(t, row), by = one_by_one ? row_of(t, q->nexts[i]) : next[i], wider = ref_join(t->width[row], old, by);
        changed |= wider.mask != old.mask || wider.value != old.value;
        t->mask[row] = wider.mask;
        t->value[row] = wider.value;
    }
    return changed;
}

// The rounds with a mistake, which change the rows of t: how many; 0 where the reference does not settle a run.
static size_t mistaken(const struct clocked *q, struct ref_table *t, int mistake)
{
    size_t rounds = 0;
    int exact, changed;
    do {
        if (mistake != NOT_PUT_BACK)
            put_back(q, t);
        ref_run(t, 0, t->word_count / RECORD_WORDS, q->limit, &exact);
        changed = widen(q, t, mistake == ONE_BY_ONE);
        rounds++;
    } while (exact && changed);
    return exact ? rounds : 0;
}

void count_mistakes(struct clocked *q, const struct draft *left, size_t rounds)
{
    static struct draft work;
    for (int mistake = 0; mistake < MISTAKES; mistake++) {
        work = q->d;
        struct ref_table t = slices(&work);
        size_t n = mistaken(q, &t, mistake);
        int other = memcmp(t.mask, left->mask, 4 * t.masks) != 0 || memcmp(t.value, left->value, 4 * t.values) != 0;
        counts[mistake] += n != 0 && (n != rounds || other);
    }
}

int report_mistakes(void)
{
    return report_counts("settle where it would show that state rows are widened one by one, that other rows are not put back", NULL, counts,
                         MISTAKES);
}
