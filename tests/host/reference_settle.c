// settle, round by round, and why pairs are refused.
#include "reference.h"

enum { MOST_ROWS = 256 };

// The causes of 20 that state row i has.
static unsigned state_causes(const struct ref_table *t, const struct ref_pairs *p, size_t i)
{
    uint32_t row = p->states[i];
    unsigned causes = 0;
    if (row >= t->widths)
        return 1 << STATE_OUTSIDE;
    for (size_t j = 0; j < i; j++)
        if (p->states[j] == row)
            causes |= 1 << STATE_TWICE;
    if (t->lock[row] == 1)
        causes |= 1 << STATE_LOCKED;
    for (const uint32_t *w = t->words, *end = w + t->word_count; w < end; w += RECORD_WORDS)
        if (ref_may_write(w, row))
            causes |= w[0] == STORE ? 1 << STATE_IN_SPAN : 1 << STATE_TARGET;
    return causes;
}

unsigned ref_pair_causes(const struct ref_table *t, const struct ref_pairs *p)
{
    unsigned causes = 0;
    if (p->state_count != p->next_count)
        causes = p->state_count < p->next_count ? 1 << FEWER_STATES : 1 << FEWER_NEXTS;
    for (size_t i = 0; i < p->state_count; i++)
        causes |= state_causes(t, p, i);
    for (size_t i = 0; i < p->next_count; i++) {
        uint32_t next = p->nexts[i];
        if (next >= t->widths)
            causes |= 1 << NEXT_OUTSIDE;
        else if (i < p->state_count && p->states[i] < t->widths && t->width[p->states[i]] != t->width[next])
            causes |= 1 << UNEQUAL_WIDTHS;
    }
    return causes;
}

static void put_rows(struct ref_table *t, const struct ref_vector *v)
{
    for (size_t i = 0; i < t->widths; i++) {
        t->mask[i] = v[i].mask;
        t->value[i] = v[i].value;
    }
}

// Widens each state row of the start by its next row, as the run left it in t. Whether one changed.
static int widen(const struct ref_table *t, const struct ref_pairs *p, struct ref_vector *start)
{
    int changed = 0;
    for (size_t i = 0; i < p->state_count; i++) {
        struct ref_vector *state = &start[p->states[i]], next = {t->mask[p->nexts[i]], t->value[p->nexts[i]]};
        struct ref_vector wider = ref_join(t->width[p->states[i]], *state, next);
        changed |= wider.mask != state->mask || wider.value != state->value;
        *state = wider;
    }
    return changed;
}

struct ref_answer ref_settle(struct ref_table *t, const struct ref_pairs *p, unsigned limit, int *exact)
{
    struct ref_vector start[MOST_ROWS]; // its state rows are those of the round at hand
    size_t records = t->word_count / RECORD_WORDS, rounds = 0;
    struct ref_answer a = ref_check(t, 1, 0, records);
    *exact = 1;
    if (a.refusal != 0)
        return a;
    if (ref_pair_causes(t, p) != 0)
        return ref_refusal(20, 0);
    for (size_t i = 0; i < t->widths; i++)
        start[i] = (struct ref_vector){t->mask[i], t->value[i]};
    do {
        put_rows(t, start);
        ref_run(t, 0, records, limit, exact);
        rounds++;
    } while (*exact && widen(t, p, start));
    return ref_result(rounds, 0);
}
