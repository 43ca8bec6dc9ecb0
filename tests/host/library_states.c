// The library's calls on state rows and on states.
#include "library.h"

// The call at hand: its table and pairs, or its states, and its answer.
static struct {
    struct ref_table t;
    struct ref_pairs p;
    struct ref_states s;
    rifflerleek_answer answer;
} call;

static void make_settle(void)
{
    const struct ref_table *t = &call.t;
    const struct ref_pairs *p = &call.p;
    call.answer = rifflerleek_settle(t->width, t->widths, t->lock, t->locks, t->mask, t->masks, t->value, t->values, t->words,
                                     t->word_count, p->states, p->state_count, p->nexts, p->next_count);
}

static void make_compare_states(void)
{
    const struct ref_states *s = &call.s;
    call.answer = rifflerleek_compare_states(s->width, s->widths, s->mask[0], s->masks[0], s->value[0], s->values[0], s->mask[1],
                                             s->masks[1], s->value[1], s->values[1]);
}

rifflerleek_answer library_settle(struct ref_table *t, const struct ref_pairs *p)
{
    call.t = *t;
    call.p = *p;
    on_stack(make_settle);
    return call.answer;
}

rifflerleek_answer library_compare_states(const struct ref_states *s)
{
    call.s = *s;
    on_stack(make_compare_states);
    return call.answer;
}
