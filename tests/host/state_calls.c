// Random calls of compare_states.
#include "state_calls.h"

enum { REASONS = 3, PLACES = 3, SLICES = 5, FAULTS = 8, SAME_ROWS = 3 };

// Two faults at once, by their refusals: the first is given.
static const uint32_t two_faults[FAULTS][2] = {{1, 2}, {1, 4}, {1, 5}, {2, 4}, {2, 5}, {4, 5}, {5, 4}, {5, 5}};

static unsigned orders[ORDERS], reasons[REASONS], places[2][PLACES], large, shorter[SLICES], longer[SLICES], of_state[2], faults[FAULTS],
    same_rows[SAME_ROWS];

static struct ref_vector row_of(const struct state_draft *s, int state, size_t i)
{
    return (struct ref_vector){s->mask[state][i], s->value[state][i]};
}

struct ref_answer judge_states(struct state_draft *s)
{
    struct ref_states r = states_of(s), l = r;
    l.width = lend(s->width, s->widths, &r.width);
    for (int state = 0; state < 2; state++) {
        l.mask[state] = lend(s->mask[state], 4 * s->masks[state], &r.mask[state]);
        l.value[state] = lend(s->value[state], 4 * s->values[state], &r.value[state]);
    }
    struct ref_answer right = ref_compare_states(&r);
    compare(COMPARE_STATES, library_compare_states(&l), right);
    return right;
}

// Counts why there is no order: known bits differ, rows lie inside and others around, or bits of one row do.
static void count_reason(const struct state_draft *s)
{
    int differ = 0, crossed = 0;
    for (size_t i = 0; i < s->widths; i++) {
        struct ref_vector v = row_of(s, 0, i), w = row_of(s, 1, i);
        differ |= ((v.value ^ w.value) & ~(v.mask | w.mask)) != 0;
        crossed |= !ref_inside(s->width[i], v, w) && !ref_inside(s->width[i], w, v);
    }
    reasons[differ ? 0 : crossed ? 2 : 1]++;
}

// Counts states of which one lies inside the other and that differ in one row alone: the first, the last or another.
static void count_place(const struct state_draft *s, unsigned *counts)
{
    size_t differing = 0, at = 0;
    for (size_t i = 0; i < s->widths; i++)
        if (s->mask[0][i] != s->mask[1][i] || s->value[0][i] != s->value[1][i]) {
            differing++;
            at = i;
        }
    if (differing == 1 && s->widths > 1)
        counts[at == 0 ? 0 : at == s->widths - 1 ? 1 : 2]++;
}

// Counts the one slice that is shorter or longer than the four others, which are of one length.
static void count_lengths(const struct state_draft *s)
{
    size_t length[SLICES] = {s->widths, s->masks[0], s->values[0], s->masks[1], s->values[1]};
    for (int i = 0; i < SLICES; i++) {
        int same = 1, next = (i + 1) % SLICES;
        for (int j = 0; j < SLICES; j++)
            same &= j == i || length[j] == length[next];
        shorter[i] += same && length[i] < length[next];
        longer[i] += same && length[i] > length[next];
    }
}

// The state whose row is refused as 5.
static int state_refused(const struct state_draft *s, size_t i)
{
    return ref_well_formed(s->width[i], row_of(s, 0, i));
}

// So many rows, and as many in each other slice that has the same length as the width slice, or in all.
static void set_lengths(struct state_draft *s, size_t rows, int all)
{
    size_t *lengths[] = {&s->masks[0], &s->values[0], &s->masks[1], &s->values[1]};
    for (int i = 0; i < SLICES - 1; i++)
        if (all || *lengths[i] == s->widths)
            *lengths[i] = rows;
    s->widths = rows;
}

// Mends what was refused.
static void mend(struct state_draft *s, struct ref_answer refused)
{
    size_t i = refused.place;
    int state;
    switch (refused.refusal) {
    case RIFFLERLEEK_REFUSED_ROWS: set_lengths(s, s->widths == 0 ? 1 : 256, 0); return;
    case RIFFLERLEEK_REFUSED_LENGTHS: set_lengths(s, s->widths, 1); return;
    case RIFFLERLEEK_REFUSED_WIDTH: s->width[i] = RIFFLERLEEK_WIDTH_LIMIT; return;
    default:
        state = state_refused(s, i);
        s->mask[state][i] = s->value[state][i] = 0;
    }
}

// Counts two faults at once: what was refused, and what is where that is mended; and those that show the order of rows and states.
static void count_two(struct state_draft *s, struct ref_answer refused)
{
    int second = refused.refusal == RIFFLERLEEK_REFUSED_VECTOR && state_refused(s, refused.place);
    mend(s, refused);
    struct ref_states r = states_of(s);
    struct ref_answer left = ref_compare_states(&r);
    count_faults(two_faults, FAULTS, faults, refused.refusal, left.refusal);
    if (left.refusal != RIFFLERLEEK_REFUSED_VECTOR)
        return;
    int left_second = state_refused(s, left.place);
    same_rows[0] += refused.refusal == RIFFLERLEEK_REFUSED_WIDTH && left.place == refused.place;
    same_rows[1] += second && !left_second && left.place > refused.place;
    same_rows[2] += refused.refusal == RIFFLERLEEK_REFUSED_VECTOR && left.place == refused.place;
}

void call_compare_states(void)
{
    static struct state_draft s;
    draw_states(&s);
    struct ref_answer a = judge_states(&s);
    if (a.refusal == RIFFLERLEEK_DONE) {
        orders[a.result]++;
        large += s.widths == 256;
        if (a.result == RIFFLERLEEK_ORDER_NONE)
            count_reason(&s);
        else if (a.result != RIFFLERLEEK_ORDER_EQUAL)
            count_place(&s, places[a.result == RIFFLERLEEK_ORDER_AROUND]);
        return;
    }
    if (a.refusal == RIFFLERLEEK_REFUSED_LENGTHS)
        count_lengths(&s);
    if (a.refusal == RIFFLERLEEK_REFUSED_VECTOR)
        of_state[state_refused(&s, a.place)]++;
    count_two(&s, a);
}

int report_states(void)
{
    int missing = report_counts("compare_states, equal, inside, around, none", NULL, orders, ORDERS);
    missing += report_counts("none of these by known bits, by rows inside and rows around, by bits of one row", NULL, reasons, REASONS);
    missing += report_counts("inside by the first row alone, the last, another", NULL, places[0], PLACES);
    missing += report_counts("around so", NULL, places[1], PLACES);
    missing += report_counts("states of 256 rows", NULL, &large, 1);
    missing += report_counts("compare_states refused as 2, one slice of five shorter", NULL, shorter, SLICES);
    missing += report_counts("one slice of five longer", NULL, longer, SLICES);
    missing += report_counts("compare_states refused as 5, of the first state, of the second", NULL, of_state, 2);
    missing += report_counts("compare_states with two faults, 1 and 2, 1 and 4, 1 and 5, 2 and 4, 2 and 5, 4 and 5, 5 and 4, 5 and 5", NULL, faults,
                             FAULTS);
    missing += report_counts("4 and 5 of one row, 5 of the second state and of a later row of the first, 5 of one row of both", NULL, same_rows,
                             SAME_ROWS);
    return missing + report_state_sweep();
}
