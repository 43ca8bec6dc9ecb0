// What calls of settle show of tables and pairs, counted.
#include "settle_calls.h"

enum { SHAPES = 11, OF_TABLE = 10, DETAILS = 9 };

static unsigned shapes[SHAPES], alone[PAIR_CAUSES], first_pair[PAIR_CAUSES], last_pair[PAIR_CAUSES], details[DETAILS], table_faults[OF_TABLE];

// Whether a row is in a list.
static int is_among(const uint32_t *rows, size_t count, uint32_t row)
{
    for (size_t i = 0; i < count; i++)
        if (rows[i] == row)
            return 1;
    return 0;
}

void count_shape(const struct clocked *q)
{
    const struct draft *d = &q->d;
    int other_state = 0, own = 0, shared = 0, locked = 0;
    for (size_t i = 0; i < q->state_count; i++) {
        uint32_t next = q->nexts[i];
        own |= next == q->states[i];
        other_state |= next != q->states[i] && is_among(q->states, q->state_count, next);
        shared |= is_among(q->nexts, i, next);
        locked |= d->lock[next] == 1;
    }
    shapes[0] += q->state_count == 0;
    shapes[1] += q->state_count > 0 && d->word_count == 0;
    shapes[2] += other_state != 0;
    shapes[3] += own != 0;
    shapes[4] += shared != 0;
    shapes[5] += locked != 0;
    shapes[6] += (unsigned)has_kind(d, LOAD);
    shapes[7] += (unsigned)has_kind(d, STORE);
    shapes[8] += has_kind(d, STORE) && is_among(q->states, q->state_count, 0);
    shapes[9] += q->state_count == 256;
    shapes[10] += q->state_count > 0 && d->widths == 256 && d->word_count == RECORD_WORDS * 1024;
}

// The store that has a row in its span, or NULL.
static const uint32_t *store_of(const struct draft *d, uint32_t row)
{
    for (const uint32_t *w = d->words, *end = w + d->word_count; w < end; w += RECORD_WORDS)
        if (w[0] == STORE && ref_may_write(w, row))
            return w;
    return NULL;
}

// Counts what state rows in a span show, where this is the one cause: an address that no record writes is known as another number.
static void count_span(const struct clocked *q)
{
    const struct draft *d = &q->d;
    for (size_t i = 0; i < q->state_count; i++) {
        uint32_t row = q->states[i];
        const uint32_t *w = store_of(d, row);
        if (w == NULL)
            continue;
        details[0] += d->mask[w[2]] == 0 && d->value[w[2]] != row - w[5] && !is_written(d, w[2]);
        details[1] += w[4] > 1 && row == w[5];
        details[2] += w[4] > 1 && row == w[5] + w[4] - 1;
    }
}

// Counts what rows outside the table show, where they are the one cause: a careless cast to a byte or a half word would make some right.
static void count_outside(const struct clocked *q, const uint32_t *rows, unsigned *counts)
{
    int just = 0, cast = 0;
    for (size_t i = 0; i < q->state_count; i++) {
        just |= rows[i] == q->d.widths;
        cast |= rows[i] > q->d.widths && (rows[i] & 0xffff) < q->d.widths;
    }
    counts[0] += just != 0;
    counts[1] += cast != 0;
}

static void count_causes(struct clocked *q)
{
    struct ref_table t = slices(&q->d);
    struct ref_pairs p = pairs_of(q);
    unsigned causes = ref_pair_causes(&t, &p);
    for (unsigned c = 0; c < PAIR_CAUSES; c++) {
        if (causes != 1u << c)
            continue;
        alone[c]++;
        if (c <= FEWER_NEXTS || p.state_count < 2)
            continue;
        struct ref_pairs later = {p.states + 1, p.nexts + 1, p.state_count - 1, p.next_count - 1};
        struct ref_pairs earlier = {p.states, p.nexts, p.state_count - 1, p.next_count - 1};
        first_pair[c] += ref_pair_causes(&t, &later) == 0;
        last_pair[c] += ref_pair_causes(&t, &earlier) == 0;
    }
    if (causes == 1 << STATE_IN_SPAN)
        count_span(q);
    if (causes == 1 << STATE_OUTSIDE)
        count_outside(q, q->states, details + 3);
    if (causes == 1 << NEXT_OUTSIDE)
        count_outside(q, q->nexts, details + 5);
    details[7] += causes == 1 << STATE_TWICE && p.state_count > 256;
    details[8] += causes == 1 << FEWER_NEXTS && p.next_count == 0;
}

void count_refused(struct clocked *q, struct ref_answer refused)
{
    if (refused.refusal == RIFFLERLEEK_REFUSED_PAIRS) {
        count_causes(q);
        return;
    }
    mend_table(&q->d, refused);
    struct ref_table t = slices(&q->d);
    struct ref_pairs p = pairs_of(q);
    table_faults[refused.refusal - 1] += table_refusal(&q->d) == 0 && ref_pair_causes(&t, &p) != 0;
}

int report_shapes(void)
{
    return report_counts("settle without pairs, without records, a next row another state row, its own, that of two, locked; with loads, with "
                         "stores, with state row 0 beside a store; of 256 pairs, of 256 rows and 1,024 records", NULL, shapes, SHAPES);
}

int report_refused_pairs(void)
{
    int missing = report_counts("settle refused as 20 for one cause alone: fewer state rows, fewer next rows, a state row outside, a next row "
                                "outside, unequal widths, a state row twice, locked, a target, in a span", NULL, alone, PAIR_CAUSES);
    missing += report_counts("the same from the third cause on, of the first pair of several", NULL, first_pair + 2, PAIR_CAUSES - 2);
    missing += report_counts("the same of the last pair", NULL, last_pair + 2, PAIR_CAUSES - 2);
    missing += report_counts("the same, in a span whose address is known elsewhere, its first cell, its last; a state row just outside, right if "
                             "cast; a next row so; more than 256 pairs; no next row", NULL, details, DETAILS);
    return missing + report_counts("settle with two faults, 1 to 10 and 20", NULL, table_faults, OF_TABLE);
}
