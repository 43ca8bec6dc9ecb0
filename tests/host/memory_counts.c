// What runs show of loads and stores, counted.
#include "memory_counts.h"
#include <stdio.h>

enum { KNOWN_BELOW, KNOWN_PAST, ALWAYS, SOMETIMES, NEVER, ADDRESS_CELL, ONE_CELL, LONG_SPAN, SHOWN };
enum { BASE, EMPTY_OUTSIDE, SPAN, WRAPPED, NO_CELL, UNUSED, CELL_WIDTH, LOAD_TARGET, FIRST_CELL, OTHER_CELL, CAUSES };

static unsigned shown[2][SHOWN], data_cell, locked_zero, causes[CAUSES];

static int in_span(const uint32_t *w, uint32_t row)
{
    return w[5] <= row && row - w[5] < w[4];
}

// What an address, which the row covers, can be beside n.
static int address_kind(struct ref_vector v, uint32_t n)
{
    if (v.mask == 0)
        return v.value < n ? KNOWN_BELOW : KNOWN_PAST;
    if ((v.value | v.mask) < n)
        return ALWAYS;
    for (uint32_t i = 0; i < n; i++)
        if (ref_covers(v, i))
            return SOMETIMES;
    return NEVER;
}

// Counts a step from the rows of t.
static void count_step(const struct ref_table *t, const uint32_t *w)
{
    unsigned *counts = shown[w[0] == STORE];
    counts[address_kind((struct ref_vector){t->mask[w[2]], t->value[w[2]]}, w[4])]++;
    counts[ADDRESS_CELL] += (unsigned)in_span(w, w[2]);
    counts[ONE_CELL] += w[4] == 1;
    counts[LONG_SPAN] += w[4] >= 8;
    data_cell += w[0] == STORE && in_span(w, w[3]);
    locked_zero += w[0] == STORE && t->lock[0] == 1;
}

// The cause of the refusal of a load or a store.
static int cause_of(const struct draft *d, const uint32_t *w, uint32_t refusal)
{
    switch (refusal) {
    case RIFFLERLEEK_REFUSED_ROW:
        if (w[5] >= d->widths)
            return w[4] == 0 ? EMPTY_OUTSIDE : BASE;
        return w[5] + w[4] < w[4] ? WRAPPED : w[5] + w[4] > d->widths ? SPAN : CAUSES;
    case RIFFLERLEEK_REFUSED_WORD: return w[4] == 0 ? NO_CELL : UNUSED;
    case RIFFLERLEEK_REFUSED_FIT: return CELL_WIDTH;
    default: return w[0] == LOAD ? LOAD_TARGET : d->lock[w[5]] == 1 ? FIRST_CELL : OTHER_CELL;
    }
}

static void count_refused(const struct draft *d, rifflerleek_answer a)
{
    const uint32_t *w = d->words + RECORD_WORDS * a.place;
    if (a.refusal < RIFFLERLEEK_REFUSED_ROW || !ref_uses(w[0], 'n'))
        return;
    int cause = cause_of(d, w, a.refusal);
    if (cause != CAUSES)
        causes[cause]++;
}

void count_memories(const struct draft *d, rifflerleek_answer a)
{
    static struct draft work;
    if (a.refusal != RIFFLERLEEK_DONE) {
        count_refused(d, a);
        return;
    }
    work = *d;
    struct ref_table t = slices(&work);
    for (size_t r = d->first; r < d->last; r++) {
        const uint32_t *w = d->words + RECORD_WORDS * r;
        if (ref_uses(w[0], 'n'))
            count_step(&t, w);
        ref_step(&t, r, LIMIT);
    }
}

int report_memories(void)
{
    static const char *const names[] = {"load", "store"};
    int missing = 0;
    printf("an address known and below n, known and not, unknown and always, sometimes, never below n; that is a cell; 1 cell, 8 or more\n");
    for (int k = 0; k < 2; k++)
        missing += report_counts(names[k], NULL, shown[k], SHOWN);
    missing += report_counts("stores whose data is a cell", NULL, &data_cell, 1);
    missing += report_counts("stores beside a locked row 0", NULL, &locked_zero, 1);
    return missing + report_counts("loads and stores refused for base, base without cells, span, a span that wraps (7), no cell, an unused word (8), a width (9), a load's "
                                   "target, a first cell, another cell (10)", NULL, causes, CAUSES);
}
