// Random pairs of state rows and next rows, and faults of them.
#include "draw.h"

struct ref_pairs pairs_of(struct clocked *q)
{
    return (struct ref_pairs){q->states, q->nexts, q->state_count, q->next_count};
}

void add_pair(struct clocked *q, uint32_t state, uint32_t next)
{
    size_t last = q->state_count++, i = below(q->state_count);
    q->next_count = q->state_count;
    q->states[last] = q->states[i];
    q->nexts[last] = q->nexts[i];
    q->states[i] = state;
    q->nexts[i] = next;
}

// How many rows there are to choose from, also where the table is damaged.
static uint32_t rows_of(const struct draft *d)
{
    return d->widths < 1 ? 1 : d->widths > 256 ? 256 : (uint32_t)d->widths;
}

// A row with the width of that one, or with another where same is 0; the row itself where none is found.
static uint32_t fitting_row(const struct draft *d, uint32_t row, int same)
{
    uint32_t rows = rows_of(d);
    for (int tries = 0; tries < 20 && row < rows; tries++) {
        uint32_t other = (uint32_t)below(rows);
        if ((d->width[other] == d->width[row]) == same && (tries >= 10 || percent(30) || is_written(d, other)))
            return other;
    }
    return row;
}

void draw_pairs(struct clocked *q)
{
    unsigned share = percent(15) ? 0 : percent(50) ? 60 : 100;
    for (uint32_t i = 0; i < q->d.widths; i++)
        if (q->d.lock[i] == 0 && percent(share) && !is_written(&q->d, i))
            add_pair(q, i, fitting_row(&q->d, i, 1));
}

// A record that is a store, or is none: its words; NULL where there is none such.
static uint32_t *any_record(struct draft *d, int store)
{
    size_t records = d->word_count / RECORD_WORDS, start = below(records + 1);
    for (size_t n = 0; n < records; n++) {
        uint32_t *w = d->words + RECORD_WORDS * ((start + n) % records);
        if ((w[0] == STORE) == store)
            return w;
    }
    return NULL;
}

// One pair more, whose state row a store's span has; half the time the address is known, and is that of another cell, or of none.
static void add_cell_pair(struct clocked *q)
{
    struct draft *d = &q->d;
    uint32_t *w = any_record(d, 1), rows = rows_of(d);
    if (w == NULL || w[2] >= rows || w[3] >= rows || w[4] < 1 || w[4] > rows)
        return;
    uint32_t cell = (uint32_t)below(w[4]), width = d->width[w[2]];
    add_pair(q, w[5] + cell, fitting_row(d, w[3], 1));
    if (percent(50) || width < 1 || width > 32)
        return;
    d->mask[w[2]] = 0;
    d->value[w[2]] = (cell ^ (1 + (uint32_t)below(3))) & UINT32_MAX >> (32 - width);
}

// Pairs to more than 256, whose state rows are there already, or are one after another.
static void lengthen(struct clocked *q)
{
    size_t count = 257 + below(40), old = q->state_count;
    int again = percent(50) && old > 0;
    for (size_t i = old; i < count; i++) {
        q->states[i] = again ? q->states[i % old] : (uint32_t)i;
        q->nexts[i] = again ? q->nexts[i % old] : (uint32_t)below(rows_of(&q->d));
    }
    q->state_count = q->next_count = count;
}

// A list shorter than the other: by one or more, or to none; of two empty lists the other gets one row.
static void shorten(size_t *count, size_t *other)
{
    if (*count == 0)
        *other = 1;
    else
        *count -= percent(60) ? 1 : 1 + below(*count);
}

void damage_pairs(struct clocked *q, unsigned cause)
{
    struct draft *d = &q->d;
    uint32_t rows = rows_of(d), *target = any_record(d, 0);
    if (q->state_count == 0 || q->next_count == 0) {
        q->states[0] = (uint32_t)below(rows);
        q->nexts[0] = fitting_row(d, q->states[0], 1);
        q->state_count = q->next_count = cause > FEWER_NEXTS && cause < STATE_TARGET;
    }
    size_t i = below(q->state_count + (q->state_count == 0));
    switch (cause) {
    case FEWER_STATES: shorten(&q->state_count, &q->next_count); return;
    case FEWER_NEXTS: shorten(&q->next_count, &q->state_count); return;
    case STATE_OUTSIDE: q->states[i] = far_off(rows); return;
    case NEXT_OUTSIDE: q->nexts[i] = far_off(rows); return;
    case UNEQUAL_WIDTHS: q->nexts[i] = fitting_row(d, q->states[i], 0); return;
    case STATE_TWICE: add_pair(q, q->states[i], percent(50) ? q->nexts[i] : fitting_row(d, q->states[i], 1)); return;
    case STATE_LOCKED:
        if (q->states[i] < rows)
            d->lock[q->states[i]] = 1;
        return;
    case STATE_TARGET:
        if (target != NULL)
            add_pair(q, target[1], fitting_row(d, target[1], 1));
        return;
    case STATE_IN_SPAN: add_cell_pair(q); return;
    default: lengthen(q); return;
    }
}
