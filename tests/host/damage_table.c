// One fault at a random place of a table, after the conditions of the refusals 1 to 10.
#include "draw.h"

static size_t near_length(size_t n)
{
    return percent(20) ? 0 : percent(50) ? n + 1 + below(3) : n - (n == 0 ? 0 : 1 + below(n < 3 ? n : 3));
}

// The same number of rows in all slices, the new ones like old ones.
static void set_rows(struct draft *d, size_t n)
{
    for (size_t i = d->widths; i < n; i++) {
        size_t from = d->widths == 0 ? 0 : below(d->widths);
        d->width[i] = d->width[from];
        d->lock[i] = d->lock[from];
        d->mask[i] = d->mask[from];
        d->value[i] = d->value[from];
    }
    d->widths = d->locks = d->masks = d->values = n;
}

static void damage_rows(struct draft *d)
{
    set_rows(d, percent(50) ? 0 : 257 + below(10));
    if (percent(30))
        d->locks = near_length(d->locks);
}

static void damage_lengths(struct draft *d)
{
    size_t *lengths[] = {&d->widths, &d->locks, &d->masks, &d->values};
    size_t *length = lengths[below(4)];
    *length = near_length(*length);
}

static void damage_stretch(struct draft *d)
{
    size_t records = d->word_count / RECORD_WORDS, many = RECORD_WORDS * (1025 + below(3));
    switch (below(6)) {
    case 0: d->word_count += 1 + below(5); return;
    case 1: d->word_count -= d->word_count < 5 ? d->word_count : 1 + below(5); return;
    case 2:
        for (; d->word_count < many; d->word_count++)
            d->words[d->word_count] = d->word_count < RECORD_WORDS ? 0 : d->words[d->word_count - RECORD_WORDS];
        return;
    case 3: d->first = d->last + 1 + below(3); return;
    case 4: d->last = percent(30) ? SIZE_MAX : records + 1 + below(5); return;
    default: d->first = percent(50) ? SIZE_MAX : records + 1; d->last = d->first - below(2); return;
    }
}

static void damage_row(struct draft *d)
{
    static const uint8_t widths[] = {0, 33, 64, 255}, locks[] = {2, 3, 128, 255};
    size_t i = below(d->widths);
    if (percent(50))
        d->width[i] = widths[below(4)];
    else
        d->lock[i] = locks[below(4)];
}

static void damage_row_vector(struct draft *d)
{
    size_t i = below(d->widths);
    struct ref_vector v = {d->mask[i], d->value[i]};
    damage_vector(&v, d->width[i]);
    d->mask[i] = v.mask;
    d->value[i] = v.value;
}

// A word of a record, by its place, that is a row of the kind's, or is not where row is 0.
static size_t any_word(uint32_t kind, int row)
{
    size_t i = 1 + below(RECORD_WORDS - 1);
    while (ref_uses(kind, ref_row_letter(i)) != row)
        i = 1 + below(RECORD_WORDS - 1);
    return i;
}

// A number of cells that takes a span from that base past the rows: by few, by one over the limit, or so that base and number wrap.
static uint32_t cells_past(uint32_t base, uint32_t rows)
{
    uint32_t past[] = {rows - base + 1 + (uint32_t)below(3), 257, far_off(rows), 0u - base + (uint32_t)below(3)};
    return past[below(4)];
}

// Row word i outside the rows; where it is a base, at times without cells, which comes after it.
static void move_outside(uint32_t *w, size_t i, uint32_t rows)
{
    w[i] = far_off(rows);
    if (i == 5 && w[0] != ITE && percent(30))
        w[4] = 0;
}

// A span that may have cells of other widths, or locked ones: a cell more, or another base.
static void move_span(uint32_t *w, uint32_t rows)
{
    if (percent(50))
        w[4]++;
    else
        w[5] = (uint32_t)below(rows);
}

// A locked row among those that the record writes.
static void lock_written(struct draft *d, const uint32_t *w)
{
    size_t row = w[0] == STORE ? w[5] + (w[4] == 0 ? 0 : below(w[4])) : w[1];
    if (row < d->widths)
        d->lock[row] = 1;
}

static void damage_record(struct draft *d, unsigned number)
{
    uint32_t *w = d->words + RECORD_WORDS * below(d->word_count / RECORD_WORDS);
    uint32_t rows = (uint32_t)d->widths, kind = w[0] < KINDS ? w[0] : 0;
    int span = ref_uses(kind, 'n') && percent(50);
    size_t i = any_word(kind, number != 8);
    if (number == 6)
        w[0] = far_off(KINDS);
    else if (number == 7 && span)
        w[4] = cells_past(w[5], rows);
    else if (number == 7)
        move_outside(w, i, rows);
    else if (number == 8 && span)
        w[4] = 0;
    else if (number == 8)
        w[i] = percent(50) ? far_off(32) : 1 + (uint32_t)below(31);
    else if (number == 9 && span)
        move_span(w, rows);
    else if (number == 9)
        w[percent(20) ? 0 : i] = (uint32_t)below(rows);
    else
        lock_written(d, w);
}

void damage_table(struct draft *d, unsigned number)
{
    if (number == 1)
        damage_rows(d);
    else if (number == 2)
        damage_lengths(d);
    else if (number == 3)
        damage_stretch(d);
    else if (d->widths > 0 && number == 4)
        damage_row(d);
    else if (d->widths > 0 && number == 5)
        damage_row_vector(d);
    else if (d->widths > 0 && d->word_count >= RECORD_WORDS && number >= 6)
        damage_record(d, number);
}
