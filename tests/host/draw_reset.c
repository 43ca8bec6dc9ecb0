// Random questions for reset_bits.
#include "draw.h"

uint32_t known_bits(const struct draft *d, size_t row)
{
    return UINT32_MAX >> (32 - d->width[row]) & ~d->mask[row];
}

void set_unknown(struct draft *d, size_t row, uint32_t bit)
{
    d->mask[row] |= (uint32_t)1 << bit;
    d->value[row] &= ~((uint32_t)1 << bit);
}

size_t draw_written(const uint32_t *record)
{
    return record[0] == STORE ? record[5] + below(record[4]) : record[1];
}

// A bit of a row, which a record writes where there is one and written is 1.
static void draw_bit(struct reset *q, int written)
{
    size_t records = q->d.word_count / RECORD_WORDS;
    q->row = written && records > 0 ? draw_written(q->d.words + RECORD_WORDS * below(records)) : below(q->d.widths);
    q->bit = (uint32_t)below(q->d.width[q->row]);
}

// A row or a bit number that is too great, of some a careless cast or shift would make one that is right; or a bit that is X at the start.
static void damage_bit(struct reset *q)
{
    uint32_t rows = q->d.widths < 1 || q->d.widths > 256 ? 1 : (uint32_t)q->d.widths;
    uint32_t width = q->row < rows ? q->d.width[q->row] : 1, limit = width < 1 || width > 32 ? 32 : width;
    size_t far_rows[] = {far_off(rows), ((size_t)1 << 32) + below(rows), SIZE_MAX};
    switch (below(3)) {
    case 0: q->row = far_rows[below(3)]; return;
    case 1: q->bit = percent(50) ? 32 + (uint32_t)below(limit) : far_off(limit); return;
    default:
        if (q->row < rows && q->bit < limit)
            set_unknown(&q->d, q->row, q->bit);
    }
}

void draw_reset(struct reset *q)
{
    int large = below(1000) == 0, narrow = large || percent(80);
    size_t rows = large ? 256 : percent(10) ? 1 : 2 + below(narrow ? 6 : 3);
    size_t records = large ? 1024 : below(narrow ? 9 : 4);
    draw_known_table(&q->d, rows, records, narrow);
    draw_bit(q, percent(70));
    for (size_t faults = large || percent(60) ? 0 : 1 + below(3); faults > 0; faults--)
        if (percent(50))
            damage_bit(q);
        else
            damage_table(&q->d, 1 + (unsigned)below(10));
}

// Whether the last record has two operands, of different rows, or is a load.
static int ends_with_two(const struct draft *d)
{
    const uint32_t *last = d->words + d->word_count - RECORD_WORDS;
    return last[0] == LOAD || (ref_uses(last[0], 'b') && last[2] != last[3]);
}

static size_t open_known_bits(const struct draft *d)
{
    size_t known = 0;
    for (size_t i = 0; i < d->widths; i++)
        for (unsigned k = 0; k < d->width[i]; k++)
            known += d->lock[i] == 0 && ref_bit(known_bits(d, i), k);
    return known;
}

void draw_small_reset(struct reset *q, size_t most)
{
    do {
        size_t rows = 3 + below(5), records = 1 + below(4);
        draw_known_table(&q->d, rows, records, 1);
    } while (open_known_bits(&q->d) > most || !ends_with_two(&q->d));
    q->row = draw_written(q->d.words + q->d.word_count - RECORD_WORDS);
    q->bit = (uint32_t)below(q->d.width[q->row]);
}
