// Random tables with marks, and faults of the marks.
#include "draw.h"

enum { COPY = 0, XOR = 4 };

struct ref_marks marks_of(struct pruned *q)
{
    return (struct ref_marks){q->marks, q->mark_count};
}

// So many rows of one width, all open. Most records are loads and stores, of spans that overlap, whose addresses and data may be cells; of
// width 1 some are ite.
static void draw_cells(struct draft *d, size_t rows, size_t records)
{
    unsigned width = 1 + (unsigned)below(3), unknown = percent(50) ? 0 : 40;
    d->widths = d->word_count = d->first = d->last = 0;
    while (d->widths < rows)
        add_row(d, width, draw_vector(width, percent(unknown) ? below(STYLES) : 0));
    for (size_t r = 0; r < records; r++) {
        uint32_t t = (uint32_t)below(rows), a = (uint32_t)below(rows), b = (uint32_t)below(rows), base = (uint32_t)below(rows);
        uint32_t n = 1 + (uint32_t)below(percent(50) && rows - base > 3 ? 3 : rows - base);
        if (percent(45))
            add_record(d, STORE, 0, a, b, n, base);
        else if (percent(60))
            add_record(d, LOAD, t, a, 0, n, base);
        else if (width == 1 && percent(60))
            add_record(d, ITE, t, a, b, 0, base);
        else if (percent(50))
            add_record(d, COPY, t, a, 0, 0, 0);
        else
            add_record(d, XOR, t, a, b, 0, 0);
    }
}

static void draw_sound(struct draft *d)
{
    int large = below(400) == 0, narrow = percent(70);
    size_t rows = large ? 256 : percent(10) ? 1 : 2 + below(percent(80) ? 9 : 30), records = large ? 1024 : below(13);
    if (percent(35))
        draw_cells(d, rows, records);
    else
        draw_known_table(d, rows, records, narrow);
}

// No row, all, one that a record writes, few or many.
static void draw_marks(struct pruned *q)
{
    static const unsigned shares[] = {0, 0, 0, 0, 15, 15, 40, 80, 95, 100};
    size_t records = q->d.word_count / RECORD_WORDS, style = below(10);
    q->mark_count = q->d.widths;
    for (size_t i = 0; i < q->mark_count; i++)
        q->marks[i] = (uint8_t)percent(shares[style]);
    if (style > 0 && shares[style] == 0 && records > 0)
        q->marks[draw_written(q->d.words + RECORD_WORDS * (percent(50) ? records - 1 : below(records)))] = 1;
}

// Marks to that number, which are 0 or 1.
static void lengthen(struct pruned *q, size_t count)
{
    for (; q->mark_count < count; q->mark_count++)
        q->marks[q->mark_count] = (uint8_t)below(2);
}

// One fault, after a cause of ref_mark_causes. More marks by 256 a careless cast would take for as many as the rows.
static void damage_marks(struct pruned *q, unsigned cause)
{
    static const uint8_t over[] = {2, 3, 128, 254, 255};
    size_t n = q->mark_count;
    switch (cause) {
    case FEWER_MARKS: q->mark_count -= n == 0 || percent(20) ? n : percent(60) ? 1 : 1 + below(n); return;
    case MORE_MARKS: lengthen(q, n > 300 ? n : n + (percent(40) ? 1 : percent(50) ? 256 : 1 + below(20))); return;
    default:
        if (n > 0)
            q->marks[percent(30) ? 0 : percent(40) ? n - 1 : below(n)] = over[below(5)];
    }
}

void draw_pruned(struct pruned *q)
{
    draw_sound(&q->d);
    draw_marks(q);
    for (size_t faults = percent(65) ? 0 : 1 + below(3); faults > 0; faults--)
        if (percent(50))
            damage_marks(q, (unsigned)below(MARK_CAUSES));
        else // most faults after 9 still fit, so there are more of them
            damage_table(&q->d, percent(20) ? 9 : 1 + (unsigned)below(10));
}
