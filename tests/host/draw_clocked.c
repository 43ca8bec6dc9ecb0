// Random tables with pairs of state rows and next rows.
#include "draw.h"

enum { COPY = 0, OR = 3, XOR = 4, SHL = 5, LSHR = 6, ROTL = 8 };

static void clear(struct clocked *q, unsigned limit)
{
    struct draft *d = &q->d;
    d->widths = d->locks = d->masks = d->values = d->word_count = 0;
    q->state_count = q->next_count = 0;
    q->limit = limit;
}

static uint32_t add_any_row(struct draft *d, unsigned width)
{
    return add_row(d, width, draw_vector(width, percent(60) ? 0 : below(STYLES)));
}

// A row whose bits are known: all 0 where zero is 1.
static uint32_t add_known_row(struct draft *d, unsigned width, int zero)
{
    return add_row(d, width, zero ? (struct ref_vector){0, 0} : draw_vector(width, 0));
}

// A row that no record writes, at times locked.
static uint32_t add_input(struct draft *d, unsigned width)
{
    uint32_t i = percent(50) ? add_row(d, width, (struct ref_vector){0, 1}) : add_any_row(d, width);
    d->lock[i] = percent(40);
    return i;
}

// A state row and its next row, which the state row and an input make, by an operation that the reference settles at every width.
static uint32_t add_counter(struct clocked *q, unsigned width, int zero)
{
    static const uint32_t counting[] = {ADD, ADD, ADD, SUB, OR, XOR, SHL, LSHR, ROTL};
    uint32_t kind = counting[below(9)], step = add_input(&q->d, width), next = add_any_row(&q->d, width);
    uint32_t state = add_known_row(&q->d, width, zero);
    int shifts = ref_uses(kind, 'p');
    add_record(&q->d, kind, next, state, shifts ? 0 : step, shifts ? 1 : 0, 0);
    add_pair(q, state, next);
    return state;
}

// A counter, and a chain of rows after it, each the next row of the one that follows.
static void draw_chain(struct clocked *q, unsigned width, size_t length)
{
    int zero = percent(60);
    clear(q, 6);
    uint32_t last = add_counter(q, width, zero);
    for (size_t i = 1; i < length; i++) {
        uint32_t row = add_known_row(&q->d, width, zero);
        add_pair(q, row, last);
        last = row;
    }
}

// Rows that are all state rows, each the next row of the one that follows, and the last that of the first. One starts with other bits.
static void draw_ring(struct clocked *q, unsigned width, size_t length)
{
    clear(q, 6);
    for (size_t i = 0; i < length; i++)
        add_known_row(&q->d, width, 1);
    for (size_t i = 0; i < length; i++)
        add_pair(q, (uint32_t)((i + 1) % length), (uint32_t)i);
    q->d.value[below(length)] = draw_vector(width, 0).value;
}

// The n cells of a memory. Where it holds its state there is a state row for each, from row 0 on, which a record copies to the cell, and whose
// next row the cell is.
static void add_cells(struct clocked *q, uint32_t n, unsigned width, int holds)
{
    for (uint32_t i = 0; holds && i < n; i++)
        add_known_row(&q->d, width, percent(60));
    for (uint32_t i = 0; i < n; i++) {
        uint32_t cell = add_any_row(&q->d, width);
        if (holds) {
            add_record(&q->d, COPY, cell, i, 0, 0, 0);
            add_pair(q, i, cell);
        }
    }
}

// A memory, with a store and a load at a pointer. Pointer and data may count.
static void draw_memory(struct clocked *q)
{
    struct draft *d = &q->d;
    int holds = percent(60);
    uint32_t n = 1 + (uint32_t)below(4), base = holds ? n : 0;
    unsigned width = 1 + (unsigned)below(3), pointing = 1 + (unsigned)below(3);
    clear(q, LIMIT);
    add_cells(q, n, width, holds);
    uint32_t pointer = percent(50) ? add_counter(q, pointing, 1) : add_any_row(d, pointing);
    uint32_t data = percent(50) ? add_counter(q, width, 1) : add_any_row(d, width), loaded = add_any_row(d, width);
    int store_first = percent(50);
    if (store_first)
        add_record(d, STORE, 0, pointer, data, n, base);
    add_record(d, LOAD, loaded, pointer, 0, n, base);
    if (!store_first)
        add_record(d, STORE, 0, pointer, percent(50) ? loaded : data, n, base);
}

static void draw_any(struct clocked *q, size_t rows, size_t records, int narrow)
{
    clear(q, narrow ? LIMIT : LIMIT - 4);
    draw_known_table(&q->d, rows, records, narrow);
    draw_pairs(q);
}

static void draw_large(struct clocked *q)
{
    switch (below(3)) {
    case 0: draw_any(q, 256, 1024, 1); return;
    case 1: draw_chain(q, 1 + (unsigned)below(3), 254); return;
    default: draw_ring(q, 1 + (unsigned)below(3), 256); return;
    }
}

static void draw_sound(struct clocked *q)
{
    int narrow = percent(80);
    switch (below(8)) {
    case 0: draw_chain(q, draw_width(), 1 + below(5)); return;
    case 1: draw_chain(q, 1, 1 + below(12)); return;
    case 2: case 3: draw_memory(q); return;
    case 4: draw_ring(q, draw_width(), 1 + below(6)); return;
    default: draw_any(q, percent(10) ? 1 : 2 + below(narrow ? 9 : 4), below(narrow ? 7 : 4), narrow); return;
    }
}

void draw_clocked(struct clocked *q)
{
    if (below(120) == 0)
        draw_large(q);
    else
        draw_sound(q);
    for (size_t faults = percent(60) ? 0 : 1 + below(2); faults > 0; faults--)
        if (percent(75))
            damage_pairs(q, has_kind(&q->d, STORE) && percent(30) ? STATE_IN_SPAN : (unsigned)below(PAIR_CAUSES + 1));
        else
            damage_table(&q->d, 1 + (unsigned)below(10));
}
