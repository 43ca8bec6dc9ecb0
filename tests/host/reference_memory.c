// What a load or a store does to the rows: every address that counts, and what a plain one makes of the target or of a cell.
#include "reference.h"
#include <stdio.h>
#include <stdlib.h>

enum { MOST_CELLS = 256, FEW = 6 };

// A load or a store: how many cells, and the vectors of address, data (of a store) and cells before the record.
struct memory {
    uint32_t kind, n;
    struct ref_vector address, data, cells[MOST_CELLS];
};

// The bits that are 0 in some outcome, and those that are 1 in some.
struct seen {
    uint32_t zeros, ones;
};

static struct ref_vector row_at(const struct ref_table *t, size_t i)
{
    return (struct ref_vector){t->mask[i], t->value[i]};
}

static void see(struct seen *s, struct ref_vector v)
{
    s->zeros |= ~v.value;
    s->ones |= v.value | v.mask;
}

// What a plain address makes of a load's target, or of cell i of a store.
static struct ref_vector outcome(const struct memory *m, uint64_t address, size_t i)
{
    if (m->kind == LOAD)
        return address < m->n ? m->cells[address] : (struct ref_vector){0, 0};
    return address == i ? m->data : m->cells[i];
}

// By every address that is covered.
static struct seen by_addresses(const struct memory *m, size_t i)
{
    struct seen s = {0, 0};
    uint64_t x = 0, mask = m->address.mask;
    do { // x = (x - mask) & mask goes through the subsets of the mask
        see(&s, outcome(m, m->address.value | x, i));
        x = (x - mask) & mask;
    } while (x != 0);
    return s;
}

// By every cell that is covered as an address, and by one address of n or more; for a store by cell i, and by any other address.
static struct seen by_cells(const struct memory *m, size_t i)
{
    struct seen s = {0, 0};
    uint64_t least = m->address.value, greatest = least | m->address.mask;
    if (m->kind == STORE) {
        if (ref_covers(m->address, i))
            see(&s, m->data);
        if (least != i || greatest != i)
            see(&s, m->cells[i]);
        return s;
    }
    for (size_t k = 0; k < m->n; k++)
        if (ref_covers(m->address, k))
            see(&s, m->cells[k]);
    if (greatest >= m->n)
        see(&s, (struct ref_vector){0, 0});
    return s;
}

static unsigned unknown_bits(struct ref_vector v)
{
    unsigned unknown = 0;
    for (unsigned k = 0; k < 32; k++)
        unknown += (unsigned)ref_bit(v.mask, k);
    return unknown;
}

// Both ways where both can be gone, and they must agree. Puts the best vector into the row.
static void put_result(struct ref_table *t, size_t row, const struct memory *m, size_t i, unsigned few)
{
    struct seen s = by_cells(m, i), other = s;
    if (unknown_bits(m->address) <= few)
        other = by_addresses(m, i);
    if (s.zeros != other.zeros || s.ones != other.ones) {
        printf("the reference disagrees with itself: kind %u, cell %zu\n", m->kind, i);
        exit(1);
    }
    t->mask[row] = s.zeros & s.ones;
    t->value[row] = s.ones & ~s.zeros;
}

void ref_memory_step(struct ref_table *t, const uint32_t *record, unsigned limit)
{
    struct memory m = {.kind = record[0], .n = record[4], .address = row_at(t, record[2])};
    size_t base = record[5];
    unsigned few = limit < FEW ? limit : FEW;
    if (m.kind == STORE)
        m.data = row_at(t, record[3]);
    for (size_t i = 0; i < m.n; i++)
        m.cells[i] = row_at(t, base + i);
    if (m.kind == LOAD)
        put_result(t, record[1], &m, 0, few);
    for (size_t i = 0; m.kind == STORE && i < m.n; i++)
        put_result(t, base + i, &m, i, few);
}
