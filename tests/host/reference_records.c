// The kinds, and the refusals 6 to 10 of a record.
#include "reference.h"
#include <string.h>

const struct kind kinds[KINDS] = {
    {"copy", "ta"},   {"not", "ta"},     {"and", "tab"},  {"or", "tab"},      {"xor", "tab"},    {"shl", "tap"},
    {"lshr", "tap"},  {"ashr", "tap"},   {"rotl", "tap"}, {"extract", "tap"}, {"concat", "tab"}, {"zext", "ta"},
    {"sext", "ta"},   {"add", "tab"},    {"sub", "tab"},  {"neg", "ta"},      {"mul", "tab"},    {"eq", "tab"},
    {"ult", "tab"},   {"slt", "tab"},    {"ite", "tabc"}, {"umulw", "tab"},   {"smulw", "tab"},  {"sumulw", "tab"},
    {"load", "tanc"}, {"store", "abnc"},
};

int ref_uses(uint32_t kind, char word)
{
    return strchr(kinds[kind].words, word) != NULL;
}

char ref_row_letter(size_t i)
{
    return "-tab-c"[i];
}

// Whether all cells of a load or a store have that width.
static int cells_fit(const struct ref_table *t, const uint32_t *w, unsigned width)
{
    for (uint32_t i = 0; i < w[4]; i++)
        if (t->width[w[5] + i] != width)
            return 0;
    return 1;
}

// The width of the row that word i names, 0 where it names none.
static unsigned width_at(const struct ref_table *t, const uint32_t *w, size_t i)
{
    return ref_uses(w[0], ref_row_letter(i)) ? t->width[w[i]] : 0;
}

static int widths_fit(const struct ref_table *t, const uint32_t *w)
{
    unsigned wt = width_at(t, w, 1), wa = width_at(t, w, 2), wb = width_at(t, w, 3), wc = width_at(t, w, 5);
    switch (w[0]) {
    case 0: case 1: case 5: case 6: case 7: case 8: case 15: return wt == wa;
    case 2: case 3: case 4: case 13: case 14: case 16: return wt == wa && wa == wb;
    case 9: return w[4] + wt <= wa;
    case 10: case 21: case 22: case 23: return wt == wa + wb;
    case 11: case 12: return wt >= wa;
    case 17: case 18: case 19: return wa == wb && wt == 1;
    case 20: return wt == wa && wa == wb && wc == 1;
    case LOAD: return cells_fit(t, w, wt);
    default: return cells_fit(t, w, wb);
    }
}

// Whether a row that a record names, or the end of its span, is outside the table.
static int is_outside(const struct ref_table *t, const uint32_t *w)
{
    for (size_t i = 1; i < RECORD_WORDS; i++)
        if (ref_uses(w[0], ref_row_letter(i)) && w[i] >= t->widths)
            return 1;
    return ref_uses(w[0], 'n') && (uint64_t)w[5] + w[4] > t->widths;
}

// Whether a word that the kind does not use is not 0, or its number is not one that it may be.
static int is_misused(const uint32_t *w)
{
    for (size_t i = 1; i < RECORD_WORDS; i++)
        if (i != 4 && !ref_uses(w[0], ref_row_letter(i)) && w[i] != 0)
            return 1;
    return ref_uses(w[0], 'n') ? w[4] == 0 : w[4] > (ref_uses(w[0], 'p') ? 31 : 0);
}

// Whether a row that a record writes is locked.
static int writes_locked(const struct ref_table *t, const uint32_t *w)
{
    if (w[0] != STORE)
        return t->lock[w[1]] == 1;
    for (uint32_t i = 0; i < w[4]; i++)
        if (t->lock[w[5] + i] == 1)
            return 1;
    return 0;
}

int ref_may_write(const uint32_t *w, size_t row)
{
    return w[0] == STORE ? w[5] <= row && row < (size_t)w[5] + w[4] : w[1] == row;
}

uint32_t ref_record(const struct ref_table *t, size_t r, int locked_too)
{
    const uint32_t *w = t->words + RECORD_WORDS * r;
    if (w[0] >= KINDS)
        return 6;
    if (is_outside(t, w))
        return 7;
    if (is_misused(w))
        return 8;
    if (!widths_fit(t, w))
        return 9;
    return locked_too && writes_locked(t, w) ? 10 : 0;
}
