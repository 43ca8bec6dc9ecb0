// The refusals 1 to 10 of a table, and count.
#include "reference.h"

struct ref_answer ref_result(size_t result, uint64_t second_result)
{
    return (struct ref_answer){0, 0, result, second_result};
}

struct ref_answer ref_refusal(uint32_t number, size_t place)
{
    return (struct ref_answer){number, place, 0, 0};
}

int ref_well_formed(uint32_t width, struct ref_vector v)
{
    uint64_t end = (uint64_t)1 << width;
    return v.mask < end && v.value < end && (v.mask & v.value) == 0;
}

static uint32_t row_refusal(const struct ref_table *t, size_t i)
{
    if (t->width[i] < 1 || t->width[i] > 32 || t->lock[i] > 1)
        return 4;
    return ref_well_formed(t->width[i], (struct ref_vector){t->mask[i], t->value[i]}) ? 0 : 5;
}

static struct ref_answer check_slices(const struct ref_table *t)
{
    if (t->widths < 1 || t->widths > 256)
        return ref_refusal(1, 0);
    if (t->locks != t->widths || t->masks != t->widths || t->values != t->widths)
        return ref_refusal(2, 0);
    return ref_result(0, 0);
}

static struct ref_answer check_rows(const struct ref_table *t)
{
    for (size_t i = 0; i < t->widths; i++)
        if (row_refusal(t, i) != 0)
            return ref_refusal(row_refusal(t, i), i);
    return ref_result(0, 0);
}

struct ref_answer ref_check(const struct ref_table *t, int run, size_t first, size_t last)
{
    struct ref_answer a = check_slices(t);
    if (a.refusal != 0)
        return a;
    if (t->word_count % RECORD_WORDS != 0 || t->word_count / RECORD_WORDS > 1024)
        return ref_refusal(3, 0);
    if (run && (first > last || last > t->word_count / RECORD_WORDS))
        return ref_refusal(3, 0);
    a = check_rows(t);
    if (a.refusal != 0)
        return a;
    for (size_t r = 0; r < t->word_count / RECORD_WORDS; r++)
        if (ref_record(t, r, run) != 0)
            return ref_refusal(ref_record(t, r, run), r);
    return ref_result(0, 0);
}

struct ref_answer ref_count(const struct ref_table *t, size_t row)
{
    struct ref_answer a = check_slices(t);
    if (a.refusal == 0)
        a = check_rows(t);
    if (a.refusal != 0)
        return a;
    if (row >= t->widths)
        return ref_refusal(7, row);
    size_t unknown = 0;
    for (unsigned k = 0; k < t->width[row]; k++)
        unknown += t->mask[row] >> k & 1;
    return ref_result(unknown, (uint64_t)1 << unknown);
}
