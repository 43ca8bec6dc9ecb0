// reset_bits, by a run for each bit that is tried.
#include "reference.h"
#include <string.h>

enum { MOST_ROWS = 256, UNKNOWN = 2 };

unsigned ref_conclusion(const struct ref_table *t, size_t row, uint32_t bit, unsigned limit, int *exact)
{
    uint32_t mask[MOST_ROWS], value[MOST_ROWS];
    struct ref_table copy = *t;
    copy.mask = memcpy(mask, t->mask, 4 * t->masks);
    copy.value = memcpy(value, t->value, 4 * t->values);
    ref_run(&copy, 0, t->word_count / RECORD_WORDS, limit, exact);
    return ref_bit(mask[row], bit) ? UNKNOWN : (unsigned)ref_bit(value[row], bit);
}

// Refusals 1 to 10 of all records, 7 of the row and 15.
static struct ref_answer check(const struct ref_table *t, size_t row, uint32_t bit)
{
    struct ref_answer a = ref_check(t, 1, 0, t->word_count / RECORD_WORDS);
    if (a.refusal != 0)
        return a;
    if (row >= t->widths)
        return ref_refusal(7, row);
    return bit >= t->width[row] ? ref_refusal(15, 0) : ref_result(0, 0);
}

struct ref_answer ref_reset_bits(struct ref_table *t, size_t row, uint32_t bit, unsigned limit, int *exact)
{
    struct ref_answer a = check(t, row, bit);
    *exact = 1;
    if (a.refusal != 0)
        return a;
    unsigned conclusion = ref_conclusion(t, row, bit, limit, exact);
    if (*exact && conclusion == UNKNOWN)
        return ref_refusal(19, 0);
    for (size_t i = 0; i < t->widths; i++)
        for (unsigned k = 0; k < t->width[i] && *exact; k++) {
            uint32_t mask = t->mask[i], value = t->value[i], here = (uint32_t)1 << k;
            if (t->lock[i] == 1 || ref_bit(mask, k))
                continue;
            t->mask[i] = mask | here;
            t->value[i] = value & ~here;
            if (ref_conclusion(t, row, bit, limit, exact) != conclusion) {
                t->mask[i] = mask;
                t->value[i] = value;
            }
        }
    return ref_result(conclusion, 0);
}
