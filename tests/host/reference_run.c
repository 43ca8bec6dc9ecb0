// What a record does to the rows, and run.
#include "reference.h"

int ref_named_twice(const uint32_t *record)
{
    return ref_uses(record[0], 'b') && record[2] == record[3];
}

// The operands of a product stay independent, also where they are one row.
static int independent(uint32_t kind)
{
    return kind == MUL || (kind >= UMULW && kind <= SUMULW);
}

// The places of the operands' words.
static const size_t operands[3] = {2, 3, 5};

struct ref_op ref_operation(const struct ref_table *t, const uint32_t *w)
{
    struct ref_op o = {w[0], w[4], t->width[w[1]], {0, 0, 0}, ref_named_twice(w) && !independent(w[0])};
    for (int j = 0; j < 3; j++)
        if (ref_uses(w[0], "abc"[j]))
            o.w[j] = t->width[w[operands[j]]];
    return o;
}

int ref_step(struct ref_table *t, size_t r, unsigned limit)
{
    const uint32_t *w = t->words + RECORD_WORDS * r;
    if (ref_uses(w[0], 'n')) {
        ref_memory_step(t, w, limit);
        return 1;
    }
    struct ref_op o = ref_operation(t, w);
    struct ref_vector v[3] = {{0, 0}, {0, 0}, {0, 0}}, result = {0, 0};
    for (int j = 0; j < 3; j++)
        if (ref_uses(w[0], "abc"[j]))
            v[j] = (struct ref_vector){t->mask[w[operands[j]]], t->value[w[operands[j]]]};
    for (unsigned k = 0; k < o.wt; k++) {
        int seen = ref_values(&o, v, k, limit);
        if (seen == 0)
            return 0;
        result.mask |= (uint32_t)(seen == 3) << k;
        result.value |= (uint32_t)(seen == 2) << k;
    }
    t->mask[w[1]] = result.mask;
    t->value[w[1]] = result.value;
    return 1;
}

struct ref_answer ref_run(struct ref_table *t, size_t first, size_t last, unsigned limit, int *exact)
{
    struct ref_answer a = ref_check(t, 1, first, last);
    *exact = 1;
    if (a.refusal != 0)
        return a;
    for (size_t r = first; r < last && *exact; r++)
        *exact = ref_step(t, r, limit);
    return ref_result(last, 0);
}
