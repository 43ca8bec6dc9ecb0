// The calls on bare vectors, but range.
#include "reference.h"

uint32_t ref_vector_refusal(uint32_t width, struct ref_vector v)
{
    if (width < 1 || width > 32)
        return 4;
    return ref_well_formed(width, v) ? 0 : 5;
}

int ref_covers(struct ref_vector v, uint64_t n)
{
    return (n & ~(uint64_t)v.mask) == v.value;
}

static uint32_t operands_refusal(const struct ref_operands *o)
{
    uint32_t refusal = ref_vector_refusal(o->width, o->a);
    return refusal != 0 ? refusal : ref_vector_refusal(o->width, o->b);
}

static struct ref_op operation(uint32_t kind, uint32_t width)
{
    return (struct ref_op){kind, 0, width, {width, width, 0}, 0};
}

// The values of the bit, as ref_values has them, of a kind with two operands.
static int values(uint32_t kind, const struct ref_operands *o, unsigned limit)
{
    struct ref_op op = operation(kind, o->width);
    struct ref_vector v[3] = {o->a, o->b, {0, 0}};
    return ref_values(&op, v, o->bit, limit);
}

struct ref_answer ref_product_bit(const struct ref_operands *o, unsigned limit, int *exact)
{
    uint32_t refusal = operands_refusal(o);
    *exact = 1;
    if (refusal != 0)
        return ref_refusal(refusal, 0);
    if (o->bit >= o->width)
        return ref_refusal(15, 0);
    int seen = values(MUL, o, limit);
    *exact = seen != 0;
    return ref_result(seen == 3 ? 2 : seen == 2 ? 1 : 0, 0);
}

uint32_t ref_witnesses(const struct ref_operands *o, unsigned limit, int *exact)
{
    uint32_t refusal = operands_refusal(o);
    *exact = 1;
    if (refusal != 0)
        return refusal;
    if (o->kind != ADD && o->kind != SUB && o->kind != MUL)
        return 6;
    if (o->bit >= o->width)
        return 15;
    int seen = values(o->kind, o, limit);
    *exact = seen != 0;
    return seen == 1 || seen == 2 ? 16 : 0;
}

int ref_shows(const struct ref_operands *o, uint32_t a, uint32_t b, uint64_t value)
{
    struct ref_op op = operation(o->kind, o->width);
    return ref_covers(o->a, a) && ref_covers(o->b, b) && ref_bit(ref_plain(&op, a, b, 0), o->bit) == value;
}
