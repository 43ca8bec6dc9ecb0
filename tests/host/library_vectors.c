// The library's calls on bare vectors.
#include "library.h"

// The call at hand: its operands or its interval, and its answer, of either struct.
static struct {
    struct ref_operands o;
    struct ref_interval i;
    rifflerleek_answer answer;
    rifflerleek_four_numbers numbers;
} call;

static void make_product_bit(void)
{
    const struct ref_operands *o = &call.o;
    call.answer = rifflerleek_product_bit(o->width, o->a.mask, o->a.value, o->b.mask, o->b.value, o->bit);
}

static void make_witnesses(void)
{
    const struct ref_operands *o = &call.o;
    call.numbers = rifflerleek_witnesses(o->kind, o->width, o->a.mask, o->a.value, o->b.mask, o->b.value, o->bit);
}

static void make_range(void)
{
    const struct ref_interval *i = &call.i;
    call.numbers = rifflerleek_range(i->width, i->v.mask, i->v.value, i->low, i->high);
}

rifflerleek_answer library_product_bit(const struct ref_operands *o)
{
    call.o = *o;
    on_stack(make_product_bit);
    return call.answer;
}

rifflerleek_four_numbers library_witnesses(const struct ref_operands *o)
{
    call.o = *o;
    on_stack(make_witnesses);
    return call.numbers;
}

rifflerleek_four_numbers library_range(const struct ref_interval *i)
{
    call.i = *i;
    on_stack(make_range);
    return call.numbers;
}
