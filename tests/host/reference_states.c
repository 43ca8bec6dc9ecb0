// What two vectors cover together, whether one lies inside the other, and compare_states.
#include "reference.h"
#include <stdio.h>
#include <stdlib.h>

enum { SMALL_WIDTH = 6 };

// Which values bit k takes over the numbers that v covers: 1 for 0, 2 for 1, 3 for both.
static unsigned bit_values(struct ref_vector v, unsigned k)
{
    return ref_bit(v.mask, k) ? 3 : ref_bit(v.value, k) ? 2 : 1;
}

static struct ref_vector join_by_bits(uint32_t width, struct ref_vector v, struct ref_vector w)
{
    struct ref_vector best = {0, 0};
    for (unsigned k = 0; k < width; k++) {
        unsigned seen = bit_values(v, k) | bit_values(w, k);
        best.mask |= (uint32_t)(seen == 3) << k;
        best.value |= (uint32_t)(seen == 2) << k;
    }
    return best;
}

// By every number: a bit is known where all that are covered have the same there.
static struct ref_vector join_by_numbers(uint32_t width, struct ref_vector v, struct ref_vector w)
{
    uint32_t zeros = 0, ones = 0;
    for (uint32_t n = 0; n >> width == 0; n++)
        if (ref_covers(v, n) || ref_covers(w, n)) {
            zeros |= ~n;
            ones |= n;
        }
    return (struct ref_vector){zeros & ones, ones & ~zeros};
}

static int inside_by_bits(uint32_t width, struct ref_vector v, struct ref_vector w)
{
    for (unsigned k = 0; k < width; k++)
        if ((bit_values(v, k) | bit_values(w, k)) != bit_values(w, k))
            return 0;
    return 1;
}

static int inside_by_numbers(uint32_t width, struct ref_vector v, struct ref_vector w)
{
    for (uint32_t n = 0; n >> width == 0; n++)
        if (ref_covers(v, n) && !ref_covers(w, n))
            return 0;
    return 1;
}

// Both ways must agree.
static void expect_agreement(int agree, const char *what, struct ref_vector v, struct ref_vector w)
{
    if (agree)
        return;
    printf("the reference disagrees with itself: %s, masks and values %08x %08x, %08x %08x\n", what, v.mask, v.value, w.mask, w.value);
    exit(1);
}

struct ref_vector ref_join(uint32_t width, struct ref_vector v, struct ref_vector w)
{
    struct ref_vector best = join_by_bits(width, v, w), other = width > SMALL_WIDTH ? best : join_by_numbers(width, v, w);
    expect_agreement(best.mask == other.mask && best.value == other.value, "join", v, w);
    return best;
}

int ref_inside(uint32_t width, struct ref_vector v, struct ref_vector w)
{
    int inside = inside_by_bits(width, v, w);
    expect_agreement(width > SMALL_WIDTH || inside == inside_by_numbers(width, v, w), "inside", v, w);
    return inside;
}

static struct ref_vector row_of(const struct ref_states *s, int state, size_t i)
{
    return (struct ref_vector){s->mask[state][i], s->value[state][i]};
}

static struct ref_answer check(const struct ref_states *s)
{
    if (s->widths < 1 || s->widths > 256)
        return ref_refusal(1, 0);
    for (int state = 0; state < 2; state++)
        if (s->masks[state] != s->widths || s->values[state] != s->widths)
            return ref_refusal(2, 0);
    for (size_t i = 0; i < s->widths; i++)
        for (int state = 0; state < 2; state++) {
            uint32_t refusal = ref_vector_refusal(s->width[i], row_of(s, state, i));
            if (refusal != 0)
                return ref_refusal(refusal, i);
        }
    return ref_result(0, 0);
}

struct ref_answer ref_compare_states(const struct ref_states *s)
{
    struct ref_answer a = check(s);
    if (a.refusal != 0)
        return a;
    int equal = 1, inside = 1, around = 1;
    for (size_t i = 0; i < s->widths; i++) {
        struct ref_vector v = row_of(s, 0, i), w = row_of(s, 1, i);
        equal &= v.mask == w.mask && v.value == w.value;
        inside &= ref_inside(s->width[i], v, w);
        around &= ref_inside(s->width[i], w, v);
    }
    return ref_result(equal ? 0 : inside ? 1 : around ? 2 : 3, 0);
}
