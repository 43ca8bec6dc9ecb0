// range, in two ways: over the states of a walk along the bits, and by going through the numbers.
#include "reference.h"
#include <stdio.h>
#include <stdlib.h>
#include <string.h>

static const struct ref_numbers empty = {18, 0, 0, 0, 0};

// Refusals 4, 5 and 17: a refusal number, or 0.
static uint32_t interval_refusal(const struct ref_interval *i)
{
    uint32_t refusal = ref_vector_refusal(i->width, i->v);
    if (refusal != 0)
        return refusal;
    uint64_t end = (uint64_t)1 << i->width;
    return i->low > i->high || i->low >= end || i->high >= end ? 17 : 0;
}

// Whether v covers a number between the ends. The bits are chosen from the top down; a state is whether those chosen are already more than
// low's (1) and less than high's (2), where they are not yet the same.
static int occurs(const struct ref_interval *i, struct ref_vector v)
{
    int states = 1;
    for (unsigned k = i->width; k-- > 0;) {
        int next = 0, low = (int)ref_bit(i->low, k), high = (int)ref_bit(i->high, k);
        for (int n = 0; n < 8; n++) {
            int state = n >> 1, more = state & 1, less = state >> 1, d = n & 1;
            if (!(states >> state & 1) || (!ref_bit(v.mask, k) && d != (int)ref_bit(v.value, k)))
                continue;
            if ((more || d >= low) && (less || d <= high))
                next |= 1 << ((more | (d > low)) + 2 * (less | (d < high)));
        }
        states = next;
    }
    return states != 0;
}

// The vector with its unknown bit k known as d.
static struct ref_vector with_bit(struct ref_vector v, unsigned k, uint32_t d)
{
    return (struct ref_vector){v.mask - ((uint32_t)1 << k), v.value + (d << k)};
}

// The number that has d at each bit, from the top down, where one that does occurs: the smallest for 0, the largest for 1.
static uint32_t extreme(const struct ref_interval *i, uint32_t d)
{
    struct ref_vector v = i->v;
    for (unsigned k = i->width; k-- > 0;)
        if (ref_bit(v.mask, k))
            v = with_bit(v, k, occurs(i, with_bit(v, k, d)) ? d : 1 - d);
    return v.value;
}

static struct ref_numbers by_states(const struct ref_interval *i)
{
    struct ref_vector best = i->v;
    if (!occurs(i, i->v))
        return empty;
    for (unsigned k = 0; k < i->width; k++) {
        int unknown = (int)ref_bit(i->v.mask, k), one = unknown && occurs(i, with_bit(i->v, k, 1));
        if (unknown && !(one && occurs(i, with_bit(i->v, k, 0))))
            best = with_bit(best, k, (uint32_t)one);
    }
    return (struct ref_numbers){0, best.mask, best.value, extreme(i, 0), extreme(i, 1)};
}

// One number more: so far first has the bits that are 1 in one of them, second those that are 1 in all.
static void add_number(struct ref_numbers *a, uint32_t n)
{
    if (a->refusal != 0)
        *a = (struct ref_numbers){0, n, n, n, n};
    a->first |= n;
    a->second &= n;
    a->third = n < a->third ? n : a->third;
    a->fourth = n > a->fourth ? n : a->fourth;
}

// By every number between the ends, or, where these are too many, by every number that the vector covers. 0 where both are too many.
static int by_counting(const struct ref_interval *i, unsigned limit, struct ref_numbers *a)
{
    uint64_t left = (uint64_t)1 << limit, choice = 0;
    *a = empty;
    if (i->high - i->low < left) {
        for (uint64_t n = i->low; n <= i->high; n++)
            if (ref_covers(i->v, n))
                add_number(a, (uint32_t)n);
    } else {
        do {
            uint64_t n = i->v.value | choice;
            if (left-- == 0)
                return 0;
            if (i->low <= n && n <= i->high)
                add_number(a, (uint32_t)n);
            choice = (choice - i->v.mask) & i->v.mask; // goes through the subsets of the mask
        } while (choice != 0);
    }
    a->first -= a->second;
    return 1;
}

// Both ways where both can be gone, and they must agree.
struct ref_numbers ref_range(const struct ref_interval *i, unsigned limit)
{
    uint32_t refusal = interval_refusal(i);
    if (refusal != 0)
        return (struct ref_numbers){refusal, 0, 0, 0, 0};
    struct ref_numbers a = by_states(i), b;
    if (by_counting(i, limit, &b) && memcmp(&a, &b, sizeof a) != 0) {
        printf("the reference disagrees with itself: range, width %u, mask %08x, value %08x, ends %llu and %llu\n", i->width, i->v.mask,
               i->v.value, (unsigned long long)i->low, (unsigned long long)i->high);
        exit(1);
    }
    return a;
}
