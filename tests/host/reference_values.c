// Which values a bit of a result takes, by enumeration (document 002, equation 8).
#include "reference.h"
#include <stdio.h>
#include <stdlib.h>

// The values of ref_values, by going through the choices: two that give both values settle the bit, else all of them do.
static int enumerate(const struct ref_op *o, const struct ref_vector v[3], unsigned k, unsigned limit)
{
    uint64_t need[3], left = (uint64_t)1 << limit;
    ref_needed(o, k, need);
    if (o->one_number) { // only a is varied, and b is a
        need[0] |= need[1];
        need[1] = 0;
    }
    for (int j = 0; j < 3; j++)
        need[j] &= v[j].mask;
    uint64_t a = 0, b = need[1], c = 0;
    int seen = 0;
    do { // n = (n - m) & m goes through the subsets of m, and from m to 0; b starts with m, since products with few bits show little
        do {
            do {
                if (left-- == 0)
                    return 0;
                seen |= 1 << ref_bit(ref_plain(o, v[0].value | a, o->one_number ? v[0].value | a : v[1].value | b, v[2].value | c), k);
                if (seen == 3)
                    return 3;
                a = (a - need[0]) & need[0];
            } while (a != 0);
            b = (b - need[1]) & need[1];
        } while (b != need[1]);
        c = (c - need[2]) & need[2];
    } while (c != 0);
    return seen;
}

// The same for add, sub and neg without a limit: the carries that the bits below k can give, bit by bit.
static int by_carries(const struct ref_op *o, const struct ref_vector v[3], unsigned k)
{
    struct ref_vector a = o->kind == 15 ? (struct ref_vector){0, 0} : v[0], b = o->kind == 15 ? v[0] : v[1];
    int carries = 1, seen = 0;
    for (unsigned i = 0; i <= k; i++) {
        int next = 0;
        seen = 0;
        for (int n = 0; n < 8; n++) {
            int x = n & 1, y = n >> 1 & 1, carry = n >> 2;
            if (!(carries >> carry & 1) || (o->one_number && x != y) || (!ref_bit(a.mask, i) && x != (int)ref_bit(a.value, i)) || (!ref_bit(b.mask, i) && y != (int)ref_bit(b.value, i)))
                continue;
            int sum = o->kind == 13 ? x + y + carry : x - y - carry;
            seen |= 1 << (sum & 1);
            next |= 1 << (sum < 0 || sum > 1);
        }
        carries = next;
    }
    return seen;
}

// The same for eq, ult and slt without a limit: by known bits that differ, and by the least and greatest operands. One number is equal to
// itself, and not less.
static int by_extremes(const struct ref_op *o, const struct ref_vector v[3])
{
    if (o->one_number)
        return o->kind == 17 ? 2 : 1;
    uint64_t top = o->kind == 19 ? (uint64_t)1 << (o->w[0] - 1) : 0;
    uint64_t low[2], high[2];
    for (int j = 0; j < 2; j++) { // 2^(w-1) added modulo 2^w turns the signed order into the plain one
        low[j] = (v[j].value | (v[j].mask & top)) ^ top;
        high[j] = (v[j].value | (v[j].mask & ~top)) ^ top;
    }
    if (o->kind == 17) {
        int differ = ((v[0].value ^ v[1].value) & ~(v[0].mask | v[1].mask)) != 0;
        int known = (v[0].mask | v[1].mask) == 0;
        return differ ? 1 : known ? 2 : 3;
    }
    return (high[0] >= low[1] ? 1 : 0) | (low[0] < high[1] ? 2 : 0);
}

// Both ways where both can be gone, and they must agree.
int ref_values(const struct ref_op *o, const struct ref_vector v[3], unsigned k, unsigned limit)
{
    int seen = enumerate(o, v, k, limit), other = seen;
    if (o->kind >= 13 && o->kind <= 15)
        other = by_carries(o, v, k);
    if (o->kind >= 17 && o->kind <= 19)
        other = by_extremes(o, v);
    if (seen != 0 && seen != other) {
        printf("the reference disagrees with itself: kind %u, bit %u\n", o->kind, k);
        exit(1);
    }
    return other;
}
