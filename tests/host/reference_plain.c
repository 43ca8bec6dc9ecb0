// Each operation on plain numbers, full plain runs, and which of the operands' bits a bit of a result hangs on.
#include "reference.h"

uint64_t ref_bit(uint64_t n, unsigned k)
{
    return n >> k & 1;
}

static int64_t as_signed(uint64_t n, unsigned w)
{
    return (int64_t)n - (ref_bit(n, w - 1) ? (int64_t)1 << w : 0);
}

static unsigned least(unsigned x, unsigned y)
{
    return x < y ? x : y;
}

// The product of all bits: modulo 2^wt, each operand signed or not.
static uint64_t wide_product(const struct ref_op *o, uint64_t a, uint64_t b)
{
    int64_t x = o->kind == UMULW ? (int64_t)a : as_signed(a, o->w[0]);
    int64_t y = o->kind == SMULW ? as_signed(b, o->w[1]) : (int64_t)b;
    return (uint64_t)(x * y) % ((uint64_t)1 << o->wt);
}

// The new number, as the paper's list of plain runs gives it, which ends with kind 20, and of the wide products.
uint64_t ref_plain(const struct ref_op *o, uint64_t a, uint64_t b, uint64_t c)
{
    unsigned w = o->w[0], p = o->p;
    uint64_t end = (uint64_t)1 << w, n = 0;
    switch (o->kind) {
    case 0: case 11: return a;
    case 1: return end - 1 - a;
    case 2: return a & b;
    case 3: return a | b;
    case 4: return a ^ b;
    case 5: return (a << p) % end;
    case 6: return a >> p;
    case 7: case 12:
        for (unsigned k = 0; k < o->wt; k++)
            n |= ref_bit(a, least(k + p, w - 1)) << k;
        return n;
    case 8:
        for (unsigned k = 0; k < w; k++)
            n |= ref_bit(a, k) << (k + p) % w;
        return n;
    case 9: return (a >> p) % ((uint64_t)1 << o->wt);
    case 10: return (a << o->w[1]) + b;
    case 13: return (a + b) % end;
    case 14: return (a + end - b) % end;
    case 15: return (end - a) % end;
    case 16: return a * b % end;
    case 17: return a == b;
    case 18: return a < b;
    case 19: return as_signed(a, w) < as_signed(b, w);
    case 21: case 22: case 23: return wide_product(o, a, b);
    default: return c == 1 ? a : b;
    }
}

static void plain_step(const struct ref_table *t, const uint32_t *w, uint64_t *number)
{
    uint64_t a = number[w[2]], b = number[w[3]], c = number[w[5]];
    if (w[0] == LOAD)
        number[w[1]] = a < w[4] ? number[w[5] + a] : 0;
    else if (w[0] == STORE && a < w[4])
        number[w[5] + a] = b;
    else if (w[0] != STORE) {
        struct ref_op o = ref_operation(t, w);
        number[w[1]] = ref_plain(&o, a, b, c);
    }
}

void ref_plain_run(const struct ref_table *t, uint64_t *number)
{
    for (const uint32_t *w = t->words, *end = w + t->word_count; w < end; w += RECORD_WORDS)
        plain_step(t, w, number);
}

// The operands' bits that can make a difference to bit k of the result; the others are not varied.
void ref_needed(const struct ref_op *o, unsigned k, uint64_t need[3])
{
    unsigned w = o->w[0], p = o->p;
    uint64_t one = (uint64_t)1, here = one << k;
    need[0] = need[1] = need[2] = 0;
    switch (o->kind) {
    case 0: case 1: case 11: need[0] = here; return;
    case 2: case 3: case 4: need[0] = need[1] = here; return;
    case 5: need[0] = k >= p ? here >> p : 0; return;
    case 6: case 9: need[0] = one << (k + p); return;
    case 7: case 12: need[0] = one << least(k + p, w - 1); return;
    case 8: need[0] = one << (k + w - p % w) % w; return;
    case 10: need[0] = k >= o->w[1] ? here >> o->w[1] : 0; need[1] = here; return;
    case 13: case 14: case 15: case 16: case 21: case 22: case 23: // bit i, also a sign, makes no difference below 2^i
        need[0] = need[1] = 2 * here - 1;
        return;
    case 20: need[0] = need[1] = here; need[2] = 1; return;
    default: need[0] = need[1] = (one << w) - 1;
    }
}
