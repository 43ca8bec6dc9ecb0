// Document 002, algorithm 2, line by line ("line n" is its line n), with two misprints corrected: k runs to M - 1, and line 2
// reverses a.
#include "algorithm2.h"

namespace {

constexpr uint32_t WORD = 32; // W, the word size

// The extremes' operands.
struct Factors {
    uint32_t a_min, a_max, b_min, b_max;
};

// h_k at its extremes.
struct ColumnSums {
    int64_t min, max;
};

// Lambda(x, W): the word's bits in reverse order.
uint32_t reversed(uint32_t x)
{
    x = (x >> 1 & 0x55555555) | (x & 0x55555555) << 1;
    x = (x >> 2 & 0x33333333) | (x & 0x33333333) << 2;
    x = (x >> 4 & 0x0f0f0f0f) | (x & 0x0f0f0f0f) << 4;
    x = (x >> 8 & 0x00ff00ff) | (x & 0x00ff00ff) << 8;
    return x >> 16 | x << 16;
}

// Phi(x_{0..z-1}), equation 18: the number of the lowest z bits; none are 0.
int64_t lowest(uint32_t x, uint32_t z)
{
    return x & ((int64_t{1} << z) - 1);
}

// Bit i.
int64_t bit(uint32_t x, uint32_t i)
{
    return x >> i & 1;
}

// Zeta_k, equation 16: the quotient by 2^k, rounded down.
int64_t zeta(int64_t h, uint32_t k)
{
    return h >> k;
}

// Lines 7 to 12. The reversed words are those of column k: bit i is bit k - i of the operand.
Factors settle_single(Planes a, Planes b, Planes a_rev, Planes b_rev)
{
    uint32_t s_a = a.mask & ~b_rev.mask;               // line 7
    uint32_t a_min = a.value | (s_a & b_rev.value);    // line 8
    uint32_t a_max = a.value | (s_a & ~b_rev.value);   // line 9
    uint32_t s_b = b.mask & ~a_rev.mask;               // line 10
    uint32_t b_min = b.value | (s_b & a_rev.value);    // line 11
    uint32_t b_max = b.value | (s_b & ~a_rev.value);   // line 12
    return {a_min, a_max, b_min, b_max};
}

// Lines 20 to 29, for the lone pair (a_i, b_{k-i}) unknown on both sides.
void settle_double(Factors &f, uint32_t i, uint32_t k)
{
    uint32_t j = k - i; // line 20
    if ((lowest(f.b_min, j) << i) + (lowest(f.a_min, i) << j) <= int64_t{1} << k) { // line 21, equation 28
        f.a_min |= uint32_t{1} << i; // line 22
        f.b_min |= uint32_t{1} << j; // line 23
    }
    if (lowest(f.a_max, i) << j <= lowest(f.b_max, j) << i) // line 25, equation 29
        f.a_max |= uint32_t{1} << i; // line 26
    else
        f.b_max |= uint32_t{1} << j; // line 28
}

// Lines 31 to 40, equation 48.
ColumnSums column_sums(const Factors &f, uint32_t k)
{
    ColumnSums h = {0, 0};                 // lines 31 and 32
    for (uint32_t i = 0; i <= k; i++) {    // line 33
        if (bit(f.a_min, i) == 1)          // lines 34 and 35
            h.min += (lowest(f.b_min, k - i) << i) - (bit(f.b_min, k - i) << k);
        if (bit(f.a_max, i) == 1)          // lines 37 and 38
            h.max += (lowest(f.b_max, k - i) << i) - (bit(f.b_max, k - i) << k);
    }
    return h;
}

// Lines 41 to 45: bit k of the result.
void set_bit(Planes &c, const ColumnSums &h, uint32_t k)
{
    if (zeta(h.min, k) != zeta(h.max, k))
        c.mask |= uint32_t{1} << k;
    else
        c.value |= static_cast<uint32_t>(zeta(h.min, k) & 1) << k;
}

// The operands' reversed words.
struct Reversed {
    Planes a, b;
};

// Lines 2 to 5.
Reversed reverses(Planes a, Planes b)
{
    return {{reversed(a.mask), reversed(a.value)}, {reversed(b.mask), reversed(b.value)}};
}

// Lines 7 to 45: column k.
void set_column(Planes &c, Planes a, Planes b, const Reversed &rev, uint32_t k)
{
    uint32_t shift = WORD - k - 1; // equation 47: bits W-k-1 to W-1 of the reversed words
    Planes a_column = {rev.a.mask >> shift, rev.a.value >> shift};
    Planes b_column = {rev.b.mask >> shift, rev.b.value >> shift};
    Factors f = settle_single(a, b, a_column, b_column);
    uint32_t d = a.mask & b_column.mask; // line 13
    if (d != 0) { // line 14
        uint32_t i = static_cast<uint32_t>(__builtin_ctz(d)); // line 15
        if (d != uint32_t{1} << i) { // line 16
            c.mask |= uint32_t{1} << k; // line 17, theorem 4
            return; // line 18
        }
        settle_double(f, i, k);
    }
    set_bit(c, column_sums(f, k), k);
}

} // namespace

// Flattened: all that it calls is inlined, though algorithm2_bit calls the same functions.
[[gnu::flatten]] Planes algorithm2(uint32_t w, uint32_t ma, uint32_t va, uint32_t mb, uint32_t vb)
{
    Planes a = {ma, va}, b = {mb, vb}, c = {0, 0};
    Reversed rev = reverses(a, b);
    for (uint32_t k = 0; k < w; k++) // line 6
        set_column(c, a, b, rev, k);
    return c; // line 47
}

[[gnu::flatten]] uint32_t algorithm2_bit(uint32_t ma, uint32_t va, uint32_t mb, uint32_t vb, uint32_t k)
{
    Planes a = {ma, va}, b = {mb, vb}, c = {0, 0};
    set_column(c, a, b, reverses(a, b), k);
    return c.mask != 0 ? 2 : c.value >> k;
}
