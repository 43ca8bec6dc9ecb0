// The kernel of umulw, smulw and sumulw on operands of 16 bits, and what its results are compared with: an enumeration, and
// kernel_mul on operands that are extended to 32 bits.
#ifndef WIDE_H
#define WIDE_H

#include "calls.h"
#include "rifflerleek.h"

inline constexpr uint32_t HALF = WIDTH / 2, TOP = uint32_t{1} << (HALF - 1);

// A kind of wide product: which operands it takes as signed, the kernel and the enumeration in the form of an operation, and its passes.
struct Wide {
    const char *name;
    bool signed_a, signed_b;
    Operation *call, *enumerate;
    Pass (*pass)(const Inputs &inputs);
};

// What the wide kernel is given, and what kernel_mul is: for each pair one pair, or the four that it is taken apart into.
struct Trial {
    Wide wide;
    Inputs inputs, mul;
};

// The bits that are 1 in all results, and those that can be 1 in some.
struct Cover {
    uint32_t all = UINT32_MAX, some = 0;
};

inline void add(Cover &c, Planes result)
{
    c.all &= result.value;
    c.some |= result.value | result.mask;
}

// The best vector that covers them.
inline Planes best(const Cover &c)
{
    return {c.all ^ c.some, c.all};
}

inline uint32_t extended(uint32_t value, bool is_signed)
{
    return is_signed && (value & TOP) != 0 ? value | ~ones(HALF) : value;
}

// The products of every choice of operands.
template <bool signed_a, bool signed_b> Planes enumerate(uint32_t, uint32_t ma, uint32_t va, uint32_t mb, uint32_t vb)
{
    Cover cover;
    uint32_t a = 0, b = 0;
    do { // n = (n - m) & m goes through the subsets of m, and back to 0
        do {
            add(cover, {0, extended(va | a, signed_a) * extended(vb | b, signed_b)});
            b = (b - mb) & mb;
        } while (b != 0);
        a = (a - ma) & ma;
    } while (a != 0);
    return best(cover);
}

template <uint32_t kind> Planes call(uint32_t, uint32_t ma, uint32_t va, uint32_t mb, uint32_t vb)
{
    return kernel_wide(kind, HALF, ma, va, mb, vb);
}

template <uint32_t kind, bool signed_a, bool signed_b> constexpr Wide wide(const char *name)
{
    return {name, signed_a, signed_b, call<kind>, enumerate<signed_a, signed_b>, pass<call<kind>>};
}

inline constexpr Wide umulw = wide<RIFFLERLEEK_KIND_UMULW, false, false>("umulw");
inline constexpr Wide smulw = wide<RIFFLERLEEK_KIND_SMULW, true, true>("smulw");
inline constexpr Wide sumulw = wide<RIFFLERLEEK_KIND_SUMULW, true, false>("sumulw");

// The extended vector; two of them, with a known top bit, where that is unknown.
inline std::vector<Planes> parts(Planes v, bool is_signed)
{
    if ((v.mask & TOP) == 0)
        return {{v.mask, extended(v.value, is_signed)}};
    return {{v.mask ^ TOP, v.value}, {v.mask ^ TOP, extended(v.value | TOP, is_signed)}};
}

inline Trial trial_of(const Wide &wide, const Inputs &inputs)
{
    Trial trial = {wide, inputs, {inputs.first, inputs.second, {}}};
    for (const Pair &p : inputs.pairs)
        for (Planes a : parts(p.a, wide.signed_a))
            for (Planes b : parts(p.b, wide.signed_b))
                trial.mul.pairs.push_back({a, b});
    return trial;
}

// Whether the kernel's results are the best vectors that cover those of kernel_mul; says where they first are not.
inline bool agrees_with_mul(const Trial &t)
{
    std::size_t each = t.mul.pairs.size() / PAIRS;
    for (std::size_t i = 0; i < PAIRS; i++) {
        Cover cover;
        for (std::size_t j = 0; j < each; j++)
            add(cover, apply(kernel_mul, t.mul.pairs[each * i + j]));
        const Pair &p = t.inputs.pairs[i];
        if (!same(std::string(t.wide.name) + " and mul", p, apply(t.wide.call, p), best(cover)))
            return false;
    }
    return true;
}

// Whether the kernel's results are those of the enumeration; says where they first are not.
inline bool agrees_with_enumeration(const Trial &t)
{
    return agree(std::string(t.wide.name) + " and the enumeration", t.wide.call, t.wide.enumerate, t.inputs);
}

#endif
