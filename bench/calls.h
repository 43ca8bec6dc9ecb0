// Calls of operations on pairs of vectors with so many unknown bits each.
#ifndef CALLS_H
#define CALLS_H

#include "measure.h"
#include <cstdio>
#include <string>

// The archive kernel_calls.
extern "C" {
Planes kernel_mul(uint32_t w, uint32_t ma, uint32_t va, uint32_t mb, uint32_t vb);
Planes kernel_add(uint32_t w, uint32_t ma, uint32_t va, uint32_t mb, uint32_t vb);
Planes kernel_wide(uint32_t kind, uint32_t w, uint32_t ma, uint32_t va, uint32_t mb, uint32_t vb);
}

inline constexpr uint32_t WIDTH = 32;
inline constexpr std::size_t PAIRS = 4096;

using Operation = Planes(uint32_t w, uint32_t ma, uint32_t va, uint32_t mb, uint32_t vb);

struct Pair {
    Planes a, b;
};

// Pairs of operands. The first has so many unknown bits, the second so many, which are not fewer.
struct Inputs {
    unsigned first, second;
    std::vector<Pair> pairs;
};

inline std::string name_of(const Inputs &inputs)
{
    std::string name = std::to_string(inputs.first);
    return inputs.first == inputs.second ? name : name + " and " + std::to_string(inputs.second);
}

// Draw gives an operand with so many unknown bits.
template <class Draw> Inputs draw_pairs(unsigned first, unsigned second, Draw draw)
{
    Inputs inputs = {first, second, {}};
    for (std::size_t i = 0; i < PAIRS; i++) {
        Planes a = draw(first);
        inputs.pairs.push_back({a, draw(second)});
    }
    return inputs;
}

inline std::vector<Inputs> draw_inputs()
{
    constexpr unsigned counts[][2] = {{0, 0}, {1, 1}, {2, 2}, {2, 3}, {3, 3}, {4, 4}, {5, 5}, {6, 6}, {8, 8}, {16, 16}, {32, 32}};
    std::mt19937 random(SEED);
    std::vector<Inputs> all;
    for (auto [first, second] : counts)
        all.push_back(draw_pairs(first, second, [&](unsigned unknown) { return draw_vector(random, WIDTH, unknown); }));
    return all;
}

inline Planes apply(Operation *operation, const Pair &p)
{
    return operation(WIDTH, p.a.mask, p.a.value, p.b.mask, p.b.value);
}

// Whether two results for a pair are the same; says so where they are not.
inline bool same(const std::string &names, const Pair &p, Planes x, Planes y)
{
    if (x.mask == y.mask && x.value == y.value)
        return true;
    std::printf("%s differ (masks and values): a %08x %08x, b %08x %08x: %08x %08x and %08x %08x\n", names.c_str(), p.a.mask,
                p.a.value, p.b.mask, p.b.value, x.mask, x.value, y.mask, y.value);
    return false;
}

// Whether two operations agree on all inputs; says where they first do not.
inline bool agree(const std::string &names, Operation *f, Operation *g, const Inputs &inputs)
{
    return std::all_of(inputs.pairs.begin(), inputs.pairs.end(),
                       [&](const Pair &p) { return same(names, p, apply(f, p), apply(g, p)); });
}

inline volatile uint32_t sink;

// A call for every pair. The operation is known when this is compiled, so that no call goes through a pointer.
template <Operation *operation> Pass pass(const Inputs &inputs)
{
    return [&inputs] {
        uint32_t sum = 0;
        for (const Pair &p : inputs.pairs) {
            Planes r = apply(operation, p);
            sum += r.mask + r.value;
        }
        sink = sink + sum;
    };
}

#endif
