// Designs that take the most rounds to settle, as many as their state has bits and one more: chains of state rows, and a counter.
#ifndef SETTLING_H
#define SETTLING_H

#include "tables.h"
#include <numeric>

inline constexpr uint32_t WIDTH = 32, ROWS = 256, LAST = ROWS - 1;

using Words = std::vector<uint32_t>;

// A table, its state rows and their next rows, and the rounds that it takes.
struct Design {
    const char *name, *records;
    Table start;
    std::vector<uint32_t> states, nexts;
    std::size_t rounds;
};

struct Row {
    uint32_t width;
    Planes vector;
};

using Rows = std::vector<Row>;

// Two operands whose unknown bits make a product slow, the slowest of many that were tried: of mul, and of smulw, with four unknown bits
// each, the sign among them.
inline const Rows mul_operands = {{32, {0xc0000001, 0x3ffffffe}}, {32, {0x00000038, 0x00000004}}};
inline const Rows smulw_operands = {{16, {0x8007, 0x7ff8}}, {16, {0xc003, 0x0008}}};

inline void push_row(Table &t, const Row &row, bool locked)
{
    t.width.push_back(static_cast<uint8_t>(row.width));
    t.lock.push_back(locked);
    t.mask.push_back(row.vector.mask);
    t.value.push_back(row.vector.value);
}

// The records of a chain but the last, of these kinds: each reads random state rows, two different ones where it reads two.
inline Words draw_links(const std::vector<uint32_t> &kinds)
{
    std::mt19937 random(SEED);
    Words words;
    for (uint32_t r = 1; r < RECORDS; r++) {
        const Shape &s = shapes[kinds[below(random, static_cast<uint32_t>(kinds.size()))]];
        uint32_t a = below(random, LAST), b = s.b == 0 ? 0 : (a + 1 + below(random, LAST - 1)) % LAST;
        words.insert(words.end(), {s.kind, LAST, a, b, s.numbers > 0 ? below(random, s.numbers) : 0, 0});
    }
    return words;
}

// The same of one kind, all from the two locked rows of the chain.
inline Words repeat_link(uint32_t kind)
{
    Words words;
    for (uint32_t r = 1; r < RECORDS; r++)
        words.insert(words.end(), {kind, LAST, LAST - 2, LAST - 1, 0, 0});
    return words;
}

// State rows, all ones, each the next row of the one after it; the last row of the table is the next row of the first, and locked rows may
// stand before it. The records write the last row alone, and the last record puts the last state row there, shifted to the left by one.
// The bit 0 that comes in becomes X in the first state row, a round later in the second, and so on; from the last it comes back to the
// first as bit 1. So each round makes one more bit X, until all are.
inline Design chain(const char *records, const Rows &locked, const Words &links)
{
    uint32_t states = LAST - static_cast<uint32_t>(locked.size());
    Design d = {"chain", records, {}, std::vector<uint32_t>(states), std::vector<uint32_t>(states), states * WIDTH + 1};
    for (uint32_t i = 0; i < states; i++)
        push_row(d.start, {WIDTH, {0, ones(WIDTH)}}, false);
    for (const Row &row : locked)
        push_row(d.start, row, true);
    push_row(d.start, {WIDTH, {0, 0}}, false);
    d.start.words = links;
    d.start.words.insert(d.start.words.end(), {RIFFLERLEEK_KIND_SHL, LAST, states - 1, 0, 1, 0});
    std::iota(d.states.begin(), d.states.end(), 0);
    std::iota(d.nexts.begin() + 1, d.nexts.end(), 0);
    d.nexts[0] = LAST;
    return d;
}

// Rows count, next, one and enable: count + 1 while enable, which is X, is 1.
inline Design counter()
{
    Design d = {"counter", "add, ite", {}, {0}, {1}, WIDTH + 1};
    push_row(d.start, {WIDTH, {0, 0}}, false);
    push_row(d.start, {WIDTH, {0, 0}}, false);
    push_row(d.start, {WIDTH, {0, 1}}, true);
    push_row(d.start, {1, {1, 0}}, true);
    d.start.words = {RIFFLERLEEK_KIND_ADD, 1, 0, 2, 0, 0, RIFFLERLEEK_KIND_ITE, 1, 1, 0, 0, 3};
    return d;
}

inline std::vector<Design> draw_designs()
{
    return {counter(), chain("copy, shl, or", {}, draw_links({RIFFLERLEEK_KIND_COPY, RIFFLERLEEK_KIND_SHL, RIFFLERLEEK_KIND_OR})),
            chain("add", {}, draw_links({RIFFLERLEEK_KIND_ADD})), chain("mul", {}, draw_links({RIFFLERLEEK_KIND_MUL}))};
}

// Chains whose records are the slowest that we know.
inline std::vector<Design> slow_designs()
{
    return {chain("mul, the slowest", mul_operands, repeat_link(RIFFLERLEEK_KIND_MUL)),
            chain("smulw, the slowest", smulw_operands, repeat_link(RIFFLERLEEK_KIND_SMULW))};
}

#endif
