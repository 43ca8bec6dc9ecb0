// Random tables that every check passes.
#ifndef TABLES_H
#define TABLES_H

#include "lent.h"

inline constexpr uint32_t RECORDS = 1024, KINDS = 24, UNKNOWN = 4;

// Rows of one width: the first half are locked inputs, the others are open.
struct Group {
    uint32_t width, first, count;
};

using Groups = std::vector<Group>;

// A kind's record: the widths of its rows, 0 where it has no such row, and how many numbers its parameter may be.
struct Shape {
    uint32_t kind, t, a, b, c, numbers;
};

// What a table is made of. Where records are chained they read open rows too, so what others wrote, else inputs alone. Where they
// name twice, all are of kinds with two operands, and both words name one row; else the two rows differ.
struct Plan {
    const char *name;
    const Groups &groups;
    bool chained, twice;
    uint32_t first_kind, kinds;
};

// By kind, without those that have cells.
inline constexpr Shape shapes[KINDS] = {
    {RIFFLERLEEK_KIND_COPY, 32, 32, 0, 0, 0},     {RIFFLERLEEK_KIND_NOT, 32, 32, 0, 0, 0},     {RIFFLERLEEK_KIND_AND, 32, 32, 32, 0, 0},
    {RIFFLERLEEK_KIND_OR, 32, 32, 32, 0, 0},      {RIFFLERLEEK_KIND_XOR, 32, 32, 32, 0, 0},    {RIFFLERLEEK_KIND_SHL, 32, 32, 0, 0, 32},
    {RIFFLERLEEK_KIND_LSHR, 32, 32, 0, 0, 32},    {RIFFLERLEEK_KIND_ASHR, 32, 32, 0, 0, 32},   {RIFFLERLEEK_KIND_ROTL, 32, 32, 0, 0, 32},
    {RIFFLERLEEK_KIND_EXTRACT, 16, 32, 0, 0, 17}, {RIFFLERLEEK_KIND_CONCAT, 32, 16, 16, 0, 0}, {RIFFLERLEEK_KIND_ZEXT, 32, 16, 0, 0, 0},
    {RIFFLERLEEK_KIND_SEXT, 32, 16, 0, 0, 0},     {RIFFLERLEEK_KIND_ADD, 32, 32, 32, 0, 0},    {RIFFLERLEEK_KIND_SUB, 32, 32, 32, 0, 0},
    {RIFFLERLEEK_KIND_NEG, 32, 32, 0, 0, 0},      {RIFFLERLEEK_KIND_MUL, 32, 32, 32, 0, 0},    {RIFFLERLEEK_KIND_EQ, 1, 32, 32, 0, 0},
    {RIFFLERLEEK_KIND_ULT, 1, 32, 32, 0, 0},      {RIFFLERLEEK_KIND_SLT, 1, 32, 32, 0, 0},     {RIFFLERLEEK_KIND_ITE, 32, 32, 32, 1, 0},
    {RIFFLERLEEK_KIND_UMULW, 32, 16, 16, 0, 0},   {RIFFLERLEEK_KIND_SMULW, 32, 16, 16, 0, 0},  {RIFFLERLEEK_KIND_SUMULW, 32, 16, 16, 0, 0},
};

inline const Groups one_width = {{32, 0, 64}};
inline const Groups three_widths = {{32, 0, 40}, {16, 40, 12}, {1, 52, 12}};

// The plans by number.
enum { MIXED, ADD, MUL, TWICE };

inline const Plan plans[] = {
    {"every kind without cells, mixed", three_widths, true, false, 0, KINDS},
    {"add", one_width, false, false, RIFFLERLEEK_KIND_ADD, 1},
    {"mul", one_width, false, false, RIFFLERLEEK_KIND_MUL, 1},
    {"every operand named twice", three_widths, true, true, 0, KINDS},
};

inline const Group &group_of(const Plan &plan, uint32_t width)
{
    return *std::find_if(plan.groups.begin(), plan.groups.end(), [width](const Group &g) { return g.width == width; });
}

inline void draw_rows(std::mt19937 &random, const Group &g, Table &t)
{
    for (uint32_t i = 0; i < g.count; i++) {
        Planes row = draw_vector(random, g.width, std::min(g.width, UNKNOWN));
        t.width.push_back(static_cast<uint8_t>(g.width));
        t.lock.push_back(i < g.count / 2);
        t.mask.push_back(row.mask);
        t.value.push_back(row.value);
    }
}

inline uint32_t draw_target(std::mt19937 &random, const Plan &plan, uint32_t width)
{
    const Group &g = group_of(plan, width);
    return g.first + g.count / 2 + below(random, g.count / 2);
}

// A row to read; 0 where the width is 0 and so there is none.
inline uint32_t draw_operand(std::mt19937 &random, const Plan &plan, uint32_t width)
{
    if (width == 0)
        return 0;
    const Group &g = group_of(plan, width);
    return g.first + below(random, plan.chained ? g.count : g.count / 2);
}

// The second row to read, beside the first.
inline uint32_t draw_second(std::mt19937 &random, const Plan &plan, const Shape &s, uint32_t first)
{
    if (plan.twice)
        return first;
    uint32_t second = draw_operand(random, plan, s.b);
    while (s.b != 0 && second == first)
        second = draw_operand(random, plan, s.b);
    return second;
}

inline const Shape &draw_shape(std::mt19937 &random, const Plan &plan)
{
    for (;;) {
        const Shape &s = shapes[plan.first_kind + below(random, plan.kinds)];
        if (s.b != 0 || !plan.twice)
            return s;
    }
}

inline void draw_record(std::mt19937 &random, const Plan &plan, Table &t)
{
    const Shape &s = draw_shape(random, plan);
    uint32_t target = draw_target(random, plan, s.t);
    uint32_t a = draw_operand(random, plan, s.a);
    uint32_t b = draw_second(random, plan, s, a);
    uint32_t p = s.numbers > 0 ? below(random, s.numbers) : 0;
    t.words.insert(t.words.end(), {s.kind, target, a, b, p, draw_operand(random, plan, s.c)});
}

inline Table draw_table(std::mt19937 &random, const Plan &plan)
{
    Table t;
    for (const Group &g : plan.groups)
        draw_rows(random, g, t);
    for (uint32_t r = 0; r < RECORDS; r++)
        draw_record(random, plan, t);
    return t;
}

// One table for each plan, with no more kinds than that.
inline std::vector<Table> draw_tables(uint32_t kinds)
{
    std::mt19937 random(SEED);
    std::vector<Table> tables;
    for (Plan plan : plans) {
        plan.kinds = std::min(plan.kinds, kinds);
        tables.push_back(draw_table(random, plan));
    }
    return tables;
}

#endif
