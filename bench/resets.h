// Tables whose rows are known at the start, and conclusions of them.
#ifndef RESETS_H
#define RESETS_H

#include "tables.h"

inline constexpr uint32_t WIDTH = 32, ROWS = 256, SHIFTS = 8, SLOW_ROWS = 16;

using Kinds = std::vector<uint32_t>;

// A table, and the row whose top bit is asked of.
struct Question {
    const char *name, *conclusion;
    Table start;
    uint32_t row;
};

inline const Kinds add = {RIFFLERLEEK_KIND_ADD}, mul = {RIFFLERLEEK_KIND_MUL};

// The kinds whose rows can all have one width.
inline const Kinds mixed = {RIFFLERLEEK_KIND_COPY, RIFFLERLEEK_KIND_NOT,     RIFFLERLEEK_KIND_AND,  RIFFLERLEEK_KIND_OR,
                            RIFFLERLEEK_KIND_XOR,  RIFFLERLEEK_KIND_SHL,     RIFFLERLEEK_KIND_LSHR, RIFFLERLEEK_KIND_ASHR,
                            RIFFLERLEEK_KIND_ROTL, RIFFLERLEEK_KIND_EXTRACT, RIFFLERLEEK_KIND_ZEXT, RIFFLERLEEK_KIND_SEXT,
                            RIFFLERLEEK_KIND_ADD,  RIFFLERLEEK_KIND_SUB,     RIFFLERLEEK_KIND_NEG,  RIFFLERLEEK_KIND_MUL};

inline uint32_t last_target(const Table &t)
{
    return t.words[t.words.size() - RIFFLERLEEK_RECORD_WORDS + 1];
}

// Open rows with random odd numbers, so that no product of them is 0.
inline Table draw_open(std::mt19937 &random, uint32_t rows)
{
    Table t = {std::vector<uint8_t>(rows, WIDTH), std::vector<uint8_t>(rows, 0), std::vector<uint32_t>(rows, 0), {}, {}};
    for (uint32_t i = 0; i < rows; i++)
        t.value.push_back(static_cast<uint32_t>(random()) | 1);
    return t;
}

// Each record reads the row that the one before it wrote, and a random row. The first alone writes row 0.
inline Table draw_chain(const Kinds &kinds, uint32_t rows, uint32_t records)
{
    std::mt19937 random(SEED);
    Table t = draw_open(random, rows);
    for (uint32_t r = 0; r < records; r++) {
        const Shape &s = shapes[kinds[below(random, static_cast<uint32_t>(kinds.size()))]];
        uint32_t target = r == 0 ? 0 : 1 + below(random, rows - 1), a = r == 0 ? 1 : last_target(t);
        uint32_t b = s.b == 0 ? 0 : below(random, rows), p = s.numbers == WIDTH ? below(random, SHIFTS) : 0;
        t.words.insert(t.words.end(), {s.kind, target, a, b, p, 0});
    }
    return t;
}

// Records of smulw, whose operands are locked rows of width 16: the top bit and three more are X.
inline Table draw_slow()
{
    std::mt19937 random(SEED);
    Table t = draw_open(random, ROWS);
    for (uint32_t i = 0; i < SLOW_ROWS; i++) {
        Planes row = draw_vector(random, 15, 3);
        t.width[i] = 16;
        t.lock[i] = 1;
        t.mask[i] = row.mask | 0x8000;
        t.value[i] = row.value;
    }
    for (uint32_t r = 0; r < RECORDS; r++)
        t.words.insert(t.words.end(), {RIFFLERLEEK_KIND_SMULW, SLOW_ROWS, below(random, SLOW_ROWS), below(random, SLOW_ROWS), 0, 0});
    return t;
}

// The largest tables, with a conclusion that rests on many start bits and one on few; half of their rows, and half of their records; and
// the slow table, of whose last row no record knows.
inline std::vector<Question> draw_questions()
{
    std::vector<Question> questions;
    for (auto [name, kinds] : {std::pair{"add", add}, {"mul", mul}, {"mixed", mixed}})
        for (auto [rows, records] : {std::pair{ROWS, RECORDS}, {ROWS / 2, RECORDS}, {ROWS, RECORDS / 2}}) {
            Table t = draw_chain(kinds, rows, records);
            questions.push_back({name, "many bits", t, last_target(t)});
            if (rows == ROWS && records == RECORDS)
                questions.push_back({name, "few bits", t, 0});
        }
    questions.push_back({"smulw", "one bit", draw_slow(), ROWS - 1});
    return questions;
}

#endif
