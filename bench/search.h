// Questions why a bit is unknown, plain search for the answer, and the judge of answers.
#ifndef SEARCH_H
#define SEARCH_H

#include "calls.h"
#include "rifflerleek.h"
#include <cstdlib>

// Two vectors of width 32 and the number of a bit.
struct Question {
    Planes a, b;
    uint32_t bit;
};

template <uint32_t kind> uint32_t plain_bit(uint32_t a, uint32_t b, uint32_t bit)
{
    return (kind == RIFFLERLEEK_KIND_ADD ? a + b : kind == RIFFLERLEEK_KIND_SUB ? a - b : a * b) >> bit & 1;
}

// Takes covered pairs at random until one gives 0 at the bit and one gives 1. Given up after so many pairs, it refuses as
// rifflerleek_witnesses refuses a known bit. The state is that of the random words (xorshift), and not 0.
template <uint32_t kind> [[gnu::noinline]] rifflerleek_four_numbers search(const Question &q, uint64_t &state, uint32_t pairs)
{
    rifflerleek_four_numbers n = {};
    for (bool zero = false, one = false; pairs > 0; pairs--) {
        state ^= state << 13;
        state ^= state >> 7;
        state ^= state << 17;
        uint32_t a = q.a.value | (static_cast<uint32_t>(state) & q.a.mask);
        uint32_t b = q.b.value | (static_cast<uint32_t>(state >> 32) & q.b.mask);
        if (plain_bit<kind>(a, b, q.bit) == 0) {
            n.first = a;
            n.second = b;
            zero = true;
        } else {
            n.third = a;
            n.fourth = b;
            one = true;
        }
        if (zero && one)
            return n;
    }
    return {RIFFLERLEEK_REFUSED_KNOWN, 0, 0, 0, 0, 0};
}

// Whether the vectors cover the pair, and it gives this value.
template <uint32_t kind> bool shows(const Question &q, uint32_t a, uint32_t b, uint32_t value)
{
    return (a & ~q.a.mask) == q.a.value && (b & ~q.b.mask) == q.b.value && plain_bit<kind>(a, b, q.bit) == value;
}

// Says that an answer is wrong, and ends the program.
template <uint32_t kind> [[noreturn]] void fail(const char *name, const Question &q, const rifflerleek_four_numbers &n)
{
    std::printf("%s is wrong (masks and values): kind %u, a %08x %08x, b %08x %08x, bit %u: refusal %u, %08x %08x and %08x %08x\n", name,
                kind, q.a.mask, q.a.value, q.b.mask, q.b.value, q.bit, n.refusal, n.first, n.second, n.third, n.fourth);
    std::exit(1);
}

// Whether an answer has pairs, and is not the refusal of a known bit. Wrong pairs and other refusals fail.
template <uint32_t kind> bool explains(const char *name, const Question &q, const rifflerleek_four_numbers &n)
{
    if (n.refusal == RIFFLERLEEK_REFUSED_KNOWN)
        return false;
    if (n.refusal != RIFFLERLEEK_DONE || !shows<kind>(q, n.first, n.second, 0) || !shows<kind>(q, n.third, n.fourth, 1))
        fail<kind>(name, q, n);
    return true;
}

#endif
