// One bit of a product: rifflerleek_product_bit against one column of document 002's algorithm 2. All results are compared, then all
// calls are timed.
#include "algorithm2.h"
#include "calls.h"
#include "markdown.h"
#include "rifflerleek.h"

namespace {

// Pairs of operands, and the number of a bit for each.
struct Questions {
    Inputs inputs;
    std::vector<uint32_t> bits;
};

using Ask = uint32_t(const Pair &p, uint32_t bit);

uint32_t ask_algorithm2(const Pair &p, uint32_t bit)
{
    return algorithm2_bit(p.a.mask, p.a.value, p.b.mask, p.b.value, bit);
}

// A refusal is no bit.
uint32_t ask_library(const Pair &p, uint32_t bit)
{
    rifflerleek_answer a = rifflerleek_product_bit(WIDTH, p.a.mask, p.a.value, p.b.mask, p.b.value, bit);
    return a.refusal == RIFFLERLEEK_DONE ? static_cast<uint32_t>(a.result) : UINT32_MAX;
}

std::vector<Questions> draw_questions()
{
    std::mt19937 random(SEED);
    std::vector<Questions> all;
    for (const Inputs &inputs : draw_inputs()) {
        all.push_back({inputs, {}});
        for (std::size_t i = 0; i < PAIRS; i++)
            all.back().bits.push_back(below(random, WIDTH));
    }
    return all;
}

// Whether both give the same bits; says where they first do not.
bool bits_agree(const Questions &q)
{
    for (std::size_t i = 0; i < PAIRS; i++) {
        const Pair &p = q.inputs.pairs[i];
        uint32_t x = ask_algorithm2(p, q.bits[i]), y = ask_library(p, q.bits[i]);
        if (x != y) {
            std::printf("algorithm 2 and rifflerleek_product_bit differ (masks and values): a %08x %08x, b %08x %08x, bit %u: %u and %u\n",
                        p.a.mask, p.a.value, p.b.mask, p.b.value, q.bits[i], x, y);
            return false;
        }
    }
    return true;
}

// As `pass`, with a bit for every pair.
template <Ask *ask> Pass pass_bits(const Questions &q)
{
    return [&q] {
        uint32_t sum = 0;
        for (std::size_t i = 0; i < PAIRS; i++)
            sum += ask(q.inputs.pairs[i], q.bits[i]);
        sink = sink + sum;
    };
}

} // namespace

int main()
{
    std::vector<Questions> all = draw_questions();
    if (!std::all_of(all.begin(), all.end(), bits_agree))
        return 1;
    std::vector<Pass> contestants;
    for (const Questions &q : all)
        contestants.insert(contestants.end(), {pass_bits<ask_algorithm2>(q), pass_bits<ask_library>(q)});
    std::vector<double> times = measure(contestants);
    std::vector<Line> lines = {{"unknown bits", "algorithm 2, one bit, ns", "rifflerleek_product_bit, ns",
                                "algorithm 2 / rifflerleek_product_bit"}};
    for (std::size_t i = 0; i < all.size(); i++) {
        const double *t = &times[2 * i];
        lines.push_back({name_of(all[i].inputs), figure(t[0] / PAIRS), figure(t[1] / PAIRS), figure(t[0] / t[1])});
    }
    print_markdown(lines);
    return 0;
}
