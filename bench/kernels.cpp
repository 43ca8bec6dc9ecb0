// The kernels of mul and add against document 002's algorithms: all results are compared, then all calls are timed, and the goals
// are judged.
#include "algorithm2.h"
#include "calls.h"
#include "goals.h"

namespace {

// The nanoseconds of one call of each.
struct Figures {
    const Inputs &inputs;
    double algorithm2, mul, by_bits, add;
};

// A goal of mul, for operands of from up to to unknown bits.
struct MulGoal {
    Goal goal;
    unsigned from, to;
};

constexpr MulGoal goals[] = {
    {{"mul at least 70 times faster than algorithm 2, with 1 to 8 unknown bits", 70, true}, 1, 8},
    {{"mul at least 30 times faster than algorithm 2, with 16 unknown bits", 30, true}, 16, 16},
    {{"mul at least 8 times faster than algorithm 2, with 32 unknown bits", 8, true}, 32, 32},
};

bool all_agree(const Inputs &inputs)
{
    bool products = agree("algorithm 2 and kernel_mul", algorithm2, kernel_mul, inputs);
    bool sums = agree("add by bits and kernel_add", add_by_bits, kernel_add, inputs);
    return products && sums;
}

std::vector<Figures> measure_calls(const std::vector<Inputs> &all)
{
    std::vector<Pass> contestants;
    for (const Inputs &i : all)
        contestants.insert(contestants.end(),
                           {pass<algorithm2>(i), pass<kernel_mul>(i), pass<add_by_bits>(i), pass<kernel_add>(i)});
    std::vector<double> times = measure(contestants);
    std::vector<Figures> figures;
    for (std::size_t i = 0; i < all.size(); i++) {
        const double *t = &times[4 * i];
        figures.push_back({all[i], t[0] / PAIRS, t[1] / PAIRS, t[2] / PAIRS, t[3] / PAIRS});
    }
    return figures;
}

void print_figures(const std::vector<Figures> &all)
{
    std::vector<Line> lines = {{"unknown bits", "algorithm 2", "kernel_mul", "algorithm 2 / kernel_mul", "add by bits",
                                "kernel_add", "add by bits / kernel_add"}};
    for (const Figures &f : all)
        lines.push_back({name_of(f.inputs), figure(f.algorithm2), figure(f.mul), figure(f.algorithm2 / f.mul), figure(f.by_bits),
                         figure(f.add), figure(f.by_bits / f.add)});
    print_markdown(lines);
}

std::vector<Measured> judged(const MulGoal &goal, const std::vector<Figures> &all)
{
    std::vector<Measured> ratios;
    for (const Figures &f : all)
        if (goal.from <= f.inputs.first && f.inputs.second <= goal.to)
            ratios.push_back({"unknown bits " + name_of(f.inputs), f.algorithm2 / f.mul});
    return ratios;
}

} // namespace

int main()
{
    std::vector<Inputs> inputs = draw_inputs();
    bool agreed = true;
    for (const Inputs &i : inputs)
        agreed = all_agree(i) && agreed;
    if (!agreed)
        return 1;
    std::vector<Figures> figures = measure_calls(inputs);
    print_figures(figures);
    std::printf("\n");
    for (const MulGoal &goal : goals)
        print_verdict(goal.goal, judged(goal, figures));
    return 0;
}
