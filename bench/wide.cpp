// The kernel of umulw, smulw and sumulw, of 16 by 16 bits, against kernel_mul of 32 bits: on the extended operands where both top bits
// are known, and on the four pairs that smulw takes its operands apart into where both are unknown. All results are compared, with an
// enumeration too where few bits are unknown; then all calls are timed, and the goals are judged.
#include "goals.h"
#include "wide.h"

namespace {

constexpr unsigned counts[] = {0, 1, 2, 3, 4, 6, 8, 15}; // unknown bits of an operand below its top bit
constexpr int FEW = 12;                                  // pairs with at most so many unknown bits are enumerated

// Of lines without an unknown bit below the top, and of the others.
struct Goals {
    Goal none, some;
};

constexpr Goals known_goals = {
    {"a wide product of known operands at most 1.7 times mul of the extended operands", 1.7, false},
    {"a wide product at most 1.3 times mul of the extended operands, with 1 to 15 unknown bits", 1.3, false}};
constexpr Goals unknown_goals = {
    {"smulw with unknown top bits at most 7 times the mean of its four products, with no other unknown bit", 7, false},
    {"smulw with unknown top bits at most 5 times the mean of its four products, with 1 to 15 other unknown bits", 5, false}};

// The nanoseconds of one call of each.
struct Figures {
    const Trial &trial;
    double wide, mul;
};

Planes draw_operand(std::mt19937 &random, unsigned unknown, bool unknown_top)
{
    Planes v = draw_vector(random, HALF - 1, unknown);
    if (unknown_top)
        v.mask |= TOP;
    else
        v.value |= TOP * below(random, 2);
    return v;
}

// A trial for each kind and each number of unknown bits, all kinds on the same pairs.
std::vector<Trial> draw_trials(const std::vector<Wide> &kinds, bool unknown_tops)
{
    std::vector<Trial> trials;
    for (const Wide &wide : kinds) {
        std::mt19937 random(SEED);
        auto draw = [&](unsigned unknown) { return draw_operand(random, unknown, unknown_tops); };
        for (unsigned unknown : counts)
            trials.push_back(trial_of(wide, draw_pairs(unknown, unknown, draw)));
    }
    return trials;
}

bool all_agree(const std::vector<Trial> &trials)
{
    bool agreed = true;
    for (const Trial &t : trials) {
        const Pair &p = t.inputs.pairs.front(); // all pairs have as many unknown bits
        bool few = __builtin_popcount(p.a.mask) + __builtin_popcount(p.b.mask) <= FEW;
        agreed = agrees_with_mul(t) && (!few || agrees_with_enumeration(t)) && agreed;
    }
    return agreed;
}

std::vector<Figures> measure_trials(const std::vector<Trial> &trials)
{
    std::vector<Pass> contestants;
    for (const Trial &t : trials)
        contestants.insert(contestants.end(), {t.wide.pass(t.inputs), pass<kernel_mul>(t.mul)});
    std::vector<double> times = measure(contestants);
    std::vector<Figures> figures;
    for (std::size_t i = 0; i < trials.size(); i++)
        figures.push_back({trials[i], times[2 * i] / PAIRS, times[2 * i + 1] / static_cast<double>(trials[i].mul.pairs.size())});
    return figures;
}

void print_figures(const char *top_bits, const std::vector<Figures> &all)
{
    std::vector<Line> lines = {{"kind", "top bits", "other unknown bits", "wide, ns", "mul, ns", "wide / mul"}};
    for (const Figures &f : all)
        lines.push_back({f.trial.wide.name, top_bits, name_of(f.trial.inputs), figure(f.wide), figure(f.mul), figure(f.wide / f.mul)});
    print_markdown(lines);
    std::printf("\n");
}

void print_verdicts(const Goals &goals, const std::vector<Figures> &all)
{
    std::vector<Measured> none, some;
    for (const Figures &f : all) {
        std::string place = std::string(f.trial.wide.name) + ", unknown bits " + name_of(f.trial.inputs);
        (f.trial.inputs.first == 0 ? none : some).push_back({place, f.wide / f.mul});
    }
    print_verdict(goals.none, none);
    print_verdict(goals.some, some);
}

} // namespace

int main()
{
    std::vector<Trial> known = draw_trials({umulw, smulw, sumulw}, false), apart = draw_trials({smulw}, true);
    if (!all_agree(known) || !all_agree(draw_trials({umulw, sumulw}, true)) || !all_agree(apart))
        return 1;
    std::vector<Figures> known_figures = measure_trials(known), apart_figures = measure_trials(apart);
    print_figures("known", known_figures);
    print_figures("unknown", apart_figures);
    print_verdicts(known_goals, known_figures);
    print_verdicts(unknown_goals, apart_figures);
    return 0;
}
