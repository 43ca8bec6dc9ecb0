// What a range leaves of a vector without a known bit: rifflerleek_range at three widths, with random ends. All answers are judged, then
// all calls are timed, and the goal is judged.
#include "calls.h"
#include "goals.h"
#include "rifflerleek.h"

namespace {

constexpr Goal goal = {"range at width 32 in at most 5 times its time at width 8", 5, false};

constexpr uint32_t widths[] = {8, 16, 32};

struct Question {
    uint32_t width, low, high;
};

using Questions = std::vector<Question>;

Questions draw_questions(uint32_t width)
{
    std::mt19937 random(SEED);
    Questions questions;
    while (questions.size() < PAIRS) {
        uint32_t a = static_cast<uint32_t>(random()) & ones(width), b = static_cast<uint32_t>(random()) & ones(width);
        questions.push_back({width, std::min(a, b), std::max(a, b)});
    }
    return questions;
}

rifflerleek_four_numbers ask(const Question &q)
{
    return rifflerleek_range(q.width, ones(q.width), 0, q.low, q.high);
}

// Whether the answer is the ends, and X from the highest bit down in which they differ; says so where it is not.
bool is_right(const Question &q)
{
    rifflerleek_four_numbers n = ask(q);
    uint32_t differ = q.low ^ q.high, mask = differ == 0 ? 0 : UINT32_MAX >> __builtin_clz(differ);
    if (n.refusal == RIFFLERLEEK_DONE && n.first == mask && n.second == (q.low & ~mask) && n.third == q.low && n.fourth == q.high)
        return true;
    std::printf("rifflerleek_range is wrong: width %u, ends %u and %u: refusal %u, mask and value %08x %08x, numbers %u and %u\n", q.width,
                q.low, q.high, n.refusal, n.first, n.second, n.third, n.fourth);
    return false;
}

Pass pass_questions(const Questions &questions)
{
    return [questions] {
        uint32_t sum = 0;
        for (const Question &q : questions) {
            rifflerleek_four_numbers n = ask(q);
            sum += n.first + n.second + n.third + n.fourth;
        }
        sink = sink + sum;
    };
}

} // namespace

int main()
{
    std::vector<Pass> contestants;
    for (uint32_t width : widths) {
        Questions questions = draw_questions(width);
        if (!std::all_of(questions.begin(), questions.end(), is_right))
            return 1;
        contestants.push_back(pass_questions(questions));
    }
    std::vector<double> times = measure(contestants);
    std::vector<Line> lines = {{"width", "rifflerleek_range, ns", "times that at width 8"}};
    for (std::size_t i = 0; i < times.size(); i++)
        lines.push_back({std::to_string(widths[i]), figure(times[i] / PAIRS), figure(times[i] / times[0])});
    print_markdown(lines);
    std::printf("\n");
    print_verdict(goal, {{"width 32", times.back() / times.front()}});
    return 0;
}
