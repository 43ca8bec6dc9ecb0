// Why a bit is unknown: rifflerleek_witnesses against plain search. All answers are judged, then all calls are timed, and the goal is
// judged.
#include "goals.h"
#include "search.h"

namespace {

constexpr Goal goal = {"witnesses at width 32, of operands with 16 unknown bits each, in at most 20 microseconds", 20, false,
                       "time in microseconds"};

constexpr const char *library_name = "rifflerleek_witnesses", *search_name = "plain search";

constexpr unsigned UNKNOWN = 16;
constexpr uint32_t MOST_PAIRS = 1000000; // a search is given up after so many
constexpr uint32_t RARE = 1000;          // a value is rare where so many pairs do not show it
constexpr std::size_t RARE_QUESTIONS = 64;

using Questions = std::vector<Question>;

// A kind's questions, the passes of both contestants over them, and how many searches of a pass are given up.
struct Trial {
    const char *kind, *inputs;
    std::size_t questions, given_up;
    Pass library, search;
};

// Ones from a random bit up to another.
uint32_t draw_run(std::mt19937 &random)
{
    uint32_t low = below(random, WIDTH);
    return ones(1 + below(random, WIDTH - low)) << low;
}

// A run of unknown bits and a run of ones, zeros elsewhere.
Planes draw_runs(std::mt19937 &random)
{
    uint32_t mask = draw_run(random);
    return {mask, draw_run(random) & ~mask};
}

template <uint32_t kind> rifflerleek_four_numbers ask(const Question &q)
{
    return rifflerleek_witnesses(kind, WIDTH, q.a.mask, q.a.value, q.b.mask, q.b.value, q.bit);
}

// So many questions of unknown bits; where rare is true, only such as have a rare value. Draw gives a vector. Fails if the library has a
// bit as known of which search shows both values.
template <uint32_t kind, class Draw> Questions draw_questions(std::size_t count, bool rare, Draw draw)
{
    std::mt19937 random(SEED);
    uint64_t state = SEED;
    Questions questions;
    while (questions.size() < count) {
        Planes a = draw(random), b = draw(random);
        Question q = {a, b, below(random, WIDTH)};
        rifflerleek_four_numbers n = ask<kind>(q);
        bool unknown = explains<kind>(library_name, q, n), common = explains<kind>(search_name, q, search<kind>(q, state, RARE));
        if (common && !unknown)
            fail<kind>(library_name, q, n);
        if (unknown && !(rare && common))
            questions.push_back(q);
    }
    return questions;
}

template <class Answer> Pass pass_questions(const Questions &questions, Answer answer)
{
    return [questions, answer] {
        uint32_t sum = 0;
        Answer again = answer; // a copy, so that every pass starts with the same random words
        for (const Question &q : questions) {
            rifflerleek_four_numbers n = again(q);
            sum += n.first + n.second + n.third + n.fourth;
        }
        sink = sink + sum;
    };
}

template <uint32_t kind> Trial trial_of(const char *name, const char *inputs, const Questions &questions)
{
    auto searched = [state = uint64_t{SEED}](const Question &q) mutable { return search<kind>(q, state, MOST_PAIRS); };
    auto asked = [](const Question &q) { return ask<kind>(q); };
    Trial t = {name, inputs, questions.size(), 0, pass_questions(questions, asked), pass_questions(questions, searched)};
    for (const Question &q : questions)
        t.given_up += !explains<kind>(search_name, q, searched(q));
    return t;
}

template <uint32_t kind> void add_trials(std::vector<Trial> &trials, const char *name)
{
    auto any = [](std::mt19937 &random) { return draw_vector(random, WIDTH, UNKNOWN); };
    trials.push_back(trial_of<kind>(name, "16 unknown bits", draw_questions<kind>(PAIRS, false, any)));
    trials.push_back(trial_of<kind>(name, "runs, a rare value", draw_questions<kind>(RARE_QUESTIONS, true, draw_runs)));
}

} // namespace

int main()
{
    std::vector<Trial> trials;
    add_trials<RIFFLERLEEK_KIND_MUL>(trials, "mul");
    add_trials<RIFFLERLEEK_KIND_ADD>(trials, "add");
    add_trials<RIFFLERLEEK_KIND_SUB>(trials, "sub");
    std::vector<Pass> contestants;
    for (const Trial &t : trials)
        contestants.insert(contestants.end(), {t.library, t.search});
    std::vector<double> times = measure(contestants);
    std::vector<Line> lines = {{"kind", "inputs", library_name + std::string(", ns"), search_name + std::string(", ns"), "searches given up"}};
    std::vector<Measured> measured;
    for (std::size_t i = 0; i < trials.size(); i++) {
        const Trial &t = trials[i];
        double count = static_cast<double>(t.questions), library = times[2 * i] / count, search = times[2 * i + 1] / count;
        lines.push_back({t.kind, t.inputs, figure(library), figure(search),
                         std::to_string(t.given_up) + " of " + std::to_string(t.questions)});
        if (t.questions == PAIRS) // those of 16 unknown bits
            measured.push_back({t.kind, library / 1e3});
    }
    print_markdown(lines);
    std::printf("\n");
    print_verdict(goal, measured);
    return 0;
}
