// What designs reach in all clocks: rifflerleek_settle on chains of state rows, which take the most rounds, with the most records, of kinds
// that are fast and that are slow, and on a counter. All answers are judged, then all calls are timed, and the goal is judged.
#include "goals.h"
#include "settling.h"

namespace {

constexpr Goal goal = {"settle of 255 state rows of width 32, which takes 8,161 rounds, and 1,024 records in at most 5 seconds", 5, false,
                       "time in seconds"};

constexpr int TIMINGS = 3, SLOW_TIMINGS = 1; // a call takes long, so few will do

// The number of rounds; the rows become those of the last one. A refusal ends the program.
std::size_t settle(const Design &d, Table &t)
{
    std::size_t rows = t.width.size();
    rifflerleek_answer a = rifflerleek_settle(t.width.data(), rows, t.lock.data(), rows, t.mask.data(), rows, t.value.data(), rows,
                                              t.words.data(), t.words.size(), d.states.data(), d.states.size(), d.nexts.data(),
                                              d.nexts.size());
    if (a.refusal != RIFFLERLEEK_DONE) {
        std::printf("settle: refusal %u\n", a.refusal);
        std::exit(1);
    }
    return a.result;
}

bool covers(Planes outer, Planes inner)
{
    Planes both = join(outer, inner);
    return both.mask == outer.mask && both.value == outer.value;
}

// Whether the state rows left cover their start and what their next rows hold.
bool is_settled(const Design &d, const Table &left)
{
    for (std::size_t i = 0; i < d.states.size(); i++) {
        Planes state = row_at(left, d.states[i]);
        if (!covers(state, row_at(d.start, d.states[i])) || !covers(state, row_at(left, d.nexts[i])))
            return false;
    }
    return true;
}

// Ends the program where the rounds are not as many as they must be, or where the rows left are not those that a run from the state left
// leaves, or would make that state wider.
void judge(const Design &d)
{
    Table left = d.start, again = d.start;
    std::size_t rounds = settle(d, left);
    for (uint32_t i : d.states) {
        again.mask[i] = left.mask[i];
        again.value[i] = left.value[i];
    }
    run_records(rifflerleek_run, again, records_of(again));
    if (rounds != d.rounds || again.mask != left.mask || again.value != left.value || !is_settled(d, left)) {
        std::printf("rifflerleek_settle is wrong: %s, %s: %zu rounds\n", d.name, d.records, rounds);
        std::exit(1);
    }
}

// Judges all designs, then times them, in nanoseconds a call.
std::vector<double> times_of(const std::vector<Design> &designs, int timings)
{
    std::vector<Pass> contestants;
    for (const Design &d : designs) {
        judge(d);
        contestants.push_back([&d, t = d.start]() mutable {
            put_back(t, d.start);
            settle(d, t);
        });
    }
    return measure(contestants, timings);
}

Line line_of(const Design &d, double time)
{
    std::size_t records = records_of(d.start);
    return {d.name, d.records, std::to_string(d.states.size()), std::to_string(records), std::to_string(d.rounds), figure(time / 1e3),
            figure(time / static_cast<double>(d.rounds * records))};
}

} // namespace

int main()
{
    const std::vector<Design> designs = draw_designs(), slow = slow_designs();
    std::vector<double> times = times_of(designs, TIMINGS), slow_times = times_of(slow, SLOW_TIMINGS);
    std::vector<Line> lines = {{"design", "records of", "state rows", "records", "rounds", "microseconds", "ns a round and record"}};
    std::vector<Measured> longest;
    for (std::size_t i = 0; i < designs.size(); i++) {
        lines.push_back(line_of(designs[i], times[i]));
        if (designs[i].states.size() == LAST)
            longest.push_back({designs[i].records, times[i] / 1e9});
    }
    for (std::size_t i = 0; i < slow.size(); i++)
        lines.push_back(line_of(slow[i], slow_times[i]));
    print_markdown(lines);
    std::printf("\n");
    print_verdict(goal, longest);
    return 0;
}
