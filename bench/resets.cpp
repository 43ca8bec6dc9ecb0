// Which start bits a conclusion rests on: rifflerleek_reset_bits on tables with the most rows and records, all rows open, known and of width
// 32, on tables with half of the known bits or half of the records, and on one whose records take long. All answers are judged, then all
// calls are timed, and the goal is judged.
#include "goals.h"
#include "resets.h"

namespace {

constexpr Goal goal = {"reset_bits of 256 rows of width 32, all open and known, and 1,024 records in at most 2 seconds", 2, false,
                       "time in seconds"};

constexpr int TIMINGS = 3; // a call takes long, so few will do

// The value of the conclusion; the rows become those left. A refusal ends the program.
std::size_t ask(const Question &q, Table &t)
{
    std::size_t rows = t.width.size();
    rifflerleek_answer a = rifflerleek_reset_bits(t.width.data(), rows, t.lock.data(), rows, t.mask.data(), rows, t.value.data(), rows,
                                                  t.words.data(), t.words.size(), q.row, WIDTH - 1);
    if (a.refusal != RIFFLERLEEK_DONE) {
        std::printf("reset_bits: refusal %u\n", a.refusal);
        std::exit(1);
    }
    return a.result;
}

// Whether the conclusion has this value after a run from the table's rows.
bool concludes(const Question &q, Table t, std::size_t value)
{
    run_records(rifflerleek_run, t, records_of(t));
    return t.mask[q.row] >> (WIDTH - 1) == 0 && t.value[q.row] >> (WIDTH - 1) == value;
}

// Calls what it is given with each known bit of an open row, by row and place.
template <class Visit> void for_known(const Table &t, Visit visit)
{
    for (std::size_t i = 0; i < t.width.size(); i++)
        for (uint32_t k = 0; k < t.width[i]; k++)
            if (t.lock[i] == 0 && (t.mask[i] >> k & 1) == 0)
                visit(i, uint32_t{1} << k);
}

std::size_t known_bits(const Table &t)
{
    std::size_t known = 0;
    for_known(t, [&](std::size_t, uint32_t) { known++; });
    return known;
}

// Whether the rows left are those of the start, but for known bits of open rows that became X.
bool only_forgets(const Table &start, const Table &left)
{
    for (std::size_t i = 0; i < left.width.size(); i++) {
        uint32_t more = left.mask[i] ^ start.mask[i];
        if (left.value[i] != (start.value[i] & ~more) || (more & start.mask[i]) != 0 || (more != 0 && left.lock[i] == 1))
            return false;
    }
    return true;
}

// How many known bits the call leaves in open rows. Ends the program where the conclusion does not hold from the rows left, or still holds
// with one more bit X.
std::size_t judge(const Question &q)
{
    Table left = q.start;
    std::size_t value = ask(q, left);
    bool right = only_forgets(q.start, left) && concludes(q, left, value);
    for_known(left, [&](std::size_t i, uint32_t place) {
        Table wider = left;
        wider.mask[i] |= place;
        wider.value[i] &= ~place;
        right = right && !concludes(q, wider, value);
    });
    if (!right) {
        std::printf("rifflerleek_reset_bits is wrong: %s, %s\n", q.name, q.conclusion);
        std::exit(1);
    }
    return known_bits(left);
}

Line line_of(const Question &q, std::size_t left, double time)
{
    std::size_t known = known_bits(q.start), records = records_of(q.start);
    return {q.name, q.conclusion, std::to_string(known), std::to_string(records), std::to_string(left), figure(time / 1e6),
            figure(time / static_cast<double>(known * records))};
}

} // namespace

int main()
{
    const std::vector<Question> questions = draw_questions();
    std::vector<std::size_t> left;
    std::vector<Pass> contestants;
    for (const Question &q : questions) {
        left.push_back(judge(q));
        contestants.push_back([&q] {
            Table t = q.start;
            ask(q, t);
        });
    }
    std::vector<double> times = measure(contestants, TIMINGS);
    std::vector<Line> lines = {{"table", "rests on", "known bits", "records", "bits left", "ms", "ns a known bit and record"}};
    std::vector<Measured> largest;
    for (std::size_t i = 0; i < questions.size(); i++) {
        const Question &q = questions[i];
        lines.push_back(line_of(q, left[i], times[i]));
        if (known_bits(q.start) == ROWS * WIDTH && records_of(q.start) == RECORDS)
            largest.push_back({std::string(q.name) + ", " + q.conclusion, times[i] / 1e9});
    }
    print_markdown(lines);
    std::printf("\n");
    print_verdict(goal, largest);
    return 0;
}
