// Which records feed marked rows: rifflerleek_prune on tables of 256 rows, with few records and with the most. Their records are add, of which
// all stay, every second one or none, or loads and stores of 256 cells, of which all stay or none. All answers are judged, then all calls
// are timed, and the goals are judged. Beside them rifflerleek_run with an empty stretch: it checks the whole table and runs no record.
#include "goals.h"
#include "tables.h"

namespace {

constexpr Goal time_goal = {"prune of 256 rows and 1,024 records in at most 1 millisecond", 1, false, "time in milliseconds"};
constexpr Goal linear_goal = {"prune with 1,024 records takes at most 1.2 times the time a record that it takes with 64", 1.2, false};

constexpr uint32_t ROWS = 256, CHAINS = 2, sizes[] = {64, 256, RECORDS};

// A table, its marks, and how many of its records stay.
struct Trial {
    const char *records, *staying;
    Table start;
    std::vector<uint8_t> marks;
    std::size_t stay;
};

// Open rows, all known.
Table draw_open(std::mt19937 &random, uint32_t width)
{
    Table t = {std::vector<uint8_t>(ROWS, static_cast<uint8_t>(width)), std::vector<uint8_t>(ROWS, 0), std::vector<uint32_t>(ROWS, 0), {}, {}};
    for (uint32_t i = 0; i < ROWS; i++)
        t.value.push_back(draw_vector(random, width, 0).value);
    return t;
}

// Two chains take turns, each on every second row: a record reads the row that the one before it in its chain wrote. All stay where the last
// row of both chains is marked, every second one where that of one is, and none where no row is.
std::vector<Trial> chains(uint32_t records)
{
    std::mt19937 random(SEED);
    Table t = draw_open(random, 32);
    uint32_t last[CHAINS] = {0, 1};
    for (uint32_t r = 0; r < records; r++) {
        uint32_t chain = r % CHAINS, target = CHAINS * below(random, ROWS / CHAINS) + chain, b = CHAINS * below(random, ROWS / CHAINS) + chain;
        t.words.insert(t.words.end(), {RIFFLERLEEK_KIND_ADD, target, last[chain], b, 0, 0});
        last[chain] = target;
    }
    std::vector<uint8_t> none(ROWS, 0), half = none, all;
    half[last[0]] = 1;
    all = half;
    all[last[1]] = 1;
    return {{"add", "all", t, all, records}, {"add", "every second", t, half, records / CHAINS}, {"add", "none", t, none, 0}};
}

// Each record addresses all rows, which are its cells. All stay where all rows are marked.
std::vector<Trial> memories(const char *name, bool stores, uint32_t records)
{
    std::mt19937 random(SEED);
    Table t = draw_open(random, 8);
    for (uint32_t r = 0; r < records; r++) {
        uint32_t address = below(random, ROWS), other = below(random, ROWS);
        if (stores)
            t.words.insert(t.words.end(), {RIFFLERLEEK_KIND_STORE, 0, address, other, ROWS, 0});
        else
            t.words.insert(t.words.end(), {RIFFLERLEEK_KIND_LOAD, other, address, 0, ROWS, 0});
    }
    return {{name, "all", t, std::vector<uint8_t>(ROWS, 1), records}, {name, "none", t, std::vector<uint8_t>(ROWS, 0), 0}};
}

std::vector<Trial> draw_trials()
{
    std::vector<Trial> trials;
    for (uint32_t records : sizes)
        for (const std::vector<Trial> &some :
             {chains(records), memories("load, 256 cells", false, records), memories("store, 256 cells", true, records)})
            trials.insert(trials.end(), some.begin(), some.end());
    return trials;
}

// How many records stay; the words become theirs. A refusal ends the program.
std::size_t prune(const Trial &trial, Table &t)
{
    rifflerleek_answer a = rifflerleek_prune(t.width.data(), ROWS, t.lock.data(), ROWS, t.mask.data(), ROWS, t.value.data(), ROWS,
                                             t.words.data(), t.words.size(), trial.marks.data(), trial.marks.size());
    if (a.refusal != RIFFLERLEEK_DONE) {
        std::printf("prune: refusal %u\n", a.refusal);
        std::exit(1);
    }
    return a.result;
}

// Ends the program where not as many records stay as must, or where a run of them does not leave marked rows as a run of all does.
void judge(const Trial &trial)
{
    Table old = trial.start, left = trial.start;
    std::size_t stay = prune(trial, left);
    run_records(rifflerleek_run, old, records_of(old));
    left.words.resize(RIFFLERLEEK_RECORD_WORDS * stay);
    run_records(rifflerleek_run, left, stay);
    bool right = stay == trial.stay;
    for (uint32_t i = 0; i < ROWS; i++)
        right = right && (trial.marks[i] == 0 || (left.mask[i] == old.mask[i] && left.value[i] == old.value[i]));
    if (!right) {
        std::printf("rifflerleek_prune is wrong: %s, %s, %zu records\n", trial.records, trial.staying, records_of(old));
        std::exit(1);
    }
}

// Judges all trials, then times each call, from the words as they were, and the checks of each table, in nanoseconds.
std::vector<double> times_of(const std::vector<Trial> &trials)
{
    std::vector<Pass> contestants;
    for (const Trial &trial : trials) {
        judge(trial);
        contestants.push_back([&trial, t = trial.start]() mutable {
            std::memcpy(t.words.data(), trial.start.words.data(), t.words.size() * sizeof t.words[0]);
            prune(trial, t);
        });
        contestants.push_back([t = trial.start]() mutable { run_records(rifflerleek_run, t, 0); });
    }
    return measure(contestants);
}

} // namespace

int main()
{
    const std::vector<Trial> trials = draw_trials();
    std::vector<double> times = times_of(trials);
    std::vector<Line> lines = {{"records of", "that stay", "records", "microseconds", "ns a record", "checks, ns a record"}};
    std::vector<Measured> largest, growth;
    std::size_t tables = trials.size() / std::size(sizes);
    for (std::size_t i = 0; i < trials.size(); i++) {
        double records = static_cast<double>(records_of(trials[i].start));
        lines.push_back({trials[i].records, trials[i].staying, std::to_string(records_of(trials[i].start)), figure(times[2 * i] / 1e3),
                         figure(times[2 * i] / records), figure(times[2 * i + 1] / records)});
        std::string place = std::string(trials[i].records) + ", " + trials[i].staying;
        if (records == RECORDS) {
            largest.push_back({place, times[2 * i] / 1e6});
            growth.push_back({place, times[2 * i] / RECORDS / (times[2 * (i % tables)] / sizes[0])});
        }
    }
    print_markdown(lines);
    std::printf("\n");
    print_verdict(time_goal, largest);
    print_verdict(linear_goal, growth);
    return 0;
}
