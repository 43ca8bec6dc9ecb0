// Two archives of the library in one program, on the same tables, of the kinds that both know: before_run, before_write and before_read
// are calls of the older one. Runs first; then write and read of the largest table. Fails if the rows that they leave differ, or the text
// that they write, or the table that they read; rows named twice are not compared, since what they give changed with 02, request 2. An
// older archive whose records have five words, as before 02, request 11, is lent the same tables in five words, and each archive then
// writes and reads a text of its own edition.
#include "goals.h"
#include "texts.h"

extern "C" {
Run before_run;
Write before_write;
Read before_read;
}

namespace {

constexpr Goal mixed_goal = {"a run of the mixed table at most 0.8 of its time before", 0.8, false};
constexpr Goal add_goal = {"a run of the add records at most 0.75 of its time before", 0.75, false};
constexpr Goal twice_goal = {"a run of records that name one row twice at most its time before", 1, false};

// What a record of a kind on one row, of so many words, is refused as.
uint32_t refusal_of(Run *run, uint32_t kind, std::size_t count)
{
    uint8_t width = 1, lock = 0;
    uint32_t mask = 0, value = 0, words[RIFFLERLEEK_RECORD_WORDS] = {kind};
    return run(&width, 1, &lock, 1, &mask, 1, &value, 1, words, count, 0, 0).refusal;
}

// How many words a record has to an archive.
std::size_t record_words(Run *run)
{
    bool six = refusal_of(run, RIFFLERLEEK_KIND_COPY, RIFFLERLEEK_RECORD_WORDS) != RIFFLERLEEK_REFUSED_RECORDS;
    return six ? RIFFLERLEEK_RECORD_WORDS : RIFFLERLEEK_RECORD_WORDS - 1;
}

// The table as an archive takes it. In five words the condition of an ite is its parameter.
Table lent_to(Run *run, const Table &t)
{
    if (record_words(run) == RIFFLERLEEK_RECORD_WORDS)
        return t;
    Table five = {t.width, t.lock, t.mask, t.value, {}};
    for (std::size_t i = 0; i < t.words.size(); i += RIFFLERLEEK_RECORD_WORDS) {
        const uint32_t *w = &t.words[i];
        five.words.insert(five.words.end(), {w[0], w[1], w[2], w[3], w[4] | w[5]});
    }
    return five;
}

bool knows(Run *run, uint32_t kind)
{
    return refusal_of(run, kind, record_words(run)) != RIFFLERLEEK_REFUSED_KIND;
}

// How many kinds both archives know.
uint32_t common_kinds()
{
    uint32_t kinds = 0;
    while (kinds < KINDS && knows(before_run, kinds) && knows(rifflerleek_run, kinds))
        kinds++;
    return kinds;
}

// Whether both leave the same rows.
bool agree(const Table &start)
{
    Table before = lent_to(before_run, start), after = start;
    run_records(before_run, before, RECORDS);
    run_records(rifflerleek_run, after, RECORDS);
    return before.mask == after.mask && before.value == after.value;
}

// The line of a table's run or of its checks alone, from the times before and after.
Line line_of(const char *name, const char *work, const double *times)
{
    return {name, work, figure(times[0] / RECORDS), figure(times[1] / RECORDS), figure(times[1] / times[0])};
}

// Whether both leave the same rows of every table; says where not.
bool agree_on(const std::vector<Table> &starts)
{
    for (std::size_t i = 0; i < starts.size(); i++)
        if (!plans[i].twice && !agree(starts[i])) {
            std::printf("%s: the two archives leave different rows\n", plans[i].name);
            return false;
        }
    return true;
}

bool compare_runs(uint32_t kinds)
{
    std::vector<Table> starts = draw_tables(kinds), tables = starts, before;
    if (!agree_on(starts))
        return false;
    for (const Table &t : starts)
        before.push_back(lent_to(before_run, t));
    std::vector<Pass> contestants;
    for (std::size_t i = 0; i < starts.size(); i++)
        for (std::size_t last : {std::size_t{RECORDS}, std::size_t{0}})
            contestants.insert(contestants.end(), {pass_from(before_run, before[i], starts[i], last),
                                                   pass_from(rifflerleek_run, tables[i], starts[i], last)});
    std::vector<double> times = measure(contestants);
    std::vector<Line> lines = {{"table", "work", "before, ns a record", "after, ns a record", "after / before"}};
    for (std::size_t i = 0; i < starts.size(); i++) {
        lines.push_back(line_of(plans[i].name, "run", &times[4 * i]));
        lines.push_back(line_of(plans[i].name, "checks alone", &times[4 * i + 2]));
    }
    print_markdown(lines);
    std::printf("\n");
    print_verdict(mixed_goal, {{plans[MIXED].name, times[4 * MIXED + 1] / times[4 * MIXED]}});
    print_verdict(add_goal, {{plans[ADD].name, times[4 * ADD + 1] / times[4 * ADD]}});
    print_verdict(twice_goal, {{plans[TWICE].name, times[4 * TWICE + 1] / times[4 * TWICE]}});
    return true;
}

// The line of a call on the texts of the largest table, from the times before and after.
Line text_line(const char *call, const Bytes &before, const Bytes &after, const double *times)
{
    return {call,
            std::to_string(after.size()),
            figure(times[0]),
            figure(times[1]),
            figure(rate(before.size(), times[0])),
            figure(rate(after.size(), times[1])),
            figure(times[1] / times[0])};
}

bool compare_texts(uint32_t kinds)
{
    const Table t = draw_largest(kinds), s = lent_to(before_run, t);
    const Bytes before = text_of(before_write, s), after = text_of(rifflerleek_write, t);
    bool one_text = before == after || record_words(before_run) != RIFFLERLEEK_RECORD_WORDS;
    if (!one_text || !same(table_of(before_read, before, s), s) || !same(table_of(rifflerleek_read, after, t), t)) {
        std::printf("the largest table: the two archives write different texts, or read another table\n");
        return false;
    }
    Table r = t, q = s;
    Bytes out(MOST_BYTES);
    std::vector<double> times = measure({[&] { write_text(before_write, s, out); }, [&] { write_text(rifflerleek_write, t, out); },
                                         [&] { read_text(before_read, before, q); }, [&] { read_text(rifflerleek_read, after, r); }});
    print_markdown({{"call", "bytes", "before, ns", "after, ns", "before, million bytes a second", "after, million bytes a second", "after / before"},
                    text_line("write", before, after, &times[0]),
                    text_line("read", before, after, &times[2])});
    return true;
}

} // namespace

int main()
{
    uint32_t kinds = common_kinds();
    if (!compare_runs(kinds))
        return 1;
    std::printf("\n");
    return compare_texts(kinds) ? 0 : 1;
}
