// Whole tables through rifflerleek_run: the time that a record takes, and the checks' part of it.
#include "markdown.h"
#include "tables.h"

namespace {

// The table's line. With an empty stretch the whole table is checked and no record is run.
Line line_of(const Plan &plan, double run, double empty)
{
    double record = run / RECORDS, checks = empty / RECORDS;
    return {plan.name, std::to_string(RECORDS), figure(record), figure(1e3 / record), figure(checks), figure(100 * empty / run)};
}

} // namespace

int main()
{
    std::vector<Table> starts = draw_tables(KINDS), tables = starts;
    std::vector<Pass> contestants;
    for (std::size_t i = 0; i < starts.size(); i++)
        contestants.insert(contestants.end(), {pass_from(rifflerleek_run, tables[i], starts[i], RECORDS),
                                               pass_from(rifflerleek_run, tables[i], starts[i], 0)});
    std::vector<double> times = measure(contestants);
    std::vector<Line> lines = {
        {"table", "records", "ns a record", "million records a second", "checks, ns a record", "checks, percent"}};
    for (std::size_t i = 0; i < starts.size(); i++)
        lines.push_back(line_of(plans[i], times[2 * i], times[2 * i + 1]));
    print_markdown(lines);
    return 0;
}
