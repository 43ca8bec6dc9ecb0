// Loads from 256 cells, and stores to them, through rifflerleek_run: tables of 256 rows of width 8, all of them cells, of which the first
// half are addresses. Beside them copies on the same rows. All rows left are compared with plain code; then all runs are timed. With an
// empty stretch the whole table is checked and no record is run.
#include "markdown.h"
#include "tables.h"

namespace {

constexpr uint32_t CELLS = 256, WIDTH = 8, ADDRESSES = CELLS / 2;

// A table of one kind, whose addresses have so many unknown bits.
struct Trial {
    const char *name;
    uint32_t kind;
    unsigned unknown;
};

constexpr Trial trials[] = {
    {"copy", RIFFLERLEEK_KIND_COPY, 0},   {"load", RIFFLERLEEK_KIND_LOAD, 0},   {"load", RIFFLERLEEK_KIND_LOAD, 4},
    {"load", RIFFLERLEEK_KIND_LOAD, 8},   {"store", RIFFLERLEEK_KIND_STORE, 0}, {"store", RIFFLERLEEK_KIND_STORE, 4},
    {"store", RIFFLERLEEK_KIND_STORE, 8},
};

// An address: of all cells where all its bits are unknown, else of cells of the second half, so that no known address is overwritten.
Planes draw_address(std::mt19937 &random, unsigned unknown)
{
    if (unknown == WIDTH)
        return {ones(WIDTH), 0};
    Planes low = draw_vector(random, WIDTH - 1, unknown);
    return {low.mask, low.value | ADDRESSES};
}

Table draw_table(const Trial &trial)
{
    std::mt19937 random(SEED);
    Table t = {std::vector<uint8_t>(CELLS, WIDTH), std::vector<uint8_t>(CELLS, 0), {}, {}, {}};
    for (uint32_t i = 0; i < CELLS; i++) {
        Planes row = i < ADDRESSES ? draw_address(random, trial.unknown) : draw_vector(random, WIDTH, 0);
        t.mask.push_back(row.mask);
        t.value.push_back(row.value);
    }
    for (uint32_t r = 0; r < RECORDS; r++) {
        uint32_t address = below(random, ADDRESSES), other = ADDRESSES + below(random, CELLS - ADDRESSES);
        if (trial.kind == RIFFLERLEEK_KIND_STORE)
            t.words.insert(t.words.end(), {trial.kind, 0, address, other, CELLS, 0});
        else
            t.words.insert(t.words.end(), {trial.kind, other, address, 0, trial.kind == RIFFLERLEEK_KIND_LOAD ? CELLS : 0, 0});
    }
    return t;
}

// A record's step by plain code: a load joins the cells that the address covers, a store joins old and new in each of them. All addresses
// are below 256.
void step(Table &t, const uint32_t *w)
{
    const Table old = t;
    auto put = [&](uint32_t i, Planes v) { t.mask[i] = v.mask, t.value[i] = v.value; };
    Planes address = row_at(old, w[2]);
    bool first = true;
    if (w[0] == RIFFLERLEEK_KIND_COPY)
        put(w[1], address);
    for (uint32_t i = 0; i < CELLS && w[0] != RIFFLERLEEK_KIND_COPY; i++) {
        if ((i & ~address.mask) != address.value)
            continue;
        Planes cell = row_at(old, i);
        if (w[0] == RIFFLERLEEK_KIND_LOAD)
            put(w[1], first ? cell : join(row_at(t, w[1]), cell));
        else
            put(i, address.mask == 0 ? row_at(old, w[3]) : join(cell, row_at(old, w[3])));
        first = false;
    }
}

// Whether the library leaves the rows of plain code. Says so where not.
bool judge(const Trial &trial, Table t)
{
    Table right = t;
    for (uint32_t r = 0; r < RECORDS; r++)
        step(right, &t.words[RIFFLERLEEK_RECORD_WORDS * r]);
    run_records(rifflerleek_run, t, RECORDS);
    if (t.mask == right.mask && t.value == right.value)
        return true;
    std::printf("%s with %u unknown bits: the rows left are wrong\n", trial.name, trial.unknown);
    return false;
}

} // namespace

int main()
{
    std::vector<Table> starts;
    for (const Trial &trial : trials) {
        starts.push_back(draw_table(trial));
        if (!judge(trial, starts.back()))
            return 1;
    }
    std::vector<Table> tables = starts;
    std::vector<Pass> contestants;
    for (std::size_t i = 0; i < starts.size(); i++)
        contestants.insert(contestants.end(), {pass_from(rifflerleek_run, tables[i], starts[i], RECORDS),
                                               pass_from(rifflerleek_run, tables[i], starts[i], 0)});
    std::vector<double> times = measure(contestants);
    std::vector<Line> lines = {{"256 cells", "unknown bits of the address", "ns a record", "checks, ns a record", "beside the checks, ns", "beside the checks / copy"}};
    for (std::size_t i = 0; i < starts.size(); i++) {
        double run = times[2 * i] / RECORDS, checks = times[2 * i + 1] / RECORDS, copy = (times[0] - times[1]) / RECORDS;
        lines.push_back({trials[i].name, std::to_string(trials[i].unknown), figure(run), figure(checks), figure(run - checks),
                         figure((run - checks) / copy)});
    }
    print_markdown(lines);
    return 0;
}
