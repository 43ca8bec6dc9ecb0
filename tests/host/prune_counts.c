// What calls of prune show of tables, marks and records, counted.
#include "prune_calls.h"
#include <string.h>

enum { MOST_ROWS = 256, SHAPES = 9, OF_TARGETS = 4, OF_STORES = 7 };

static unsigned kept[KINDS], dropped[KINDS], shapes[SHAPES], of_targets[OF_TARGETS], of_stores[OF_STORES];

static int in_span(const uint32_t *w, uint32_t row)
{
    return w[5] <= row && row - w[5] < w[4];
}

// Counts a record that stays and has a target.
static void count_target(const uint32_t *w)
{
    of_targets[0] += ref_reads(w, w[1]) && w[0] != LOAD;
    of_targets[1] += w[0] == LOAD && w[2] == w[1];
    of_targets[2] += w[0] == LOAD && in_span(w, w[1]);
    of_targets[3] += w[0] == ITE && w[5] == w[1];
}

// Counts a store that stays, after which these rows are needed: an address that no record writes is known, and is that of a cell that is not
// needed, or of none; the first cell or the last is the one that is needed.
static void count_store(const struct draft *d, const uint32_t *w, const uint8_t *needed)
{
    uint32_t cells = 0;
    for (uint32_t i = 0; i < w[4]; i++)
        cells += needed[w[5] + i];
    int known = d->mask[w[2]] == 0 && !is_written(d, w[2]);
    uint32_t address = d->value[w[2]];
    of_stores[0] += known && address < w[4] && !needed[w[5] + address];
    of_stores[1] += known && address >= w[4];
    of_stores[2] += in_span(w, w[2]) && !needed[w[2]];
    of_stores[3] += in_span(w, w[3]) && !needed[w[3]];
    of_stores[4] += w[4] > 1 && cells == 1 && needed[w[5]];
    of_stores[5] += w[4] > 1 && cells == 1 && needed[w[5] + w[4] - 1];
    of_stores[6] += w[4] > 1 && cells == w[4];
}

static void count_records(const struct pruned *q)
{
    uint8_t after[MOST_ROWS], needed[MOST_ROWS];
    const struct draft *d = &q->d;
    memcpy(needed, q->marks, d->widths);
    for (size_t r = d->word_count / RECORD_WORDS; r-- > 0;) {
        const uint32_t *w = d->words + RECORD_WORDS * r;
        memcpy(after, needed, d->widths);
        if (!ref_step_back(w, d->widths, needed)) {
            dropped[w[0]]++;
            continue;
        }
        kept[w[0]]++;
        if (w[0] == STORE)
            count_store(d, w, after);
        else
            count_target(w);
    }
}

void count_pruned(const struct pruned *q, size_t staying)
{
    size_t marked = 0, locked = 0, rows = q->d.widths, records = q->d.word_count / RECORD_WORDS;
    for (size_t i = 0; i < rows; i++) {
        marked += q->marks[i];
        locked += q->marks[i] == 1 && q->d.lock[i] == 1;
    }
    shapes[0] += rows > 1 && marked == 0;
    shapes[1] += rows > 1 && marked == 1;
    shapes[2] += rows > 1 && marked == rows;
    shapes[3] += locked > 0;
    shapes[4] += records == 0;
    shapes[5] += records > 1 && staying == 0 && marked > 0;
    shapes[6] += records > 1 && staying == records;
    shapes[7] += staying > 1 && records - staying > 1;
    shapes[8] += rows == 256 && records == 1024;
    count_records(q);
}

int report_pruned(void)
{
    int missing = report_counts("prune with no row marked, one, all, a locked one; without records, none of which stays, of which all do, two or "
                                "more and two or more not; of 256 rows and 1,024 records", NULL, shapes, SHAPES);
    missing += report_counts("records that stay, by kind", NULL, kept, KINDS);
    missing += report_counts("records that do not, by kind", NULL, dropped, KINDS);
    missing += report_counts("records that stay whose target is an operand, the address of a load, a cell of it, the condition of an ite", NULL,
                             of_targets, OF_TARGETS);
    return missing + report_counts("stores that stay with an address known as that of a cell that is not needed, as that of none; whose address "
                                   "is a cell that was not needed, whose data is; of whose cells the first alone is needed, the last, all",
                                   NULL, of_stores, OF_STORES);
}
