// Random calls of reset_bits.
#include "reset_calls.h"
#include <string.h>

// Of two faults at once the first is one of the table, 1 to 10, or of the row named, or of the bit's number; the second is of the row, of
// the bit's number, or that the bit ends X.
enum { OF_TABLE = 10, OF_ROW = 0, OF_BIT, ENDS_X, SECONDS, ROWS = 4, TABLES = 8 };

static unsigned conclusions[2], rows[ROWS], tables[TABLES], table_faults[SECONDS][OF_TABLE], row_faults[SECONDS], bit_faults[SECONDS];

struct ref_answer reference_of(const struct reset *q, struct draft *left, int *exact)
{
    *left = q->d;
    struct ref_table t = slices(left);
    return ref_reset_bits(&t, q->row, q->bit, LIMIT, exact);
}

void judge_reset(struct reset *q, const struct draft *left, struct ref_answer right)
{
    struct ref_table r, t = lend_table(&q->d, &r);
    memcpy(r.mask, left->mask, 4 * left->masks);
    memcpy(r.value, left->value, 4 * left->values);
    compare(RESET_BITS, library_reset_bits(&t, q->row, q->bit), right);
}

// Counts what became of the rows of a table that was not refused.
static void count_rows(const struct reset *q, const struct draft *left)
{
    int locked = 0, kept = 0, dropped = 0;
    for (size_t i = 0; i < q->d.widths; i++) {
        uint32_t before = known_bits(&q->d, i), after = known_bits(left, i);
        if (q->d.lock[i] == 1) {
            locked |= before != 0;
            continue;
        }
        int written = is_written(&q->d, i);
        rows[0] += written && after != before;
        rows[1] += written && after != 0;
        rows[2] += i == q->row && after != before;
        rows[3] += i == q->row && after != 0;
        kept |= after != 0;
        dropped |= after != before;
    }
    tables[0] += locked != 0;
    tables[1] += q->d.lock[q->row] == 1;
    tables[2] += q->d.word_count == 0;
    tables[3] += dropped && !kept;
    tables[4] += q->d.widths == 256 && q->d.word_count == RECORD_WORDS * 1024;
    tables[6] += (unsigned)has_kind(&q->d, LOAD);
    tables[7] += (unsigned)has_kind(&q->d, STORE);
}

// Whether a run of all records changes the rows.
static int run_changes(const struct reset *q)
{
    static struct draft work;
    int exact;
    work = q->d;
    struct ref_table t = slices(&work);
    ref_run(&t, 0, work.word_count / RECORD_WORDS, LIMIT, &exact);
    return memcmp(work.mask, q->d.mask, 4 * work.masks) != 0 || memcmp(work.value, q->d.value, 4 * work.values) != 0;
}

// Mends what was refused. A row or a bit that is too great becomes what a careless cast or shift makes of it, where that is right.
static void mend(struct reset *q, struct ref_answer refused, uint32_t of_table)
{
    if (of_table != 0)
        mend_table(&q->d, refused);
    else if (refused.refusal == RIFFLERLEEK_REFUSED_ROW)
        q->row = (uint32_t)q->row < q->d.widths ? (uint32_t)q->row : q->row % q->d.widths;
    else
        q->bit = q->bit % 32 < q->d.width[q->row] ? q->bit % 32 : q->bit % q->d.width[q->row];
}

// Counts two faults at once: what was refused, and what is where that is mended.
static void count_two(struct reset *q, struct ref_answer refused)
{
    static struct draft left;
    int exact;
    uint32_t of_table = table_refusal(&q->d);
    mend(q, refused, of_table);
    uint32_t next = table_refusal(&q->d) != 0 ? RIFFLERLEEK_DONE : reference_of(q, &left, &exact).refusal;
    if (next == RIFFLERLEEK_DONE)
        return;
    int second = next == RIFFLERLEEK_REFUSED_ROW ? OF_ROW : next == RIFFLERLEEK_REFUSED_BIT ? OF_BIT : ENDS_X;
    if (of_table != 0)
        table_faults[second][of_table - 1]++;
    else if (refused.refusal == RIFFLERLEEK_REFUSED_ROW)
        row_faults[second]++;
    else
        bit_faults[second]++;
}

void call_reset_bits(void)
{
    static struct reset q;
    static struct draft left;
    struct ref_answer right;
    int exact;
    do { // the choices may not settle a run that is tried: draw another
        draw_reset(&q);
        right = reference_of(&q, &left, &exact);
    } while (!exact);
    judge_reset(&q, &left, right);
    if (right.refusal == RIFFLERLEEK_DONE) {
        conclusions[right.result]++;
        count_rows(&q, &left);
    } else if (right.refusal == RIFFLERLEEK_REFUSED_UNKNOWN)
        tables[5] += (unsigned)run_changes(&q);
    else
        count_two(&q, right);
}

int report_resets(void)
{
    int missing = report_counts("reset_bits, conclusions", "01", conclusions, 2);
    missing += report_counts("reset_bits, rows that a record writes with a bit made X, with one kept; the row named so", NULL, rows, ROWS);
    missing += report_counts("reset_bits with known bits in locked rows, of a locked row, without records, where no bit is kept, of 256 rows "
                             "and 1,024 records; refused as 19 where a run changes rows; with loads, with stores", NULL, tables, TABLES);
    missing += report_counts("reset_bits with two faults, 1 to 10 and 7 of the row", NULL, table_faults[OF_ROW], OF_TABLE);
    missing += report_counts("reset_bits with two faults, 1 to 10 and 15", NULL, table_faults[OF_BIT], OF_TABLE);
    missing += report_counts("reset_bits with two faults, 1 to 10 and 19", NULL, table_faults[ENDS_X], OF_TABLE);
    missing += report_counts("reset_bits with two faults, 7 of the row and 15, 7 of the row and 19", NULL, row_faults + OF_BIT, 2);
    missing += report_counts("reset_bits with two faults, 15 and 19", NULL, bit_faults + ENDS_X, 1);
    return missing + report_reset_sweep();
}
