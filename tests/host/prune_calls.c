// Random calls of prune.
#include "prune_calls.h"
#include <string.h>

enum { OF_TABLE = 10, DETAILS = 8 };

static unsigned alone[MARK_CAUSES], details[DETAILS], table_faults[2][OF_TABLE];

struct ref_answer judge_prune(struct pruned *q, uint32_t *words)
{
    struct ref_table r, t = lend_table(&q->d, &r);
    struct ref_marks other, m = marks_of(q);
    m.mark = lend(q->marks, q->mark_count, &other.mark);
    other.count = m.count;
    struct ref_answer right = ref_prune(&r, &other);
    memcpy(words, r.words, 4 * r.word_count);
    compare(PRUNE, library_prune(&t, &m), right);
    return right;
}

// Counts what a mark over 1 shows, where it is the one cause: it is one alone, at either end or not, and any number, also one that is even.
static void count_over(const struct pruned *q)
{
    size_t over = 0, at = 0;
    for (size_t i = 0; i < q->mark_count; i++)
        if (q->marks[i] > 1) {
            over++;
            at = i;
        }
    if (over != 1 || q->mark_count < 3)
        return;
    details[at == 0 ? 0 : at == q->mark_count - 1 ? 1 : 2]++;
    details[q->marks[at] == 2 ? 3 : 4]++;
}

void count_refused_marks(struct pruned *q, struct ref_answer refused)
{
    struct ref_table t = slices(&q->d);
    struct ref_marks m = marks_of(q);
    unsigned causes = ref_mark_causes(&t, &m);
    if (refused.refusal != RIFFLERLEEK_REFUSED_MARKS) {
        table_faults[0][refused.refusal - 1] += (causes & 1 << MARK_OVER_ONE) != 0;
        table_faults[1][refused.refusal - 1] += (causes & ~(1u << MARK_OVER_ONE)) != 0;
        return;
    }
    for (unsigned c = 0; c < MARK_CAUSES; c++)
        alone[c] += causes == 1u << c;
    if (causes == 1 << MARK_OVER_ONE)
        count_over(q);
    details[5] += causes == 1 << FEWER_MARKS && m.count == 0;
    details[6] += causes == 1 << MORE_MARKS && m.count == t.widths + 1;
    details[7] += causes == 1 << MORE_MARKS && m.count == t.widths + 256;
}

void call_prune(void)
{
    static struct pruned q;
    static uint32_t words[MAX_WORDS];
    draw_pruned(&q);
    struct ref_answer right = judge_prune(&q, words);
    if (right.refusal != RIFFLERLEEK_DONE) {
        count_refused_marks(&q, right);
        return;
    }
    run_both(&q, words, right.result);
    count_pruned(&q, right.result);
    if (percent(25))
        count_wrong_rules(&q, right.result);
}

int report_prunings(void)
{
    int missing = report_pruned();
    missing += report_wrong_rules();
    missing += report_marked_runs();
    missing += report_counts("prune refused as 21 for one cause alone: fewer marks, more marks, a mark over 1", NULL, alone, MARK_CAUSES);
    missing += report_counts("the same of one mark over 1, the first, the last, another, 2, greater; no marks, one more than the rows, 256 more",
                             NULL, details, DETAILS);
    missing += report_counts("prune with two faults, 1 to 10 and a mark over 1", NULL, table_faults[0], OF_TABLE);
    missing += report_counts("prune with two faults, 1 to 10 and another number of marks", NULL, table_faults[1], OF_TABLE);
    return missing + report_prune_sweep();
}
