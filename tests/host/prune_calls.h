// Calls of prune: random ones, and every two records on three rows. And runs of the records that stay, after which marked rows must be as
// after a run of all.
#ifndef PRUNE_CALLS_H
#define PRUNE_CALLS_H

#include "compare.h"

// rifflerleek_prune, on the library and the reference; where it is not refused marked rows must end as before.
void call_prune(void);

// What the reference answers, which the library must answer too, and the words that both leave.
struct ref_answer judge_prune(struct pruned *q, uint32_t *words);

// The same for every table of two records on three rows, with every marking.
void sweep_prunings(void);

// Runs of all records of a table that was not refused, and of those that stay, so many from these words on: from the lent start rows, from
// other start rows, and from plain numbers. Where a marked row does not end as before the program ends.
void run_both(struct pruned *q, uint32_t *words, size_t records);

// Counts a table that was not refused, so many of whose records stay, and its records.
void count_pruned(const struct pruned *q, size_t staying);

// Counts whether a wrong rule would show: others than these records, so many, would stay.
void count_wrong_rules(const struct pruned *q, size_t staying);

// Counts a refusal, of the marks or of the table.
void count_refused_marks(struct pruned *q, struct ref_answer refused);

// What must be seen, how often it was, and how many of it never: tables and marks of each shape; records of each kind that stay and that do
// not; tables that show each wrong rule; each cause of 21 alone, and each fault of the table before it; runs, after which rows that are not
// marked differ; and how many stay in the sweep.
int report_prunings(void);

// The parts that the other files count, which report_prunings prints too.
int report_pruned(void);
int report_wrong_rules(void);
int report_marked_runs(void);
int report_prune_sweep(void);

#endif
