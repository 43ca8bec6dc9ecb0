// Random calls of settle, and plain clocks, which what it leaves must cover.
#ifndef SETTLE_CALLS_H
#define SETTLE_CALLS_H

#include "compare.h"

// rifflerleek_settle, on the library and the reference. The rounds must be at most the state bits plus one, and random plain clocks must be
// covered.
void call_settle(void);

// Plain clocks from a state that the start covers, each with any numbers that the other start rows cover: what is left must cover every
// row after each run, and every state. Else the program ends.
void walk_clocks(struct clocked *q, const struct draft *left);

// Counts a table that was not refused, and whether a mistake would show: state rows widened one by one, or other rows not put back to
// their start.
void count_shape(const struct clocked *q);
void count_mistakes(struct clocked *q, const struct draft *left, size_t rounds);

// Counts a refusal, of the pairs or of the table. The table may be mended.
void count_refused(struct clocked *q, struct ref_answer refused);

// What must be seen, how often it was, and how many of it never: rounds, few and many, and as many as there can be; tables and pairs of
// each shape; tables that show each mistake; each cause of 20 alone, also of the first and of the last pair; each fault of the table before 20;
// and of plain clocks other inputs, and states that the start does not cover.
int report_settles(void);

// The parts that the other files count, which report_settles prints too.
int report_shapes(void);
int report_mistakes(void);
int report_refused_pairs(void);
int report_clocks(void);

#endif
