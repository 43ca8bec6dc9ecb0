// Calls of reset_bits: random ones, and small tables with every set of start bits made X.
#ifndef RESET_CALLS_H
#define RESET_CALLS_H

#include "compare.h"

// rifflerleek_reset_bits, on the library and the reference.
void call_reset_bits(void);

// What the reference answers, and the draft with the rows that it leaves; exact as of ref_reset_bits.
struct ref_answer reference_of(const struct reset *q, struct draft *left, int *exact);

// What the library answers and leaves, compared with these. Where they differ the program ends.
void judge_reset(struct reset *q, const struct draft *left, struct ref_answer right);

// The same for small tables, of which also every set of known bits of the open rows is made X at the start: the conclusion must hold with
// the set that the call makes X, and with no greater set that contains it.
void sweep_resets(void);

// What must be seen, how often it was, and how many of it never. Of random calls: each conclusion, what becomes of rows that records write
// and of the row named, tables of each shape, and each two faults together, the second of the row, of the bit, or that the bit ends X.
int report_resets(void);

// The same of the sweep, which report_resets prints too: tables that show that the pass is cumulative, that its order counts, that it need
// not leave the fewest bits, and that locked rows are not visited.
int report_reset_sweep(void);

#endif
