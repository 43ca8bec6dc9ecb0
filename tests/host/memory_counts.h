// What runs show of loads and stores.
#ifndef MEMORY_COUNTS_H
#define MEMORY_COUNTS_H

#include "compare.h"

// Counts the loads and stores of a draft that run was lent, and its answer.
void count_memories(const struct draft *d, rifflerleek_answer a);

// How often each was seen, and how many never. Of loads and of stores: an address that is known and below n, known and not, unknown and
// always below n, sometimes, never; the address a cell; a span of 1 cell and of 8 or more. Of stores: the data a cell, and row 0 locked
// outside the span. Of refusals, by their number and cause.
int report_memories(void);

#endif
