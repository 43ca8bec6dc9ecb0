// Calls of range, random ones and all to width 5.
#ifndef RANGE_CALLS_H
#define RANGE_CALLS_H

#include "compare.h"

// rifflerleek_range, on the library and the reference.
void call_range(void);

// The same for every vector of width 1 to 5 and every two ends from 0 to 2^width.
void sweep_ranges(void);

// What must be seen, how often it was, and how many of it never: each way to be refused as 17 and as 18, results of each shape, each two
// faults together; and of sweep_ranges, which adds to none of these, each answer that it has.
int report_ranges(void);

#endif
