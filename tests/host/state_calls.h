// Calls of compare_states: random ones, and every two small states.
#ifndef STATE_CALLS_H
#define STATE_CALLS_H

#include "compare.h"

enum { ORDERS = 4 };

// rifflerleek_compare_states, on the library and the reference.
void call_compare_states(void);

// What the reference answers, which the library must answer too; no slice may be changed.
struct ref_answer judge_states(struct state_draft *s);

// The same for every two states of three bits, in one row, in two and in three.
void sweep_states(void);

// What must be seen, how often it was, and how many of it never: each order, and why none holds; states that differ in one row alone; each
// slice shorter or longer than the others; 5 of either state; each two faults together, and rows out of order; and each order of the sweep.
int report_states(void);

// The orders of the sweep, which report_states prints too.
int report_state_sweep(void);

#endif
