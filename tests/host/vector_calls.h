// Random calls on two bare vectors.
#ifndef VECTOR_CALLS_H
#define VECTOR_CALLS_H

#include "compare.h"

// rifflerleek_product_bit, on the library and the reference.
void call_product_bit(void);

// rifflerleek_witnesses: refused as the reference does, else each pair is judged, since which pairs they are is left open.
void call_witnesses(void);

// What must be seen of both calls, how often it was, and how many of it never: each product bit; witnesses of each kind that has them, and
// each other kind refused; witnesses of a product with none, one and several terms of two unknown bits; bits that show that equal vectors
// stay independent; bits too hard for the reference; and each two faults together.
int report_vectors(void);

#endif
