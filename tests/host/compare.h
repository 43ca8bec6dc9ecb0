// Slices lent twice, and what both sides answer and leave, compared.
#ifndef COMPARE_H
#define COMPARE_H

#include "library.h"
#include "draw.h"

// The calls, read three times: of a text of each edition.
enum {
    RUN,
    COUNT,
    SIZE,
    WRITE,
    READ_1,
    READ_2,
    READ_3,
    FIELD,
    PRODUCT_BIT,
    WITNESSES,
    RANGE,
    RESET_BITS,
    SETTLE,
    PRUNE,
    COMPARE_STATES,
    CALLS,
    REFUSALS = 22
};

extern const char *const call_names[CALLS];

// How often each call gave each refusal, 0 for a result; the number of the call at hand.
extern unsigned seen[CALLS][REFUSALS];
extern size_t call_number;

// Lends a slice, with guard bytes around it, to both sides: the library's pointer; the reference's goes to *reference.
void *lend(const void *data, size_t bytes, void *reference);

// Lends the five slices of a draft: the library's as the result, the reference's in *reference.
struct ref_table lend_table(struct draft *d, struct ref_table *reference);

// Compares the answers and every byte lent, guards too, and takes the slices back. Where they differ the program ends.
void compare(int name, rifflerleek_answer a, struct ref_answer b);

// Counts two faults at once, by their refusals: the one that was given, and the one that is left where that is mended.
void count_faults(const uint32_t (*pairs)[2], int number, unsigned *counts, uint32_t given, uint32_t left);

// Prints so many counts, each after its letter where there are letters: how many are 0.
int report_counts(const char *name, const char *each, const unsigned *counts, int number);

#endif
