// An independent implementation of the calls, by enumeration and plain code. It shares no code with the library.
#ifndef REFERENCE_H
#define REFERENCE_H

#include <stddef.h>
#include <stdint.h>

// A result (refusal 0) or a refusal.
struct ref_answer {
    uint32_t refusal;
    size_t place, result;
    uint64_t second_result;
};

// Five lent slices, each with its own length.
struct ref_table {
    uint8_t *width, *lock;
    uint32_t *mask, *value, *words;
    size_t widths, locks, masks, values, word_count;
};

struct ref_vector {
    uint32_t mask, value;
};

// Two lent slices of rows: state rows, and the next row of each.
struct ref_pairs {
    uint32_t *states, *nexts;
    size_t state_count, next_count;
};

// A lent slice of marks, one a row.
struct ref_marks {
    uint8_t *mark;
    size_t count;
};

// Two states over one width slice, five slices in all, each with its own length.
struct ref_states {
    uint8_t *width;
    uint32_t *mask[2], *value[2];
    size_t widths, masks[2], values[2];
};

// Two bare vectors of one width, the number of a bit, and a kind, which witnesses alone is given.
struct ref_operands {
    uint32_t kind, width, bit;
    struct ref_vector a, b;
};

// A bare vector and two ends.
struct ref_interval {
    uint32_t width;
    struct ref_vector v;
    uint64_t low, high;
};

// What range answers: a refusal, else the mask and the value of the best vector, the smallest number and the largest.
struct ref_numbers {
    uint32_t refusal, first, second, third, fourth;
};

enum { KINDS = 26, ADD = 13, SUB = 14, MUL = 16, ITE = 20, UMULW = 21, SMULW = 22, SUMULW = 23, LOAD = 24, STORE = 25 };

// A record's words: kind, t, a, b, p, c.
enum { RECORD_WORDS = 6, EDITIONS = 3 };

// The words that a kind uses, by a letter each: t, a, b and c are rows, p is a number, and n instead of p says how many cells there are.
struct kind {
    const char *name, *words;
};

extern const struct kind kinds[KINDS];

// Whether a kind uses the word of that letter.
int ref_uses(uint32_t kind, char word);

// The letter of word i, 1 to 5, where it is a row.
char ref_row_letter(size_t i);

// A record's operation on plain numbers: widths of target and operands, parameter, and the operands a, b and c. No load or store.
// one_number: a and b are one row, which gives one number for both; not so for a product.
struct ref_op {
    uint32_t kind, p;
    unsigned wt, w[3];
    int one_number;
};

uint64_t ref_bit(uint64_t n, unsigned k);

// The new number of the target row.
uint64_t ref_plain(const struct ref_op *o, uint64_t a, uint64_t b, uint64_t c);

// The operands' bits that can make a difference to bit k of the result.
void ref_needed(const struct ref_op *o, unsigned k, uint64_t need[3]);

// Which values bit k of the result takes over all choices of operands: 1 for 0, 2 for 1, 3 for both; 0 where the first 2^limit choices do
// not settle it.
int ref_values(const struct ref_op *o, const struct ref_vector v[3], unsigned k, unsigned limit);

// The operation of a record that is no load or store.
struct ref_op ref_operation(const struct ref_table *t, const uint32_t *record);

// Whether mask and value share no bit and have none at or above the width, 1 to 32.
int ref_well_formed(uint32_t width, struct ref_vector v);

// Refusals 4 and 5 of a bare vector: a refusal number, or 0. Whether such a vector covers a number.
uint32_t ref_vector_refusal(uint32_t width, struct ref_vector v);
int ref_covers(struct ref_vector v, uint64_t n);

struct ref_answer ref_result(size_t result, uint64_t second_result);
struct ref_answer ref_refusal(uint32_t number, size_t place);

// Refusals 6 to 10 of record r alone, 10 only where locked_too: a refusal number, or 0.
uint32_t ref_record(const struct ref_table *t, size_t r, int locked_too);

// Whether a record writes a row: its target, or any cell of a store.
int ref_may_write(const uint32_t *record, size_t row);

// Whether what a record writes hangs on a row: an operand, or any cell of a load. The cells that a store leaves do not count.
int ref_reads(const uint32_t *record, size_t row);

// Refusals 1 to 10: without a stretch (no check of first and last, and no 10) where run is 0.
struct ref_answer ref_check(const struct ref_table *t, int run, size_t first, size_t last);

// Whether the words of a record of a known kind name one row as both operands.
int ref_named_twice(const uint32_t *record);

// One record's step. 0 where 2^limit choices do not settle a bit: the rows are then as they were.
int ref_step(struct ref_table *t, size_t r, unsigned limit);

// The same of a load or a store. Worked out cell by cell, and address by address too where at most 2^limit are covered.
void ref_memory_step(struct ref_table *t, const uint32_t *record, unsigned limit);

// exact becomes 0 where 2^limit choices do not settle a bit of a step: the answer then says nothing.
struct ref_answer ref_run(struct ref_table *t, size_t first, size_t last, unsigned limit, int *exact);
struct ref_answer ref_count(const struct ref_table *t, size_t row);
struct ref_answer ref_size(const struct ref_table *t);
struct ref_answer ref_write(const struct ref_table *t, uint8_t *out, size_t length);

// A bit of a row after a run of all records of a table that run accepts, whose rows stay as they are: 0, 1, or 2 for X. exact as of ref_run.
unsigned ref_conclusion(const struct ref_table *t, size_t row, uint32_t bit, unsigned limit, int *exact);

// exact as of ref_run, for every run that is tried: where it becomes 0 the answer and the rows say nothing.
struct ref_answer ref_reset_bits(struct ref_table *t, size_t row, uint32_t bit, unsigned limit, int *exact);

// Why pairs on a table that run accepts are refused as 20, every cause there is: bit n of the result for cause n, in the order of the
// enum. A state row is in a span whatever the store's address can be.
enum {
    FEWER_STATES,
    FEWER_NEXTS,
    STATE_OUTSIDE,
    NEXT_OUTSIDE,
    UNEQUAL_WIDTHS,
    STATE_TWICE,
    STATE_LOCKED,
    STATE_TARGET,
    STATE_IN_SPAN,
    PAIR_CAUSES
};
unsigned ref_pair_causes(const struct ref_table *t, const struct ref_pairs *p);

// The best vector that covers what v covers and what w covers. Worked out bit by bit, and number by number too where the width is small.
struct ref_vector ref_join(uint32_t width, struct ref_vector v, struct ref_vector w);

// Whether w covers every number that v covers. Worked out as ref_join is.
int ref_inside(uint32_t width, struct ref_vector v, struct ref_vector w);

// exact as of ref_run, for the run of every round: where it becomes 0 the answer and the rows say nothing.
struct ref_answer ref_settle(struct ref_table *t, const struct ref_pairs *p, unsigned limit, int *exact);

// Why marks are refused as 21, every cause there is: bit n of the result for cause n, in the order of the enum.
enum { FEWER_MARKS, MORE_MARKS, MARK_OVER_ONE, MARK_CAUSES };
unsigned ref_mark_causes(const struct ref_table *t, const struct ref_marks *m);

// One record of the way back: the rows that are needed after it become those that are needed before it. Whether it stays.
int ref_step_back(const uint32_t *record, size_t rows, uint8_t *needed);

// Worked out from the last record back, and also from each record on where there are few.
struct ref_answer ref_prune(struct ref_table *t, const struct ref_marks *m);

// The result is 0 for equal, 1 for inside, 2 for around, 3 for none of these.
struct ref_answer ref_compare_states(const struct ref_states *s);

// A full plain run of a table that run accepts, from and to one number for each row.
void ref_plain_run(const struct ref_table *t, uint64_t *number);

// The edition of a text, by its header: 2 or 3, and 1 without one. The header of edition 2 or 3, of HEADER bytes.
enum { HEADER = 10 };
int ref_edition(const uint8_t *text, size_t length);
extern const char *const ref_headers[EDITIONS + 1];

struct ref_answer ref_read(const uint8_t *text, size_t length, struct ref_table *t);
struct ref_answer ref_field(const uint8_t *text, size_t length, size_t line, size_t field);

// exact becomes 0 where 2^limit choices do not settle the bit: the answer then says nothing.
struct ref_answer ref_product_bit(const struct ref_operands *o, unsigned limit, int *exact);

// The refusal of witnesses, 0 where the bit is unknown. exact becomes 0 where 2^limit choices do not settle the bit: it is then taken for
// unknown, which pairs that show both values prove.
uint32_t ref_witnesses(const struct ref_operands *o, unsigned limit, int *exact);

// Whether the vectors, which witnesses accepts, cover a and b, and the plain result of a and b has this value at the bit.
int ref_shows(const struct ref_operands *o, uint32_t a, uint32_t b, uint64_t value);

// Worked out bit by bit, and also by going through the numbers between the ends, or those covered, where these are at most 2^limit.
struct ref_numbers ref_range(const struct ref_interval *i, unsigned limit);

#endif
