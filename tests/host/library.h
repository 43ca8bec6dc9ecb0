// The library's calls, on slices lent together or on bare vectors, each made on a stack of its own, so that the stack it takes can be
// measured.
#ifndef LIBRARY_H
#define LIBRARY_H

#include "../../include/rifflerleek.h"
#include "reference.h"

rifflerleek_answer library_run(struct ref_table *t, size_t first, size_t last);
rifflerleek_answer library_count(struct ref_table *t, size_t row);
rifflerleek_answer library_reset_bits(struct ref_table *t, size_t row, uint32_t bit);
rifflerleek_answer library_settle(struct ref_table *t, const struct ref_pairs *p);
rifflerleek_answer library_prune(struct ref_table *t, const struct ref_marks *m);
rifflerleek_answer library_compare_states(const struct ref_states *s);
rifflerleek_answer library_size(struct ref_table *t);
rifflerleek_answer library_write(struct ref_table *t, uint8_t *out, size_t length);
rifflerleek_answer library_read(const uint8_t *text, size_t length, struct ref_table *t);
rifflerleek_answer library_field(const uint8_t *text, size_t length, size_t line, size_t field);
rifflerleek_answer library_product_bit(const struct ref_operands *o);
rifflerleek_four_numbers library_witnesses(const struct ref_operands *o);
rifflerleek_four_numbers library_range(const struct ref_interval *i);

// Makes a call on the stack that is measured.
void on_stack(void (*make)(void));

// The most bytes of stack that a call has taken so far, with those that making it takes: at most LIBRARY_CALLER, for the frame of the
// function that makes it and for its arguments.
enum { LIBRARY_CALLER = 192 };
size_t library_stack(void);

#endif
