// Random vectors, tables, pairs of rows, marks, states and texts, valid and damaged.
#ifndef DRAW_H
#define DRAW_H

#include "reference.h"

// Enough for every text of 40,000 bytes, and for more pairs and marks than a table has rows; 2^LIMIT choices of operands for a bit; the
// styles of draw_vector; the greatest width of narrow rows, which 2^LIMIT choices settle.
enum { MAX_ROWS = 4000, MAX_WORDS = 18000, MAX_TEXT = 60000, MAX_PAIRS = 400, MAX_MARKS = 600, LIMIT = 14, STYLES = 10, NARROW = 6 };

// A table with slices of any lengths, and a stretch.
struct draft {
    uint8_t width[MAX_ROWS], lock[MAX_ROWS];
    uint32_t mask[MAX_ROWS], value[MAX_ROWS], words[MAX_WORDS];
    size_t widths, locks, masks, values, word_count, first, last;
};

// A table, and a bit of one of its rows.
struct reset {
    struct draft d;
    size_t row;
    uint32_t bit;
};

// A table, and pairs of a state row and its next row. 2^limit choices of operands are tried for a bit of a run.
struct clocked {
    struct draft d;
    uint32_t states[MAX_PAIRS], nexts[MAX_PAIRS];
    size_t state_count, next_count;
    unsigned limit;
};

// A table, and marks of its rows.
struct pruned {
    struct draft d;
    uint8_t marks[MAX_MARKS];
    size_t mark_count;
};

// Two states over one width slice, with slices of any lengths.
struct state_draft {
    uint8_t width[MAX_PAIRS];
    uint32_t mask[2][MAX_PAIRS], value[2][MAX_PAIRS];
    size_t widths, masks[2], values[2];
};

// edition: 1 to 3, whose letters and numbers the lines have. fault: what is wrong with the header, by number, HEADER_FAULTS where nothing is, and the
// first line that is bad by it.
struct text {
    uint8_t bytes[MAX_TEXT];
    size_t length, rows, records, fault, fault_line;
    int edition;
};

enum { HEADER_FAULTS = 32 };

void seed(uint64_t s);
uint64_t draw(void);
size_t below(size_t n);
int percent(unsigned p);

// A width, 1 to 32; a vector of it, whose unknown bits are by its style: 0 none, 1 all, 2 to 4 any, 5 a run, else few.
unsigned draw_width(void);
struct ref_vector draw_vector(unsigned width, size_t style);

// A bit that mask and value share, or a bit at or above the width, where there is one.
void damage_vector(struct ref_vector *v, uint32_t width);

// The limit, 1 to 256, or a number over it; some of them a careless cast would take for small ones.
uint32_t far_off(uint32_t limit);

// Two bare vectors of one width, often equal, often with several terms of the product's bit that have two unknown bits, the number of
// that bit, and a kind that witnesses takes: half of them with up to four faults.
void draw_operands(struct ref_operands *o);

// A bare vector and two ends, often at 0, at 2^width - 1, at or beside a number that the vector covers, or near each other: half of them
// with up to three faults, of the width, the vector or the ends, which may be exchanged, 2^width or beyond.
void draw_interval(struct ref_interval *i);

// The five slices of a draft.
struct ref_table slices(struct draft *d);

// A table that run accepts, with a stretch in which 2^LIMIT choices settle each bit.
void draw_table(struct draft *d);

// A table of so many rows and records that run accepts, with a stretch of all of them. All bits are known, or most are. Where it is narrow
// 2^LIMIT choices settle each bit.
void draw_known_table(struct draft *d, size_t rows, size_t records, int narrow);

// One fault after the condition of refusal number 1 to 10. The table may still be accepted.
void damage_table(struct draft *d, unsigned number);

// One open row more, at the end: its number. One record more, of these words.
uint32_t add_row(struct draft *d, unsigned width, struct ref_vector v);
void add_record(struct draft *d, uint32_t kind, uint32_t t, uint32_t a, uint32_t b, uint32_t p, uint32_t c);

// Whether a record is of that kind; whether one writes that row, with any address.
int has_kind(const struct draft *d, uint32_t kind);
int is_written(const struct draft *d, size_t row);

// The refusal, 1 to 10, of a table and the stretch of all its records, or 0. The table without its records, and without what is refused of
// its rows.
uint32_t table_refusal(struct draft *d);
void mend_table(struct draft *d, struct ref_answer refused);

// A table whose bits are known, or most of them, and a bit of a row, most often of one that a record writes: two of five with up to three
// faults, of the table, the row or the bit, which may be X. Seldom the table has 256 rows and 1,024 records.
void draw_reset(struct reset *q);

// A row that a record writes, any cell of a store.
size_t draw_written(const uint32_t *record);

// A narrow table without a fault, of at most so many known bits in open rows, whose last record has two operands or loads, and a bit of a
// row that it writes.
void draw_small_reset(struct reset *q, size_t most);

// The known bits of a row of the draft, as a word; one of them made X.
uint32_t known_bits(const struct draft *d, size_t row);
void set_unknown(struct draft *d, size_t row, uint32_t bit);

// A table with pairs, three of five without a fault, else with up to two, of the pairs or the table. Its records are any; or its state rows
// widen slowly, a counter and a chain of rows after it, or a ring of rows; or they are what a memory holds, and a pointer into it. Seldom
// it has 256 rows.
void draw_clocked(struct clocked *q);

// Pairs of rows that nothing writes and rows of their widths, in any order: many of a table's open rows, or none.
void draw_pairs(struct clocked *q);

// One pair more, at any place of the two lists, which are of one length.
void add_pair(struct clocked *q, uint32_t state, uint32_t next);

// One fault, after a cause of ref_pair_causes, or more than 256 pairs where that is PAIR_CAUSES. The pairs may still be accepted.
void damage_pairs(struct clocked *q, unsigned cause);

// A table with marks, two of three without a fault, else with up to three, of the marks or the table. Its records are any, or most of them
// are loads and stores on rows of one width. No row is marked, all are, one that a record writes, few or many. Seldom it has 256 rows and 1,024
// records.
void draw_pruned(struct pruned *q);

// The two slices of the pairs; that of the marks; the five of two states.
struct ref_pairs pairs_of(struct clocked *q);
struct ref_marks marks_of(struct pruned *q);
struct ref_states states_of(struct state_draft *s);

// Two states, the second often made from the first: in one row or in many wider, narrower, both, or with other known bits. Two of five have up
// to three faults.
void draw_states(struct state_draft *s);

// Bytes at the end of a text; a line at its end, with a fault where bad is 1.
void put(struct text *x, const char *s, size_t length);
void put_row(struct text *x, int bad);
void put_record(struct text *x, int bad);

// An edition, with the right header; a fault of the header of a text of so many lines.
void draw_edition(struct text *x);
void damage_header(struct text *x, size_t lines);

// The header, at the start of the text; where the fault is that it comes once more, that one, before line i of the rows and records, from 0.
void put_header(struct text *x);
void put_header_again(struct text *x, size_t i);

// A text of any edition: about half of them are damaged.
void draw_text(struct text *x);

// A text of exactly this many bytes, 1,000 at least, without a fault of the grammar.
void draw_text_of(struct text *x, size_t length);

// The text of a table that size accepts, of any edition; in edition 2 in any letters that mean its rows.
void draw_text_of_table(struct text *x);

// Where the row lines end that begin at a place of a text without a fault.
size_t end_of_rows(const struct text *x, size_t start);

#endif
