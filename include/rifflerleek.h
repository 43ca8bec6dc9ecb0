/* Rifflerleek: a verified evaluator of three-valued logic, for C and C++. Link with librifflerleek.a (tools/staticlib rifflerleek).
 *
 * A table has 1 to RIFFLERLEEK_ROW_LIMIT rows, lent as four slices of equal length, and at most RIFFLERLEEK_RECORD_LIMIT records
 * of RIFFLERLEEK_RECORD_WORDS words each. Rows and records count from 0.
 *   width[i]  the width of row i, 1 to RIFFLERLEEK_WIDTH_LIMIT
 *   lock[i]   0 open, 1 locked: a locked row is no record's target, in no store's span and no state row
 *   mask[i]   bit k is 1 where bit k of the row is unknown (X)
 *   value[i]  bit k is the row's bit k where that is known, and 0 where it is unknown
 *   words     per record: kind, target row t, operand rows a and b, parameter p, and a sixth word c: the base row of a load or a store,
 *             the condition row of an ite; an unused word is 0
 *
 * Memories. A load and a store have a span, the n rows from row c on: n is the parameter, 1 or more, and the rows are the cells, all of
 * one width. An address below n names the cell that many rows after row c; it may have any width.
 *   load      row t becomes the cell that row a addresses, 0 for an address of n or more; b is unused, t has the cells' width
 *   store     the cell that row a addresses becomes row b, none does for an address of n or more; t is unused, b has the cells' width
 * Address, data and cells are chosen independently, even where they are one row, and all are read before a row is written. So where the
 * address is not known a load gives the best vector that covers every cell it can name, and 0 where it can be n or more; and a store
 * leaves in every cell it can name, but need not, the best vector that covers the old and the new.
 *
 * Clocks. Where the records are what one clock does, lent pairs name a state row and its next row, whose number goes to the state row
 * after the clock.
 *
 * Marks. Where records are to be dropped that feed nothing, lent marks, one a row, say what is to be fed.
 *   marks[i]  1 where row i is wanted after a run of all records, else 0
 *
 * States. A call on two states takes no table. It is lent one width slice and, for each state, a mask slice and a value slice, as many
 * rows in each and with the same meaning as a table's.
 *
 * Bare vectors. A call on bare vectors takes no table. It is passed, as numbers, one width and a mask and a value for each vector,
 * with the same meaning as a row's.
 *
 * Slices. A slice is passed as a pointer and its number of elements. The pointer is aligned and not NULL, also where the number
 * is 0, and a slice that a call may write overlaps no other slice of that call.
 *
 * Answers. Every call returns by an answer, of one of the two structs below, on every input. A refusal leaves every slice as it was
 * lent.
 *
 * Memory and threads. A call uses what it is lent and some stack, at most RIFFLERLEEK_STACK_LIMIT bytes and what memcpy and memset of
 * the C library take themselves. It allocates nothing and keeps nothing between calls, so calls may run on several threads at once, if
 * no slice that one of them may write overlaps a slice of another.
 *
 * The library is for x86-64 Linux.
 */
#ifndef RIFFLERLEEK_H
#define RIFFLERLEEK_H

#include <stddef.h>
#include <stdint.h>

#ifdef __cplusplus
extern "C" {
#endif

/* Rises by one with every change that a host can see: of a name, a number, a call, an answer or a lent byte. The header that had
 * no version is version 1. CHANGELOG.md names the changes. */
#define RIFFLERLEEK_VERSION 17

/* Limits. */
#define RIFFLERLEEK_ROW_LIMIT 256      /* rows in a table */
#define RIFFLERLEEK_RECORD_LIMIT 1024  /* records in a table */
#define RIFFLERLEEK_RECORD_WORDS 6     /* words in a record */
#define RIFFLERLEEK_WIDTH_LIMIT 32     /* bits in a row, or in a bare vector */
#define RIFFLERLEEK_PARAMETER_LIMIT 31 /* greatest shift, rotation or extract parameter */
#define RIFFLERLEEK_TEXT_LIMIT 40000   /* bytes in a text, with its header */
#define RIFFLERLEEK_NUMBER_LIMIT 999   /* greatest number in a text */
#define RIFFLERLEEK_OLDER_KINDS 24     /* kinds in a text of edition 1 or 2, which has no load and no store */

/* The text that rifflerleek_write prints has HEADER_BYTES, and at most ROW_BYTES for each row and RECORD_BYTES for each record;
 * rifflerleek_size answers how many it has. */
#define RIFFLERLEEK_HEADER_BYTES 10
#define RIFFLERLEEK_ROW_BYTES 44
#define RIFFLERLEEK_RECORD_BYTES 27

#define RIFFLERLEEK_UNKNOWN_BIT 2 /* result of rifflerleek_product_bit: the bit is unknown (X) */

/* The calls inside the library. No function of it calls itself, directly or through others, calls one through a pointer, or calls one
 * of another library but memcpy and memset of the C library, which the compiler puts in the place of a loop that copies or fills. depth:
 * the most functions that are active at once, the call among them. stack: the most bytes of stack that are taken, from the call's return
 * address down; arguments that stand above it are the caller's, and of memcpy and memset the return address alone is counted. bash
 * tests/host/depth reads both off the machine code of the archive and compares them with these; they are not proved.
 *
 *   call                     depth  stack
 *   rifflerleek_run              5    588
 *   rifflerleek_count            1     57
 *   rifflerleek_size             2    288
 *   rifflerleek_write            2    352
 *   rifflerleek_read             4    456
 *   rifflerleek_field            1     24
 *   rifflerleek_product_bit      2    156
 *   rifflerleek_witnesses        3    284
 *   rifflerleek_range            1     64
 *   rifflerleek_reset_bits       5   2700
 *   rifflerleek_settle           5   2716
 *   rifflerleek_prune            2    560
 *   rifflerleek_compare_states   2     72
 */
#define RIFFLERLEEK_DEPTH_LIMIT 5    /* the greatest depth of a call */
#define RIFFLERLEEK_STACK_LIMIT 2716 /* the greatest stack of a call, in bytes */

/* A result: refusal is RIFFLERLEEK_DONE, place is 0, and result and second_result are what the call says, else 0. A refusal: its
 * number and its place; result and second_result are 0. */
typedef struct rifflerleek_answer {
    uint32_t refusal;
    size_t place;
    size_t result;
    uint64_t second_result;
} rifflerleek_answer;

/* The answer of a call that gives four numbers. A result: refusal is RIFFLERLEEK_DONE, place is 0, and the numbers are what the call
 * says. A refusal: its number and its place; the four numbers are 0. */
typedef struct rifflerleek_four_numbers {
    uint32_t refusal;
    size_t place;
    uint32_t first;
    uint32_t second;
    uint32_t third;
    uint32_t fourth;
} rifflerleek_four_numbers;

/* The kinds of records. Their names in a text are the parts after KIND_, in small letters. */
enum {
    RIFFLERLEEK_KIND_COPY = 0,
    RIFFLERLEEK_KIND_NOT = 1,
    RIFFLERLEEK_KIND_AND = 2,
    RIFFLERLEEK_KIND_OR = 3,
    RIFFLERLEEK_KIND_XOR = 4,
    RIFFLERLEEK_KIND_SHL = 5,
    RIFFLERLEEK_KIND_LSHR = 6,
    RIFFLERLEEK_KIND_ASHR = 7,
    RIFFLERLEEK_KIND_ROTL = 8,
    RIFFLERLEEK_KIND_EXTRACT = 9,
    RIFFLERLEEK_KIND_CONCAT = 10,
    RIFFLERLEEK_KIND_ZEXT = 11,
    RIFFLERLEEK_KIND_SEXT = 12,
    RIFFLERLEEK_KIND_ADD = 13,
    RIFFLERLEEK_KIND_SUB = 14,
    RIFFLERLEEK_KIND_NEG = 15,
    RIFFLERLEEK_KIND_MUL = 16,
    RIFFLERLEEK_KIND_EQ = 17,
    RIFFLERLEEK_KIND_ULT = 18,
    RIFFLERLEEK_KIND_SLT = 19,
    RIFFLERLEEK_KIND_ITE = 20,
    RIFFLERLEEK_KIND_UMULW = 21,
    RIFFLERLEEK_KIND_SMULW = 22,
    RIFFLERLEEK_KIND_SUMULW = 23,
    RIFFLERLEEK_KIND_LOAD = 24,
    RIFFLERLEEK_KIND_STORE = 25
};

/* The refusals: their condition, and their place after the semicolon. The first condition that holds refuses, in this order:
 *   run, size, write   1, 2, 3; then the rows from 0 on, at each 4 before 5; then the records from 0 on, at each 6, 7, 8, 9 and
 *                      (run alone) 10; then (write alone) 14
 *   count              1, 2; then the rows from 0 on, at each 4 before 5; then 7
 *   read               2, 11, 12, 13; the table that was read is checked by run, size and write, not by read
 *   field              never refuses
 *   product_bit        4, 5, 15
 *   witnesses          4, 5, 6, 15, 16
 *   range              4, 5, 17, 18
 *   reset_bits         1 to 10 as run of all records; then 7 of the row named, 15, 19
 *   settle             1 to 10 as run of all records; then 20
 *   prune              1 to 10 as run of all records; then 21
 *   compare_states     1, 2; then the rows from 0 on, at each 4, 5 of the first state, 5 of the second */
enum {
    RIFFLERLEEK_DONE = 0,             /* no refusal */
    RIFFLERLEEK_REFUSED_ROWS = 1,     /* the width slice has no row, or more than the row limit; place 0 */
    RIFFLERLEEK_REFUSED_LENGTHS = 2,  /* the four row slices differ in length; in compare_states: the five slices do; place 0 */
    RIFFLERLEEK_REFUSED_RECORDS = 3,  /* the words are not whole records, of six each, or more than the record limit; in run also: first
                                         is after last, or last is past the end; place 0 */
    RIFFLERLEEK_REFUSED_WIDTH = 4,    /* a width is 0 or over the width limit, or a lock is over 1, where locks are lent; the row (of bare
                                         vectors: 0) */
    RIFFLERLEEK_REFUSED_VECTOR = 5,   /* mask and value share a set bit, or one has a bit at or above the width, of either state in
                                         compare_states; the row (of bare vectors: 0) */
    RIFFLERLEEK_REFUSED_KIND = 6,     /* no kind has this number; the record. In witnesses: the kind is not add, sub or mul; place 0 */
    RIFFLERLEEK_REFUSED_ROW = 7,      /* a used row word is outside the table, a base row and a condition among them, or a span ends past
                                         it; the record. Or the row that count or reset_bits is asked of is; that row */
    RIFFLERLEEK_REFUSED_WORD = 8,     /* an unused word is not 0, a parameter is over the parameter limit, or a span has no cell; the
                                         record */
    RIFFLERLEEK_REFUSED_FIT = 9,      /* the widths of target and operands do not fit the kind, or a cell has another width than a load's
                                         target or a store's data; the record */
    RIFFLERLEEK_REFUSED_LOCKED = 10,  /* the target row is locked, or a row of a store's span is; the record, inside the stretch or not */
    RIFFLERLEEK_REFUSED_LONG = 11,    /* the text is longer than the text limit; place 0 */
    RIFFLERLEEK_REFUSED_LINE = 12,    /* a line outside the grammar, a row line after a record line, or no final LF; the first such
                                         line, from 1 (for a missing LF the last line). A header is line 1; on a later line, or of
                                         another edition than 2 and 3, it is outside the grammar */
    RIFFLERLEEK_REFUSED_ROOM = 13,    /* row lines or record words exceed the lent slices; place 0 */
    RIFFLERLEEK_REFUSED_BUFFER = 14,  /* the output buffer is shorter than the table's text; place 0 */
    RIFFLERLEEK_REFUSED_BIT = 15,     /* the bit number is at or above the width; place 0 */
    RIFFLERLEEK_REFUSED_KNOWN = 16,   /* the bit is known: it is the same for every choice of numbers that the vectors cover; place 0 */
    RIFFLERLEEK_REFUSED_ENDS = 17,    /* low is greater than high, or an end is not below 2^width; place 0 */
    RIFFLERLEEK_REFUSED_EMPTY = 18,   /* no number lies between the ends and is covered by the vector; place 0 */
    RIFFLERLEEK_REFUSED_UNKNOWN = 19, /* the bit is unknown (X) after the run; place 0 */
    RIFFLERLEEK_REFUSED_PAIRS = 20,   /* the two slices of pairs differ in length, a row of a pair is outside the table, the two rows of
                                         a pair differ in width, or a state row is named twice, is locked, is a record's target or is in
                                         a store's span, whatever its address can be; place 0 */
    RIFFLERLEEK_REFUSED_MARKS = 21    /* the marks are fewer or more than the rows, or a mark is over 1; place 0 */
};

/* How the first of two states lies to the second, as rifflerleek_compare_states answers it: the first of these that holds. A row lies
 * inside another if that one covers every number that it covers, so also where the two are equal. */
enum {
    RIFFLERLEEK_ORDER_EQUAL = 0,  /* every row of the first is equal to the second's */
    RIFFLERLEEK_ORDER_INSIDE = 1, /* every row of the first lies inside the second's */
    RIFFLERLEEK_ORDER_AROUND = 2, /* every row of the second lies inside the first's */
    RIFFLERLEEK_ORDER_NONE = 3    /* none of these */
};

/* Runs the records from first up to but not including last, after a check of the whole table. result is last, and mask and value
 * hold the rows that the stretch leaves, each target, and each cell of a store, the best vector that covers every result. Where the
 * words a and b of a record name one row, both operands are the same number; for RIFFLERLEEK_KIND_MUL, _UMULW, _SMULW, _SUMULW and
 * _STORE they stay independent.
 * Refusals 1 to 10: no row is changed, also not by the records before the one refused. */
rifflerleek_answer rifflerleek_run(const uint8_t *width, size_t widths, const uint8_t *lock, size_t locks, uint32_t *mask,
                                   size_t masks, uint32_t *value, size_t values, const uint32_t *words, size_t word_count,
                                   size_t first, size_t last);

/* Counts the unknown bits u of a row. result is u, second_result is 2^u. Refusals 1, 2, 4, 5, 7. Changes no slice. */
rifflerleek_answer rifflerleek_count(const uint8_t *width, size_t widths, const uint8_t *lock, size_t locks,
                                     const uint32_t *mask, size_t masks, const uint32_t *value, size_t values, size_t row);

/* Counts the bytes of the table's text. result is their number: a buffer of exactly so many bytes is enough for
 * rifflerleek_write. Refusals 1 to 9. Changes no slice. */
rifflerleek_answer rifflerleek_size(const uint8_t *width, size_t widths, const uint8_t *lock, size_t locks,
                                    const uint32_t *mask, size_t masks, const uint32_t *value, size_t values,
                                    const uint32_t *words, size_t word_count);

/* Writes the table's text to the start of out, of edition 3, with its header. result is the text's number of bytes, the header's among
 * them; the bytes of out after them are as they were. Refusals 1 to 9, then 14: no byte of out is changed. */
rifflerleek_answer rifflerleek_write(const uint8_t *width, size_t widths, const uint8_t *lock, size_t locks,
                                     const uint32_t *mask, size_t masks, const uint32_t *value, size_t values,
                                     const uint32_t *words, size_t word_count, uint8_t *out, size_t out_length);

/* Reads a text into the start of the five slices. result is the number of rows, second_result the number of records; the slices'
 * elements after those are as they were. Refusals 2, 11, 12, 13: no element is changed. An empty text has no rows and no records,
 * nor has a header alone; the row slices may be longer than RIFFLERLEEK_ROW_LIMIT.
 *
 * Editions. A text of edition 3 begins with a header, the ten bytes "edition\t3\n"; it has the letters 0, 1, X, and five numbers a
 * record: t, a, b, p and c. The older two are read only. They have four numbers a record and no load or store; the fourth number of an
 * ite becomes c, and its parameter 0, and c is 0 for every other kind. A text without a header is of edition 1 and has the letters 0, 1,
 * X. A text of edition 2, such as a simulator's listing, begins with the header "edition\t2\n" and has nine letters: 0 and L mean 0; 1
 * and H mean 1; U, X, Z, W and - mean X. Where what was read passes the table checks, rifflerleek_write prints a text of edition 3 as it
 * was, and of an older one its form in edition 3. Refusal 13 counts six words a record, of every edition. */
rifflerleek_answer rifflerleek_read(const uint8_t *text, size_t text_length, uint8_t *width, size_t widths, uint8_t *lock,
                                    size_t locks, uint32_t *mask, size_t masks, uint32_t *value, size_t values,
                                    uint32_t *words, size_t word_count);

/* Where a field of a text lies, by line number and field number, both from 1; a header is line 1, and bytes after the last LF count
 * as a line. The field is the bytes text[result] up to but not including text[second_result]. Where there is no such field both
 * ends are the same: number 0 names the start of the text or of the line, a number too high its end. Never refuses. */
rifflerleek_answer rifflerleek_field(const uint8_t *text, size_t text_length, size_t line, size_t field);

/* One bit of the product of two bare vectors, modulo 2^width, as RIFFLERLEEK_KIND_MUL gives it; bit is its number, from 0. result is the
 * bit, 0 or 1, where it is the same for every choice of numbers that the two vectors cover, else RIFFLERLEEK_UNKNOWN_BIT. The operands
 * are independent, also where both vectors are equal. Refusals 4, 5, 15. */
rifflerleek_answer rifflerleek_product_bit(uint32_t width, uint32_t mask_a, uint32_t value_a, uint32_t mask_b, uint32_t value_b,
                                           uint32_t bit);

/* Why a bit of a sum, difference or product of two bare vectors, modulo 2^width, is unknown: two pairs of plain operands, which the
 * vectors cover and whose results differ in that bit. kind is RIFFLERLEEK_KIND_ADD, RIFFLERLEEK_KIND_SUB or RIFFLERLEEK_KIND_MUL; bit
 * is the bit's number, from 0. With a = first and b = second the plain result has 0 at the bit, with a = third and b = fourth it has 1.
 * Which such pairs they are is left open. The operands are independent, also where both vectors are equal. Refusals 4, 5, 6, 15, 16. */
rifflerleek_four_numbers rifflerleek_witnesses(uint32_t kind, uint32_t width, uint32_t mask_a, uint32_t value_a, uint32_t mask_b,
                                               uint32_t value_b, uint32_t bit);

/* A register that is known within a range: the numbers that lie between low and high, both included, and that a bare vector covers.
 * first and second are the mask and the value of the best vector that covers them all, third is the smallest of them, fourth the largest.
 * Say a fader's converter of width 8, whose lowest bit is 0, delivers counts between 37 and 47: rifflerleek_range(8, 0xfe, 0, 37, 47)
 * gives 0x0e and 0x20 (0010XXX0), 38 and 46. Where the vector is a start row of a table, a run that is accepted from it is also
 * accepted with this answer in its place, and covers at every point each plain run whose number for that row starts between the ends.
 * The time is linear in the width. Refusals 4, 5, 17, 18. */
rifflerleek_four_numbers rifflerleek_range(uint32_t width, uint32_t mask, uint32_t value, uint64_t low, uint64_t high);

/* Which start bits a conclusion rests on: every reset costs a wire, and bits that it does not rest on can be left unset. The conclusion
 * is that a bit of a row is 0, or 1, after a run of all records from the rows as lent. The known bits of the open rows are visited, rows
 * rising, bits rising; rows that a record overwrites are visited too, and so is the row named. Each becomes X (its mask bit 1, its value
 * bit 0) if a run of all records from the rows as they then are, with this bit X as well, still leaves the named bit known with the same
 * value. result is that value. mask and value hold the start rows that are left, not what a run makes of them: from these the conclusion
 * holds, and with any further bit of an open row X it does not. Which bits are left hangs on the order, and others might be fewer. The
 * time grows as the known bits of the open rows times the records. Refusals 1 to 10, as rifflerleek_run of all records; then 7 (the row
 * named), 15 (the bit's number, against the width of that row), 19: no row is changed. */
rifflerleek_answer rifflerleek_reset_bits(const uint8_t *width, size_t widths, const uint8_t *lock, size_t locks, uint32_t *mask,
                                          size_t masks, uint32_t *value, size_t values, const uint32_t *words, size_t word_count,
                                          size_t row, uint32_t bit);

/* All clocks, not one: runs clock after clock until the state rows settle. Pair i names a state row, states[i], and its next row,
 * nexts[i]. A plain clock is a full plain run from the state's numbers and any numbers that the other start rows cover; then each next
 * row's number goes to its state row, all together. A round starts the rows that are no state rows from their start, and the state rows
 * as they then are; it runs all records, and then widens each state row, all together, to the best vector that covers it and its next
 * row, as the run left both. Rounds end when no state row changes. result is the number of rounds, with the last, in which none did: 1
 * or more, and at most the bits of the state rows plus one. mask and value hold the rows as the run of the last round left them. From
 * every state that the state rows cover at the start, whatever covered numbers each clock brings, the state rows that are left cover
 * every state that plain clocks reach, and each row that is left covers its number after every clock's run.
 * A store's target word is no target. A next row may be locked, be that of several state rows, or be a state row, also its own. Without
 * pairs there is one round, a run of all records. The time grows as the rounds times the records. Refusals 1 to 10, as rifflerleek_run
 * of all records; then 20: no row is changed. */
rifflerleek_answer rifflerleek_settle(const uint8_t *width, size_t widths, const uint8_t *lock, size_t locks, uint32_t *mask,
                                      size_t masks, uint32_t *value, size_t values, const uint32_t *words, size_t word_count,
                                      const uint32_t *states, size_t state_count, const uint32_t *nexts, size_t next_count);

/* Tables grown out of old designs: drops the records that feed no marked row. The needed rows are the marked ones at first, and the
 * records are visited from the last one back. A record stays exactly if a row that it may write is needed then: its target, or for a store
 * any row of its span, whatever its address can be. If it stays, its target is no longer needed, and then its operands are, the condition
 * of an ite among them, and for a load its address and its whole span; so a row that is both is needed. Of a store that stays address and
 * data are needed, and every other row of its span is needed or not as before. The records that stay move down to the start of words, in
 * their order, and the words after them become 0. result is how many stay: the table is then the same rows with the first
 * RIFFLERLEEK_RECORD_WORDS * result words. From any well-formed start rows, not those lent alone, a run of all its records is accepted and
 * leaves every marked row as a run of all the old ones does; other rows may end otherwise. A locked row may be marked. A store may stay
 * though it changes no row that is needed: mask and value are checked and no more. They are only read, and so are the marks. The time is
 * linear in the records and in the rows that they name, those of spans among them. Refusals 1 to 10, as rifflerleek_run of all records;
 * then 21: no word is changed. */
rifflerleek_answer rifflerleek_prune(const uint8_t *width, size_t widths, const uint8_t *lock, size_t locks, const uint32_t *mask,
                                     size_t masks, const uint32_t *value, size_t values, uint32_t *words, size_t word_count,
                                     const uint8_t *marks, size_t mark_count);

/* How two whole states lie to each other, row by row: two sets of rows over one width slice, such as what rifflerleek_settle leaves of
 * one design and of another. result is RIFFLERLEEK_ORDER_EQUAL, _INSIDE, _AROUND or _NONE: the first state is equal to the second, inside
 * it, around it, or none of these. Refusals 1, of the width slice; 2, of all five slices; then rows rising 4, 5 of the first state's row
 * and 5 of the second's, at that row. Changes no slice. */
rifflerleek_answer rifflerleek_compare_states(const uint8_t *width, size_t widths, const uint32_t *mask_1, size_t masks_1,
                                              const uint32_t *value_1, size_t values_1, const uint32_t *mask_2, size_t masks_2,
                                              const uint32_t *value_2, size_t values_2);

#ifdef __cplusplus
}
#endif

#endif
