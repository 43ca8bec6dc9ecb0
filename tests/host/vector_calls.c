// Random calls on two bare vectors: product_bit and witnesses.
#include "vector_calls.h"
#include <stdio.h>
#include <stdlib.h>

// Two faults at once, by their refusals: the first is given. product_bit has the first PRODUCT_FAULTS of them.
enum { PRODUCT_FAULTS = 3, FAULTS = 6 };
static const uint32_t two_faults[FAULTS][2] = {{4, 5}, {4, 15}, {5, 15}, {4, 6}, {5, 6}, {6, 15}};

static unsigned product_bits[3], product_independent, product_faults[FAULTS];
static unsigned kinds_seen[KINDS + 1], terms[3], independent[3], unsettled, faults[FAULTS];

// The operands without what was refused.
static struct ref_operands mended(struct ref_operands o, uint32_t refusal)
{
    if (refusal == RIFFLERLEEK_REFUSED_WIDTH)
        o.width = RIFFLERLEEK_WIDTH_LIMIT;
    else if (refusal == RIFFLERLEEK_REFUSED_VECTOR)
        o.a = o.b = (struct ref_vector){0, 0};
    else if (refusal == RIFFLERLEEK_REFUSED_KIND)
        o.kind = MUL;
    return o;
}

// Whether the vectors are equal, and the bit would be 0 if both operands were one number: bit 0 of a + a, a bit of a - a, bit 1 of a * a.
static int shows_independence(uint32_t kind, const struct ref_operands *o)
{
    int equal = o->a.mask == o->b.mask && o->a.value == o->b.value;
    return equal && (kind == SUB || o->bit == (kind == ADD ? 0 : 1));
}

void call_product_bit(void)
{
    struct ref_operands o;
    struct ref_answer right;
    int exact;
    do { // the choices may not settle the bit: draw another
        draw_operands(&o);
        right = ref_product_bit(&o, LIMIT, &exact);
    } while (!exact);
    rifflerleek_answer a = library_product_bit(&o);
    compare(PRODUCT_BIT, a, right);
    if (a.refusal == RIFFLERLEEK_DONE) {
        product_bits[a.result]++;
        product_independent += shows_independence(MUL, &o) && a.result == RIFFLERLEEK_UNKNOWN_BIT;
    } else {
        struct ref_operands rest = mended(o, a.refusal);
        count_faults(two_faults, FAULTS, product_faults, a.refusal, ref_product_bit(&rest, 0, &exact).refusal);
    }
}

// Ends the program where the answer is not right: the same refusal, with no place and no number, or pairs that show 0 and 1.
static void judge(const struct ref_operands *o, rifflerleek_four_numbers n, uint32_t refusal)
{
    int right = refusal == RIFFLERLEEK_DONE ? ref_shows(o, n.first, n.second, 0) && ref_shows(o, n.third, n.fourth, 1)
                                            : (n.first | n.second | n.third | n.fourth) == 0;
    if (right && n.refusal == refusal && n.place == 0)
        return;
    printf("call %zu, witnesses: kind %u, width %u, bit %u; masks and values: a %08x %08x, b %08x %08x\n", call_number, o->kind, o->width,
           o->bit, o->a.mask, o->a.value, o->b.mask, o->b.value);
    printf("library:   refusal %u place %zu, pairs %08x %08x and %08x %08x\n", n.refusal, n.place, n.first, n.second, n.third, n.fourth);
    printf("reference: refusal %u\n", refusal);
    exit(1);
}

// How many terms of a product's bit have two unknown bits: bit i of a and bit - i of b.
static int unknown_terms(const struct ref_operands *o)
{
    int count = 0;
    for (unsigned i = 0; i <= o->bit; i++)
        count += (int)(ref_bit(o->a.mask, i) & ref_bit(o->b.mask, o->bit - i));
    return count;
}

// Counts what report_vectors prints of operands and their answer.
static void count_witnesses(const struct ref_operands *o, uint32_t refusal)
{
    int exact;
    if (refusal == RIFFLERLEEK_DONE || refusal == RIFFLERLEEK_REFUSED_KIND)
        kinds_seen[o->kind < KINDS ? o->kind : KINDS]++;
    if (refusal == RIFFLERLEEK_DONE) {
        int count = unknown_terms(o);
        terms[count < 2 ? count : 2] += o->kind == MUL;
        independent[o->kind == ADD ? 0 : o->kind == SUB ? 1 : 2] += (unsigned)shows_independence(o->kind, o);
    } else {
        struct ref_operands rest = mended(*o, refusal);
        count_faults(two_faults, FAULTS, faults, refusal, ref_witnesses(&rest, 0, &exact));
    }
}

void call_witnesses(void)
{
    struct ref_operands o;
    rifflerleek_four_numbers n;
    uint32_t refusal;
    int exact;
    do { // the choices may not settle that the bit is known: draw another, unless two terms of two unknown bits make it X
        draw_operands(&o);
        refusal = ref_witnesses(&o, LIMIT, &exact);
        n = library_witnesses(&o);
    } while (!exact && n.refusal == RIFFLERLEEK_REFUSED_KNOWN && unknown_terms(&o) < 2);
    judge(&o, n, refusal);
    seen[WITNESSES][refusal]++;
    unsettled += !exact;
    count_witnesses(&o, refusal);
}

int report_vectors(void)
{
    int missing = report_counts("product bits", "01X", product_bits, 3);
    missing += report_counts("unknown bit 1 of the product of equal vectors", NULL, &product_independent, 1);
    missing += report_counts("product_bit with two faults, 4 and 5, 4 and 15, 5 and 15", NULL, product_faults, PRODUCT_FAULTS);
    missing += report_counts("witnesses given, or refused as 6, by kind, the last for greater numbers", NULL, kinds_seen, KINDS + 1);
    missing += report_counts("witnesses of a product by its terms of two unknown bits, 2 for several", "012", terms, 3);
    missing += report_counts("witnesses of equal vectors at a bit that is 0 of one number", "+-*", independent, 3);
    missing += report_counts("witnesses of bits that the reference does not settle", NULL, &unsettled, 1);
    return missing + report_counts("witnesses with two faults, 4 and 5, 4 and 15, 5 and 15, 4 and 6, 5 and 6, 6 and 15", NULL, faults,
                                   FAULTS);
}
