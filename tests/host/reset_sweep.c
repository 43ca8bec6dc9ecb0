// reset_bits of small tables, beside every set of start bits made X.
#include "reset_calls.h"
#include <stdio.h>
#include <stdlib.h>

enum { SWEPT = 20000, MOST = 10, COUNTS = 7 };

static unsigned counts[COUNTS];

// The known bits of the open rows in the order of the pass: row and bit of each. A set of them is a word, bit j for bit j of the list.
static struct {
    size_t row;
    uint32_t bit;
} known[MOST];
static size_t known_count;

// holds[s]: whether the conclusion keeps its value where the bits of set s are X at the start.
static unsigned char holds[1 << MOST];

static void list_known(const struct draft *d)
{
    known_count = 0;
    for (size_t i = 0; i < d->widths; i++)
        for (uint32_t k = 0; k < d->width[i]; k++)
            if (d->lock[i] == 0 && ref_bit(known_bits(d, i), k)) {
                known[known_count].row = i;
                known[known_count++].bit = k;
            }
}

// Whether the question's bit is that value, 0 or 1, after a run from these rows.
static int concludes(const struct reset *q, struct draft *d, size_t value)
{
    int exact;
    struct ref_table t = slices(d);
    unsigned bit = ref_conclusion(&t, q->row, q->bit, LIMIT, &exact);
    if (!exact) { // draw_small_reset draws no such table
        printf("a run of a narrow table is not settled\n");
        exit(1);
    }
    return bit == value;
}

static void try_sets(const struct reset *q, size_t value)
{
    static struct draft work;
    work = q->d;
    for (size_t set = 0; set >> known_count == 0; set++) {
        for (size_t i = 0; i < q->d.widths; i++) {
            work.mask[i] = q->d.mask[i];
            work.value[i] = q->d.value[i];
        }
        for (size_t j = 0; j < known_count; j++)
            if (ref_bit(set, (unsigned)j))
                set_unknown(&work, known[j].row, known[j].bit);
        holds[set] = (unsigned char)concludes(q, &work, value);
    }
}

// Whether a bit of a locked row could become X as well.
static int could_drop_locked(const struct reset *q, const struct draft *left, size_t value)
{
    static struct draft work;
    for (size_t i = 0; i < left->widths; i++)
        for (uint32_t k = 0; k < left->width[i]; k++)
            if (left->lock[i] == 1 && ref_bit(known_bits(left, i), k)) {
                work = *left;
                set_unknown(&work, i, k);
                if (concludes(q, &work, value))
                    return 1;
            }
    return 0;
}

// The set that a pass in the opposite order makes X.
static size_t falling_pass(void)
{
    size_t set = 0;
    for (size_t j = known_count; j-- > 0;)
        set |= (size_t)holds[set | (size_t)1 << j] << j;
    return set;
}

static int size_of(size_t set)
{
    int size = 0;
    for (size_t j = 0; j < known_count; j++)
        size += (int)ref_bit(set, (unsigned)j);
    return size;
}

// Counts what the sets show of the one made X.
static void count_sets(size_t made)
{
    int alone = 0, more = 0;
    for (size_t j = 0; j < known_count; j++)
        alone |= !ref_bit(made, (unsigned)j) && holds[(size_t)1 << j];
    for (size_t set = 0; set >> known_count == 0; set++)
        more |= holds[set] && size_of(set) > size_of(made);
    counts[0]++;
    counts[1] += alone != 0;
    counts[2] += falling_pass() != made;
    counts[3] += more != 0;
}

static void sweep_table(struct reset *q, const struct draft *left, size_t value)
{
    size_t made = 0;
    list_known(&q->d);
    try_sets(q, value);
    for (size_t j = 0; j < known_count; j++)
        made |= (size_t)ref_bit(left->mask[known[j].row], known[j].bit) << j;
    for (size_t set = made; set >> known_count == 0; set++)
        if ((set & made) == made && holds[set] != (set == made)) {
            printf("reset_bits: of %zu known bits those of the set %zx became X; with %zx the conclusion %s\n", known_count, made, set,
                   holds[set] ? "still holds" : "does not hold");
            exit(1);
        }
    count_sets(made);
    uint32_t last = q->d.words[q->d.word_count - RECORD_WORDS];
    counts[4] += (unsigned)could_drop_locked(q, left, value);
    counts[5] += last == LOAD;
    counts[6] += last == STORE;
}

void sweep_resets(void)
{
    static struct reset q;
    static struct draft left;
    int exact;
    for (size_t n = 0; n < SWEPT; n++) {
        draw_small_reset(&q, MOST);
        struct ref_answer right = reference_of(&q, &left, &exact);
        judge_reset(&q, &left, right);
        if (right.refusal == RIFFLERLEEK_DONE)
            sweep_table(&q, &left, right.result);
    }
}

int report_reset_sweep(void)
{
    return report_counts("small tables of reset_bits with every set of start bits; where a bit is kept that could be X alone; where the "
                         "opposite order leaves others; where fewer could be left; where a locked bit could be X too; whose last record loads, stores",
                         NULL, counts, COUNTS);
}
