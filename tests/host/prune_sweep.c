// prune of every table of two records on three rows of one bit, with every marking.
#include "prune_calls.h"

enum { COPY = 0, AND = 2, ROWS = 3, RECORDS = 2, MARKINGS = 1 << ROWS };

static unsigned counts[RECORDS + 1];

// Every record of a form: with one operand, two or three, a load, a store.
static void list_records(struct draft *all)
{
    for (uint32_t i = 0; i < ROWS * ROWS * ROWS * ROWS; i++) {
        uint32_t t = i % ROWS, a = i / ROWS % ROWS, b = i / ROWS / ROWS % ROWS, c = i / ROWS / ROWS / ROWS;
        if (b == 0 && c == 0)
            add_record(all, COPY, t, a, 0, 0, 0);
        if (c == 0)
            add_record(all, AND, t, a, b, 0, 0);
        add_record(all, ITE, t, a, b, 0, c);
        for (uint32_t n = 1; n <= ROWS - c; n++) {
            if (b == 0)
                add_record(all, LOAD, t, a, 0, n, c);
            if (t == 0)
                add_record(all, STORE, 0, a, b, n, c);
        }
    }
}

// The table at hand with every marking.
static void mark_all(struct pruned *q)
{
    static uint32_t words[MAX_WORDS];
    for (unsigned marking = 0; marking < MARKINGS; marking++) {
        for (unsigned i = 0; i < ROWS; i++)
            q->marks[i] = (uint8_t)ref_bit(marking, i);
        counts[judge_prune(q, words).result]++;
    }
}

void sweep_prunings(void)
{
    static struct draft all;
    static struct pruned q;
    list_records(&all);
    for (q.mark_count = 0; q.mark_count < ROWS; q.mark_count++)
        add_row(&q.d, 1, (struct ref_vector){0, 0});
    for (size_t r = 0; r < all.word_count; r += RECORD_WORDS)
        for (size_t s = 0; s < all.word_count; s += RECORD_WORDS) {
            const uint32_t *v = all.words + r, *w = all.words + s;
            q.d.word_count = 0;
            add_record(&q.d, v[0], v[1], v[2], v[3], v[4], v[5]);
            add_record(&q.d, w[0], w[1], w[2], w[3], w[4], w[5]);
            mark_all(&q);
        }
}

int report_prune_sweep(void)
{
    return report_counts("prune of every two records on three rows: none stays, one, both", NULL, counts, RECORDS + 1);
}
