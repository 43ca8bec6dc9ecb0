// Runs of all records, and of those that prune leaves: marked rows must end as before.
#include "prune_calls.h"
#include <stdio.h>
#include <stdlib.h>

enum { LENT, OTHER, PLAIN, STARTS, COUNTS = 2, TIMES = 2, MOST_ROWS = 256 };

static unsigned counts[STARTS][COUNTS];

// The rows of one run: as masks and values, or as numbers.
struct rows {
    uint32_t mask[MOST_ROWS], value[MOST_ROWS];
    uint64_t number[MOST_ROWS];
};

static void draw_rows(const struct draft *d, int start, struct rows *s)
{
    for (size_t i = 0; i < d->widths; i++) {
        struct ref_vector v = {d->mask[i], d->value[i]};
        if (start == OTHER)
            v = draw_vector(d->width[i], below(STYLES));
        s->mask[i] = v.mask;
        s->value[i] = v.value;
        s->number[i] = (percent(30) ? below(4) : draw()) & UINT32_MAX >> (32 - d->width[i]);
    }
}

// A run of all of these words' records, by the library; of plain numbers by the reference.
static void run(struct draft *d, uint32_t *words, size_t word_count, int start, struct rows *s)
{
    struct ref_table t = slices(d);
    t.mask = s->mask;
    t.value = s->value;
    t.words = words;
    t.word_count = word_count;
    if (start == PLAIN) {
        ref_plain_run(&t, s->number);
        return;
    }
    rifflerleek_answer a = library_run(&t, 0, word_count / RECORD_WORDS);
    if (a.refusal != RIFFLERLEEK_DONE) {
        printf("call %zu, prune: a run of %zu records is refused as %u at %zu\n", call_number, word_count / RECORD_WORDS, a.refusal, a.place);
        exit(1);
    }
}

static int differ(const struct rows *s, const struct rows *t, size_t i)
{
    return s->mask[i] != t->mask[i] || s->value[i] != t->value[i] || s->number[i] != t->number[i];
}

// Ends the program where a marked row ends otherwise. Counts runs that change a marked row, and after which another row differs.
static void compare_rows(const struct pruned *q, int start, const struct rows *first, const struct rows *all, const struct rows *left)
{
    int changed = 0, other = 0;
    for (size_t i = 0; i < q->d.widths; i++) {
        changed |= q->marks[i] == 1 && differ(first, all, i);
        if (!differ(all, left, i))
            continue;
        other = 1;
        if (q->marks[i] == 0)
            continue;
        printf("call %zu, prune: marked row %zu ends otherwise, from %s\n", call_number, i,
               start == LENT ? "the lent rows" : start == OTHER ? "other rows" : "plain numbers");
        exit(1);
    }
    counts[start][0] += changed != 0;
    counts[start][1] += other != 0;
}

void run_both(struct pruned *q, uint32_t *words, size_t records)
{
    static struct rows first, all, left;
    for (int n = 0; n < 1 + 2 * TIMES; n++) {
        int start = n == 0 ? LENT : n <= TIMES ? OTHER : PLAIN;
        draw_rows(&q->d, start, &first);
        all = left = first;
        run(&q->d, q->d.words, q->d.word_count, start, &all);
        run(&q->d, words, RECORD_WORDS * records, start, &left);
        compare_rows(q, start, &first, &all, &left);
    }
}

int report_marked_runs(void)
{
    int missing = report_counts("runs before and after prune that change a marked row, after which another row differs; from the lent rows",
                                NULL, counts[LENT], COUNTS);
    missing += report_counts("from other rows", NULL, counts[OTHER], COUNTS);
    return missing + report_counts("of plain numbers", NULL, counts[PLAIN], COUNTS);
}
