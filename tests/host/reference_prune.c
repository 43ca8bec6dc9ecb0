// prune, and why marks are refused.
#include "reference.h"
#include <stdio.h>
#include <stdlib.h>
#include <string.h>

enum { MOST_ROWS = 256, MOST_RECORDS = 1024, FEW_RECORDS = 12 };

unsigned ref_mark_causes(const struct ref_table *t, const struct ref_marks *m)
{
    unsigned causes = m->count == t->widths ? 0 : m->count < t->widths ? 1 << FEWER_MARKS : 1 << MORE_MARKS;
    for (size_t i = 0; i < m->count; i++)
        if (m->mark[i] > 1)
            causes |= 1 << MARK_OVER_ONE;
    return causes;
}

int ref_reads(const uint32_t *w, size_t row)
{
    if (ref_uses(w[0], 'a') && w[2] == row)
        return 1;
    if (ref_uses(w[0], 'b') && w[3] == row)
        return 1;
    if (w[0] == LOAD)
        return w[5] <= row && row < (size_t)w[5] + w[4];
    return w[0] == ITE && w[5] == row;
}

int ref_step_back(const uint32_t *w, size_t rows, uint8_t *needed)
{
    int stays = 0;
    for (size_t i = 0; i < rows; i++)
        stays |= needed[i] && ref_may_write(w, i);
    if (!stays)
        return 0;
    if (w[0] != STORE)
        needed[w[1]] = 0;
    for (size_t i = 0; i < rows; i++)
        needed[i] |= (uint8_t)ref_reads(w, i);
    return 1;
}

// Whether something of what record r writes is in a marked row at the end. A row has it until another record writes it, but for a store, and
// every row that a record may write has it where a row that it reads does.
static int is_fed(const struct ref_table *t, const struct ref_marks *m, size_t r)
{
    uint8_t has[MOST_ROWS];
    const uint32_t *w = t->words + RECORD_WORDS * r, *end = t->words + t->word_count;
    for (size_t i = 0; i < t->widths; i++)
        has[i] = (uint8_t)ref_may_write(w, i);
    for (w += RECORD_WORDS; w < end; w += RECORD_WORDS) {
        int read = 0;
        for (size_t i = 0; i < t->widths; i++)
            read |= has[i] && ref_reads(w, i);
        for (size_t i = 0; i < t->widths; i++)
            if (ref_may_write(w, i))
                has[i] = read || (has[i] && w[0] == STORE);
    }
    for (size_t i = 0; i < t->widths; i++)
        if (has[i] && m->mark[i] == 1)
            return 1;
    return 0;
}

// Which records stay. Both ways where there are few, and they must agree.
static void judge_records(const struct ref_table *t, const struct ref_marks *m, int *stays)
{
    uint8_t needed[MOST_ROWS];
    size_t records = t->word_count / RECORD_WORDS;
    memcpy(needed, m->mark, t->widths);
    for (size_t r = records; r-- > 0;) {
        stays[r] = ref_step_back(t->words + RECORD_WORDS * r, t->widths, needed);
        if (records <= FEW_RECORDS && stays[r] != is_fed(t, m, r)) {
            printf("the reference disagrees with itself: whether record %zu stays\n", r);
            exit(1);
        }
    }
}

struct ref_answer ref_prune(struct ref_table *t, const struct ref_marks *m)
{
    int stays[MOST_RECORDS];
    size_t records = t->word_count / RECORD_WORDS, left = 0;
    struct ref_answer a = ref_check(t, 1, 0, records);
    if (a.refusal == 0 && ref_mark_causes(t, m) != 0)
        a = ref_refusal(21, 0);
    if (a.refusal != 0)
        return a;
    judge_records(t, m, stays);
    for (size_t r = 0; r < records; r++)
        if (stays[r])
            memmove(t->words + RECORD_WORDS * left++, t->words + RECORD_WORDS * r, RECORD_WORDS * sizeof *t->words);
    for (size_t i = RECORD_WORDS * left; i < t->word_count; i++)
        t->words[i] = 0;
    return ref_result(left, 0);
}
