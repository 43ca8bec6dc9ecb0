// Rows and records put to a drawn table, what it has, what it is refused for, and that mended.
#include "draw.h"
#include <string.h>

uint32_t add_row(struct draft *d, unsigned width, struct ref_vector v)
{
    size_t i = d->widths++;
    d->width[i] = (uint8_t)width;
    d->lock[i] = 0;
    d->mask[i] = v.mask;
    d->value[i] = v.value;
    d->locks = d->masks = d->values = d->widths;
    return (uint32_t)i;
}

void add_record(struct draft *d, uint32_t kind, uint32_t t, uint32_t a, uint32_t b, uint32_t p, uint32_t c)
{
    uint32_t words[RECORD_WORDS] = {kind, t, a, b, p, c};
    memcpy(d->words + d->word_count, words, sizeof words);
    d->word_count += RECORD_WORDS;
}

int has_kind(const struct draft *d, uint32_t kind)
{
    for (const uint32_t *w = d->words, *end = w + d->word_count; w < end; w += RECORD_WORDS)
        if (w[0] == kind)
            return 1;
    return 0;
}

int is_written(const struct draft *d, size_t row)
{
    for (const uint32_t *w = d->words, *end = w + d->word_count; w < end; w += RECORD_WORDS)
        if (ref_may_write(w, row))
            return 1;
    return 0;
}

uint32_t table_refusal(struct draft *d)
{
    struct ref_table t = slices(d);
    return ref_check(&t, 1, 0, t.word_count / RECORD_WORDS).refusal;
}

void mend_table(struct draft *d, struct ref_answer refused)
{
    size_t i = refused.place;
    d->word_count = 0;
    if (refused.refusal < 3)
        d->widths = d->locks = d->masks = d->values = d->widths < 1 ? 1 : d->widths > 256 ? 256 : d->widths;
    if (refused.refusal == 4 || refused.refusal == 5) {
        d->width[i] = d->width[i] < 1 || d->width[i] > 32 ? 32 : d->width[i];
        d->lock[i] &= 1;
        d->mask[i] = d->value[i] = 0;
    }
}
