// Random tables.
#include "draw.h"
#include <string.h>

static uint64_t state;

void seed(uint64_t s)
{
    state = s;
}

uint64_t draw(void)
{
    uint64_t z = state += 0x9e3779b97f4a7c15u; // splitmix64
    z = (z ^ z >> 30) * 0xbf58476d1ce4e5b9u;
    z = (z ^ z >> 27) * 0x94d049bb133111ebu;
    return z ^ z >> 31;
}

size_t below(size_t n)
{
    return (size_t)(draw() % n);
}

int percent(unsigned p)
{
    return below(100) < p;
}

struct ref_table slices(struct draft *d)
{
    return (struct ref_table){d->width,  d->lock,   d->mask,  d->value,  d->words,
                              d->widths, d->locks, d->masks, d->values, d->word_count};
}

// A few widths that go together, so that records of every kind find rows that fit; in some tables many rows after one another have the
// same, so that there are long spans.
static void draw_widths(struct draft *d, unsigned (*width)(void))
{
    unsigned a = width(), b = width(), sum = a + b <= 32 ? a + b : a, twice = a <= 16 ? 2 * a : a;
    unsigned pool[] = {a, a, a, a, b, b, sum, sum, twice, twice, 1, width()}, again = percent(60) ? 0 : percent(50) ? 80 : 98;
    for (size_t i = 0; i < d->widths; i++)
        d->width[i] = i > 0 && percent(again) ? d->width[i - 1] : (uint8_t)pool[below(12)];
}

static void draw_row(struct draft *d, size_t i, size_t style)
{
    struct ref_vector v = draw_vector(d->width[i], style);
    d->mask[i] = v.mask;
    d->value[i] = v.value;
}

// Rows and a parameter for record r, of its kind: 1 where they fit.
static int draw_words(struct draft *d, size_t r)
{
    struct ref_table t = slices(d);
    uint32_t *w = d->words + RECORD_WORDS * r;
    for (size_t i = 1; i < RECORD_WORDS; i++)
        w[i] = ref_uses(w[0], ref_row_letter(i)) ? (uint32_t)below(d->widths) : 0;
    if (ref_uses(w[0], 'b') && percent(5))
        w[3] = w[2];
    if (ref_uses(w[0], 'p'))
        w[4] = (uint32_t)below(percent(50) ? 32 : 4);
    if (ref_uses(w[0], 'n'))
        w[4] = 1 + (uint32_t)below(percent(70) ? 4 : d->widths - w[5]);
    return ref_record(&t, r, 1) == 0;
}

// Record r: of a random kind for which rows are found that fit, else not.
static void draw_record(struct draft *d, size_t r)
{
    uint32_t *w = d->words + RECORD_WORDS * r;
    for (int tries = 0; tries < 240; tries++) {
        if (tries % 40 == 0)
            w[0] = (uint32_t)below(KINDS);
        if (draw_words(d, r))
            return;
    }
    uint32_t open = (uint32_t)below(d->widths), not[RECORD_WORDS] = {1, open, open, 0, 0, 0};
    d->lock[open] = 0;
    memcpy(w, not, sizeof not);
}

// A step of too many choices becomes a step of not.
static void settle(struct draft *d, unsigned limit)
{
    static struct draft work;
    work = *d;
    struct ref_table t = slices(&work);
    for (size_t r = d->first; r < d->last; r++)
        if (!ref_step(&t, r, limit)) {
            uint32_t target = d->words[RECORD_WORDS * r + 1], not[RECORD_WORDS] = {1, target, target, 0, 0, 0};
            memcpy(d->words + RECORD_WORDS * r, not, sizeof not);
            memcpy(work.words + RECORD_WORDS * r, not, sizeof not);
            ref_step(&t, r, limit);
        }
}

// So many rows, of widths that are drawn by width and vectors of one style, and so many records that run accepts: the stretch is all.
static void fill(struct draft *d, size_t rows, size_t records, unsigned (*width)(void), size_t style)
{
    d->widths = d->locks = d->masks = d->values = rows;
    d->word_count = RECORD_WORDS * records;
    d->first = 0;
    d->last = records;
    draw_widths(d, width);
    unsigned locked = percent(30) ? 0 : 15;
    for (size_t i = 0; i < rows; i++) {
        draw_row(d, i, style);
        d->lock[i] = percent(locked);
    }
    for (size_t r = 0; r < records; r++)
        draw_record(d, r);
}

void draw_table(struct draft *d)
{
    int large = below(300) == 0;
    size_t rows = large ? 256 - below(3) : percent(10) ? 1 : percent(70) ? 2 + below(7) : 2 + below(30);
    size_t records = large ? 1024 - below(3) : below(12), style = below(STYLES);
    fill(d, rows, records, draw_width, style);
    d->last = percent(70) ? records : below(records + 1);
    d->first = percent(50) ? 0 : below(d->last + 1);
    settle(d, large ? 8 : LIMIT);
}

static unsigned narrow_width(void)
{
    return 1 + (unsigned)below(NARROW / 2);
}

void draw_known_table(struct draft *d, size_t rows, size_t records, int narrow)
{
    fill(d, rows, records, narrow ? narrow_width : draw_width, 0);
    unsigned unknown = percent(50) ? 0 : 40;
    for (size_t i = 0; i < rows; i++)
        if (percent(unknown))
            draw_row(d, i, below(STYLES));
}
