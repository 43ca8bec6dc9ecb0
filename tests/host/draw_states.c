// Random states, two over one width slice.
#include "draw.h"

enum { EQUAL, WIDER, NARROWER, EITHER, BOTH, FLIPPED, ANY, RELATIONS };

struct ref_states states_of(struct state_draft *s)
{
    return (struct ref_states){s->width,  {s->mask[0], s->mask[1]},   {s->value[0], s->value[1]},
                               s->widths, {s->masks[0], s->masks[1]}, {s->values[0], s->values[1]}};
}

// One of these bits, or any of them; the top one often.
static uint32_t some_of(uint32_t bits, unsigned width)
{
    uint32_t one = (uint32_t)1 << (percent(30) ? width - 1 : below(width));
    return bits & (percent(50) ? one : (uint32_t)draw());
}

static struct ref_vector wider(struct ref_vector v, unsigned width)
{
    uint32_t mask = v.mask | some_of(UINT32_MAX >> (32 - width), width);
    return (struct ref_vector){mask, v.value & ~mask};
}

static struct ref_vector narrower(struct ref_vector v, unsigned width)
{
    uint32_t known = some_of(v.mask, width);
    return (struct ref_vector){v.mask & ~known, v.value | (known & (uint32_t)draw())};
}

// A vector that lies so to that one, where it can.
static struct ref_vector related(struct ref_vector v, unsigned width, size_t relation)
{
    switch (relation) {
    case EQUAL: return v;
    case WIDER: return wider(v, width);
    case NARROWER: return narrower(v, width);
    case EITHER: return percent(50) ? wider(v, width) : narrower(v, width);
    case BOTH: return wider(narrower(v, width), width);
    case FLIPPED: return (struct ref_vector){v.mask, v.value ^ some_of(UINT32_MAX >> (32 - width) & ~v.mask, width)};
    default: return draw_vector(width, below(STYLES));
    }
}

static void set_rows(struct state_draft *s, size_t n)
{
    s->widths = s->masks[0] = s->masks[1] = s->values[0] = s->values[1] = n;
}

static void set_row(struct state_draft *s, int state, size_t i, struct ref_vector v)
{
    s->mask[state][i] = v.mask;
    s->value[state][i] = v.value;
}

// The rows differ in one of them, often the first or the last, or in many.
static void draw_sound(struct state_draft *s)
{
    size_t n = below(200) == 0 ? 256 : percent(20) ? 1 : 2 + below(6), relation = below(RELATIONS);
    size_t one = percent(30) ? 0 : percent(40) ? n - 1 : below(n);
    unsigned share = percent(50) ? 0 : 60;
    set_rows(s, n);
    for (size_t i = 0; i < n; i++) {
        unsigned width = draw_width();
        struct ref_vector v = draw_vector(width, below(STYLES));
        s->width[i] = (uint8_t)width;
        set_row(s, 0, i, v);
        set_row(s, 1, i, i == one || percent(share) ? related(v, width, relation) : v);
    }
}

static void damage_lengths(struct state_draft *s)
{
    size_t *lengths[] = {&s->widths, &s->masks[0], &s->values[0], &s->masks[1], &s->values[1]}, *length = lengths[below(5)];
    if (percent(50))
        *length += 1 + below(3);
    else
        *length -= *length == 0 ? 0 : 1 + below(*length < 3 ? *length : 3);
}

static void damage(struct state_draft *s)
{
    static const uint8_t widths[] = {0, 33, 64, 255};
    size_t i = below(s->widths + (s->widths == 0));
    int state = percent(50);
    switch (below(5)) {
    case 0: set_rows(s, percent(50) ? 0 : 257 + below(10)); return;
    case 1: damage_lengths(s); return;
    case 2: s->width[i] = widths[below(4)]; return;
    default: {
        struct ref_vector v = {s->mask[state][i], s->value[state][i]};
        damage_vector(&v, s->width[i]);
        set_row(s, state, i, v);
    }
    }
}

void draw_states(struct state_draft *s)
{
    draw_sound(s);
    for (size_t faults = percent(60) ? 0 : 1 + below(3); faults > 0; faults--)
        damage(s);
}
