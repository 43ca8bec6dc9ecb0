// Random vectors, alone, as operands and with ends, and faults of them.
#include "draw.h"

unsigned draw_width(void)
{
    static const unsigned edges[] = {1, 31, 32, 32};
    if (percent(15))
        return edges[below(4)];
    return (unsigned)(percent(60) ? 1 + below(6) : percent(50) ? 7 + below(10) : 17 + below(16));
}

static uint32_t few_bits(unsigned width)
{
    uint32_t n = 0;
    for (size_t left = below(5); left > 0; left--)
        n |= (uint32_t)1 << below(width);
    return n;
}

static uint32_t run_of_bits(unsigned width)
{
    size_t low = below(width);
    return UINT32_MAX >> below(width - low) >> (32 - width + low) << low;
}

struct ref_vector draw_vector(unsigned width, size_t style)
{
    uint32_t all = UINT32_MAX >> (32 - width);
    uint32_t masks[] = {0, all, (uint32_t)draw(), (uint32_t)draw(), (uint32_t)draw(), run_of_bits(width)};
    uint32_t mask = (style < 6 ? masks[style] : few_bits(width)) & all;
    return (struct ref_vector){mask, (percent(10) ? 0 : percent(10) ? all : (uint32_t)draw()) & all & ~mask};
}

void damage_vector(struct ref_vector *v, uint32_t width)
{
    uint32_t inside = (uint32_t)1 << below(width > 0 && width < 33 ? width : 1);
    uint32_t above = width < 32 ? (uint32_t)1 << (width + below(32 - width)) : 0;
    if (percent(40))
        v->mask |= above;
    else if (percent(60))
        v->value |= above;
    else {
        v->mask |= inside;
        v->value |= inside;
    }
}

uint32_t far_off(uint32_t limit)
{
    uint32_t small = (uint32_t)below(limit);
    uint32_t far[] = {limit, limit + 1, limit + small, 256 + small, 65536 + small, 0x80000000u + small, UINT32_MAX};
    return far[below(7)];
}

static uint32_t draw_bad_width(void)
{
    return percent(30) ? 0 : percent(20) ? (uint32_t)draw() : far_off(33);
}

static void damage_operands(struct ref_operands *o)
{
    uint32_t limit = o->width >= 1 && o->width <= 32 ? o->width : 32;
    switch (below(6)) {
    case 0: o->width = draw_bad_width(); return;
    case 1: o->width = 1 + (uint32_t)below(32); return; // the vectors and the bit stay
    case 2: damage_vector(&o->a, o->width); return;
    case 3: damage_vector(&o->b, o->width); return;
    case 4: o->kind = percent(70) ? (uint32_t)below(KINDS) : percent(20) ? (uint32_t)draw() : far_off(KINDS); return;
    default: o->bit = percent(30) ? 31 + (uint32_t)below(2) : percent(20) ? (uint32_t)draw() : far_off(limit); return;
    }
}

// Makes bit i of a and bit - i of b unknown, for up to four i.
static void make_unknown(struct ref_operands *o)
{
    for (size_t left = 2 + below(3); left > 0; left--) {
        size_t i = below(o->bit + 1);
        o->a.mask |= (uint32_t)1 << i;
        o->b.mask |= (uint32_t)1 << (o->bit - i);
    }
    o->a.value &= ~o->a.mask;
    o->b.value &= ~o->b.mask;
}

void draw_operands(struct ref_operands *o)
{
    static const uint32_t right[] = {ADD, SUB, MUL, MUL};
    o->kind = right[below(4)];
    o->width = draw_width();
    o->bit = percent(25) ? o->width - 1 : (uint32_t)below(o->width);
    o->a = draw_vector(o->width, below(STYLES));
    o->b = percent(25) ? o->a : draw_vector(o->width, below(STYLES));
    if (percent(20))
        make_unknown(o);
    for (size_t faults = percent(50) ? 0 : 1 + below(4); faults > 0; faults--)
        damage_operands(o);
}

// A number below 2^width.
static uint64_t draw_end(const struct ref_interval *i)
{
    uint64_t all = UINT32_MAX >> (32 - i->width), covered = i->v.value | (draw() & i->v.mask);
    uint64_t ends[] = {0, all, draw() & all, covered, covered - (covered > 0), covered + (covered < all)};
    return ends[below(6)];
}

// 2^width or a greater number; of some a careless cast would make one that is right.
static uint64_t draw_bad_end(const struct ref_interval *i)
{
    uint64_t end = (uint64_t)1 << (i->width < 32 ? i->width : 32), small = draw() & (end - 1);
    uint64_t ends[] = {end, end + 1, end + small, ((uint64_t)1 << 32) + small, ((uint64_t)1 << 63) + small, UINT64_MAX};
    return ends[below(6)];
}

static void exchange_ends(struct ref_interval *i)
{
    uint64_t low = i->low;
    i->low = i->high;
    i->high = low;
}

static void damage_interval(struct ref_interval *i)
{
    switch (below(6)) {
    case 0: i->width = draw_bad_width(); return;
    case 1: i->width = draw_width(); return; // the vector and the ends stay
    case 2: damage_vector(&i->v, i->width); return;
    case 3: i->low = draw_bad_end(i); return;
    case 4: i->high = draw_bad_end(i); return;
    default: exchange_ends(i); return;
    }
}

void draw_interval(struct ref_interval *i)
{
    i->width = draw_width();
    i->v = draw_vector(i->width, below(STYLES));
    i->low = draw_end(i);
    uint64_t near = i->low + ((draw() & (UINT32_MAX >> (32 - i->width))) >> below(i->width));
    i->high = percent(40) && near >> i->width == 0 ? near : draw_end(i);
    if (i->low > i->high)
        exchange_ends(i);
    for (size_t faults = percent(50) ? 0 : 1 + below(3); faults > 0; faults--)
        damage_interval(i);
}
