// Calls of range, random ones and all to width 5.
#include "range_calls.h"
#include <stdio.h>
#include <stdlib.h>

// Two faults at once, by their refusals: the first is given.
enum { FAULTS = 6, ENDS = 7, EMPTY = 3, RESULTS = 8, SWEPT_WIDTH = 5, SWEPT = 3 };
static const uint32_t two_faults[FAULTS][2] = {{4, 5}, {4, 17}, {4, 18}, {5, 17}, {5, 18}, {17, 18}};

static unsigned faults[FAULTS], ends[ENDS], empty[EMPTY], results[RESULTS], swept[SWEPT];

// The answer of the library, which must be that of the reference: else the program ends.
static rifflerleek_four_numbers judged(const struct ref_interval *i)
{
    rifflerleek_four_numbers n = library_range(i);
    struct ref_numbers r = ref_range(i, LIMIT);
    if (n.refusal == r.refusal && n.place == 0 && n.first == r.first && n.second == r.second && n.third == r.third && n.fourth == r.fourth)
        return n;
    printf("call %zu, range: width %u, mask %08x, value %08x, ends %llu and %llu\n", call_number, i->width, i->v.mask, i->v.value,
           (unsigned long long)i->low, (unsigned long long)i->high);
    printf("library:   refusal %u place %zu, mask %08x value %08x, %u to %u\n", n.refusal, n.place, n.first, n.second, n.third, n.fourth);
    printf("reference: refusal %u place 0, mask %08x value %08x, %u to %u\n", r.refusal, r.first, r.second, r.third, r.fourth);
    exit(1);
}

// The interval without what was refused: its ends are cut to 2^width - 1, and low is cut to high.
static struct ref_interval mended(struct ref_interval i, uint32_t refusal)
{
    if (refusal == RIFFLERLEEK_REFUSED_WIDTH)
        i.width = RIFFLERLEEK_WIDTH_LIMIT;
    else if (refusal == RIFFLERLEEK_REFUSED_VECTOR)
        i.v = (struct ref_vector){0, 0};
    else if (refusal == RIFFLERLEEK_REFUSED_ENDS) {
        uint64_t greatest = ((uint64_t)1 << i.width) - 1;
        i.high = i.high < greatest ? i.high : greatest;
        i.low = i.low < i.high ? i.low : i.high;
    }
    return i;
}

// Adds to each count what holds.
static void count_each(unsigned *counts, const int *held, int number)
{
    for (int k = 0; k < number; k++)
        counts[k] += held[k] != 0;
}

// Counts why the ends are refused.
static void count_ends(const struct ref_interval *i)
{
    uint64_t end = (uint64_t)1 << i->width;
    uint32_t low = (uint32_t)i->low, high = (uint32_t)i->high;
    int l = i->low >= end, h = i->high >= end, at_end = i->width == 32 && i->high == end, most = i->high == UINT64_MAX;
    int held[ENDS] = {!l && !h, l && !h, l && h, !l && h, !l && at_end, !l && most, low <= high && high < end};
    count_each(ends, held, ENDS);
}

// Counts on which side of the ends the covered numbers lie.
static void count_empty(const struct ref_interval *i)
{
    int less = i->v.value < i->low, more = (i->v.value | i->v.mask) > i->high;
    int held[EMPTY] = {less && !more, !less && more, less && more};
    count_each(empty, held, EMPTY);
}

static void count_results(const struct ref_interval *i, rifflerleek_four_numbers n)
{
    int one = n.third == n.fourth, same = n.first == i->v.mask, l = n.third == i->low, h = n.fourth == i->high;
    int held[RESULTS] = {one && !same, !one && !same, !one && same, !l && !h, l && !h, !l && h, l && h && !one, n.first == UINT32_MAX};
    count_each(results, held, RESULTS);
}

void call_range(void)
{
    struct ref_interval i;
    draw_interval(&i);
    rifflerleek_four_numbers n = judged(&i);
    seen[RANGE][n.refusal]++;
    if (n.refusal == RIFFLERLEEK_DONE)
        count_results(&i, n);
    else if (n.refusal == RIFFLERLEEK_REFUSED_ENDS)
        count_ends(&i);
    else if (n.refusal == RIFFLERLEEK_REFUSED_EMPTY)
        count_empty(&i);
    struct ref_interval rest = mended(i, n.refusal);
    count_faults(two_faults, FAULTS, faults, n.refusal, ref_range(&rest, 0).refusal);
}

// Every two ends from 0 to 2^width.
static void sweep_ends(struct ref_interval i)
{
    uint64_t end = (uint64_t)1 << i.width;
    for (i.low = 0; i.low <= end; i.low++)
        for (i.high = 0; i.high <= end; i.high++) {
            uint32_t refusal = judged(&i).refusal;
            swept[refusal == RIFFLERLEEK_DONE ? 0 : refusal == RIFFLERLEEK_REFUSED_ENDS ? 1 : 2]++;
        }
}

void sweep_ranges(void)
{
    struct ref_interval i = {0};
    for (i.width = 1; i.width <= SWEPT_WIDTH; i.width++)
        for (i.v.mask = 0; i.v.mask >> i.width == 0; i.v.mask++)
            for (i.v.value = 0; i.v.value >> i.width == 0; i.v.value++)
                if (ref_well_formed(i.width, i.v))
                    sweep_ends(i);
}

int report_ranges(void)
{
    int missing = report_counts("range refused, ends exchanged, low too great, both, high; high 2^32 of width 32, 2^64 - 1; right if cast",
                                NULL, ends, ENDS);
    missing += report_counts("range refused, covered numbers all below the ends, all above, on both sides", NULL, empty, EMPTY);
    missing += report_counts("ranges that settle every X, some, none; with neither end, low, high, both; 32 X", NULL, results, RESULTS);
    missing += report_counts("range with two faults, 4 and 5, 4 and 17, 4 and 18, 5 and 17, 5 and 18, 17 and 18", NULL, faults, FAULTS);
    return missing + report_counts("every range to width 5, given, refused as 17, as 18", NULL, swept, SWEPT);
}
