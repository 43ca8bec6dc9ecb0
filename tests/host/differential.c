// Random calls, valid and damaged, every range to width 5, the resets of small tables, every two records to prune, and every two small
// states: the library and the reference must give the same answer (of witnesses the same refusal, else pairs that the reference finds
// right) and leave the same bytes, also around and beyond what they write; a text that was read must be written back as it should; what
// settle leaves must cover plain clocks; and marked rows must end as before with the records that prune leaves. Every answer of every call,
// and every kind of record, must occur, each kind of two operands also with one row named twice, and what the reports of memories, texts,
// vectors, ranges, resets, clocks, prunings and states count; and no call may take more stack than the header says, which tests/host/depth
// reads off the archive.
// usage: differential [SEED [CALLS]]
#include "memory_counts.h"
#include "prune_calls.h"
#include "range_calls.h"
#include "reset_calls.h"
#include "settle_calls.h"
#include "state_calls.h"
#include "text_calls.h"
#include "vector_calls.h"
#include <stdio.h>
#include <stdlib.h>
#include <time.h>

// The answers that each call has, as bits: bit 0 for a result, bit n for refusal n.
static const unsigned answers[CALLS] = {0x7ff,  0x0b7,  0x3ff,   0x43ff,  0x3805,  0x3805,   0x3805,
                                        0x0001, 0x8031, 0x18071, 0x60031, 0x887ff, 0x1007ff, 0x2007ff,
                                        0x0037};

static unsigned steps[KINDS], steps_twice[KINDS];

static struct draft d;

// A table, more than half of them with up to three faults.
static void table(void)
{
    draw_table(&d);
    for (size_t faults = percent(35) ? 0 : 1 + below(3); faults > 0; faults--)
        damage_table(&d, 1 + (unsigned)below(10));
}

static void call_run(void)
{
    struct ref_table r, t;
    static struct draft work;
    int exact = 0;
    while (!exact) { // a fault can give a table whose steps take too many choices: draw another
        table();
        work = d;
        r = slices(&work);
        ref_run(&r, d.first, d.last, LIMIT, &exact);
    }
    t = lend_table(&d, &r);
    rifflerleek_answer a = library_run(&t, d.first, d.last);
    compare(RUN, a, ref_run(&r, d.first, d.last, LIMIT, &exact));
    count_memories(&d, a);
    for (size_t i = d.first; i < d.last && a.refusal == 0; i++) {
        const uint32_t *record = d.words + RECORD_WORDS * i;
        steps[record[0]]++;
        steps_twice[record[0]] += (unsigned)ref_named_twice(record);
    }
}

static void call_count(void)
{
    struct ref_table r, t;
    table();
    size_t row = percent(70) ? below(d.widths + 1) : percent(30) ? SIZE_MAX : d.widths + below(300);
    t = lend_table(&d, &r);
    compare(COUNT, library_count(&t, row), ref_count(&r, row));
}

static void call_size(void)
{
    struct ref_table r, t;
    table();
    t = lend_table(&d, &r);
    compare(SIZE, library_size(&t), ref_size(&r));
}

// Lends write a buffer of that length, filled with any bytes.
static rifflerleek_answer write_into(size_t length)
{
    static uint8_t buffer[RIFFLERLEEK_TEXT_LIMIT];
    struct ref_table r, t;
    uint8_t *other;
    for (size_t i = 0; i < length; i++)
        buffer[i] = (uint8_t)draw();
    t = lend_table(&d, &r);
    uint8_t *out = lend(buffer, length, &other);
    rifflerleek_answer a = library_write(&t, out, length);
    compare(WRITE, a, ref_write(&r, other, length));
    return a;
}

// Where the table has a size, that many bytes are enough for write, which answers the same number, and one byte less is not.
static void call_write(void)
{
    struct ref_table r, t;
    table();
    t = lend_table(&d, &r);
    rifflerleek_answer size = library_size(&t);
    compare(SIZE, size, ref_size(&r));
    write_into(percent(50) ? below(size.result + 1) : size.result + below(100));
    if (size.refusal != RIFFLERLEEK_DONE)
        return;
    rifflerleek_answer whole = write_into(size.result), less = write_into(size.result - 1);
    if (whole.refusal != RIFFLERLEEK_DONE || whole.result != size.result || less.refusal != RIFFLERLEEK_REFUSED_BUFFER) {
        printf("call %zu: size answers %zu; write answers %zu into as many bytes (refusal %u), refusal %u into one less\n", call_number,
               size.result, whole.result, whole.refusal, less.refusal);
        exit(1);
    }
}

// How often each answer, each kind and what the other reports count was seen, and how many were not.
static int report(void)
{
    int missing = 0;
    unsigned all[REFUSALS] = {0};
    printf("%-14s", "refusal:");
    for (int n = 0; n < REFUSALS; n++)
        printf(n == 0 ? "   none" : "%6d", n);
    for (int name = 0; name <= CALLS; name++) {
        printf("\n%-14s", name < CALLS ? call_names[name] : "all");
        for (int n = 0; n < REFUSALS; n++) {
            unsigned count = name < CALLS ? seen[name][n] : all[n];
            all[n] += name < CALLS ? count : 0;
            missing += name < CALLS && (answers[name] >> n & 1) && count == 0;
            printf(n == 0 ? "%7u" : "%6u", count);
        }
    }
    printf("\nsteps:");
    for (int k = 0; k < KINDS; k++) {
        printf(" %s %u", kinds[k].name, steps[k]);
        missing += steps[k] == 0;
    }
    printf("\none row named twice:");
    for (int k = 0; k < KINDS; k++)
        if (ref_uses((uint32_t)k, 'b')) {
            printf(" %s %u", kinds[k].name, steps_twice[k]);
            missing += steps_twice[k] == 0;
        }
    printf("\n");
    missing += report_memories();
    missing += report_texts();
    missing += report_vectors();
    missing += report_ranges();
    missing += report_resets();
    missing += report_settles();
    missing += report_prunings();
    return missing + report_states();
}

int main(int argc, char **argv)
{
    static void (*const calls[])(void) = {call_run,         call_run,       call_run,       call_run,   call_count, call_size,
                                          call_write,       call_read,      call_read,      call_field, call_trip,  call_product_bit,
                                          call_product_bit, call_witnesses, call_witnesses, call_range, call_range, call_reset_bits,
                                          call_reset_bits,  call_settle,    call_settle,    call_prune, call_prune, call_compare_states};
    uint64_t from = argc > 1 ? strtoull(argv[1], NULL, 10) : 1;
    size_t count = argc > 2 ? strtoull(argv[2], NULL, 10) : 192000;
    printf("seed %llu, %zu calls\n", (unsigned long long)from, count);
    fflush(stdout);
    seed(from);
    for (call_number = 0; call_number < count; call_number++)
        calls[below(sizeof calls / sizeof *calls)]();
    sweep_ranges();
    sweep_resets();
    sweep_prunings();
    sweep_states();
    int missing = report();
    size_t stack = library_stack();
    printf("library and reference agree on every answer and every byte, in %.1f s; never seen of what must be: %d\n",
           (double)clock() / CLOCKS_PER_SEC, missing);
    printf("a call, and making it, takes at most %zu bytes of stack; the header allows %d, and %d for making it\n", stack,
           RIFFLERLEEK_STACK_LIMIT, LIBRARY_CALLER);
    return missing != 0 || stack > RIFFLERLEEK_STACK_LIMIT + LIBRARY_CALLER;
}
