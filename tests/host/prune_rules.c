// Whether a wrong rule of which records stay would show.
#include "prune_calls.h"
#include <stdio.h>
#include <stdlib.h>
#include <string.h>

// The right rule, and what is wrong with the others.
enum {
    RIGHT,
    FROM_THE_FIRST,   // from the first record on
    OPERANDS_FIRST,   // the operands become needed, and then the target ceases to be
    TARGET_STAYS,     // the target does not cease to be needed
    DROPPED_READ,     // the operands of a record that does not stay become needed too
    NO_A,             // of two operands the second alone becomes needed
    NO_B,             // the first alone
    NO_CONDITION,     // not the condition of an ite
    UNUSED_NAME_ROWS, // row 0 too, which an unused word would name
    NO_ADDRESS,       // not the address of a load
    NO_CELLS,         // none of its cells
    FIRST_CELL,       // its first alone
    BUT_LAST_CELL,    // not its last
    BY_TARGET,        // a store stays if row 0 is needed, which its word t would name
    BY_FIRST_CELL,    // if its first cell is
    BY_ALL_BUT_LAST,  // if a cell but its last is
    BY_REACHED,       // if a cell that its address can name is
    NO_STORE_ADDRESS, // of a store that stays its data alone becomes needed
    NO_STORE_DATA,    // its address alone
    CELLS_CEASE,      // its cells cease to be needed
    CELLS_NEEDED,     // they become needed
    CELLS_AS_BEFORE,  // an address or data that is a cell does not become needed
    RULES
};

enum { COPY = 0, AND = 2, MOST_ROWS = 256, MOST_RECORDS = 1024 };

static unsigned shown[RULES];

// The record becomes one that reads what this one does by the rule.
static void misread(uint32_t *w, int rule)
{
    int load = w[0] == LOAD, store = w[0] == STORE, two = ref_uses(w[0], 'b') && !store;
    switch (rule) {
    case NO_A: w[2] = two ? w[3] : w[2]; return;
    case NO_B: w[3] = two ? w[2] : w[3]; return;
    case NO_CONDITION: w[0] = w[0] == ITE ? AND : w[0]; return;
    case UNUSED_NAME_ROWS: w[0] = ref_uses(w[0], 'c') ? w[0] : ITE; return;
    case NO_ADDRESS: w[2] = load ? w[5] : w[2]; return;
    case NO_CELLS: w[0] = load ? COPY : w[0]; return;
    case FIRST_CELL: w[4] = load ? 1 : w[4]; return;
    case BUT_LAST_CELL: w[4] -= load; return;
    case NO_STORE_ADDRESS: w[2] = store ? w[3] : w[2]; return;
    case NO_STORE_DATA: w[3] = store ? w[2] : w[3]; return;
    }
}

// A store becomes a record that writes what may keep this one by the rule. An address is looked at where no record writes it.
static void miswrite(const struct draft *d, uint32_t *w, int rule)
{
    uint32_t address = d->value[w[2]];
    switch (rule) {
    case BY_TARGET: w[0] = COPY; return;
    case BY_FIRST_CELL: w[4] = 1; return;
    case BY_ALL_BUT_LAST: w[4]--; return;
    case BY_REACHED:
        if (d->mask[w[2]] != 0 || is_written(d, w[2]))
            return;
        w[5] += address < w[4] ? address : 0;
        w[4] = address < w[4];
    }
}

// One record of the way by a rule: whether it stays, and what is needed then.
static int step(const struct draft *d, const uint32_t *w, uint8_t *needed, int rule)
{
    uint32_t reading[RECORD_WORDS], writing[RECORD_WORDS];
    int stays = 0, store = w[0] == STORE;
    memcpy(reading, w, sizeof reading);
    memcpy(writing, w, sizeof writing);
    misread(reading, rule);
    if (store)
        miswrite(d, writing, rule);
    for (size_t i = 0; i < d->widths; i++)
        stays |= needed[i] && ref_may_write(writing, i);
    for (size_t i = 0; i < d->widths && (stays || rule == DROPPED_READ); i++) {
        int written = ref_may_write(w, i), read = ref_reads(reading, i);
        int ceases = stays && written && (store ? rule == CELLS_CEASE : rule != TARGET_STAYS);
        if (store && written)
            read = rule == CELLS_NEEDED || (read && rule != CELLS_AS_BEFORE);
        needed[i] = rule == OPERANDS_FIRST ? (needed[i] || read) && !ceases : (needed[i] && !ceases) || read;
    }
    return stays;
}

// How many records stay by a rule, and which.
static size_t walk(const struct pruned *q, int rule, uint8_t *stays)
{
    uint8_t needed[MOST_ROWS];
    size_t records = q->d.word_count / RECORD_WORDS, staying = 0;
    memcpy(needed, q->marks, q->d.widths);
    for (size_t i = 0; i < records; i++) {
        size_t r = rule == FROM_THE_FIRST ? i : records - 1 - i;
        stays[r] = (uint8_t)step(&q->d, q->d.words + RECORD_WORDS * r, needed, rule);
        staying += stays[r];
    }
    return staying;
}

void count_wrong_rules(const struct pruned *q, size_t staying)
{
    uint8_t right[MOST_RECORDS], stays[MOST_RECORDS];
    if (walk(q, RIGHT, right) != staying) {
        printf("call %zu, prune: the right rule of prune_rules.c disagrees with the reference\n", call_number);
        exit(1);
    }
    for (int rule = RIGHT + 1; rule < RULES; rule++) {
        walk(q, rule, stays);
        shown[rule] += memcmp(stays, right, q->d.word_count / RECORD_WORDS) != 0;
    }
}

int report_wrong_rules(void)
{
    int missing = report_counts("prune where it would show to go from the first record on, to need operands before the target ceases, not to let "
                                "it cease, to read for records that do not stay", NULL, shown + FROM_THE_FIRST, NO_A - FROM_THE_FIRST);
    missing += report_counts("not to read operand a, b, a condition, to read row 0 for an unused word; of a load not to read its address, its "
                             "cells, all but the first, the last", NULL, shown + NO_A, BY_TARGET - NO_A);
    return missing + report_counts("to keep a store by row 0, its first cell, all but its last, those that its address can name; not to read "
                                   "its address, its data; to let its cells cease, to need them, not to read one that is its address or data",
                                   NULL, shown + BY_TARGET, RULES - BY_TARGET);
}
