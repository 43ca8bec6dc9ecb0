// Slices lent twice, and what both sides answer and leave, compared.
#include "compare.h"
#include <stdio.h>
#include <stdlib.h>
#include <string.h>

enum { GUARD = 64 };

const char *const call_names[CALLS] = {"run",   "count",       "size",      "write", "read 1",     "read 2", "read 3",
                                       "field", "product_bit", "witnesses", "range", "reset_bits", "settle", "prune",
                                       "compare_states"};
unsigned seen[CALLS][REFUSALS];
size_t call_number;

// Two copies of a slice, one for each side, with guard bytes before and after.
struct lent {
    unsigned char *library, *reference;
    size_t bytes;
};

static struct lent lent[7];
static size_t lent_count;

static void *guarded(const void *data, size_t bytes)
{
    unsigned char *block = malloc(bytes + 2 * GUARD);
    if (block == NULL)
        exit(2);
    memset(block, 0xa5, bytes + 2 * GUARD);
    memcpy(block + GUARD, data, bytes);
    return block;
}

void *lend(const void *data, size_t bytes, void *reference)
{
    struct lent *l = &lent[lent_count++];
    *l = (struct lent){guarded(data, bytes), guarded(data, bytes), bytes};
    unsigned char *other = l->reference + GUARD;
    memcpy(reference, &other, sizeof other);
    return l->library + GUARD;
}

struct ref_table lend_table(struct draft *d, struct ref_table *reference)
{
    struct ref_table library = slices(d);
    *reference = library;
    library.width = lend(d->width, d->widths, &reference->width);
    library.lock = lend(d->lock, d->locks, &reference->lock);
    library.mask = lend(d->mask, 4 * d->masks, &reference->mask);
    library.value = lend(d->value, 4 * d->values, &reference->value);
    library.words = lend(d->words, 4 * d->word_count, &reference->words);
    return library;
}

static void fail(int name, const char *what, rifflerleek_answer a, struct ref_answer b)
{
    printf("call %zu, %s: %s\n", call_number, call_names[name], what);
    printf("library:   refusal %u place %zu result %zu second_result %llu\n", a.refusal, a.place, a.result, (unsigned long long)a.second_result);
    printf("reference: refusal %u place %zu result %zu second_result %llu\n", b.refusal, b.place, b.result, (unsigned long long)b.second_result);
    exit(1);
}

void compare(int name, rifflerleek_answer a, struct ref_answer b)
{
    if (a.refusal != b.refusal || a.place != b.place || a.result != b.result || a.second_result != b.second_result)
        fail(name, "the answers differ", a, b);
    while (lent_count > 0) {
        struct lent *l = &lent[--lent_count];
        if (memcmp(l->library, l->reference, l->bytes + 2 * GUARD) != 0)
            fail(name, "a lent slice differs", a, b);
        free(l->library);
        free(l->reference);
    }
    seen[name][b.refusal]++;
}

void count_faults(const uint32_t (*pairs)[2], int number, unsigned *counts, uint32_t given, uint32_t left)
{
    for (int i = 0; i < number; i++)
        counts[i] += given == pairs[i][0] && left == pairs[i][1];
}

int report_counts(const char *name, const char *each, const unsigned *counts, int number)
{
    int missing = 0;
    printf("%s:", name);
    for (int i = 0; i < number; i++) {
        if (each != NULL)
            printf(" %c", each[i]);
        printf(" %u", counts[i]);
        missing += counts[i] == 0;
    }
    printf("\n");
    return missing;
}
