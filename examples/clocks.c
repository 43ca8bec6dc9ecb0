// Rifflerleek in a C program: what do three designs reach in all clocks, whatever their inputs are? It reads their texts in examples/.
//   cc -I include examples/clocks.c target/staticlib/librifflerleek.a
#include "table.h"

enum { STATES = 4 };

// A design: its first rows are its state, and next[i] is the row whose vector row i takes over at the clock.
struct design {
    const char *file;
    size_t states;
    uint32_t next[STATES];
};

static const uint32_t state[STATES] = {0, 1, 2, 3};

static const struct design counter = {"examples/counter.txt", 1, {1}};
static const struct design shift_register = {"examples/shift_register.txt", 4, {4, 0, 5, 2}};
static const struct design state_machine = {"examples/state_machine.txt", 1, {1}};

// The vectors of the state rows at one time.
struct vectors {
    uint32_t mask[STATES], value[STATES];
};

static struct vectors state_now(void)
{
    struct vectors now;
    memcpy(now.mask, mask, sizeof now.mask);
    memcpy(now.value, value, sizeof now.value);
    return now;
}

// The rows become those of the last round. A refusal leaves them as they were.
static int settle(const struct design *d, const char *name)
{
    rifflerleek_answer a = rifflerleek_settle(width, rows, lock, rows, mask, rows, value, rows, words, WORDS * records, state, d->states,
                                              d->next, d->states);
    if (refused("settle", a.refusal, a.place))
        return 0;
    printf("%s: %zu rounds\n", name, a.result);
    return 1;
}

// How the first state lies to the second, row by row.
static void compare(const struct design *d, const char *name, const struct vectors *first, const char *other, const struct vectors *second)
{
    static const char *const orders[] = {[RIFFLERLEEK_ORDER_EQUAL] = "equal to",
                                         [RIFFLERLEEK_ORDER_INSIDE] = "inside",
                                         [RIFFLERLEEK_ORDER_AROUND] = "around",
                                         [RIFFLERLEEK_ORDER_NONE] = "neither inside nor around"};
    rifflerleek_answer a = rifflerleek_compare_states(width, d->states, first->mask, d->states, first->value, d->states, second->mask,
                                                      d->states, second->value, d->states);
    if (!refused("compare_states", a.refusal, a.place))
        printf("%s is %s %s\n", name, orders[a.result], other);
}

// Settles a design, and prints the rows of the last round.
static int show(const struct design *d)
{
    if (!load_file(d->file))
        return 0;
    struct vectors start = state_now();
    if (!settle(d, d->file))
        return 0;
    struct vectors settled = state_now();
    print();
    compare(d, "the start", &start, "the settled state", &settled);
    return 1;
}

// The counter by 2 instead of 4: can it reach more?
static int change(void)
{
    if (!load_file(counter.file) || !settle(&counter, "counting by 4"))
        return 0;
    struct vectors before = state_now();
    if (!load_file(counter.file))
        return 0;
    value[2] = 2;
    if (!settle(&counter, "counting by 2"))
        return 0;
    struct vectors after = state_now();
    compare(&counter, "the settled state by 2", &after, "that by 4", &before);
    return 1;
}

int main(void)
{
    if (!show(&counter)) // XXXXXX00: the count stays a multiple of 4
        return 1;
    if (!show(&shift_register)) // XXX0 and XXX0, 10 and 10: the keys come through, the panel's number stays
        return 1;
    if (!show(&state_machine)) // 0X: two codes of four
        return 1;
    if (!change()) // XXXXXXX0
        return 1;
    const struct design wrong = {counter.file, 1, {3}}; // a next row of another width
    return load_file(wrong.file) && !settle(&wrong, wrong.file) ? 0 : 1;
}
