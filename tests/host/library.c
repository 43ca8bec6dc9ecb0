// The library's calls on slices lent together, and the stack on which every call is made.
#include "library.h"
#include <string.h>
#include <ucontext.h>

enum { STACK = 1 << 16, PAINT = 0x5c };

// The call at hand: its slices, its marks, its buffer or text, its two numbers, and its answer.
static struct {
    struct ref_table t;
    struct ref_marks marks;
    uint8_t *out;
    const uint8_t *text;
    size_t length, x, y;
    rifflerleek_answer answer;
} call;

static unsigned char stack[STACK];
static ucontext_t here, there;

// The stack is painted before the first call: what a call writes there stays visible.
void on_stack(void (*make)(void))
{
    static int painted;
    if (!painted)
        memset(stack, PAINT, STACK);
    painted = 1;
    getcontext(&there);
    there.uc_stack.ss_sp = stack;
    there.uc_stack.ss_size = STACK;
    there.uc_link = &here;
    makecontext(&there, make, 0);
    swapcontext(&here, &there);
}

size_t library_stack(void)
{
    size_t untouched = 0;
    while (untouched < STACK && stack[untouched] == PAINT)
        untouched++;
    return STACK - untouched;
}

#define ROWS call.t.width, call.t.widths, call.t.lock, call.t.locks, call.t.mask, call.t.masks, call.t.value, call.t.values
#define WORDS call.t.words, call.t.word_count

static void make_run(void)
{
    call.answer = rifflerleek_run(ROWS, WORDS, call.x, call.y);
}

static void make_count(void)
{
    call.answer = rifflerleek_count(ROWS, call.x);
}

static void make_reset_bits(void)
{
    call.answer = rifflerleek_reset_bits(ROWS, WORDS, call.x, (uint32_t)call.y);
}

static void make_prune(void)
{
    call.answer = rifflerleek_prune(ROWS, WORDS, call.marks.mark, call.marks.count);
}

static void make_size(void)
{
    call.answer = rifflerleek_size(ROWS, WORDS);
}

static void make_write(void)
{
    call.answer = rifflerleek_write(ROWS, WORDS, call.out, call.length);
}

static void make_read(void)
{
    call.answer = rifflerleek_read(call.text, call.length, ROWS, WORDS);
}

static void make_field(void)
{
    call.answer = rifflerleek_field(call.text, call.length, call.x, call.y);
}

static rifflerleek_answer answer_of(void (*make)(void))
{
    on_stack(make);
    return call.answer;
}

rifflerleek_answer library_run(struct ref_table *t, size_t first, size_t last)
{
    call.t = *t;
    call.x = first;
    call.y = last;
    return answer_of(make_run);
}

rifflerleek_answer library_count(struct ref_table *t, size_t row)
{
    call.t = *t;
    call.x = row;
    return answer_of(make_count);
}

rifflerleek_answer library_reset_bits(struct ref_table *t, size_t row, uint32_t bit)
{
    call.t = *t;
    call.x = row;
    call.y = bit;
    return answer_of(make_reset_bits);
}

rifflerleek_answer library_prune(struct ref_table *t, const struct ref_marks *m)
{
    call.t = *t;
    call.marks = *m;
    return answer_of(make_prune);
}

rifflerleek_answer library_size(struct ref_table *t)
{
    call.t = *t;
    return answer_of(make_size);
}

rifflerleek_answer library_write(struct ref_table *t, uint8_t *out, size_t length)
{
    call.t = *t;
    call.out = out;
    call.length = length;
    return answer_of(make_write);
}

rifflerleek_answer library_read(const uint8_t *text, size_t length, struct ref_table *t)
{
    call.t = *t;
    call.text = text;
    call.length = length;
    return answer_of(make_read);
}

rifflerleek_answer library_field(const uint8_t *text, size_t length, size_t line, size_t field)
{
    call.text = text;
    call.length = length;
    call.x = line;
    call.y = field;
    return answer_of(make_field);
}
