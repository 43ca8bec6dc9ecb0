// Random lines of a text, some of them damaged.
#include "draw.h"
#include <stdio.h>
#include <string.h>

// A line's fields.
struct line {
    char fields[9][64];
    size_t lengths[9], count;
};

static void set(struct line *l, size_t i, const char *s)
{
    l->lengths[i] = strlen(s);
    memcpy(l->fields[i], s, l->lengths[i]);
}

static void append_byte(struct line *l, size_t i, char c)
{
    l->fields[i][l->lengths[i]++] = c;
}

void put(struct text *x, const char *s, size_t length)
{
    if (x->length + length <= MAX_TEXT) {
        memcpy(x->bytes + x->length, s, length);
        x->length += length;
    }
}

static void put_line(struct text *x, const struct line *l)
{
    for (size_t i = 0; i < l->count; i++) {
        if (i > 0)
            put(x, "\t", 1);
        put(x, l->fields[i], l->lengths[i]);
    }
    put(x, "\n", 1);
}

static void letters(struct line *l, int edition, size_t width)
{
    l->lengths[2] = 0;
    while (l->lengths[2] < width)
        append_byte(l, 2, "01XLHUZW-"[below(edition == 2 ? 9 : 3)]);
}

static void row_line(struct line *l, int edition)
{
    l->count = 3;
    set(l, 0, "row");
    set(l, 1, percent(70) ? "open" : "locked");
    letters(l, edition, percent(20) ? 32 : 1 + below(32));
}

static void record_line(struct line *l, int edition)
{
    static const unsigned limits[] = {10, 100, 256, 1000};
    char number[24];
    l->count = edition == EDITIONS ? 7 : 6;
    set(l, 0, "op");
    set(l, 1, kinds[below(edition == EDITIONS ? KINDS : LOAD)].name);
    for (size_t i = 2; i < l->count; i++) {
        sprintf(number, "%zu", below(limits[below(4)]));
        set(l, i, number);
    }
}

static void insert_field(struct line *l, size_t at, const char *s)
{
    for (size_t i = l->count++; i > at; i--) {
        memcpy(l->fields[i], l->fields[i - 1], sizeof l->fields[i]);
        l->lengths[i] = l->lengths[i - 1];
    }
    set(l, at, s);
}

static void add_leading_zero(struct line *l, size_t i)
{
    memmove(l->fields[i] + 1, l->fields[i], l->lengths[i]++);
    l->fields[i][0] = '0';
}

// A byte that is no letter of the edition.
static char no_letter(int edition)
{
    return "xlhuzw2/:,YV[ \r\0LHUZW-"[below(edition == 2 ? 16 : 22)];
}

// A fault of a row line's or a record line's own: in its words, letters or numbers.
static void damage_words(struct line *l, int edition)
{
    static const char *const firsts[] = {"Row", "ro", "rows", "ops", "o", "OP", "row ", "", "op", "row"};
    static const char *const locks[] = {"Open", "lock", "lockedd", "ope", "OPEN", "0", "open "};
    static const char *const names[] = {"ad",   "addd", "ADD",    "nop",   "div", "13",     "sh",   "ashrl", "ultt",
                                        "it",   "mulw", "umul",   "smulww", "sumul", "loads", "loa", "stor", "LOAD",
                                        "load", "store"}; // the last two are right in edition 3
    static const char *const numbers[] = {"1000", "9999", "18446744073709551616", "4294967296", "00", "000", "+1", "-1", "1a", "1:", "/1", "1.0", "0x1", " 1"};
    int row = l->count == 3;
    switch (below(5)) {
    case 0: set(l, 0, firsts[below(10)]); return;
    case 1: set(l, 1, row ? locks[below(7)] : names[edition == EDITIONS ? below(18) : percent(70) ? below(20) : 18 + below(2)]); return;
    case 2:
        if (row)
            letters(l, edition, percent(50) ? 33 + below(3) : 0);
        else
            add_leading_zero(l, 2 + below(l->count - 2));
        return;
    default:
        if (row)
            l->fields[2][below(l->lengths[2])] = no_letter(edition);
        else
            set(l, 2 + below(l->count - 2), numbers[below(14)]);
    }
}

// A fault that any line can have: in its fields or its end.
static void damage_fields(struct line *l)
{
    size_t i = below(l->count);
    switch (below(7)) {
    case 0: append_byte(l, l->count - 1, '\r'); return;
    case 1: append_byte(l, i, '\0'); return;
    case 2: append_byte(l, i, percent(50) ? ' ' : (char)(128 + below(128))); return;
    case 3: set(l, i, ""); return;
    case 4: insert_field(l, below(l->count + 1), percent(50) ? "" : "0"); return;
    case 5: l->count--; return;
    default: l->count = 0; return;
    }
}

static void put_damaged(struct text *x, struct line *l, int bad)
{
    if (bad && percent(60))
        damage_words(l, x->edition);
    else if (bad)
        damage_fields(l);
    put_line(x, l);
}

void put_row(struct text *x, int bad)
{
    struct line l;
    row_line(&l, x->edition);
    put_damaged(x, &l, bad);
}

void put_record(struct text *x, int bad)
{
    struct line l;
    record_line(&l, x->edition);
    put_damaged(x, &l, bad);
}
