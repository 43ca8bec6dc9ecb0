// Random texts: lines, some of them damaged, and faults of the whole.
#include "draw.h"
#include <stdio.h>
#include <string.h>

static void damage_bytes(struct text *x)
{
    static const char bytes[] = {0, 9, 10, 13, 32, '0', '1', 'X', 'r', -1};
    char b = bytes[below(10)];
    size_t i = below(x->length + 1);
    switch (below(6)) {
    case 0: x->length -= x->length > 0; return; // most often: no final LF
    case 1: x->length = i; return;
    case 2: put(x, "\n", 1); return;
    case 3: put(x, "row\topen\t1", 10); return;
    case 4:
        if (i < x->length)
            x->bytes[i] = (uint8_t)b;
        return;
    default: // a byte more
        put(x, &b, 1);
        memmove(x->bytes + i + 1, x->bytes + i, x->length - 1 - i);
        x->bytes[i] = (uint8_t)b;
    }
}

// A row line stands after record lines now and then, where a line is to be bad.
static void put_lines(struct text *x, size_t rows, size_t records, size_t bad)
{
    x->length = 0;
    x->rows = rows;
    x->records = records;
    put_header(x);
    for (size_t i = 0; i < rows + records; i++) {
        put_header_again(x, i);
        if (i < rows)
            put_row(x, i == bad);
        else if (i == bad && percent(20))
            put_row(x, 0);
        else
            put_record(x, i == bad);
    }
    put_header_again(x, rows + records);
}

void draw_text(struct text *x)
{
    int large = below(100) == 0, none = percent(5);
    size_t rows = large ? 250 + below(20) : none ? 0 : below(6), records = large ? 1010 + below(30) : none ? 0 : below(6);
    size_t bad = percent(40) ? below(rows + records + 1) : SIZE_MAX;
    draw_edition(x);
    if (percent(15))
        damage_header(x, rows + records);
    put_lines(x, rows, records, bad);
    if (percent(20))
        damage_bytes(x);
}

// The fewest and the most bytes that put_record_of can give a record line of so many numbers.
static size_t least_bytes(size_t numbers)
{
    return strlen("op\tor\n") + 2 * numbers;
}

static size_t most_bytes(size_t numbers)
{
    return strlen("op\textract\n") + 4 * numbers;
}

// A record line of so many numbers and n bytes.
static void put_record_of(struct text *x, size_t numbers, size_t n)
{
    static const char *const digits[] = {"7", "42", "999"};
    const char *name = n <= least_bytes(numbers) + 2 * numbers ? "or" : "extract";
    size_t more = n - strlen("op\t\n") - strlen(name) - 2 * numbers;
    put(x, "op\t", 3);
    put(x, name, strlen(name));
    for (size_t i = 0; i < numbers; i++) {
        size_t here = more > 2 ? 2 : more;
        more -= here;
        put(x, "\t", 1);
        put(x, digits[here], here + 1);
    }
    put(x, "\n", 1);
}

void draw_text_of(struct text *x, size_t length)
{
    draw_edition(x);
    put_lines(x, 1 + below(20), 0, SIZE_MAX);
    size_t numbers = x->edition == EDITIONS ? 5 : 4, least = least_bytes(numbers), most = most_bytes(numbers);
    for (; x->length < length; x->records++) {
        size_t left = length - x->length;
        put_record_of(x, numbers, left <= most ? left : left <= 2 * most ? left / 2 : least + below(most - least + 1));
    }
}
