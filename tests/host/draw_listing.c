// The headers of texts, right and wrong, and the text of a table in every edition.
#include "draw.h"
#include <stdio.h>
#include <string.h>

// What a text with a fault of its header begins with, and its first bad line where no other is damaged. The last one is right, and the
// fault is that the header comes once more. In a text of edition 3 there is a 3 for every 2.
static const struct {
    const char *bytes;
    size_t line;
} faults[HEADER_FAULTS] = {
    {"", 1}, // letters of edition 2 without it: line 1, where it has one of the six others
    {"edition\t0\n", 1},
    {"edition\t1\n", 1},
    {"edition\t4\n", 1},
    {"edition\t5\n", 1},
    {"edition\t10\n", 1},
    {"edition\t02\n", 1},
    {"edition\t22\n", 1},
    {"edition\t2.\n", 1},
    {"edition\tX\n", 1},
    {"edition\t\n", 1},
    {"edition\n", 1},
    {"edition\t2", 1},
    {"edition\t2\r\n", 1},
    {"edition\t2\r", 1},
    {" edition\t2\n", 1},
    {"edition \t2\n", 1},
    {"edition\t 2\n", 1},
    {"edition\t2 \n", 1},
    {"edition 2\n", 1},
    {"edition\t2\t\n", 1},
    {"edition\t2\t2\n", 1},
    {"edition\t\t2\n", 1},
    {"Edition\t2\n", 1},
    {"EDITION\t2\n", 1},
    {"editio\t2\n", 1},
    {"editions\t2\n", 1},
    {"\nedition\t2\n", 1},
    {"row\topen\t1\nedition\t2\n", 2},
    {"edition\t2\nedition\t2\n", 2},
    {"edition\t2\nedition\t3\n", 2},
    {"edition\t2\n", 0},
};

enum { LEFT_OUT = 0, AGAIN = HEADER_FAULTS - 1 };

void draw_edition(struct text *x)
{
    x->edition = 1 + (int)below(EDITIONS);
    x->fault = HEADER_FAULTS;
}

void damage_header(struct text *x, size_t lines)
{
    x->fault = below(HEADER_FAULTS);
    x->fault_line = x->fault == AGAIN ? 2 + below(lines + 1) : faults[x->fault].line;
    if (x->fault == LEFT_OUT)
        x->edition = 2;
}

void put_header(struct text *x)
{
    if (x->fault == HEADER_FAULTS) {
        put(x, ref_headers[x->edition], strlen(ref_headers[x->edition]));
        return;
    }
    for (const char *byte = faults[x->fault].bytes; *byte != 0; byte++)
        put(x, *byte == '2' && x->edition == EDITIONS ? "3" : byte, 1);
}

void put_header_again(struct text *x, size_t i)
{
    if (x->fault == AGAIN && x->fault_line == i + 2)
        put(x, ref_headers[x->edition == EDITIONS ? EDITIONS : 2], HEADER);
}

size_t end_of_rows(const struct text *x, size_t start)
{
    while (start < x->length && x->bytes[start] == 'r')
        start = 1 + (size_t)((const uint8_t *)memchr(x->bytes + start, '\n', x->length - start) - x->bytes);
    return start;
}

// A letter of edition 2 that means the same; another byte stays.
static uint8_t respell(uint8_t byte)
{
    switch (byte) {
    case '0': return (uint8_t)"0L"[below(2)];
    case '1': return (uint8_t)"1H"[below(2)];
    case 'X': return (uint8_t)"XUZW-"[below(5)];
    default: return byte;
    }
}

// A table without loads and stores: they become steps of not.
static void drop_memories(struct draft *d)
{
    for (uint32_t *w = d->words, *end = w + d->word_count; w < end; w += RECORD_WORDS)
        if (ref_uses(w[0], 'n')) {
            uint32_t row = w[0] == STORE ? w[5] : w[1], not[RECORD_WORDS] = {1, row, row, 0, 0, 0};
            memcpy(w, not, sizeof not);
        }
}

// The records of a table in an edition before 3.
static void put_older_records(struct text *x, const struct draft *d)
{
    char line[64];
    for (const uint32_t *w = d->words, *end = w + d->word_count; w < end; w += RECORD_WORDS) {
        int n = sprintf(line, "op\t%s\t%u\t%u\t%u\t%u\n", kinds[w[0]].name, w[1], w[2], w[3], w[0] == ITE ? w[5] : w[4]);
        put(x, line, (size_t)n);
    }
}

void draw_text_of_table(struct text *x)
{
    static struct draft d;
    static struct text three;
    draw_edition(x);
    draw_table(&d);
    if (x->edition < EDITIONS)
        drop_memories(&d);
    struct ref_table t = slices(&d);
    three.length = ref_write(&t, three.bytes, MAX_TEXT).result;
    size_t end = x->edition == EDITIONS ? three.length : end_of_rows(&three, HEADER);
    x->length = 0;
    put_header(x);
    size_t start = x->length;
    put(x, (const char *)three.bytes + HEADER, end - HEADER);
    for (size_t i = start; i < x->length && x->edition == 2; i++)
        x->bytes[i] = respell(x->bytes[i]);
    if (x->edition < EDITIONS)
        put_older_records(x, &d);
}
