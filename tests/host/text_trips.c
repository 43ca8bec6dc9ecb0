// Random texts, read and then written.
#include "text_calls.h"
#include <stdio.h>
#include <stdlib.h>
#include <string.h>

static unsigned trips[EDITIONS];

static struct draft d;
static struct text text;

// A byte of a row line in the letters of edition 3. No other line of a text that was read has one of the letters that change.
static uint8_t plain_letter(uint8_t b)
{
    return b == 'L' ? '0' : b == 'H' ? '1' : b == 'U' || b == 'Z' || b == 'W' || b == '-' ? 'X' : b;
}

// The record line that ends at *out, put there without its LF, with five numbers: of an ite a 0 comes before the last one, else after it.
static uint8_t *sixth_word(const uint8_t *line, uint8_t *out)
{
    uint8_t *last = out;
    if (memcmp(line, "op\tite\t", 7) != 0) {
        memcpy(out, "\t0", 2);
        return out + 2;
    }
    while (last[-1] != '\t')
        last--;
    memmove(last + 2, last, (size_t)(out - last));
    memcpy(last, "0\t", 2);
    return out + 2;
}

// How a text that was read must come back: in edition 3, so with its header, the letters 0, 1, X and five numbers a record. Its length.
static size_t form(int edition, uint8_t *out)
{
    uint8_t *to = out + HEADER;
    memcpy(out, ref_headers[EDITIONS], HEADER);
    const uint8_t *from = text.bytes + strlen(ref_headers[edition]), *line = from;
    for (; from < text.bytes + text.length; from++) {
        if (*from == '\n' && *line == 'o' && edition < EDITIONS)
            to = sixth_word(line, to);
        *to++ = plain_letter(*from);
        if (*from == '\n')
            line = from + 1;
    }
    return (size_t)(to - out);
}

void call_trip(void)
{
    static uint8_t out[MAX_TEXT], right[MAX_TEXT];
    int of_table = percent(80);
    if (of_table)
        draw_text_of_table(&text);
    else
        draw_text(&text);
    d.widths = d.locks = d.masks = d.values = MAX_ROWS;
    d.word_count = MAX_WORDS;
    struct ref_table t = slices(&d);
    rifflerleek_answer a = library_read(text.bytes, text.length, &t);
    t.widths = t.locks = t.masks = t.values = a.result;
    t.word_count = RIFFLERLEEK_RECORD_WORDS * a.second_result;
    if (a.refusal == RIFFLERLEEK_DONE)
        a = library_write(&t, out, sizeof out);
    if (a.refusal != RIFFLERLEEK_DONE && !of_table)
        return;
    int edition = ref_edition(text.bytes, text.length);
    size_t length = form(edition, right);
    if (a.refusal != RIFFLERLEEK_DONE || a.result != length || memcmp(out, right, length) != 0) {
        printf("call %zu: a text, read and written, does not come back: refusal %u, %zu bytes; right are %zu bytes\n", call_number, a.refusal,
               a.result, length);
        exit(1);
    }
    trips[edition - 1]++;
}

int report_trips(void)
{
    return report_counts("texts read and written back, of edition", "123", trips, EDITIONS);
}
