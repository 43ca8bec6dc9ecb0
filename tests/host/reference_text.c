// The text of a table: size, write and field.
#include "reference.h"
#include <stdio.h>
#include <string.h>

// The text of the table that was checked last, with room for its header, 44 bytes a row and 27 a record, and a NUL.
static char printed[HEADER + 44 * 256 + 27 * 1024 + 1];

// Prints the text, and answers its length.
static size_t print_table(const struct ref_table *t)
{
    char *at = printed + sprintf(printed, "%s", ref_headers[EDITIONS]);
    for (size_t i = 0; i < t->widths; i++) {
        at += sprintf(at, "row\t%s\t", t->lock[i] == 1 ? "locked" : "open");
        for (unsigned k = t->width[i]; k-- > 0;)
            *at++ = t->mask[i] >> k & 1 ? 'X' : t->value[i] >> k & 1 ? '1' : '0';
        *at++ = '\n';
    }
    for (size_t r = 0; r < t->word_count / RECORD_WORDS; r++) {
        const uint32_t *w = t->words + RECORD_WORDS * r;
        at += sprintf(at, "op\t%s\t%u\t%u\t%u\t%u\t%u\n", kinds[w[0]].name, w[1], w[2], w[3], w[4], w[5]);
    }
    return (size_t)(at - printed);
}

struct ref_answer ref_size(const struct ref_table *t)
{
    struct ref_answer a = ref_check(t, 0, 0, 0);
    return a.refusal != 0 ? a : ref_result(print_table(t), 0);
}

struct ref_answer ref_write(const struct ref_table *t, uint8_t *out, size_t length)
{
    struct ref_answer a = ref_size(t);
    if (a.refusal != 0)
        return a;
    if (length < a.result)
        return ref_refusal(14, 0);
    memcpy(out, printed, a.result);
    return a;
}

// ---- field

// Narrows the ends to part number n, from 1, of the bytes between them, cut at the separator. An empty part where there is
// none: at the start for number 0, at the end for a number too high.
static void narrow(const uint8_t *text, uint8_t separator, size_t n, size_t *start, size_t *end)
{
    if (n == 0) {
        *end = *start;
        return;
    }
    size_t at = *start;
    for (size_t part = 1; part < n; part++) {
        while (at < *end && text[at] != separator)
            at++;
        if (at == *end) {
            *start = *end;
            return;
        }
        at++;
    }
    *start = at;
    while (at < *end && text[at] != separator)
        at++;
    *end = at;
}

struct ref_answer ref_field(const uint8_t *text, size_t length, size_t line, size_t field)
{
    size_t start = 0, end = length;
    narrow(text, '\n', line, &start, &end);
    narrow(text, '\t', field, &start, &end);
    return ref_result(start, end);
}
