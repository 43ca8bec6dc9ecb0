// The text of a table, of every edition: read, line by line.
#include "reference.h"
#include <string.h>

const char *const ref_headers[EDITIONS + 1] = {"", "", "edition\t2\n", "edition\t3\n"};

// The letters of edition 2 and, under each, the one of 0, 1, X that it stands for. The other editions have the first three.
static const char nine[] = "01XLHUZW-";
static const char three[] = "01X01XXXX";

// A part of the text.
struct part {
    const uint8_t *at;
    size_t length;
};

static int is_word(struct part f, const char *word)
{
    return f.length == strlen(word) && memcmp(f.at, word, f.length) == 0;
}

// The fields of a line, at most MOST_FIELDS of them: a line with so many has no place in the grammar.
enum { MOST_FIELDS = 8 };
static size_t cut(struct part line, struct part fields[MOST_FIELDS])
{
    size_t n = 0, start = 0;
    for (size_t i = 0; i <= line.length && n < MOST_FIELDS; i++)
        if (i == line.length || line.at[i] == '\t') {
            fields[n++] = (struct part){line.at + start, i - start};
            start = i + 1;
        }
    return n;
}

// A number 0 to 999, or -1.
static int number(struct part f)
{
    int n = 0;
    if (f.length < 1 || f.length > 3 || (f.length > 1 && f.at[0] == '0'))
        return -1;
    for (size_t i = 0; i < f.length; i++) {
        if (f.at[i] < '0' || f.at[i] > '9')
            return -1;
        n = 10 * n + (f.at[i] - '0');
    }
    return n;
}

// 0, 1 or X, or NUL where the edition has no such letter.
static char meaning(int edition, uint8_t letter)
{
    const char *at = memchr(nine, letter, edition == 2 ? 9 : 3);
    return at == NULL ? 0 : three[at - nine];
}

struct row {
    uint8_t width, lock;
    uint32_t mask, value;
};

static int row_line(int edition, const struct part *f, size_t n, struct row *row)
{
    if (n != 3 || !is_word(f[0], "row") || !(is_word(f[1], "open") || is_word(f[1], "locked")))
        return 0;
    if (f[2].length < 1 || f[2].length > 32)
        return 0;
    *row = (struct row){(uint8_t)f[2].length, is_word(f[1], "locked"), 0, 0};
    for (size_t i = 0; i < f[2].length; i++) {
        char letter = meaning(edition, f[2].at[i]);
        if (letter == 0)
            return 0;
        row->mask = row->mask << 1 | (letter == 'X');
        row->value = row->value << 1 | (letter == '1');
    }
    return 1;
}

// Before edition 3 there are four numbers and no load or store, and the last number of an ite is its condition.
static int record_line(int edition, const struct part *f, size_t n, uint32_t words[RECORD_WORDS])
{
    uint32_t end = edition == EDITIONS ? KINDS : LOAD;
    size_t numbers = edition == EDITIONS ? 5 : 4;
    if (n != 2 + numbers || !is_word(f[0], "op"))
        return 0;
    words[0] = end;
    for (uint32_t k = 0; k < end; k++)
        if (is_word(f[1], kinds[k].name))
            words[0] = k;
    words[5] = 0;
    for (size_t i = 1; i <= numbers; i++) {
        if (number(f[1 + i]) < 0)
            return 0;
        words[i] = (uint32_t)number(f[1 + i]);
    }
    if (edition < EDITIONS && words[0] == ITE) {
        words[5] = words[4];
        words[4] = 0;
    }
    return words[0] != end;
}

int ref_edition(const uint8_t *text, size_t length)
{
    for (int e = 2; e <= EDITIONS; e++)
        if (length >= HEADER && memcmp(text, ref_headers[e], HEADER) == 0)
            return e;
    return 1;
}

// Goes over the lines after the header, counts rows and records and, where fill is 1, puts them into t. The first bad line, or 0; the
// text's first line, also where it is the header, is line 1.
static size_t lines(struct part text, struct ref_table *t, int fill, size_t *rows, size_t *records)
{
    int edition = ref_edition(text.at, text.length);
    size_t start = strlen(ref_headers[edition]), line = edition == 1 ? 1 : 2;
    for (*rows = *records = 0; start < text.length; line++) {
        struct part fields[MOST_FIELDS];
        struct row row;
        uint32_t words[RECORD_WORDS];
        const uint8_t *end = memchr(text.at + start, '\n', text.length - start);
        if (end == NULL)
            return line;
        size_t length = (size_t)(end - (text.at + start));
        size_t n = cut((struct part){text.at + start, length}, fields);
        if (*records == 0 && row_line(edition, fields, n, &row)) {
            if (fill) {
                t->width[*rows] = row.width;
                t->lock[*rows] = row.lock;
                t->mask[*rows] = row.mask;
                t->value[*rows] = row.value;
            }
            ++*rows;
        } else if (record_line(edition, fields, n, words)) {
            if (fill)
                memcpy(t->words + RECORD_WORDS * *records, words, sizeof words);
            ++*records;
        } else
            return line;
        start += length + 1;
    }
    return 0;
}

struct ref_answer ref_read(const uint8_t *text, size_t length, struct ref_table *t)
{
    struct part whole = {text, length};
    size_t rows, records;
    if (t->locks != t->widths || t->masks != t->widths || t->values != t->widths)
        return ref_refusal(2, 0);
    if (length > 40000)
        return ref_refusal(11, 0);
    size_t bad = lines(whole, t, 0, &rows, &records);
    if (bad != 0)
        return ref_refusal(12, bad);
    if (rows > t->widths || RECORD_WORDS * records > t->word_count)
        return ref_refusal(13, 0);
    lines(whole, t, 1, &rows, &records);
    return ref_result(rows, records);
}
