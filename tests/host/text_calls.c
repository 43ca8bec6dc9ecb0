// Random calls on texts: read and field.
#include "text_calls.h"
#include <string.h>

enum { LETTERS = 9, OTHERS = 5 };

static const char letters[] = "01XLHUZW-";
static unsigned letters_read[LETTERS], faults_refused[HEADER_FAULTS], others_refused[OTHERS], alone[EDITIONS - 1];

static struct draft d;
static struct text text;

// Slices that hold a text, or just not, filled with any bytes.
static void room(void)
{
    size_t more = percent(50) ? 0 : below(5), words = percent(50) ? 0 : below(20);
    d.widths = percent(15) && text.rows > 0 ? text.rows - 1 : text.rows + more;
    d.word_count = RECORD_WORDS * text.records + words;
    if (percent(15) && text.records > 0)
        d.word_count = RECORD_WORDS * text.records - 1 - below(RECORD_WORDS);
    d.locks = d.masks = d.values = d.widths;
    size_t *lengths[] = {&d.widths, &d.locks, &d.masks, &d.values};
    if (percent(8))
        *lengths[below(4)] = below(d.widths + 4);
    for (size_t i = 0; i < d.widths + 4; i++) {
        d.width[i] = d.lock[i] = (uint8_t)draw();
        d.mask[i] = d.value[i] = (uint32_t)draw();
    }
    for (size_t i = 0; i < d.word_count; i++)
        d.words[i] = (uint32_t)draw();
}

static int is_field(size_t line, size_t field, const char *word)
{
    struct ref_answer a = ref_field(text.bytes, text.length, line, field);
    return a.second_result - a.result == strlen(word) && memcmp(text.bytes + a.result, word, strlen(word)) == 0;
}

// Counts a record line that was refused and is one of another edition: a load or a store, or with as many numbers.
static void count_other(int edition, size_t line)
{
    struct ref_answer sixth = ref_field(text.bytes, text.length, line, 7), none = ref_field(text.bytes, text.length, line, 8);
    int five = sixth.result != sixth.second_result && none.result == none.second_result;
    if (!is_field(line, 1, "op"))
        return;
    if (edition < EDITIONS) {
        others_refused[edition - 1] += is_field(line, 2, "load") || is_field(line, 2, "store");
        others_refused[edition + 1] += (unsigned)five;
    } else
        others_refused[4] += !five;
}

// Counts what report_texts prints of a text and its answer.
static void count(int edition, rifflerleek_answer a)
{
    if (a.refusal == RIFFLERLEEK_REFUSED_LINE && text.fault < HEADER_FAULTS)
        faults_refused[text.fault] += a.place == text.fault_line;
    else if (a.refusal == RIFFLERLEEK_REFUSED_LINE)
        count_other(edition, a.place);
    if (edition == 1 || a.refusal != RIFFLERLEEK_DONE)
        return;
    alone[edition - 2] += text.length == HEADER;
    for (size_t i = HEADER, end = end_of_rows(&text, HEADER); edition == 2 && i < end; i++)
        for (int k = 0; k < LETTERS; k++)
            letters_read[k] += text.bytes[i] == (uint8_t)letters[k];
}

void call_read(void)
{
    struct ref_table r, t;
    const uint8_t *other;
    if (below(50) == 0)
        draw_text_of(&text, 39999 + below(3));
    else
        draw_text(&text);
    room();
    t = lend_table(&d, &r);
    uint8_t *lent_text = lend(text.bytes, text.length, &other);
    int edition = ref_edition(text.bytes, text.length);
    rifflerleek_answer a = library_read(lent_text, text.length, &t);
    compare(READ_1 + edition - 1, a, ref_read(other, text.length, &r));
    count(edition, a);
}

void call_field(void)
{
    const uint8_t *other;
    draw_text(&text);
    if (percent(30))
        for (size_t i = 0; i < text.length; i++)
            text.bytes[i] = (uint8_t)"\t\n\0a"[below(4)];
    size_t line = percent(90) ? below(14) : draw(), field = percent(90) ? below(9) : draw();
    uint8_t *lent_text = lend(text.bytes, text.length, &other);
    compare(FIELD, library_field(lent_text, text.length, line, field), ref_field(other, text.length, line, field));
}

int report_texts(void)
{
    int missing = report_counts("letters of listings", letters, letters_read, LETTERS);
    missing += report_counts("headers alone, of edition", "23", alone, EDITIONS - 1);
    missing += report_counts("wrong headers refused, in the order of draw_listing.c", NULL, faults_refused, HEADER_FAULTS);
    missing += report_counts("lines of other editions refused: loads and stores in 1, in 2; five numbers in 1, in 2; not five in 3", NULL,
                             others_refused, OTHERS);
    return missing + report_trips();
}
