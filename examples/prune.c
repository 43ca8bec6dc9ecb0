// Rifflerleek in a C program: which records of a table grown out of an old design still feed what is wanted? It reads its text in examples/.
//   cc -I include examples/prune.c target/staticlib/librifflerleek.a
#include "table.h"

enum { LAMP = 8 };

static const char design[] = "examples/old_design.txt";

// One mark a row: the lamp is wanted, and nothing else.
static uint8_t marks[ROWS] = {[LAMP] = 1};

// Drops the records that feed no marked row. A refusal leaves them as they were.
static int prune(void)
{
    rifflerleek_answer a = rifflerleek_prune(width, rows, lock, rows, mask, rows, value, rows, words, WORDS * records, marks, rows);
    if (refused("prune", a.refusal, a.place))
        return 0;
    printf("%s: %zu records, of which %zu stay\n", design, records, a.result);
    records = a.result; // the words after theirs are 0
    return 1;
}

// The letters of a row, which are the third field of its line.
static void print_letters(size_t row)
{
    rifflerleek_answer a = rifflerleek_write(width, rows, lock, rows, mask, rows, value, rows, words, WORDS * records, out, sizeof out);
    rifflerleek_answer f = rifflerleek_field(out, a.result, row + 2, 3);
    fwrite(out + f.result, 1, f.second_result - f.result, stdout);
}

// Whether the marked rows end as they did by all records, as these masks and values.
static int agree(const uint32_t *old_mask, const uint32_t *old_value)
{
    for (size_t i = 0; i < rows; i++) {
        if (marks[i] == 0)
            continue;
        printf("row %zu ends as ", i);
        print_letters(i);
        if (mask[i] != old_mask[i] || value[i] != old_value[i]) {
            printf(", and ended otherwise by all records\n");
            return 0;
        }
        printf(", by the records that stay as by all\n");
    }
    return 1;
}

int main(void)
{
    static uint32_t old_mask[ROWS], old_value[ROWS];
    if (!load_file(design) || !run_all())
        return 1;
    memcpy(old_mask, mask, sizeof mask);
    memcpy(old_value, value, sizeof value);

    if (!load_file(design) || !prune()) // the start rows once more
        return 1;
    print();
    if (!run_all() || !agree(old_mask, old_value)) // 1XX1
        return 1;

    marks[LAMP] = 2; // a mark is 0 or 1
    return prune() ? 1 : 0;
}
