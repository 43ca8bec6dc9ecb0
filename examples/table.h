// The table of an example program: what it lends to the library, and how it is loaded, run and printed.
#ifndef TABLE_H
#define TABLE_H

#include "rifflerleek.h"
#include <stdio.h>
#include <string.h>

enum { ROWS = RIFFLERLEEK_ROW_LIMIT, WORDS = RIFFLERLEEK_RECORD_WORDS, RECORDS = RIFFLERLEEK_RECORD_LIMIT };

// The library has no memory of its own: a host lends it these.
static uint8_t width[ROWS], lock[ROWS];
static uint32_t mask[ROWS], value[ROWS], words[WORDS * RECORDS];
static uint8_t out[RIFFLERLEEK_HEADER_BYTES + RIFFLERLEEK_ROW_BYTES * ROWS + RIFFLERLEEK_RECORD_BYTES * RECORDS];
static size_t rows, records;

// Whether a call was refused: says so, and why.
static int refused(const char *call, uint32_t refusal, size_t place)
{
    if (refusal != RIFFLERLEEK_DONE)
        printf("%s: refusal %u at %zu\n", call, refusal, place);
    return refusal != RIFFLERLEEK_DONE;
}

static int load(const char *bytes)
{
    const uint8_t *lent = (const uint8_t *)bytes;
    size_t length = strlen(bytes);
    rifflerleek_answer a = rifflerleek_read(lent, length, width, ROWS, lock, ROWS, mask, ROWS, value, ROWS, words, WORDS * RECORDS);
    if (refused("read", a.refusal, a.place)) {
        if (a.refusal == RIFFLERLEEK_REFUSED_LINE) { // name the operation of the line refused
            rifflerleek_answer f = rifflerleek_field(lent, length, a.place, 2);
            printf("its second field: %.*s\n", (int)(f.second_result - f.result), bytes + f.result);
        }
        return 0; // nothing was loaded
    }
    rows = a.result;
    records = a.second_result;
    return 1;
}

static void print(void)
{
    rifflerleek_answer a = rifflerleek_write(width, rows, lock, rows, mask, rows, value, rows, words, WORDS * records, out, sizeof out);
    fwrite(out, 1, a.result, stdout);
}

// These two are inline since some of the programs do without them.
static inline int load_file(const char *name)
{
    static char text[RIFFLERLEEK_TEXT_LIMIT + 2]; // a byte more than a text may have, and a last 0
    FILE *file = fopen(name, "rb");
    if (file == NULL) {
        perror(name);
        return 0;
    }
    text[fread(text, 1, sizeof text - 1, file)] = 0;
    fclose(file);
    return load(text);
}

// Runs all records; a refusal leaves the rows as they were.
static inline int run_all(void)
{
    rifflerleek_answer a = rifflerleek_run(width, rows, lock, rows, mask, rows, value, rows, words, WORDS * records, 0, records);
    return !refused("run", a.refusal, a.place);
}

#endif
