// A table as it is lent to the library, and runs of it.
#ifndef LENT_H
#define LENT_H

#include "measure.h"
#include "rifflerleek.h"
#include <cstdio>
#include <cstdlib>
#include <cstring>

struct Table {
    std::vector<uint8_t> width, lock;
    std::vector<uint32_t> mask, value, words;
};

inline std::size_t records_of(const Table &t)
{
    return t.words.size() / RIFFLERLEEK_RECORD_WORDS;
}

inline Planes row_at(const Table &t, uint32_t i)
{
    return {t.mask[i], t.value[i]};
}

using Run = decltype(rifflerleek_run);

// Runs the records before last; a refusal ends the program.
inline void run_records(Run *run, Table &t, std::size_t last)
{
    std::size_t rows = t.width.size();
    rifflerleek_answer a = run(t.width.data(), rows, t.lock.data(), rows, t.mask.data(), rows, t.value.data(), rows,
                               t.words.data(), t.words.size(), 0, last);
    if (a.refusal != RIFFLERLEEK_DONE) {
        std::printf("run: refusal %u\n", a.refusal);
        std::exit(1);
    }
}

// Copies the start rows into the table.
inline void put_back(Table &t, const Table &start)
{
    std::memcpy(t.mask.data(), start.mask.data(), t.mask.size() * sizeof t.mask[0]);
    std::memcpy(t.value.data(), start.value.data(), t.value.size() * sizeof t.value[0]);
}

// A run from the start rows.
inline Pass pass_from(Run *run, Table &t, const Table &start, std::size_t last)
{
    return [run, &t, &start, last] {
        put_back(t, start);
        run_records(run, t, last);
    };
}

#endif
