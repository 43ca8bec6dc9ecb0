// The largest table, its text, and the same table as a listing of edition 2; calls that write and read them.
#ifndef TEXTS_H
#define TEXTS_H

#include "tables.h"
#include <string>

using Bytes = std::vector<uint8_t>;
using Write = decltype(rifflerleek_write);
using Read = decltype(rifflerleek_read);

inline constexpr std::size_t ROWS = RIFFLERLEEK_ROW_LIMIT, LINES = 1 + ROWS + RECORDS;

// Room for every text of ROWS rows and RECORDS records; before 02, request 1 write asked for as much.
inline constexpr std::size_t MOST_BYTES = RIFFLERLEEK_HEADER_BYTES + RIFFLERLEEK_ROW_BYTES * ROWS + RIFFLERLEEK_RECORD_BYTES * RECORDS;

inline const Groups all_rows = {{32, 0, 200}, {16, 200, 28}, {1, 228, 28}};

// A table with the most rows and records, of the first so many kinds.
inline Table draw_largest(uint32_t kinds)
{
    std::mt19937 random(SEED);
    return draw_table(random, {"the largest", all_rows, true, false, 0, kinds});
}

// A refusal ends the program.
inline std::size_t result_of(const char *call, rifflerleek_answer a)
{
    if (a.refusal != RIFFLERLEEK_DONE) {
        std::printf("%s: refusal %u\n", call, a.refusal);
        std::exit(1);
    }
    return a.result;
}

inline std::size_t write_text(Write *write, const Table &t, Bytes &out)
{
    std::size_t rows = t.width.size();
    return result_of("write", write(t.width.data(), rows, t.lock.data(), rows, t.mask.data(), rows, t.value.data(), rows,
                                    t.words.data(), t.words.size(), out.data(), out.size()));
}

inline void read_text(Read *read, const Bytes &text, Table &t)
{
    std::size_t rows = t.width.size();
    result_of("read", read(text.data(), text.size(), t.width.data(), rows, t.lock.data(), rows, t.mask.data(), rows, t.value.data(),
                           rows, t.words.data(), t.words.size()));
}

inline Bytes text_of(Write *write, const Table &t)
{
    Bytes out(MOST_BYTES);
    out.resize(write_text(write, t, out));
    return out;
}

// The table that a text is read as, into slices as long as those of `like`, in which every bit is set before.
inline Table table_of(Read *read, const Bytes &text, const Table &like)
{
    std::size_t rows = like.width.size();
    std::vector<uint32_t> words(rows, UINT32_MAX);
    Table t = {Bytes(rows, UINT8_MAX), Bytes(rows, UINT8_MAX), words, words, std::vector<uint32_t>(like.words.size(), UINT32_MAX)};
    read_text(read, text, t);
    return t;
}

inline bool same(const Table &s, const Table &t)
{
    return s.width == t.width && s.lock == t.lock && s.mask == t.mask && s.value == t.value && s.words == t.words;
}

// A letter of edition 2 that means the same, at random; another byte stays.
inline uint8_t draw_letter(std::mt19937 &random, uint8_t byte)
{
    switch (byte) {
    case '0': return static_cast<uint8_t>("0L"[below(random, 2)]);
    case '1': return static_cast<uint8_t>("1H"[below(random, 2)]);
    case 'X': return static_cast<uint8_t>("XUZW-"[below(random, 5)]);
    default: return byte;
    }
}

// A record line of edition 3, without its LF, as one of edition 2: an ite loses its parameter, any other kind its sixth word.
inline std::string older_record(const std::string &line)
{
    std::size_t last = line.rfind('\t');
    if (line.rfind("op\tite\t", 0) != 0)
        return line.substr(0, last);
    return line.substr(0, line.rfind('\t', last - 1)) + line.substr(last);
}

// The largest table's text as a listing: another header, other letters in the row lines, and four numbers in the record lines.
inline Bytes listing_of(const Bytes &text)
{
    std::mt19937 random(SEED);
    std::string listing = "edition\t2\n", all(text.begin() + RIFFLERLEEK_HEADER_BYTES, text.end());
    for (std::size_t start = 0, end; start < all.size(); start = end + 1) {
        end = all.find('\n', start);
        std::string line = all.substr(start, end - start);
        if (line[0] == 'o')
            line = older_record(line);
        else
            std::transform(line.begin(), line.end(), line.begin(), [&](char c) { return draw_letter(random, static_cast<uint8_t>(c)); });
        listing += line + '\n';
    }
    return Bytes(listing.begin(), listing.end());
}

// Million bytes a second, of a time in nanoseconds.
inline double rate(std::size_t bytes, double time)
{
    return 1e3 * static_cast<double>(bytes) / time;
}

#endif
