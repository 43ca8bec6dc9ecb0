// The text of a table with the most rows and records: the time of rifflerleek_size, of rifflerleek_write, and of rifflerleek_read, of the
// text and of the same table as a listing of edition 2. Fails if size and write differ, or if a text is not read as the table.
#include "goals.h"
#include "texts.h"

namespace {

constexpr Goal size_goal = {"size of the largest table takes less time than write of it", 1, false};
constexpr Goal listing_goal = {"a listing of edition 2 reads in at most 1.5 times the time of the text", 1.5, false};

std::size_t size_of(const Table &t)
{
    std::size_t rows = t.width.size();
    return result_of("size", rifflerleek_size(t.width.data(), rows, t.lock.data(), rows, t.mask.data(), rows, t.value.data(), rows,
                                              t.words.data(), t.words.size()));
}

// Whether a text is read as the table, and that is written as the right text. Says so where not.
bool comes_back(const char *name, const Bytes &text, const Table &t, const Bytes &right)
{
    Table r = table_of(rifflerleek_read, text, t);
    if (same(r, t) && text_of(rifflerleek_write, r) == right)
        return true;
    std::printf("the %s is not read as the table that was written\n", name);
    return false;
}

Line line_of(const char *call, std::size_t lines, std::size_t bytes, double time)
{
    return {call, std::to_string(lines), std::to_string(bytes), figure(time), figure(time / static_cast<double>(lines)), figure(rate(bytes, time))};
}

} // namespace

int main()
{
    const Table t = draw_largest(KINDS);
    const Bytes text = text_of(rifflerleek_write, t), listing = listing_of(text);
    if (size_of(t) != text.size()) {
        std::printf("size and write differ\n");
        return 1;
    }
    if (!comes_back("text", text, t, text) || !comes_back("listing", listing, t, text))
        return 1;
    Bytes out(text.size());
    Table r = t;
    std::vector<double> times = measure({[&] { size_of(t); }, [&] { write_text(rifflerleek_write, t, out); },
                                         [&] { read_text(rifflerleek_read, text, r); }, [&] { read_text(rifflerleek_read, listing, r); }});
    print_markdown({{"call", "lines", "bytes", "ns", "ns a line", "million bytes a second"},
                    line_of("size", LINES, text.size(), times[0]),
                    line_of("write", LINES, text.size(), times[1]),
                    line_of("read", LINES, text.size(), times[2]),
                    line_of("read of a listing", LINES, listing.size(), times[3])});
    std::printf("\n");
    print_verdict(size_goal, {{"size / write", times[0] / times[1]}});
    print_verdict(listing_goal, {{"read of a listing / read", times[3] / times[2]}});
    return 0;
}
