// Markdown tables on standard output.
#ifndef MARKDOWN_H
#define MARKDOWN_H

#include <algorithm>
#include <cstddef>
#include <cstdio>
#include <string>
#include <vector>

using Line = std::vector<std::string>;

// A number with about three digits that count.
inline std::string figure(double x)
{
    char text[64];
    std::snprintf(text, sizeof text, "%.*f", x < 10 ? 2 : x < 100 ? 1 : 0, x);
    return text;
}

// The first column stands to the left, the others to the right.
inline void print_line(const Line &line, const std::vector<std::size_t> &widths)
{
    for (std::size_t c = 0; c < line.size(); c++) {
        int width = static_cast<int>(widths[c]);
        std::printf(c == 0 ? "| %-*s " : "| %*s ", width, line[c].c_str());
    }
    std::printf("|\n");
}

// The first line is the header.
inline void print_markdown(const std::vector<Line> &lines)
{
    std::vector<std::size_t> widths(lines[0].size());
    for (const Line &line : lines)
        for (std::size_t c = 0; c < line.size(); c++)
            widths[c] = std::max(widths[c], line[c].size());
    Line rule;
    for (std::size_t c = 0; c < widths.size(); c++)
        rule.push_back(c == 0 ? std::string(widths[c], '-') : std::string(widths[c] - 1, '-') + ":");
    print_line(lines[0], widths);
    print_line(rule, widths);
    for (std::size_t i = 1; i < lines.size(); i++)
        print_line(lines[i], widths);
}

#endif
