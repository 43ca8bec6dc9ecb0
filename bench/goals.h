// Goals: bounds on the ratio of two times, or on a time.
#ifndef GOALS_H
#define GOALS_H

#include "markdown.h"
#include <algorithm>
#include <cstdio>
#include <string>
#include <vector>

// The ratio of two contestants' times, or a contestant's time, on some inputs, which the place names.
struct Measured {
    std::string place;
    double value;
};

// What is measured is named, where it is no ratio.
struct Goal {
    const char *text;
    double bound;
    bool at_least;
    const char *measured = "ratio";
};

// The worst of what the goal speaks of decides.
inline void print_verdict(const Goal &goal, const std::vector<Measured> &all)
{
    auto [least, greatest] = std::minmax_element(all.begin(), all.end(),
                                                 [](const Measured &r, const Measured &s) { return r.value < s.value; });
    const Measured &worst = goal.at_least ? *least : *greatest;
    bool met = goal.at_least ? worst.value >= goal.bound : worst.value <= goal.bound;
    std::printf("- %s: %s (worst %s %s, %s)\n", goal.text, met ? "met" : "missed", goal.measured, figure(worst.value).c_str(),
                worst.place.c_str());
}

#endif
