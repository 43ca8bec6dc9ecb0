// Random vectors and timing.
#ifndef MEASURE_H
#define MEASURE_H

#include "planes.h"
#include <algorithm>
#include <cstddef>
#include <ctime>
#include <functional>
#include <limits>
#include <random>
#include <vector>

constexpr uint32_t SEED = 20211115;
constexpr int REPETITIONS = 41;
constexpr double SHORTEST = 5e5; // a timing takes at least so many nanoseconds

// One contestant's work, done once.
using Pass = std::function<void()>;

// A random number below n.
inline uint32_t below(std::mt19937 &random, uint32_t n)
{
    return static_cast<uint32_t>(random() % n);
}

// A vector with exactly so many unknown bits, at random places, and random bits elsewhere.
inline Planes draw_vector(std::mt19937 &random, uint32_t width, unsigned unknown)
{
    uint32_t mask = 0;
    while (unknown > 0) {
        uint32_t place = uint32_t{1} << below(random, width);
        if ((mask & place) == 0) {
            mask |= place;
            unknown--;
        }
    }
    return {mask, static_cast<uint32_t>(random()) & ones(width) & ~mask};
}

// Nanoseconds of processor time that the passes take together.
inline double time_of(const Pass &pass, unsigned passes)
{
    std::clock_t start = std::clock();
    for (unsigned i = 0; i < passes; i++)
        pass();
    return 1e9 / CLOCKS_PER_SEC * static_cast<double>(std::clock() - start);
}

// As many passes as one timing needs.
inline unsigned passes_for_timing(const Pass &pass)
{
    unsigned passes = 1;
    while (time_of(pass, passes) < SHORTEST)
        passes *= 2;
    return passes;
}

// For each contestant the least time of one pass, in nanoseconds: other work on the machine only ever adds to a time. They take
// turns, so that a drift of the machine hits all.
inline std::vector<double> measure(const std::vector<Pass> &contestants, int repetitions = REPETITIONS)
{
    std::vector<unsigned> passes;
    for (const Pass &pass : contestants)
        passes.push_back(passes_for_timing(pass));
    std::vector<double> least(contestants.size(), std::numeric_limits<double>::infinity());
    for (int r = 0; r < repetitions; r++)
        for (std::size_t c = 0; c < contestants.size(); c++)
            least[c] = std::min(least[c], time_of(contestants[c], passes[c]) / passes[c]);
    return least;
}

#endif
