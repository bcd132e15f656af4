// Random histories, batches and damage for the tests, the same in every run of one build (compilers may draw in another order).
#ifndef HISTORIES_HPP
#define HISTORIES_HPP

#include "ffridwelan.hpp"

namespace testing {

using ffridwelan::Batch;
using ffridwelan::Column;
using ffridwelan::States;
using ffridwelan::Tables;

// A 64-bit xorshift generator.
struct Random {
    std::uint64_t word;

    explicit Random(std::uint64_t seed) : word(seed * 2 + 1) {}

    std::uint64_t draw() {
        word ^= word << 13;
        word ^= word >> 7;
        word ^= word << 17;
        return word * 2685821657736338717ull;
    }

    // Below count, which is above 0.
    std::uint32_t below(std::size_t count) { return static_cast<std::uint32_t>((draw() >> 32) % count); }

    bool chance(std::uint32_t percent) { return below(100) < percent; }

    template <class T> void shuffle(std::vector<T> &v) {
        for (std::size_t i = v.size(); i > 1; --i) std::swap(v[i - 1], v[below(i)]);
    }
};

// The population of a fixed history's node, by its birth number: few are equal, so that one from a wrong row shows.
inline std::uint16_t stock_of(std::uint32_t birth) { return static_cast<std::uint16_t>(birth * 40503u); }

struct Record {
    std::uint32_t length = 1;
    Tables tables;
    Column samples;
};

// Edges put in key order; each must name nodes that exist.
void sort_edges(Tables &t);

// A sound record of at most so many nodes, times mostly above 4 so that a batch can be younger (mutations are sometimes out of order: 10).
Record random_record(Random &r, std::size_t most_nodes);

// A batch that mostly joins to the record.
Batch random_batch(Random &r, const Record &record);

// One change that may break a rule (another population breaks none).
void damage(Random &r, Record &record);
void damage(Random &r, Batch &batch);

// N fish in each of so many generations after the founders, each with two parents and one crossing-over.
Record breeding(Random &r, std::size_t fish, std::size_t generations, std::uint32_t length, std::size_t sites);

// Two samples that hang in turns under a line of nodes: few edges, but as many segments as lines times pieces.
Record hanging(std::size_t nodes, std::size_t pieces);

// A sample that is now and then below another's parent: each piece gives four cleaned edges, so that few edges
// become many; so many other samples hang from the root, one edge each.
Record toggling(std::size_t pieces, std::uint32_t others);

// One parent over so many samples, each below it in so many pieces with gaps between them, and two mutations at each of so many sites: more
// finished edges, or mutations that move, than a cleaning keeps from its first sweep, so that it sweeps again.
Record pieces_of_one_parent(std::uint32_t children, std::uint32_t pieces, std::uint32_t sites);

} // namespace testing

#endif
