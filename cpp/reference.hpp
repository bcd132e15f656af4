// A second implementation of check, cleaning, joining and reading alleles, for comparing: written from the customer's papers
// alone, in plain C++, and not from the proved code. Cleaning is by ancestral segments (Algorithm S of the published method, bench/algorithm_s.hpp).
#ifndef REFERENCE_HPP
#define REFERENCE_HPP

#include "ffridwelan.hpp"

namespace reference {

using ffridwelan::Batch;
using ffridwelan::Column;
using ffridwelan::States;
using ffridwelan::Tables;

// A number and a row of the scope paper; number 0 is done.
struct Answer {
    std::uint32_t number = 0;
    std::uint32_t row = 0;
};

// The room of each output: the shortest column of a table, the map, the block of counts.
struct Room {
    std::size_t nodes = 0, edges = 0, sites = 0, mutations = 0, map = 0, block = 0;
};

// What a call gives; the tables and the map are empty where it is refused.
struct Result {
    Answer answer;
    Tables tables;
    Column map;
};

// What one allele call gives: 41, 42, missing, or a state (0 where there is none).
struct Single {
    Answer answer;
    bool missing = false;
    std::uint8_t state = 0;
};

// What a panel gives; the blocks are empty where it is refused.
struct Panel {
    Answer answer;
    States states, missing;
};

// Rules 1 to 10, without samples.
Answer check_tables(std::uint32_t length, const Tables &t);

// Rules 1 to 12.
Answer check(std::uint32_t length, const Tables &t, const Column &samples);

Result clean(std::uint32_t length, const Tables &t, const Column &samples, const Room &room);

Result join(std::uint32_t length, const Tables &base, const Batch &batch, const Room &room);

// The cleaned record of sound tables, with no limit and no room looked at: by segments.
Result simplify(std::uint32_t length, const Tables &t, const Column &samples);

// The same by the scope paper's own words, one position after the other; for short chromosomes.
Result by_position(std::uint32_t length, const Tables &t, const Column &samples);

// One allele of sound tables.
Single read_allele(const Tables &t, std::uint32_t site, std::uint32_t birth);

// All alleles of a panel, with blocks of so many cells.
Panel panel(std::uint32_t length, const Tables &t, const Column &sites, const Column &fish, std::size_t states_room, std::size_t missing_room);

} // namespace reference

#endif
