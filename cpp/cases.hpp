// The fixed cases of the tests; see cases.cpp.
#ifndef CASES_HPP
#define CASES_HPP

#include "suite.hpp"

namespace testing {

// The scope paper's listing, with a stock of its own for each node, which is copied.
Record listing();

// A line of nodes, each the parent of the one before, with the youngest and the oldest as samples.
Record line(std::uint32_t nodes);

// So many numbers that rise by one.
Column count_from(std::uint32_t first, std::size_t count);

// One parent and child, an edge for each position.
Record steps(std::uint32_t edges);

// So many sites, and mutations on one node at the middle one.
Record marked(std::uint32_t sites, std::uint32_t mutations);

void by_hand(Suite &s);
void named_later(Suite &s);
void at_limits(Suite &s);
void ragged(Suite &s);
void one_short(Suite &s, Random &random, int rounds);

void join_cases(Suite &s, Random &random, int rounds);
void join_limits(Suite &s);

// Populations (test_stocks.cpp).
void stocks(Suite &s, Random &random, int rounds);

// Panels of alleles (test_alleles.cpp).
void panels(Suite &s, Random &random, int rounds);

// The stack that calls take (test_stack.cpp).
void stack(Suite &s);

} // namespace testing

#endif
