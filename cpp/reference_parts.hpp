// What the parts of the second implementation share.
#ifndef REFERENCE_PARTS_HPP
#define REFERENCE_PARTS_HPP

#include "reference.hpp"

#include <map>
#include <set>
#include <tuple>

namespace reference {

using Row = std::uint32_t;
using Position = std::uint32_t;

const Row kNoRow = 4294967295u;

inline Answer refuse(std::uint32_t number, std::size_t row) { return Answer{number, static_cast<std::uint32_t>(row)}; }

inline Result refused(const Answer &a) {
    Result r;
    r.answer = a;
    return r;
}

template <class... Columns> bool ragged(const Columns &...columns) {
    const std::set<std::size_t> lengths{columns.size()...};
    return lengths.size() > 1;
}

// The key that edges are ordered by: parent time, parent birth, child birth, left.
using Key = std::tuple<std::uint32_t, std::uint32_t, std::uint32_t, Position>;

inline Key key(const ffridwelan::Nodes &n, Position left, Row parent, Row child) {
    return Key{n.time[parent], n.birth[parent], n.birth[child], left};
}

// The row of each birth number.
std::map<std::uint32_t, Row> rows_by_birth(const ffridwelan::Nodes &n);

// The first row that shares a position with an earlier row of the same child, or the number of rows.
std::size_t first_shared(const ffridwelan::Edges &e);

// The first of these mutations (site row, node row), in any order of sites, that is above an earlier one of its site, or their number.
std::size_t first_above(const Tables &t, const Column &site, const Column &node);

// 13 for tables 1 to 4.
Answer fits(const Tables &result, const Room &room);

} // namespace reference

#endif
