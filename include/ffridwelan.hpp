// Ffridwelan for C++17: tables as vectors, and the three calls of ffridwelan.h with all room given.
// Header only, nothing but the standard library; link libffr.a.
// A node is ONE CHROMOSOME: a diploid fish is two nodes, with two birth numbers (see the head of ffridwelan.h).
#ifndef FFRIDWELAN_HPP
#define FFRIDWELAN_HPP

#include "ffridwelan.h"

#include <algorithm>
#include <array>
#include <cstddef>
#include <cstdint>
#include <optional>
#include <string>
#include <variant>
#include <vector>

namespace ffridwelan {

// In the names that the linker sees, so that old and new objects of one program do not share a function over different tables.
inline namespace interface2 {

using Column = std::vector<std::uint32_t>;
using States = std::vector<std::uint8_t>;
using Populations = std::vector<std::uint16_t>;

// Table 1, a row for each chromosome. Time is in ticks before the planned end: larger is older. A birth number is never given twice.
// The population says which stock it came from and is only copied; a run without stocks gives 0 to each node.
struct Nodes {
    Column time, birth;
    Populations population;

    void add(std::uint32_t t, std::uint32_t b, std::uint16_t p) {
        time.push_back(t);
        birth.push_back(b);
        population.push_back(p);
    }
};

// Table 2. An edge holds from left up to, not including, right. In tables parent and child are node rows, in a batch birth numbers.
struct Edges {
    Column left, right, parent, child;

    void add(std::uint32_t l, std::uint32_t r, std::uint32_t p, std::uint32_t c) {
        left.push_back(l);
        right.push_back(r);
        parent.push_back(p);
        child.push_back(c);
    }
};

// Table 3.
struct Sites {
    Column position;
    States ancestral;

    void add(std::uint32_t x, std::uint8_t state) {
        position.push_back(x);
        ancestral.push_back(state);
    }
};

// Table 4. The site is a site row; in tables the node is a node row, in a batch a birth number.
struct Mutations {
    Column site, node;
    States derived;

    void add(std::uint32_t s, std::uint32_t n, std::uint8_t state) {
        site.push_back(s);
        node.push_back(n);
        derived.push_back(state);
    }
};

// A record: edges in key order (parent time, parent birth, child birth, left), mutations in site order.
struct Tables {
    Nodes nodes;
    Edges edges;
    Sites sites;
    Mutations mutations;
};

// New births, with rows in any order, that name chromosomes by birth number.
struct Batch {
    Nodes nodes;
    Edges edges;
    Mutations mutations;
};

inline bool operator==(const Nodes &a, const Nodes &b) {
    return a.time == b.time && a.birth == b.birth && a.population == b.population;
}
inline bool operator==(const Edges &a, const Edges &b) {
    return a.left == b.left && a.right == b.right && a.parent == b.parent && a.child == b.child;
}
inline bool operator==(const Sites &a, const Sites &b) { return a.position == b.position && a.ancestral == b.ancestral; }
inline bool operator==(const Mutations &a, const Mutations &b) {
    return a.site == b.site && a.node == b.node && a.derived == b.derived;
}
inline bool operator==(const Tables &a, const Tables &b) {
    return a.nodes == b.nodes && a.edges == b.edges && a.sites == b.sites && a.mutations == b.mutations;
}

// Why a call gave nothing: the number and row of the answer.
struct Refusal {
    std::uint32_t number = 0, row = 0;

    std::string words() const {
        return std::string(ffr_reason(number)) + " (" + std::to_string(number) + ", row " + std::to_string(row) + ")";
    }
};

// The cleaned record, and for each input node row its row there or FFR_NONE.
struct Cleaned {
    Tables tables;
    Column map;
};

// The alleles of listed chromosomes at listed sites: those of chromosome i are the cells from i * sites on, in list order.
struct Panel {
    std::size_t fish = 0, sites = 0; // entries of the lists
    States states, missing;          // the state, 0 where missing; and 1 where missing, else 0

    // The state of chromosome i of the list at listed site j, or nothing where it is missing: that is not the ancestral state.
    std::optional<std::uint8_t> state(std::size_t i, std::size_t j) const {
        const std::size_t cell = i * sites + j;
        if (missing[cell] != 0) return std::nullopt;
        return states[cell];
    }
};

namespace detail {

// The cells of a column to read; an empty vector may have a null pointer, which the call must not be given.
template <class T> const T *cells(const std::vector<T> &column) {
    static const T none = 0;
    return column.empty() ? &none : column.data();
}

// Tables with room for every limit.
inline Tables room() {
    Tables t;
    for (Column *c : {&t.nodes.time, &t.nodes.birth}) c->resize(FFR_MOST_NODES);
    t.nodes.population.resize(FFR_MOST_NODES);
    for (Column *c : {&t.edges.left, &t.edges.right, &t.edges.parent, &t.edges.child}) c->resize(FFR_MOST_EDGES);
    t.sites.position.resize(FFR_MOST_SITES);
    t.sites.ancestral.resize(FFR_MOST_SITES);
    for (Column *c : {&t.mutations.site, &t.mutations.node}) c->resize(FFR_MOST_MUTATIONS);
    t.mutations.derived.resize(FFR_MOST_MUTATIONS);
    return t;
}

using Block = std::array<std::uint32_t, FFR_BLOCK_CELLS>;

// The rows written and no others.
inline void trim(Tables &t, const Block &rows) {
    for (Column *c : {&t.nodes.time, &t.nodes.birth}) c->resize(rows[0]);
    t.nodes.population.resize(rows[0]);
    for (Column *c : {&t.edges.left, &t.edges.right, &t.edges.parent, &t.edges.child}) c->resize(rows[1]);
    t.sites.position.resize(rows[2]);
    t.sites.ancestral.resize(rows[2]);
    for (Column *c : {&t.mutations.site, &t.mutations.node}) c->resize(rows[3]);
    t.mutations.derived.resize(rows[3]);
}

inline Refusal refusal(std::uint64_t answer) { return Refusal{ffr_number(answer), ffr_row(answer)}; }

// Little-endian bytes for the stored form.
inline void put(std::vector<std::uint8_t> &bytes, std::uint64_t value, int count) {
    for (int i = 0; i < count; ++i) bytes.push_back(static_cast<std::uint8_t>(value >> (8 * i)));
}

inline void mark(std::vector<std::uint8_t> &bytes, const char *two) {
    bytes.push_back(static_cast<std::uint8_t>(two[0]));
    bytes.push_back(static_cast<std::uint8_t>(two[1]));
}

} // namespace detail

#define FFR_READ(column) detail::cells(column), (column).size()
#define FFR_WRITE(column) (column).data(), (column).size()

// Cleans the record for these samples: birth numbers, two for each diploid fish that a later batch or list names.
inline std::variant<Cleaned, Refusal> clean(std::uint32_t length, const Tables &t, const Column &samples) {
    Cleaned result;
    result.tables = detail::room();
    result.map.resize(FFR_MOST_MAP);
    Tables &o = result.tables;
    detail::Block rows{};
    const std::uint64_t answer = ffr_clean(
        length, FFR_READ(t.nodes.time), FFR_READ(t.nodes.birth), FFR_READ(t.nodes.population), FFR_READ(t.edges.left),
        FFR_READ(t.edges.right), FFR_READ(t.edges.parent), FFR_READ(t.edges.child), FFR_READ(t.sites.position),
        FFR_READ(t.sites.ancestral), FFR_READ(t.mutations.site), FFR_READ(t.mutations.node), FFR_READ(t.mutations.derived),
        FFR_READ(samples), FFR_WRITE(o.nodes.time), FFR_WRITE(o.nodes.birth), FFR_WRITE(o.nodes.population),
        FFR_WRITE(o.edges.left), FFR_WRITE(o.edges.right), FFR_WRITE(o.edges.parent), FFR_WRITE(o.edges.child),
        FFR_WRITE(o.sites.position), FFR_WRITE(o.sites.ancestral), FFR_WRITE(o.mutations.site),
        FFR_WRITE(o.mutations.node), FFR_WRITE(o.mutations.derived), FFR_WRITE(result.map), FFR_WRITE(rows));
    if (answer != 0) return detail::refusal(answer);
    detail::trim(o, rows);
    result.map.resize(t.nodes.time.size());
    return result;
}

// The record with a batch of new births joined to it.
inline std::variant<Tables, Refusal> join(std::uint32_t length, const Tables &t, const Batch &b) {
    Tables o = detail::room();
    detail::Block rows{};
    const std::uint64_t answer = ffr_join(
        length, FFR_READ(t.nodes.time), FFR_READ(t.nodes.birth), FFR_READ(t.nodes.population), FFR_READ(t.edges.left),
        FFR_READ(t.edges.right), FFR_READ(t.edges.parent), FFR_READ(t.edges.child), FFR_READ(t.sites.position),
        FFR_READ(t.sites.ancestral), FFR_READ(t.mutations.site), FFR_READ(t.mutations.node), FFR_READ(t.mutations.derived),
        FFR_READ(b.nodes.time), FFR_READ(b.nodes.birth), FFR_READ(b.nodes.population), FFR_READ(b.edges.left),
        FFR_READ(b.edges.right), FFR_READ(b.edges.parent), FFR_READ(b.edges.child), FFR_READ(b.mutations.site),
        FFR_READ(b.mutations.node), FFR_READ(b.mutations.derived), FFR_WRITE(o.nodes.time), FFR_WRITE(o.nodes.birth),
        FFR_WRITE(o.nodes.population), FFR_WRITE(o.edges.left), FFR_WRITE(o.edges.right), FFR_WRITE(o.edges.parent),
        FFR_WRITE(o.edges.child), FFR_WRITE(o.sites.position), FFR_WRITE(o.sites.ancestral), FFR_WRITE(o.mutations.site),
        FFR_WRITE(o.mutations.node), FFR_WRITE(o.mutations.derived), FFR_WRITE(rows));
    if (answer != 0) return detail::refusal(answer);
    detail::trim(o, rows);
    return o;
}

// The alleles of these chromosomes (birth numbers, two for each diploid fish) at these sites (site rows, not positions). Lists
// may be in any order and repeat entries. A panel of more cells than a vector can have is given no cell, so that it is refused
// as any other without room: FFR_NO_ROOM, row FFR_BLOCK, if nothing else is wrong. (Two bytes are allocated for each cell.)
inline std::variant<Panel, Refusal> alleles(std::uint32_t length, const Tables &t, const Column &sites, const Column &fish) {
    Panel panel;
    panel.sites = sites.size();
    panel.fish = fish.size();
    const bool countable = sites.empty() || fish.size() <= panel.states.max_size() / sites.size();
    const std::size_t cells = countable ? fish.size() * sites.size() : 0;
    for (States *block : {&panel.states, &panel.missing}) block->resize(std::max<std::size_t>(cells, 1)); // one at least: no null pointer
    const std::uint64_t answer = ffr_alleles(
        length, FFR_READ(t.nodes.time), FFR_READ(t.nodes.birth), FFR_READ(t.nodes.population), FFR_READ(t.edges.left),
        FFR_READ(t.edges.right), FFR_READ(t.edges.parent), FFR_READ(t.edges.child), FFR_READ(t.sites.position),
        FFR_READ(t.sites.ancestral), FFR_READ(t.mutations.site), FFR_READ(t.mutations.node), FFR_READ(t.mutations.derived),
        FFR_READ(sites), FFR_READ(fish), panel.states.data(), cells, panel.missing.data(), cells);
    if (answer != 0) return detail::refusal(answer);
    for (States *block : {&panel.states, &panel.missing}) block->resize(cells);
    return panel;
}

#undef FFR_READ
#undef FFR_WRITE

// The stored form of a record and its samples, which the program ffridwelan reads; nothing where a row named is above 65,535, or
// where a population is not 0, since the form has no field for it: keep the stocks elsewhere and set them to 0 first.
// This writer is plain C++ for convenience and is not the proved one. It expects columns of equal length.
inline std::optional<std::vector<std::uint8_t>> stored(std::uint32_t length, const Tables &t, const Column &samples) {
    std::vector<std::uint8_t> bytes;
    const auto wide = [](std::uint32_t row) { return row > 65535; };
    detail::mark(bytes, "SQ");
    detail::put(bytes, length, 4);
    for (std::uint32_t birth : samples) {
        detail::mark(bytes, "SA");
        detail::put(bytes, birth, 4);
    }
    for (std::uint16_t population : t.nodes.population)
        if (population != 0) return std::nullopt;
    for (std::size_t i = 0; i < t.nodes.time.size(); ++i) {
        detail::mark(bytes, "ND");
        detail::put(bytes, t.nodes.time[i], 4);
        detail::put(bytes, t.nodes.birth[i], 4);
    }
    for (std::size_t i = 0; i < t.edges.left.size(); ++i) {
        if (wide(t.edges.parent[i]) || wide(t.edges.child[i])) return std::nullopt;
        detail::mark(bytes, "ED");
        detail::put(bytes, t.edges.left[i], 4);
        detail::put(bytes, t.edges.right[i], 4);
        detail::put(bytes, t.edges.parent[i], 2);
        detail::put(bytes, t.edges.child[i], 2);
    }
    for (std::size_t i = 0; i < t.sites.position.size(); ++i) {
        detail::mark(bytes, "SI");
        detail::put(bytes, t.sites.position[i], 4);
        detail::put(bytes, t.sites.ancestral[i], 1);
    }
    for (std::size_t i = 0; i < t.mutations.site.size(); ++i) {
        if (wide(t.mutations.site[i]) || wide(t.mutations.node[i])) return std::nullopt;
        detail::mark(bytes, "MU");
        detail::put(bytes, t.mutations.site[i], 2);
        detail::put(bytes, t.mutations.node[i], 2);
        detail::put(bytes, t.mutations.derived[i], 1);
    }
    detail::mark(bytes, "EN");
    return bytes;
}

} // namespace interface2

} // namespace ffridwelan

#endif
