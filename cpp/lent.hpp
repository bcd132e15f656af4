// Output columns lent to a call for a test: every cell has a pattern, past the lent ones too, so that any write is seen.
#ifndef LENT_HPP
#define LENT_HPP

#include "reference.hpp"

#include <algorithm>

namespace testing {

using ffridwelan::Batch;
using ffridwelan::Column;
using ffridwelan::States;
using ffridwelan::Tables;

const std::size_t kGuard = 8; // cells past the lent ones

// One lent column: the first cells are lent, kGuard more stand behind them.
template <class T> struct Lent {
    std::vector<T> cells;
    std::size_t room = 0;

    void lend(std::size_t count, std::uint32_t pattern) {
        room = count;
        cells.resize(count + kGuard);
        for (std::size_t i = 0; i < cells.size(); ++i)
            cells[i] = static_cast<T>((static_cast<std::uint32_t>(i) + pattern) * 2654435761u >> (32 - 8 * sizeof(T)));
    }

    // The result laid to the front, as a call does that is done.
    void lay(const std::vector<T> &result) { std::copy(result.begin(), result.end(), cells.begin()); }
};

// The lengths of the fourteen lent columns.
struct Rooms {
    std::size_t time = 0, birth = 0, population = 0, left = 0, right = 0, parent = 0, child = 0, position = 0, ancestral = 0;
    std::size_t site = 0, node = 0, derived = 0, map = 0, block = 4;

    // The same room in each column of a table.
    static Rooms even(std::size_t nodes, std::size_t edges, std::size_t sites, std::size_t mutations, std::size_t map) {
        Rooms r;
        r.time = r.birth = r.population = nodes;
        r.left = r.right = r.parent = r.child = edges;
        r.position = r.ancestral = sites;
        r.site = r.node = r.derived = mutations;
        r.map = map;
        return r;
    }

    static Rooms limits() {
        return even(FFR_MOST_NODES, FFR_MOST_EDGES, FFR_MOST_SITES, FFR_MOST_MUTATIONS, FFR_MOST_MAP);
    }

    // Just what this result needs.
    static Rooms exact(const reference::Result &r) {
        return even(r.tables.nodes.time.size(), r.tables.edges.left.size(), r.tables.sites.position.size(),
                    r.tables.mutations.site.size(), r.map.size());
    }

    std::vector<std::size_t *> all() {
        return {&time, &birth, &population, &left, &right, &parent, &child, &position, &ancestral, &site, &node, &derived, &map, &block};
    }

    // Room as the scope paper has it: the shortest column of each table.
    reference::Room shortest() const {
        reference::Room r;
        r.nodes = std::min({time, birth, population});
        r.edges = std::min({left, right, parent, child});
        r.sites = std::min(position, ancestral);
        r.mutations = std::min({site, node, derived});
        r.map = map;
        r.block = block;
        return r;
    }
};

struct Outputs {
    Lent<std::uint32_t> time, birth;
    Lent<std::uint16_t> population;
    Lent<std::uint32_t> left, right, parent, child, position;
    Lent<std::uint8_t> ancestral;
    Lent<std::uint32_t> site, node;
    Lent<std::uint8_t> derived;
    Lent<std::uint32_t> map, block;

    Outputs(const Rooms &r, std::uint32_t pattern) {
        time.lend(r.time, pattern + 1);
        birth.lend(r.birth, pattern + 2);
        left.lend(r.left, pattern + 3);
        right.lend(r.right, pattern + 4);
        parent.lend(r.parent, pattern + 5);
        child.lend(r.child, pattern + 6);
        position.lend(r.position, pattern + 7);
        ancestral.lend(r.ancestral, pattern + 8);
        site.lend(r.site, pattern + 9);
        node.lend(r.node, pattern + 10);
        derived.lend(r.derived, pattern + 11);
        map.lend(r.map, pattern + 12);
        block.lend(r.block, pattern + 13);
        population.lend(r.population, pattern + 14);
    }

    // What the columns must hold after a call with this result; a refused one leaves them.
    void lay(const reference::Result &r) {
        if (r.answer.number != 0) return;
        const Tables &t = r.tables;
        time.lay(t.nodes.time);
        birth.lay(t.nodes.birth);
        population.lay(t.nodes.population);
        left.lay(t.edges.left);
        right.lay(t.edges.right);
        parent.lay(t.edges.parent);
        child.lay(t.edges.child);
        position.lay(t.sites.position);
        ancestral.lay(t.sites.ancestral);
        site.lay(t.mutations.site);
        node.lay(t.mutations.node);
        derived.lay(t.mutations.derived);
        map.lay(r.map);
        block.lay({static_cast<std::uint32_t>(t.nodes.time.size()), static_cast<std::uint32_t>(t.edges.left.size()),
                   static_cast<std::uint32_t>(t.sites.position.size()), static_cast<std::uint32_t>(t.mutations.site.size())});
    }

    // The name of a column in which some cell differs, or nothing.
    const char *differs(const Outputs &o) const {
        if (time.cells != o.time.cells) return "time";
        if (birth.cells != o.birth.cells) return "birth";
        if (population.cells != o.population.cells) return "population";
        if (left.cells != o.left.cells) return "left";
        if (right.cells != o.right.cells) return "right";
        if (parent.cells != o.parent.cells) return "parent";
        if (child.cells != o.child.cells) return "child";
        if (position.cells != o.position.cells) return "position";
        if (ancestral.cells != o.ancestral.cells) return "ancestral";
        if (site.cells != o.site.cells) return "site";
        if (node.cells != o.node.cells) return "node";
        if (derived.cells != o.derived.cells) return "derived";
        if (map.cells != o.map.cells) return "map";
        if (block.cells != o.block.cells) return "block";
        return nullptr;
    }

    std::size_t cells() const {
        return time.cells.size() + birth.cells.size() + population.cells.size() + left.cells.size() + right.cells.size() +
               parent.cells.size() + child.cells.size() + position.cells.size() + ancestral.cells.size() + site.cells.size() +
               node.cells.size() + derived.cells.size() + map.cells.size() + block.cells.size();
    }
};

// The two blocks of a panel.
struct Blocks {
    Lent<std::uint8_t> states, missing;

    Blocks(std::size_t states_room, std::size_t missing_room, std::uint32_t pattern) {
        states.lend(states_room, pattern + 1);
        missing.lend(missing_room, pattern + 2);
    }

    // What the blocks must hold after a call with this result; a refused one leaves them.
    void lay(const reference::Panel &p) {
        if (p.answer.number != 0) return;
        states.lay(p.states);
        missing.lay(p.missing);
    }

    const char *differs(const Blocks &o) const {
        if (states.cells != o.states.cells) return "states";
        if (missing.cells != o.missing.cells) return "missing";
        return nullptr;
    }
};

#define READ(column) ffridwelan::detail::cells(column), (column).size()
#define LEND(column) (column).cells.data(), (column).room

inline std::uint64_t call_clean(std::uint32_t length, const Tables &t, const Column &samples, Outputs &o) {
    return ffr_clean(length, READ(t.nodes.time), READ(t.nodes.birth), READ(t.nodes.population), READ(t.edges.left),
                     READ(t.edges.right), READ(t.edges.parent), READ(t.edges.child), READ(t.sites.position),
                     READ(t.sites.ancestral), READ(t.mutations.site), READ(t.mutations.node), READ(t.mutations.derived),
                     READ(samples), LEND(o.time), LEND(o.birth), LEND(o.population), LEND(o.left), LEND(o.right),
                     LEND(o.parent), LEND(o.child), LEND(o.position), LEND(o.ancestral), LEND(o.site), LEND(o.node),
                     LEND(o.derived), LEND(o.map), LEND(o.block));
}

inline std::uint64_t call_join(std::uint32_t length, const Tables &t, const Batch &b, Outputs &o) {
    return ffr_join(length, READ(t.nodes.time), READ(t.nodes.birth), READ(t.nodes.population), READ(t.edges.left),
                    READ(t.edges.right), READ(t.edges.parent), READ(t.edges.child), READ(t.sites.position),
                    READ(t.sites.ancestral), READ(t.mutations.site), READ(t.mutations.node), READ(t.mutations.derived),
                    READ(b.nodes.time), READ(b.nodes.birth), READ(b.nodes.population), READ(b.edges.left),
                    READ(b.edges.right), READ(b.edges.parent), READ(b.edges.child), READ(b.mutations.site),
                    READ(b.mutations.node), READ(b.mutations.derived), LEND(o.time), LEND(o.birth), LEND(o.population),
                    LEND(o.left), LEND(o.right), LEND(o.parent), LEND(o.child), LEND(o.position), LEND(o.ancestral),
                    LEND(o.site), LEND(o.node), LEND(o.derived), LEND(o.block));
}

inline std::uint64_t call_alleles(std::uint32_t length, const Tables &t, const Column &sites, const Column &fish, Blocks &b) {
    return ffr_alleles(length, READ(t.nodes.time), READ(t.nodes.birth), READ(t.nodes.population), READ(t.edges.left),
                       READ(t.edges.right), READ(t.edges.parent), READ(t.edges.child), READ(t.sites.position),
                       READ(t.sites.ancestral), READ(t.mutations.site), READ(t.mutations.node), READ(t.mutations.derived),
                       READ(sites), READ(fish), LEND(b.states), LEND(b.missing));
}

#undef READ
#undef LEND

} // namespace testing

#endif
