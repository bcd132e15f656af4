// The second implementation of reading alleles. The single call is by the papers' words, through every edge for each step up; the
// panel is by the tree at a site, in which states are handed down from the oldest nodes to the youngest.
#include "reference_parts.hpp"

#include <algorithm>
#include <numeric>

namespace reference {

namespace {

// The parent of a node at a position, by a look through all edges.
Row parent_at(const Tables &t, Row u, Position x) {
    for (std::size_t i = 0; i < t.edges.left.size(); ++i)
        if (t.edges.child[i] == u && t.edges.left[i] <= x && x < t.edges.right[i]) return t.edges.parent[i];
    return kNoRow;
}

bool has_child(const Tables &t, Row u, Position x) {
    for (std::size_t i = 0; i < t.edges.left.size(); ++i)
        if (t.edges.parent[i] == u && t.edges.left[i] <= x && x < t.edges.right[i]) return true;
    return false;
}

// The last mutation row at the site on this node, or kNoRow.
Row last_on(const Tables &t, Row site, Row u) {
    for (std::size_t i = t.mutations.site.size(); i > 0; --i)
        if (t.mutations.site[i - 1] == site && t.mutations.node[i - 1] == u) return static_cast<Row>(i - 1);
    return kNoRow;
}

// What every node has at one site, and whether it is missing there.
struct Told {
    States states, missing;

    // The order has the older nodes before the younger.
    Told(const Tables &t, const std::vector<Row> &order, Row site)
        : states(t.nodes.time.size(), t.sites.ancestral[site]), missing(t.nodes.time.size(), 1) {
        const Position x = t.sites.position[site];
        std::vector<Row> parent(t.nodes.time.size(), kNoRow);
        for (std::size_t i = 0; i < t.edges.left.size(); ++i) {
            if (x < t.edges.left[i] || t.edges.right[i] <= x) continue;
            parent[t.edges.child[i]] = t.edges.parent[i];
            missing[t.edges.child[i]] = missing[t.edges.parent[i]] = 0;
        }
        std::map<Row, std::uint8_t> own; // a later row of a node takes the place of an earlier one
        for (std::size_t i = 0; i < t.mutations.site.size(); ++i)
            if (t.mutations.site[i] == site) own[t.mutations.node[i]] = t.mutations.derived[i];
        for (Row u : order) {
            const auto mine = own.find(u);
            if (mine != own.end())
                states[u] = mine->second, missing[u] = 0;
            else if (parent[u] != kNoRow)
                states[u] = states[parent[u]];
            else if (missing[u] != 0)
                states[u] = 0;
        }
    }
};

// The first refused cell in the order of the block. Once the cells of one fish have passed, every site exists.
Answer first_refused(const Tables &t, const std::map<std::uint32_t, Row> &rows, const Column &sites, const Column &fish) {
    bool passed = false;
    for (std::uint32_t birth : fish) {
        const bool known = rows.count(birth) != 0;
        if (known && passed) continue;
        for (std::uint32_t site : sites) {
            if (site >= t.sites.position.size()) return refuse(41, 0);
            if (!known) return refuse(42, 0);
        }
        passed = true;
    }
    return {};
}

} // namespace

Single read_allele(const Tables &t, std::uint32_t site, std::uint32_t birth) {
    Single s;
    const auto found = std::find(t.nodes.birth.begin(), t.nodes.birth.end(), birth);
    if (site >= t.sites.position.size()) s.answer = refuse(41, 0);
    else if (found == t.nodes.birth.end()) s.answer = refuse(42, 0);
    if (s.answer.number != 0) return s;
    const Position x = t.sites.position[site];
    Row u = static_cast<Row>(found - t.nodes.birth.begin());
    if (parent_at(t, u, x) == kNoRow && !has_child(t, u, x) && last_on(t, site, u) == kNoRow) {
        s.missing = true;
        return s;
    }
    while (u != kNoRow && last_on(t, site, u) == kNoRow) u = parent_at(t, u, x);
    s.state = u == kNoRow ? t.sites.ancestral[site] : t.mutations.derived[last_on(t, site, u)];
    return s;
}

Panel panel(std::uint32_t length, const Tables &t, const Column &sites, const Column &fish, std::size_t states_room, std::size_t missing_room) {
    Panel p;
    p.answer = check_tables(length, t);
    if (p.answer.number != 0) return p;
    const auto rows = rows_by_birth(t.nodes);
    p.answer = first_refused(t, rows, sites, fish);
    if (p.answer.number != 0) return p;
    if (!sites.empty() && std::min(states_room, missing_room) / sites.size() < fish.size()) {
        p.answer = refuse(13, 7);
        return p;
    }
    const std::size_t cells = fish.size() * sites.size(); // within the room, so it has not wrapped
    if (cells == 0) return p;
    std::vector<Row> order(t.nodes.time.size()), fish_rows;
    std::iota(order.begin(), order.end(), Row{0});
    std::sort(order.begin(), order.end(), [&](Row a, Row b) { return t.nodes.time[a] > t.nodes.time[b]; });
    for (std::uint32_t birth : fish) fish_rows.push_back(rows.at(birth));
    p.states.resize(cells);
    p.missing.resize(cells);
    std::map<Row, Told> told; // each site that is listed, once
    for (std::size_t j = 0; j < sites.size(); ++j) {
        auto at = told.find(sites[j]);
        if (at == told.end()) at = told.emplace(sites[j], Told(t, order, sites[j])).first;
        for (std::size_t i = 0; i < fish.size(); ++i) {
            p.states[i * sites.size() + j] = at->second.states[fish_rows[i]];
            p.missing[i * sites.size() + j] = at->second.missing[fish_rows[i]];
        }
    }
    return p;
}

} // namespace reference
