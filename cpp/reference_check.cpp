// The second implementation of the check: a function for each rule, which gives the answer of its lowest row.
#include "reference_parts.hpp"

#include <algorithm>

namespace reference {

namespace {

// The parent row of every node at a position.
std::vector<Row> parents_at(const Tables &t, Position x) {
    std::vector<Row> parent(t.nodes.time.size(), kNoRow);
    for (std::size_t i = 0; i < t.edges.left.size(); ++i)
        if (t.edges.left[i] <= x && x < t.edges.right[i]) parent[t.edges.child[i]] = t.edges.parent[i];
    return parent;
}

// Nodes above the mutations met so far at one site.
struct Above {
    std::vector<Row> parent;
    std::vector<bool> marked;

    Above(const Tables &t, Position x) : parent(parents_at(t, x)), marked(t.nodes.time.size(), false) {}

    // False where the node is above an earlier one; otherwise what is above it is marked.
    bool take(Row node) {
        if (marked[node]) return false;
        for (Row u = parent[node]; u != kNoRow && !marked[u]; u = parent[u]) marked[u] = true;
        return true;
    }
};

} // namespace

std::map<std::uint32_t, Row> rows_by_birth(const ffridwelan::Nodes &n) {
    std::map<std::uint32_t, Row> rows;
    for (std::size_t i = 0; i < n.birth.size(); ++i) rows.emplace(n.birth[i], static_cast<Row>(i));
    return rows;
}

std::size_t first_shared(const ffridwelan::Edges &e) {
    std::map<std::uint32_t, std::vector<std::size_t>> earlier;
    for (std::size_t i = 0; i < e.left.size(); ++i) {
        std::vector<std::size_t> &rows = earlier[e.child[i]];
        for (std::size_t j : rows)
            if (e.left[i] < e.right[j] && e.left[j] < e.right[i]) return i;
        rows.push_back(i);
    }
    return e.left.size();
}

std::size_t first_above(const Tables &t, const Column &site, const Column &node) {
    std::map<Row, Above> sites;
    for (std::size_t i = 0; i < site.size(); ++i) {
        auto at = sites.find(site[i]);
        if (at == sites.end()) at = sites.emplace(site[i], Above(t, t.sites.position[site[i]])).first;
        if (!at->second.take(node[i])) return i;
    }
    return site.size();
}

Answer fits(const Tables &result, const Room &room) {
    if (result.nodes.time.size() > std::min<std::size_t>(room.nodes, 1024)) return refuse(13, 1);
    if (result.edges.left.size() > std::min<std::size_t>(room.edges, 4096)) return refuse(13, 2);
    if (result.sites.position.size() > std::min<std::size_t>(room.sites, 512)) return refuse(13, 3);
    if (result.mutations.site.size() > std::min<std::size_t>(room.mutations, 1024)) return refuse(13, 4);
    return {};
}

namespace {

Answer shapes(const Tables &t) {
    if (ragged(t.nodes.time, t.nodes.birth, t.nodes.population)) return refuse(1, 1);
    if (ragged(t.edges.left, t.edges.right, t.edges.parent, t.edges.child)) return refuse(1, 2);
    if (ragged(t.sites.position, t.sites.ancestral)) return refuse(1, 3);
    if (ragged(t.mutations.site, t.mutations.node, t.mutations.derived)) return refuse(1, 4);
    return {};
}

Answer sizes(const Tables &t, std::size_t samples) {
    if (t.nodes.time.size() > 1024) return refuse(2, 1);
    if (t.edges.left.size() > 4096) return refuse(2, 2);
    if (t.sites.position.size() > 512) return refuse(2, 3);
    if (t.mutations.site.size() > 1024) return refuse(2, 4);
    if (samples > 256) return refuse(2, 5);
    return {};
}

Answer births(const Tables &t) {
    std::set<std::uint32_t> seen;
    for (std::size_t i = 0; i < t.nodes.birth.size(); ++i)
        if (!seen.insert(t.nodes.birth[i]).second) return refuse(4, i);
    return {};
}

Answer edge_rows(Position length, const Tables &t) {
    const std::size_t n = t.nodes.time.size();
    for (std::size_t i = 0; i < t.edges.left.size(); ++i) {
        const Row p = t.edges.parent[i], c = t.edges.child[i];
        if (p >= n || c >= n || t.edges.left[i] >= t.edges.right[i] || t.edges.right[i] > length ||
            t.nodes.time[p] <= t.nodes.time[c])
            return refuse(5, i);
    }
    return {};
}

Answer edge_order(const Tables &t) {
    for (std::size_t i = 1; i < t.edges.left.size(); ++i) {
        const Key before = key(t.nodes, t.edges.left[i - 1], t.edges.parent[i - 1], t.edges.child[i - 1]);
        if (!(before < key(t.nodes, t.edges.left[i], t.edges.parent[i], t.edges.child[i]))) return refuse(6, i);
    }
    return {};
}

Answer edge_sharing(const Tables &t) {
    const std::size_t i = first_shared(t.edges);
    return i < t.edges.left.size() ? refuse(7, i) : Answer{};
}

Answer site_rows(Position length, const Tables &t) {
    for (std::size_t i = 0; i < t.sites.position.size(); ++i)
        if (t.sites.position[i] >= length || (i > 0 && t.sites.position[i] <= t.sites.position[i - 1])) return refuse(8, i);
    return {};
}

Answer mutation_rows(const Tables &t) {
    for (std::size_t i = 0; i < t.mutations.site.size(); ++i) {
        if (t.mutations.site[i] >= t.sites.position.size() || t.mutations.node[i] >= t.nodes.time.size()) return refuse(9, i);
        if (i > 0 && t.mutations.site[i] < t.mutations.site[i - 1]) return refuse(9, i);
    }
    return {};
}

Answer mutation_above(const Tables &t) {
    const std::size_t i = first_above(t, t.mutations.site, t.mutations.node);
    return i < t.mutations.site.size() ? refuse(10, i) : Answer{};
}

Answer check_base(std::uint32_t length, const Tables &t, std::size_t samples) {
    Answer a = shapes(t);
    if (a.number == 0) a = sizes(t, samples);
    if (a.number == 0 && (length == 0 || length > 1073741824u)) a = refuse(3, 0);
    if (a.number == 0) a = births(t);
    if (a.number == 0) a = edge_rows(length, t);
    if (a.number == 0) a = edge_order(t);
    if (a.number == 0) a = edge_sharing(t);
    if (a.number == 0) a = site_rows(length, t);
    if (a.number == 0) a = mutation_rows(t);
    if (a.number == 0) a = mutation_above(t);
    return a;
}

} // namespace

Answer check_tables(std::uint32_t length, const Tables &t) { return check_base(length, t, 0); }

Answer check(std::uint32_t length, const Tables &t, const Column &samples) {
    const Answer a = check_base(length, t, samples.size());
    if (a.number != 0) return a;
    const auto rows = rows_by_birth(t.nodes);
    for (std::size_t i = 0; i < samples.size(); ++i)
        if (rows.count(samples[i]) == 0) return refuse(11, i);
    std::set<std::uint32_t> seen;
    for (std::size_t i = 0; i < samples.size(); ++i)
        if (!seen.insert(samples[i]).second) return refuse(12, i);
    return {};
}

} // namespace reference
