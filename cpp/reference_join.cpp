// The second implementation of joining.
#include "reference_parts.hpp"

#include <algorithm>
#include <numeric>

namespace reference {

namespace {

Answer batch_shapes(const Batch &b) {
    if (ragged(b.nodes.time, b.nodes.birth, b.nodes.population)) return refuse(20, 1);
    if (ragged(b.edges.left, b.edges.right, b.edges.parent, b.edges.child)) return refuse(20, 2);
    if (ragged(b.mutations.site, b.mutations.node, b.mutations.derived)) return refuse(20, 4);
    return {};
}

Answer batch_sizes(const Tables &t, const Batch &b) {
    if (t.nodes.time.size() + b.nodes.time.size() > 1024) return refuse(21, 1);
    if (t.edges.left.size() + b.edges.left.size() > 4096) return refuse(21, 2);
    if (t.mutations.site.size() + b.mutations.site.size() > 1024) return refuse(21, 4);
    return {};
}

Answer batch_births(const Tables &t, const Batch &b) {
    std::set<std::uint32_t> known(t.nodes.birth.begin(), t.nodes.birth.end());
    for (std::size_t i = 0; i < b.nodes.birth.size(); ++i)
        if (!known.insert(b.nodes.birth[i]).second) return refuse(22, i);
    return {};
}

using Births = std::map<std::uint32_t, Row>;

// Rows count through base and batch; those of the batch begin at first.
Answer batch_edges(Position length, const ffridwelan::Nodes &all, const Births &rows, Row first, const Batch &b) {
    for (std::size_t i = 0; i < b.edges.left.size(); ++i) {
        const auto child = rows.find(b.edges.child[i]), parent = rows.find(b.edges.parent[i]);
        if (child == rows.end() || child->second < first || parent == rows.end()) return refuse(23, i);
        if (b.edges.left[i] >= b.edges.right[i] || b.edges.right[i] > length) return refuse(23, i);
        if (all.time[parent->second] <= all.time[child->second]) return refuse(23, i);
    }
    const std::size_t shared = first_shared(b.edges);
    return shared < b.edges.left.size() ? refuse(24, shared) : Answer{};
}

Answer batch_mutations(const Tables &t, const Births &rows, Row first, const Batch &b) {
    for (std::size_t i = 0; i < b.mutations.site.size(); ++i) {
        const auto node = rows.find(b.mutations.node[i]);
        if (b.mutations.site[i] >= t.sites.position.size() || node == rows.end() || node->second < first) return refuse(25, i);
    }
    return {};
}

// All edges with nodes as rows, in key order.
ffridwelan::Edges joined_edges(const ffridwelan::Nodes &all, const Births &rows, const Tables &t, const Batch &b) {
    ffridwelan::Edges loose = t.edges;
    for (std::size_t i = 0; i < b.edges.left.size(); ++i)
        loose.add(b.edges.left[i], b.edges.right[i], rows.at(b.edges.parent[i]), rows.at(b.edges.child[i]));
    std::vector<std::size_t> order(loose.left.size());
    std::iota(order.begin(), order.end(), std::size_t{0});
    std::sort(order.begin(), order.end(), [&](std::size_t i, std::size_t j) {
        return key(all, loose.left[i], loose.parent[i], loose.child[i]) < key(all, loose.left[j], loose.parent[j], loose.child[j]);
    });
    ffridwelan::Edges out;
    for (std::size_t i : order) out.add(loose.left[i], loose.right[i], loose.parent[i], loose.child[i]);
    return out;
}

ffridwelan::Mutations joined_mutations(const Births &rows, const Tables &t, const Batch &b) {
    ffridwelan::Mutations out;
    for (Row s = 0; s < t.sites.position.size(); ++s) {
        for (std::size_t i = 0; i < t.mutations.site.size(); ++i)
            if (t.mutations.site[i] == s) out.add(s, t.mutations.node[i], t.mutations.derived[i]);
        for (std::size_t i = 0; i < b.mutations.site.size(); ++i)
            if (b.mutations.site[i] == s) out.add(s, rows.at(b.mutations.node[i]), b.mutations.derived[i]);
    }
    return out;
}

} // namespace

Result join(std::uint32_t length, const Tables &t, const Batch &b, const Room &room) {
    Answer a = check_tables(length, t);
    if (a.number == 0) a = batch_shapes(b);
    if (a.number == 0) a = batch_sizes(t, b);
    if (a.number == 0) a = batch_births(t, b);
    if (a.number != 0) return refused(a);

    Result r;
    const Row first = static_cast<Row>(t.nodes.time.size());
    r.tables.nodes = t.nodes;
    for (std::size_t i = 0; i < b.nodes.time.size(); ++i) r.tables.nodes.add(b.nodes.time[i], b.nodes.birth[i], b.nodes.population[i]);
    const Births rows = rows_by_birth(r.tables.nodes);
    a = batch_edges(length, r.tables.nodes, rows, first, b);
    if (a.number == 0) a = batch_mutations(t, rows, first, b);
    if (a.number != 0) return refused(a);

    r.tables.edges = joined_edges(r.tables.nodes, rows, t, b);
    r.tables.sites = t.sites;
    Column nodes;
    for (std::uint32_t birth : b.mutations.node) nodes.push_back(rows.at(birth));
    const std::size_t above = first_above(r.tables, b.mutations.site, nodes);
    if (above < nodes.size()) return refused(refuse(26, above));
    r.tables.mutations = joined_mutations(rows, t, b);
    a = fits(r.tables, room);
    if (a.number == 0 && room.block < 4) a = refuse(13, 7);
    return a.number == 0 ? r : refused(a);
}

} // namespace reference
