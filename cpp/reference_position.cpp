// Cleaning by the words of the scope paper, position by position: what the segments are held to on short chromosomes.
#include "reference_parts.hpp"

#include <algorithm>

namespace reference {

namespace {

// The tree at one position.
struct At {
    std::vector<Row> parent;
    std::vector<bool> reached, stands;

    At(const Tables &t, const std::vector<Row> &samples, Position x)
        : parent(t.nodes.time.size(), kNoRow), reached(parent.size()), stands(parent.size()) {
        for (std::size_t i = 0; i < t.edges.left.size(); ++i)
            if (t.edges.left[i] <= x && x < t.edges.right[i]) parent[t.edges.child[i]] = t.edges.parent[i];
        for (Row s : samples)
            for (Row u = s; u != kNoRow; u = parent[u]) reached[u] = true;
        std::vector<int> children(parent.size());
        for (std::size_t c = 0; c < parent.size(); ++c)
            if (parent[c] != kNoRow && reached[c]) ++children[parent[c]];
        for (std::size_t u = 0; u < parent.size(); ++u) stands[u] = children[u] > 1;
        for (Row s : samples) stands[s] = true;
    }

    // The nearest proper ancestor that stands.
    Row up(Row u) const {
        Row p = parent[u];
        while (p != kNoRow && !stands[p]) p = parent[p];
        return p;
    }

    // The nearest standing node at or below a reached one.
    Row low(Row u) const {
        while (!stands[u])
            for (Row c = 0; c < parent.size(); ++c)
                if (parent[c] == u && reached[c]) {
                    u = c;
                    break;
                }
        return u;
    }
};

} // namespace

Result by_position(std::uint32_t length, const Tables &t, const Column &samples) {
    const auto by_birth = rows_by_birth(t.nodes);
    std::vector<Row> named, order;
    for (std::uint32_t b : samples) named.push_back(by_birth.at(b));
    std::vector<At> at;
    for (Position x = 0; x < length; ++x) at.emplace_back(t, named, x);

    for (Row u = 0; u < t.nodes.time.size(); ++u) order.push_back(u);
    std::sort(order.begin(), order.end(), [&](Row a, Row b) {
        return std::tie(t.nodes.time[a], t.nodes.birth[a]) < std::tie(t.nodes.time[b], t.nodes.birth[b]);
    });
    std::vector<Row> output = named;
    for (Row u : order)
        if (std::find(named.begin(), named.end(), u) == named.end() &&
            std::any_of(at.begin(), at.end(), [&](const At &tree) { return tree.stands[u]; }))
            output.push_back(u);

    Result r;
    r.map.assign(t.nodes.time.size(), FFR_NONE);
    for (std::size_t i = 0; i < output.size(); ++i) {
        r.map[output[i]] = static_cast<Row>(i);
        r.tables.nodes.add(t.nodes.time[output[i]], t.nodes.birth[output[i]], t.nodes.population[output[i]]);
    }
    for (Row p : order)
        for (const auto &[birth, c] : by_birth) {
            Position left = 0;
            for (Position x = 0; x <= length; ++x) {
                const bool holds = x < length && at[x].stands[c] && at[x].up(c) == p;
                if (holds) continue;
                if (left < x) r.tables.edges.add(left, x, r.map[p], r.map[c]);
                left = x + 1;
            }
        }
    r.tables.sites = t.sites;
    for (std::size_t i = 0; i < t.mutations.site.size(); ++i) {
        const At &tree = at[t.sites.position[t.mutations.site[i]]];
        const Row u = t.mutations.node[i];
        if (tree.reached[u]) r.tables.mutations.add(t.mutations.site[i], r.map[tree.low(u)], t.mutations.derived[i]);
    }
    return r;
}

} // namespace reference
