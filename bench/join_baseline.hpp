// The baseline of joining: the batch appended, births looked up in a hash table, edges sorted by key and mutations by
// site with the standard library. It checks nothing.
#pragma once
#include <unordered_map>

#include "tables.hpp"

namespace bench {

// Nodes, edges and mutations of new births, which name fish by birth number.
struct Batch {
    std::vector<std::uint32_t> time, birth, left, right, parent, child, site, node;
    std::vector<std::uint16_t> population;
    std::vector<std::uint8_t> derived;
};

// The youngest nodes of a history as a batch, and the rest as its base.
inline void split(const Tables &t, Tables &base, Batch &batch) {
    const std::uint32_t youngest = *std::min_element(t.time.begin(), t.time.end());
    base.len = t.len;
    std::vector<std::uint32_t> row(t.time.size());
    for (std::size_t i = 0; i < t.time.size(); ++i) {
        if (t.time[i] != youngest) {
            row[i] = base.add_node(t.time[i], t.birth[i], t.population[i]);
        } else {
            batch.time.push_back(t.time[i]);
            batch.birth.push_back(t.birth[i]);
            batch.population.push_back(t.population[i]);
        }
    }
    for (std::size_t e = 0; e < t.left.size(); ++e) {
        if (t.time[t.child[e]] != youngest) {
            base.add_edge(t.left[e], t.right[e], row[t.parent[e]], row[t.child[e]]);
        } else {
            batch.left.push_back(t.left[e]);
            batch.right.push_back(t.right[e]);
            batch.parent.push_back(t.birth[t.parent[e]]);
            batch.child.push_back(t.birth[t.child[e]]);
        }
    }
    base.position = t.position;
    base.ancestral = t.ancestral;
    for (std::size_t m = 0; m < t.site.size(); ++m) {
        const bool fresh = t.time[t.node[m]] == youngest;
        (fresh ? batch.site : base.site).push_back(t.site[m]);
        (fresh ? batch.node : base.node).push_back(fresh ? t.birth[t.node[m]] : row[t.node[m]]);
        (fresh ? batch.derived : base.derived).push_back(t.derived[m]);
    }
}

inline Tables join_baseline(const Tables &base, const Batch &batch) {
    Tables t = base;
    std::unordered_map<std::uint32_t, std::uint32_t> row;
    row.reserve(base.birth.size() + batch.birth.size());
    for (std::size_t i = 0; i < batch.time.size(); ++i) t.add_node(batch.time[i], batch.birth[i], batch.population[i]);
    for (std::uint32_t i = 0; i < t.birth.size(); ++i) row.emplace(t.birth[i], i);
    for (std::size_t e = 0; e < batch.left.size(); ++e)
        t.add_edge(batch.left[e], batch.right[e], row.at(batch.parent[e]), row.at(batch.child[e]));
    t.order();
    for (std::size_t m = 0; m < batch.site.size(); ++m) {
        t.site.push_back(batch.site[m]);
        t.node.push_back(row.at(batch.node[m]));
        t.derived.push_back(batch.derived[m]);
    }
    std::vector<std::uint32_t> by(t.site.size());
    for (std::uint32_t i = 0; i < by.size(); ++i) by[i] = i;
    std::stable_sort(by.begin(), by.end(), [&](std::uint32_t a, std::uint32_t b) { return t.site[a] < t.site[b]; });
    Tables s;
    for (auto m : by) {
        s.site.push_back(t.site[m]);
        s.node.push_back(t.node[m]);
        s.derived.push_back(t.derived[m]);
    }
    t.site = s.site;
    t.node = s.node;
    t.derived = s.derived;
    return t;
}

}  // namespace bench
