// The baseline of a panel: a plain C++ loop over filled parents. For each listed site one pass over the edges and the mutations fills
// what each node has there, then each fish climbs to the first mutation. It checks nothing.
#pragma once
#include <unordered_map>

#include "tables.hpp"

namespace bench {

// Site rows and birth numbers, and the two blocks: a byte for each pair, fish by fish.
struct Panel {
    std::vector<std::uint32_t> sites, fish;
    std::vector<std::uint8_t> states, missing;

    Panel(std::vector<std::uint32_t> s, std::vector<std::uint32_t> f)
        : sites(std::move(s)), fish(std::move(f)), states(sites.size() * fish.size()), missing(states.size()) {}
};

// All sites of the record and all its nodes; or one of either, from the middle.
inline Panel whole_panel(const Tables &t) {
    std::vector<std::uint32_t> sites(t.position.size());
    for (std::uint32_t i = 0; i < sites.size(); ++i) sites[i] = i;
    return Panel(sites, t.birth);
}
inline Panel fish_panel(const Tables &t) { return Panel(whole_panel(t).sites, {t.birth[t.birth.size() / 2]}); }
inline Panel site_panel(const Tables &t) { return Panel({static_cast<std::uint32_t>(t.position.size() / 2)}, t.birth); }

inline void panel_baseline(const Tables &t, Panel &p) {
    const std::uint32_t nobody = 4294967295u;
    const std::size_t n = t.time.size();
    std::unordered_map<std::uint32_t, std::uint32_t> row;
    row.reserve(n);
    for (std::uint32_t i = 0; i < n; ++i) row.emplace(t.birth[i], i);
    std::vector<std::uint32_t> rows;
    for (auto birth : p.fish) rows.push_back(row.at(birth));
    std::vector<std::uint32_t> parent(n), last(n); // the parent row, and the last mutation row at the site
    std::vector<std::uint8_t> tied(n);
    for (std::size_t j = 0; j < p.sites.size(); ++j) {
        const std::uint32_t s = p.sites[j], x = t.position[s];
        std::fill(parent.begin(), parent.end(), nobody);
        std::fill(last.begin(), last.end(), nobody);
        std::fill(tied.begin(), tied.end(), std::uint8_t{0});
        for (std::size_t e = 0; e < t.left.size(); ++e)
            if (t.left[e] <= x && x < t.right[e]) {
                parent[t.child[e]] = t.parent[e];
                tied[t.child[e]] = tied[t.parent[e]] = 1;
            }
        for (std::uint32_t m = 0; m < t.site.size(); ++m)
            if (t.site[m] == s) last[t.node[m]] = m;
        for (std::size_t i = 0; i < rows.size(); ++i) {
            const std::size_t cell = i * p.sites.size() + j;
            std::uint32_t u = rows[i];
            p.missing[cell] = !tied[u] && last[u] == nobody;
            while (u != nobody && last[u] == nobody) u = parent[u];
            p.states[cell] = p.missing[cell] ? std::uint8_t{0} : u == nobody ? t.ancestral[s] : t.derived[last[u]];
        }
    }
}

}  // namespace bench
