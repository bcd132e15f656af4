// The proved calls on the benchmark's tables, with room for every limit.
#pragma once
#include <ffridwelan.h>

#include "algorithm_s.hpp"
#include "join_baseline.hpp"
#include "panel_baseline.hpp"

namespace bench {

// Lent output columns, made once and used for every call.
struct Room {
    std::vector<std::uint32_t> time, birth, left, right, parent, child, position, site, node, map, block;
    std::vector<std::uint16_t> population;
    std::vector<std::uint8_t> ancestral, derived;
    Room()
        : time(1024), birth(1024), left(4096), right(4096), parent(4096), child(4096), position(512), site(1024),
          node(1024), map(1024), block(4), population(1024), ancestral(512), derived(1024) {}

    template <class T> static void take(std::vector<T> &to, const std::vector<T> &from, std::uint32_t n) {
        to.assign(from.begin(), from.begin() + n);
    }
    // What a call that was not refused left, as tables.
    Tables tables(std::uint32_t len) const {
        Tables t;
        t.len = len;
        take(t.time, time, block[0]);
        take(t.birth, birth, block[0]);
        take(t.population, population, block[0]);
        take(t.left, left, block[1]);
        take(t.right, right, block[1]);
        take(t.parent, parent, block[1]);
        take(t.child, child, block[1]);
        take(t.position, position, block[2]);
        take(t.ancestral, ancestral, block[2]);
        take(t.site, site, block[3]);
        take(t.node, node, block[3]);
        take(t.derived, derived, block[3]);
        return t;
    }
};

// A column as the calls take it: an empty one still needs a pointer.
template <class T> const T *cells(const std::vector<T> &v) {
    static const T none_there = 0;
    return v.empty() ? &none_there : v.data();
}
template <class T> T *cells(std::vector<T> &v) { return v.data(); }
#define FFR_IN(v) cells(v), (v).size()

inline std::uint64_t clean(const Tables &t, const std::vector<std::uint32_t> &samples, Room &r) {
    return ffr_clean(t.len, FFR_IN(t.time), FFR_IN(t.birth), FFR_IN(t.population), FFR_IN(t.left), FFR_IN(t.right),
                     FFR_IN(t.parent), FFR_IN(t.child), FFR_IN(t.position), FFR_IN(t.ancestral), FFR_IN(t.site),
                     FFR_IN(t.node), FFR_IN(t.derived), FFR_IN(samples), FFR_IN(r.time), FFR_IN(r.birth),
                     FFR_IN(r.population), FFR_IN(r.left), FFR_IN(r.right), FFR_IN(r.parent), FFR_IN(r.child),
                     FFR_IN(r.position), FFR_IN(r.ancestral), FFR_IN(r.site), FFR_IN(r.node), FFR_IN(r.derived),
                     FFR_IN(r.map), FFR_IN(r.block));
}

inline std::uint64_t join(const Tables &t, const Batch &b, Room &r) {
    return ffr_join(t.len, FFR_IN(t.time), FFR_IN(t.birth), FFR_IN(t.population), FFR_IN(t.left), FFR_IN(t.right),
                    FFR_IN(t.parent), FFR_IN(t.child), FFR_IN(t.position), FFR_IN(t.ancestral), FFR_IN(t.site),
                    FFR_IN(t.node), FFR_IN(t.derived), FFR_IN(b.time), FFR_IN(b.birth), FFR_IN(b.population),
                    FFR_IN(b.left), FFR_IN(b.right), FFR_IN(b.parent), FFR_IN(b.child), FFR_IN(b.site), FFR_IN(b.node),
                    FFR_IN(b.derived), FFR_IN(r.time), FFR_IN(r.birth), FFR_IN(r.population), FFR_IN(r.left),
                    FFR_IN(r.right), FFR_IN(r.parent), FFR_IN(r.child), FFR_IN(r.position), FFR_IN(r.ancestral),
                    FFR_IN(r.site), FFR_IN(r.node), FFR_IN(r.derived), FFR_IN(r.block));
}

inline std::uint64_t alleles(const Tables &t, const std::uint32_t *sites, std::size_t site_count, const std::uint32_t *fish,
                             std::size_t fish_count, std::uint8_t *states, std::uint8_t *missing) {
    return ffr_alleles(t.len, FFR_IN(t.time), FFR_IN(t.birth), FFR_IN(t.population), FFR_IN(t.left), FFR_IN(t.right),
                       FFR_IN(t.parent), FFR_IN(t.child), FFR_IN(t.position), FFR_IN(t.ancestral), FFR_IN(t.site),
                       FFR_IN(t.node), FFR_IN(t.derived), sites, site_count, fish, fish_count, states,
                       site_count * fish_count, missing, site_count * fish_count);
}

// The whole panel in one call.
inline std::uint64_t alleles(const Tables &t, Panel &p) {
    return alleles(t, p.sites.data(), p.sites.size(), p.fish.data(), p.fish.size(), p.states.data(), p.missing.data());
}

// The same by single calls: one for each cell, with lists of one.
inline std::uint64_t singles(const Tables &t, Panel &p) {
    std::uint64_t answers = 0;
    for (std::size_t i = 0; i < p.fish.size(); ++i)
        for (std::size_t j = 0; j < p.sites.size(); ++j) {
            const std::size_t cell = i * p.sites.size() + j;
            answers |= alleles(t, &p.sites[j], 1, &p.fish[i], 1, &p.states[cell], &p.missing[cell]);
        }
    return answers;
}

inline bool same(const Tables &a, const Tables &b) {
    return a.time == b.time && a.birth == b.birth && a.population == b.population && a.left == b.left &&
           a.right == b.right && a.parent == b.parent && a.child == b.child && a.position == b.position &&
           a.ancestral == b.ancestral && a.site == b.site && a.node == b.node && a.derived == b.derived;
}

}  // namespace bench
