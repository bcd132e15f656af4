// The baseline: Algorithm S of the pedigree recording paper in C++, as the field's libraries write it: ancestral
// segments in one pool, a queue for each parent sorted by left, edges of a parent gathered child by child and joined
// where they touch. A sample that is an ancestor of samples keeps its place (the paper's own listing forgets it).
// The tests of the calls take it as their second cleaner too (cpp/reference_clean.cpp).
#pragma once
#include "tables.hpp"

namespace bench {

constexpr std::uint32_t none = 4294967295u;

struct Result {
    Tables out;
    std::vector<std::uint32_t> map;
};

class AlgorithmS {
    struct Segment {
        std::uint32_t left, right, row, next;
    };
    struct Found {
        std::uint32_t child, left, right;
    };
    const Tables &in;
    Result res;
    std::vector<Segment> pool;
    std::vector<std::uint32_t> head, tail;
    std::vector<Segment> queue;
    std::vector<std::uint32_t> over;
    std::vector<Found> found;

    void add(std::uint32_t u, std::uint32_t l, std::uint32_t r, std::uint32_t row) {
        if (head[u] != none) {
            Segment &t = pool[tail[u]];
            if (t.right == l && t.row == row) {
                t.right = r;
                return;
            }
        }
        pool.push_back({l, r, row, none});
        const std::uint32_t s = static_cast<std::uint32_t>(pool.size() - 1);
        if (head[u] == none) head[u] = s;
        else pool[tail[u]].next = s;
        tail[u] = s;
    }
    std::uint32_t keep(std::uint32_t u) {
        res.map[u] = res.out.add_node(in.time[u], in.birth[u], in.population[u]);
        return res.map[u];
    }
    // The edges of one output parent by child birth and left, joined where they touch.
    void flush(std::uint32_t p) {
        auto &b = res.out.birth;
        std::sort(found.begin(), found.end(), [&](const Found &x, const Found &y) { return b[x.child] != b[y.child] ? b[x.child] < b[y.child] : x.left < y.left; });
        for (std::size_t i = 0; i < found.size();) {
            std::uint32_t r = found[i].right;
            std::size_t j = i + 1;
            while (j < found.size() && found[j].child == found[i].child && found[j].left == r) r = found[j++].right;
            res.out.add_edge(found[i].left, r, p, found[i].child);
            i = j;
        }
        found.clear();
    }
    void merge(std::uint32_t u) {
        std::uint32_t row = res.map[u];
        const bool sample = row != none;
        if (sample) head[u] = none;
        std::sort(queue.begin(), queue.end(), [](const Segment &x, const Segment &y) { return x.left < y.left; });
        over.clear();
        std::size_t at = 0;
        std::uint32_t x = 0, last = 0;
        while (at < queue.size() || !over.empty()) {
            if (over.empty()) x = queue[at].left;
            while (at < queue.size() && queue[at].left == x) over.push_back(static_cast<std::uint32_t>(at++));
            std::uint32_t y = at < queue.size() ? queue[at].left : none;
            for (auto s : over) y = std::min(y, queue[s].right);
            std::uint32_t to;
            if (over.size() == 1) {
                to = queue[over[0]].row;
                if (sample) {
                    found.push_back({to, x, y});
                    to = row;
                }
            } else {
                if (row == none) row = keep(u);
                for (auto s : over) found.push_back({queue[s].row, x, y});
                to = row;
            }
            if (sample && last != x) add(u, last, x, row);
            add(u, x, y, to);
            last = y;
            x = y;
            over.erase(std::remove_if(over.begin(), over.end(), [&](std::uint32_t s) { return queue[s].right <= y; }), over.end());
        }
        if (sample && last != in.len) add(u, last, in.len, row);
        if (!found.empty()) flush(row);
        queue.clear();
    }

public:
    explicit AlgorithmS(const Tables &t) : in(t) {}

    Result run() {
        const std::size_t n = in.time.size();
        res.out.len = in.len;
        res.map.assign(n, none);
        head.assign(n, none);
        tail.assign(n, none);
        // samples by birth
        std::vector<std::uint32_t> rows(n);
        for (std::uint32_t i = 0; i < n; ++i) rows[i] = i;
        std::sort(rows.begin(), rows.end(), [&](std::uint32_t a, std::uint32_t b) { return in.birth[a] < in.birth[b]; });
        for (auto s : in.samples) {
            const std::uint32_t u = *std::lower_bound(rows.begin(), rows.end(), s, [&](std::uint32_t a, std::uint32_t b) { return in.birth[a] < b; });
            add(u, 0, in.len, keep(u));
        }
        for (std::size_t i = 0; i < in.left.size();) {
            const std::uint32_t u = in.parent[i];
            std::size_t j = i;
            for (; j < in.left.size() && in.parent[j] == u; ++j)
                for (std::uint32_t s = head[in.child[j]]; s != none; s = pool[s].next)
                    if (in.left[j] < pool[s].right && pool[s].left < in.right[j])
                        queue.push_back({std::max(pool[s].left, in.left[j]), std::min(pool[s].right, in.right[j]), pool[s].row, none});
            merge(u);
            i = j;
        }
        res.out.position = in.position;
        res.out.ancestral = in.ancestral;
        for (std::size_t m = 0; m < in.site.size(); ++m) {
            const std::uint32_t x = in.position[in.site[m]];
            std::uint32_t s = head[in.node[m]];
            while (s != none && pool[s].right <= x) s = pool[s].next;
            if (s != none && pool[s].left <= x) {
                res.out.site.push_back(in.site[m]);
                res.out.node.push_back(pool[s].row);
                res.out.derived.push_back(in.derived[m]);
            }
        }
        return std::move(res);
    }
};

}  // namespace bench
