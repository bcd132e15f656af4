// Ancestry tables as vectors, and the shapes of history that the benchmark runs on.
#pragma once
#include <algorithm>
#include <cstdint>
#include <tuple>
#include <vector>

namespace bench {

struct Tables {
    std::uint32_t len = 1;
    std::vector<std::uint32_t> time, birth;
    std::vector<std::uint16_t> population;
    std::vector<std::uint32_t> left, right, parent, child;
    std::vector<std::uint32_t> position;
    std::vector<std::uint8_t> ancestral;
    std::vector<std::uint32_t> site, node;
    std::vector<std::uint8_t> derived;
    std::vector<std::uint32_t> samples;

    std::uint32_t add_node(std::uint32_t t, std::uint32_t b, std::uint16_t p) {
        time.push_back(t);
        birth.push_back(b);
        population.push_back(p);
        return static_cast<std::uint32_t>(time.size() - 1);
    }
    // A node of a made-up history: its population goes by its birth number, so that a wrong row shows.
    std::uint32_t add_node(std::uint32_t t, std::uint32_t b) { return add_node(t, b, static_cast<std::uint16_t>(b * 40503u)); }
    void add_edge(std::uint32_t l, std::uint32_t r, std::uint32_t p, std::uint32_t c) {
        left.push_back(l);
        right.push_back(r);
        parent.push_back(p);
        child.push_back(c);
    }
    // Where piece k of so many equal pieces of the chromosome begins.
    std::uint32_t cut(std::uint64_t k, std::uint64_t pieces) const {
        return static_cast<std::uint32_t>(len * k / pieces);
    }
    // An edge over piece k.
    void add_piece(std::uint32_t k, std::uint32_t pieces, std::uint32_t p, std::uint32_t c) {
        add_edge(cut(k, pieces), cut(k + 1ull, pieces), p, c);
    }
    // The edges in key order: parent time, parent birth, child birth, left.
    void order() {
        std::vector<std::uint32_t> rows(left.size());
        for (std::uint32_t i = 0; i < rows.size(); ++i) rows[i] = i;
        auto key = [&](std::uint32_t e) { return std::make_tuple(time[parent[e]], birth[parent[e]], birth[child[e]], left[e]); };
        std::sort(rows.begin(), rows.end(), [&](std::uint32_t a, std::uint32_t b) { return key(a) < key(b); });
        Tables t;
        for (auto e : rows) t.add_edge(left[e], right[e], parent[e], child[e]);
        left = t.left;
        right = t.right;
        parent = t.parent;
        child = t.child;
    }
};

// A small generator with a fixed seed, so that every run has the same histories.
struct Draw {
    std::uint64_t state = 88172645463325252ull;
    std::uint32_t operator()(std::uint32_t below) {
        state ^= state << 13;
        state ^= state >> 7;
        state ^= state << 17;
        return static_cast<std::uint32_t>((state >> 32) % below);
    }
};

// So many sites spread over the chromosome, each with so many mutations on rows drawn among all, older rows first.
inline void mutate(Tables &t, std::size_t sites, Draw &draw, std::size_t each = 1) {
    for (std::size_t i = 0; i < sites; ++i) {
        t.position.push_back(t.cut(i, sites));
        t.ancestral.push_back(65);
        std::vector<std::uint32_t> rows;
        for (std::size_t k = 0; k < each; ++k) rows.push_back(draw(static_cast<std::uint32_t>(t.time.size())));
        std::stable_sort(rows.begin(), rows.end(), [&](std::uint32_t a, std::uint32_t b) { return t.time[a] > t.time[b]; });
        for (auto row : rows) {
            t.site.push_back(static_cast<std::uint32_t>(i));
            t.node.push_back(row);
            t.derived.push_back(84);
        }
    }
}

// Wright-Fisher: so many strands in each of so many generations, one crossing-over for each birth; the youngest are sampled.
inline Tables generations_of(std::uint32_t size, std::size_t nodes, std::size_t sites, std::size_t each) {
    const std::uint32_t generations = static_cast<std::uint32_t>(nodes / size);
    Tables t;
    Draw draw;
    t.len = 1000000;
    std::uint32_t birth = 1;
    for (std::uint32_t g = 0; g < generations; ++g)
        for (std::uint32_t i = 0; i < size; ++i) t.add_node(generations - g, birth++);
    for (std::uint32_t g = 1; g < generations; ++g)
        for (std::uint32_t i = 0; i < size; ++i) {
            const std::uint32_t fish = draw(size / 2) * 2, cut = 1 + draw(t.len - 1), first = draw(2);
            t.add_edge(0, cut, (g - 1) * size + fish + first, g * size + i);
            t.add_edge(cut, t.len, (g - 1) * size + fish + 1 - first, g * size + i);
        }
    for (std::uint32_t i = 0; i < size; ++i) t.samples.push_back(t.birth[(generations - 1) * size + i]);
    t.order();
    mutate(t, sites, draw, each);
    return t;
}

inline Tables wright_fisher(std::size_t nodes) { return generations_of(64, nodes, nodes / 2, 1); }

// The same with eight mutations at each of fewer sites: rule 10 has ways to go.
inline Tables marked(std::size_t nodes) { return generations_of(64, nodes, nodes / 8, 8); }

// A deep history: 8 strands, and eight times as many generations.
inline Tables deep(std::size_t nodes) { return generations_of(8, nodes, nodes / 2, 1); }

// The same as Wright-Fisher with the node rows in any order.
inline Tables shuffled(std::size_t nodes) {
    Tables t = wright_fisher(nodes);
    Draw draw;
    std::vector<std::uint32_t> to(t.time.size());
    for (std::uint32_t i = 0; i < to.size(); ++i) to[i] = i;
    for (std::uint32_t i = static_cast<std::uint32_t>(to.size()) - 1; i > 0; --i) std::swap(to[i], to[draw(i + 1)]);
    Tables u = t;
    for (std::uint32_t i = 0; i < to.size(); ++i) {
        u.time[to[i]] = t.time[i];
        u.birth[to[i]] = t.birth[i];
        u.population[to[i]] = t.population[i];
    }
    for (auto &p : u.parent) p = to[p];
    for (auto &c : u.child) c = to[c];
    for (auto &n : u.node) n = to[n];
    return u;
}

// One long line under one sample, all of it from end to end: its edges begin together, the youngest first in the table.
inline Tables plain_line(std::size_t nodes) {
    Tables t;
    Draw draw;
    t.len = 1 << 20;
    for (std::uint32_t i = 0; i < nodes; ++i) t.add_node(i, 1 + i);
    for (std::uint32_t i = 0; i + 1 < nodes; ++i) t.add_edge(0, t.len, i + 1, i);
    t.samples = {1};
    t.order();
    mutate(t, nodes / 2, draw);
    return t;
}

// Two samples that hang in turns under a line of unary nodes: each change moves the whole line.
inline Tables line_under_changes(std::size_t nodes) {
    Tables t;
    Draw draw;
    t.len = 1 << 20;
    const std::uint32_t a = t.add_node(0, 1), b = t.add_node(0, 2);
    const std::uint32_t line = static_cast<std::uint32_t>(nodes - 2);
    std::vector<std::uint32_t> row;
    for (std::uint32_t i = 0; i < line; ++i) row.push_back(t.add_node(1 + i, 3 + i));
    for (std::uint32_t i = 0; i + 1 < line; ++i) t.add_edge(0, t.len, row[i + 1], row[i]);
    const std::uint32_t pieces = static_cast<std::uint32_t>(3 * nodes);
    for (std::uint32_t k = 0; k < pieces; ++k) {
        t.add_piece(k, pieces, row[0], k % 2 ? a : b);
    }
    t.samples = {1, 2};
    t.order();
    mutate(t, nodes / 2, draw);
    return t;
}

// A comb: samples that leave a line of standing nodes one by one, and change places along it.
inline Tables comb(std::size_t nodes) {
    Tables t;
    Draw draw;
    t.len = 1 << 20;
    const std::uint32_t teeth = static_cast<std::uint32_t>(nodes / 4);
    const std::uint32_t line = static_cast<std::uint32_t>(nodes - teeth);
    std::vector<std::uint32_t> tooth, row;
    for (std::uint32_t i = 0; i < teeth; ++i) tooth.push_back(t.add_node(0, 1 + i));
    for (std::uint32_t i = 0; i < line; ++i) row.push_back(t.add_node(1 + i, 1 + teeth + i));
    for (std::uint32_t i = 0; i + 1 < line; ++i) t.add_edge(0, t.len, row[i + 1], row[i]);
    const std::uint32_t pieces = 8;  // more, and the result passes the limit of edges
    for (std::uint32_t i = 0; i < teeth; ++i)
        for (std::uint32_t k = 0; k < pieces; ++k) {
            t.add_piece(k, pieces, row[(i * (line / teeth) + k * 7) % line], tooth[i]);
        }
    for (std::uint32_t i = 0; i < teeth; ++i) t.samples.push_back(t.birth[tooth[i]]);
    t.order();
    mutate(t, nodes / 2, draw);
    return t;
}

// All edges of one parent: children that hold on to it over every other piece, the last 256 of them sampled.
inline Tables one_parent(std::size_t nodes) {
    Tables t;
    Draw draw;
    t.len = 1 << 20;
    const std::uint32_t top = t.add_node(5, 1);
    for (std::uint32_t i = 1; i < nodes; ++i) {
        const std::uint32_t c = t.add_node(0, 1 + i);
        for (std::uint32_t k = 0; k < 4; ++k) t.add_edge(2 * k * 1000 + i, (2 * k + 1) * 1000 + i, top, c);
        if (i + nodes / 4 >= nodes) t.samples.push_back(1 + i);
    }
    t.order();
    mutate(t, nodes / 2, draw);
    return t;
}

// All edges of one child, which changes its parent at every piece; a second sample hangs beside it.
inline Tables one_child(std::size_t nodes) {
    Tables t;
    Draw draw;
    t.len = 1 << 20;
    const std::uint32_t a = t.add_node(0, 1), b = t.add_node(0, 2);
    for (std::uint32_t i = 2; i < nodes; ++i) t.add_node(i, 1 + i);
    const std::uint32_t pieces = static_cast<std::uint32_t>(4 * nodes - 1);
    for (std::uint32_t k = 0; k < pieces; ++k) {
        t.add_piece(k, pieces, 2 + (k * 5) % static_cast<std::uint32_t>(nodes - 2), a);
    }
    t.add_edge(0, t.len, 2, b);
    t.samples = {1, 2};
    t.order();
    mutate(t, nodes / 2, draw);
    return t;
}

}  // namespace bench
