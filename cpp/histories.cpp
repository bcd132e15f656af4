#include "histories.hpp"

#include <algorithm>
#include <numeric>
#include <set>
#include <tuple>

namespace testing {

namespace {

const std::uint32_t kTop = 4294967295u;

// A birth number that is not used yet; small ones, 0 and the largest come up too.
std::uint32_t fresh_birth(Random &r, std::set<std::uint32_t> &used) {
    for (;;) {
        const std::uint32_t kind = r.below(20);
        const std::uint32_t b = kind == 0 ? 0 : kind == 1 ? kTop : kind < 14 ? r.below(200) : static_cast<std::uint32_t>(r.draw());
        if (used.insert(b).second) return b;
    }
}

// A population: mostly one of a few stocks, and any other too.
std::uint16_t stock(Random &r) { return static_cast<std::uint16_t>(r.chance(60) ? r.below(4) : r.chance(20) ? 65535 : r.below(65536)); }

std::uint8_t state(Random &r) { return static_cast<std::uint8_t>(r.chance(80) ? "ACGT"[r.below(4)] : r.below(256)); }

// The chromosome cut at random places: 0, the cuts, the length.
Column cuts(Random &r, std::uint32_t length) {
    std::set<std::uint32_t> ends{0, length};
    for (std::uint32_t i = r.below(5); i > 0; --i) ends.insert(r.below(length));
    return Column(ends.begin(), ends.end());
}

// Rows of nodes older than this time, taken from all.
Column older(const ffridwelan::Nodes &n, std::uint32_t time) {
    Column rows;
    for (std::size_t i = 0; i < n.time.size(); ++i)
        if (n.time[i] > time) rows.push_back(static_cast<std::uint32_t>(i));
    return rows;
}

// A parent: any older one, or mostly the least old ones where lines are to be long.
std::uint32_t choose(Random &r, const ffridwelan::Nodes &n, const Column &rows, bool lines) {
    std::uint32_t best = rows[r.below(rows.size())];
    for (int i = 0; lines && i < 4; ++i) {
        const std::uint32_t other = rows[r.below(rows.size())];
        if (n.time[other] < n.time[best]) best = other;
    }
    return best;
}

void random_edges(Random &r, std::uint32_t length, const ffridwelan::Nodes &all, std::size_t first, ffridwelan::Edges &out) {
    const bool lines = r.chance(50);
    const std::uint32_t bare = r.below(40);
    for (std::size_t c = first; c < all.time.size(); ++c) {
        const Column rows = older(all, all.time[c]);
        if (rows.empty()) continue;
        const Column ends = cuts(r, length);
        std::uint32_t parent = choose(r, all, rows, lines);
        for (std::size_t i = 0; i + 1 < ends.size(); ++i) {
            if (r.chance(70)) parent = choose(r, all, rows, lines); // else touching edges of one parent
            if (!r.chance(bare)) out.add(ends[i], ends[i + 1], parent, static_cast<std::uint32_t>(c));
        }
    }
}

// Nodes in the order in which their mutations at one site do not break rule 10: older first.
void older_first(const ffridwelan::Nodes &n, Column &rows) {
    std::stable_sort(rows.begin(), rows.end(), [&](std::uint32_t a, std::uint32_t b) { return n.time[a] > n.time[b]; });
}

std::uint32_t odd_value(Random &r, std::uint32_t old, std::uint32_t length, std::size_t rows) {
    switch (r.below(9)) {
    case 0: return 0;
    case 1: return kTop;
    case 2: return old + 1;
    case 3: return old - 1;
    case 4: return length;
    case 5: return length + 1;
    case 6: return static_cast<std::uint32_t>(rows);
    case 7: return rows == 0 ? 0 : r.below(rows);
    default: return r.below(50);
    }
}

// Exchanges, repeats or takes away a row in each column of a table (columns of equal length).
template <class... C> void shift_rows(Random &r, std::uint32_t kind, C &...columns) {
    const std::size_t n = std::min({columns.size()...});
    if (n == 0) return;
    const std::size_t i = r.below(n), j = r.below(n);
    const auto one = [&](auto &c) {
        if (kind == 0) std::swap(c[i], c[j]);
        if (kind == 1) {
            const auto copy = c[i];
            c.insert(c.begin() + static_cast<std::ptrdiff_t>(i), copy);
        }
        if (kind == 2) c.erase(c.begin() + static_cast<std::ptrdiff_t>(i));
    };
    (one(columns), ...);
}

template <class C> void stretch(Random &r, C &column) {
    if (r.chance(50) && !column.empty())
        column.pop_back();
    else
        column.push_back(static_cast<typename C::value_type>(r.below(200)));
}

// One change in nodes, edges or mutations.
void damage_tables(Random &r, std::uint32_t length, ffridwelan::Nodes &n, ffridwelan::Edges &e, ffridwelan::Mutations &m) {
    const std::vector<Column *> columns{&n.time, &n.birth, &e.left, &e.right, &e.parent, &e.child, &m.site, &m.node};
    const std::uint32_t kind = r.below(12);
    if (kind < 5) {
        Column &c = *columns[r.below(columns.size())];
        if (!c.empty()) {
            std::uint32_t &cell = c[r.below(c.size())];
            cell = odd_value(r, cell, length, n.time.size());
        }
    } else if (kind < 6 && n.birth.size() > 1) {
        n.birth[r.below(n.birth.size())] = n.birth[r.below(n.birth.size())];
    } else if (kind < 7) {
        const std::uint32_t which = r.below(10);
        if (which < 2)
            stretch(r, m.derived);
        else if (which < 3)
            stretch(r, n.population);
        else
            stretch(r, *columns[r.below(columns.size())]);
    } else if (kind < 8) {
        if (r.chance(20) && !n.population.empty())
            n.population[r.below(n.population.size())] = stock(r);
        else
            shift_rows(r, r.below(3), n.time, n.birth, n.population);
    } else if (kind < 10) {
        shift_rows(r, r.below(3), e.left, e.right, e.parent, e.child);
    } else {
        shift_rows(r, r.below(3), m.site, m.node, m.derived);
    }
}

} // namespace

void sort_edges(Tables &t) {
    std::vector<std::size_t> order(t.edges.left.size());
    std::iota(order.begin(), order.end(), std::size_t{0});
    const auto key = [&](std::size_t i) {
        const std::uint32_t p = t.edges.parent[i];
        return std::make_tuple(t.nodes.time[p], t.nodes.birth[p], t.nodes.birth[t.edges.child[i]], t.edges.left[i]);
    };
    std::sort(order.begin(), order.end(), [&](std::size_t i, std::size_t j) { return key(i) < key(j); });
    ffridwelan::Edges sorted;
    for (std::size_t i : order) sorted.add(t.edges.left[i], t.edges.right[i], t.edges.parent[i], t.edges.child[i]);
    t.edges = sorted;
}

Record random_record(Random &r, std::size_t most_nodes) {
    Record out;
    Tables &t = out.tables;
    out.length = r.chance(90) ? 1 + r.below(40) : 1 + r.below(FFR_MOST_LENGTH);
    std::set<std::uint32_t> used;
    const std::uint32_t span = 1 + r.below(8), base = r.chance(95) ? 4 : kTop - span;
    for (std::uint32_t i = r.below(most_nodes + 1); i > 0; --i) t.nodes.add(base + r.below(span), fresh_birth(r, used), stock(r));
    random_edges(r, out.length, t.nodes, 0, t.edges);
    sort_edges(t);
    std::set<std::uint32_t> positions;
    for (std::uint32_t i = r.below(6); i > 0; --i) positions.insert(r.below(out.length));
    for (std::uint32_t x : positions) t.sites.add(x, state(r));
    for (std::uint32_t s = 0; s < t.sites.position.size() && !t.nodes.time.empty(); ++s) {
        Column rows;
        for (std::uint32_t i = r.below(5); i > 0; --i) rows.push_back(r.below(t.nodes.time.size()));
        if (!r.chance(10)) older_first(t.nodes, rows);
        for (std::uint32_t n : rows) t.mutations.add(s, n, state(r));
    }
    Column births = t.nodes.birth;
    r.shuffle(births);
    births.resize(std::min<std::size_t>(births.size(), r.below(8)));
    out.samples = births;
    return out;
}

Batch random_batch(Random &r, const Record &record) {
    ffridwelan::Nodes all = record.tables.nodes;
    const std::size_t first = all.time.size();
    std::set<std::uint32_t> used(all.birth.begin(), all.birth.end());
    for (std::uint32_t i = r.below(7); i > 0; --i) all.add(r.below(6), fresh_birth(r, used), stock(r));
    ffridwelan::Edges edges;
    random_edges(r, record.length, all, first, edges);

    Batch b;
    for (std::size_t i = first; i < all.time.size(); ++i) b.nodes.add(all.time[i], all.birth[i], all.population[i]);
    std::vector<std::size_t> order(edges.left.size());
    std::iota(order.begin(), order.end(), std::size_t{0});
    r.shuffle(order);
    for (std::size_t i : order) b.edges.add(edges.left[i], edges.right[i], all.birth[edges.parent[i]], all.birth[edges.child[i]]);
    Column rows;
    if (first < all.time.size() && !record.tables.sites.position.empty())
        for (std::uint32_t i = r.below(6); i > 0; --i) rows.push_back(static_cast<std::uint32_t>(first + r.below(all.time.size() - first)));
    if (!r.chance(15)) older_first(all, rows);
    for (std::uint32_t n : rows) b.mutations.add(r.below(record.tables.sites.position.size()), all.birth[n], state(r));
    return b;
}

void damage(Random &r, Record &record) {
    Tables &t = record.tables;
    switch (r.below(12)) {
    case 0: record.length = r.chance(30) ? 0 : r.chance(50) ? FFR_MOST_LENGTH + 1 : odd_value(r, record.length, record.length, 0); return;
    case 1:
        if (!t.sites.position.empty()) {
            std::uint32_t &x = t.sites.position[r.below(t.sites.position.size())];
            x = odd_value(r, x, record.length, 0);
        }
        return;
    case 2: shift_rows(r, r.below(3), t.sites.position, t.sites.ancestral); return;
    case 3:
        if (r.chance(40)) {
            if (r.chance(50))
                stretch(r, t.sites.position);
            else
                stretch(r, t.sites.ancestral);
        } else {
            shift_rows(r, r.below(3), t.mutations.site, t.mutations.node, t.mutations.derived);
        }
        return;
    case 4: record.samples.push_back(r.chance(50) || t.nodes.birth.empty() ? r.below(300) : t.nodes.birth[r.below(t.nodes.birth.size())]); return;
    case 5:
        if (!record.samples.empty()) record.samples[r.below(record.samples.size())] = record.samples[r.below(record.samples.size())];
        return;
    default: damage_tables(r, record.length, t.nodes, t.edges, t.mutations);
    }
}

void damage(Random &r, Batch &batch) { damage_tables(r, 20, batch.nodes, batch.edges, batch.mutations); }

Record breeding(Random &r, std::size_t fish, std::size_t generations, std::uint32_t length, std::size_t sites) {
    Record out;
    out.length = length;
    Tables &t = out.tables;
    const auto row = [](std::size_t i) { return static_cast<std::uint32_t>(i); };
    for (std::size_t g = 0; g <= generations; ++g)
        for (std::size_t i = 0; i < fish; ++i) {
            t.nodes.add(row(generations - g), row(1 + g * fish + i), stock_of(row(1 + g * fish + i)));
            if (g == 0) continue;
            const std::uint32_t a = row((g - 1) * fish) + r.below(fish), b = row((g - 1) * fish) + r.below(fish), c = row(g * fish + i);
            const std::uint32_t point = 1 + r.below(length - 1);
            t.edges.add(0, point, a, c);
            t.edges.add(point, length, b, c);
        }
    sort_edges(t);
    std::set<std::uint32_t> positions;
    while (positions.size() < sites) positions.insert(r.below(length));
    for (std::uint32_t x : positions) t.sites.add(x, state(r));
    for (std::uint32_t s = 0; s < sites; ++s) {
        Column rows{r.below(t.nodes.time.size()), r.below(t.nodes.time.size())};
        older_first(t.nodes, rows);
        for (std::uint32_t n : rows) t.mutations.add(s, n, state(r));
    }
    for (std::size_t i = 0; i < std::min<std::size_t>(fish, FFR_MOST_SAMPLES); ++i) out.samples.push_back(row(1 + generations * fish + i));
    return out;
}

Record hanging(std::size_t nodes, std::size_t pieces) {
    Record out;
    out.length = static_cast<std::uint32_t>(2 * pieces);
    Tables &t = out.tables;
    t.nodes.add(0, 1, stock_of(1));
    t.nodes.add(0, 2, stock_of(2));
    for (std::uint32_t i = 2; i < nodes; ++i) t.nodes.add(i, i + 1, stock_of(i + 1));
    for (std::uint32_t i = 0; i < pieces; ++i) t.edges.add(2 * i + i % 2, 2 * i + 1 + i % 2, 2, i % 2);
    for (std::uint32_t i = 3; i < nodes; ++i) t.edges.add(0, out.length, i, i - 1);
    sort_edges(t);
    out.samples = {1, 2};
    return out;
}

Record toggling(std::size_t pieces, std::uint32_t others) {
    Record out;
    out.length = static_cast<std::uint32_t>(2 * pieces);
    Tables &t = out.tables;
    for (std::uint32_t i = 0; i < 3; ++i) t.nodes.add(0, 1 + i, stock_of(1 + i));
    t.nodes.add(1, 4, stock_of(4));
    t.nodes.add(2, 5, stock_of(5));
    for (std::uint32_t i = 0; i < pieces; ++i) t.edges.add(2 * i, 2 * i + 1, 3, 0);
    t.edges.add(0, out.length, 3, 1);
    t.edges.add(0, out.length, 4, 3);
    t.edges.add(0, out.length, 4, 2);
    out.samples = {1, 2, 3};
    for (std::uint32_t i = 0; i < others; ++i) {
        t.nodes.add(0, 10 + i, stock_of(10 + i));
        t.edges.add(0, out.length, 4, 5 + i);
        out.samples.push_back(10 + i);
    }
    sort_edges(t);
    return out;
}

Record pieces_of_one_parent(std::uint32_t children, std::uint32_t pieces, std::uint32_t sites) {
    Record r;
    r.length = 2 * pieces * children + sites;
    r.tables.nodes.add(9, 5000, stock_of(5000));
    for (std::uint32_t c = 1; c <= children; ++c) {
        r.tables.nodes.add(0, c, stock_of(c));
        r.samples.push_back(c);
        for (std::uint32_t i = 0; i < pieces; ++i) r.tables.edges.add(2 * i * children + c % 2, 2 * (i + 1) * children - c, 0, c);
    }
    for (std::uint32_t i = 0; i < sites; ++i) {
        r.tables.sites.add(i, 'A');
        for (std::uint32_t c : {1 + i % children, 1 + (i + 1) % children}) r.tables.mutations.add(i, c, 'C');
    }
    return r;
}

} // namespace testing
