// The three calls of ffridwelan.h made by the second implementation, to be linked in place of the archive: for trying a
// caller where there is no archive, and, with FFR_FAULT from 1 to 32 (9 to 24 in the panel, 25 and above about populations), for
// showing that the tests see a fault.
#include "reference.hpp"

#include <algorithm>

#ifndef FFR_FAULT
#define FFR_FAULT 0
#endif

namespace {

using ffridwelan::Column;
using ffridwelan::Tables;

// A lent output column.
template <class T> struct Out {
    T *cells;
    std::size_t length;

    void lay(const std::vector<T> &result) const {
        std::copy(result.begin(), result.end(), cells);
        if (FFR_FAULT == 1 && result.size() < length) cells[result.size()] = 0; // a cell past the result
    }
};

// The lent columns that both calls have.
struct Outs {
    Out<std::uint32_t> time, birth;
    Out<std::uint16_t> population;
    Out<std::uint32_t> left, right, parent, child, position;
    Out<std::uint8_t> ancestral;
    Out<std::uint32_t> site, node;
    Out<std::uint8_t> derived;
    Out<std::uint32_t> block;

    reference::Room room(std::size_t map) const {
        reference::Room r;
        r.nodes = FFR_FAULT == 25 ? std::min(time.length, birth.length) // populations not counted in the room
                                  : std::min({time.length, birth.length, population.length});
        r.edges = std::min({left.length, right.length, parent.length, child.length});
        r.sites = std::min(position.length, ancestral.length);
        r.mutations = std::min({site.length, node.length, derived.length});
        r.map = map;
        r.block = block.length;
        return r;
    }

    void lay(const Tables &t) const {
        const auto rows = [](std::size_t count) { return static_cast<std::uint32_t>(count); };
        time.lay(t.nodes.time);
        birth.lay(t.nodes.birth);
        std::vector<std::uint16_t> stocks = t.nodes.population;
        if (FFR_FAULT == 25) stocks.resize(std::min(stocks.size(), population.length));
        population.lay(stocks);
        left.lay(t.edges.left);
        right.lay(t.edges.right);
        parent.lay(t.edges.parent);
        child.lay(t.edges.child);
        position.lay(t.sites.position);
        ancestral.lay(t.sites.ancestral);
        site.lay(t.mutations.site);
        node.lay(t.mutations.node);
        derived.lay(t.mutations.derived);
        block.lay({rows(t.nodes.time.size()), rows(t.edges.left.size()), rows(t.sites.position.size()),
                   rows(t.mutations.site.size())});
    }
};

// The planted faults in a result.
void spoil(reference::Result &r, const Tables &input) {
    if (FFR_FAULT == 2 && r.answer.number != 0) ++r.answer.row;
    if (FFR_FAULT == 3 && !r.tables.edges.left.empty()) {
        ffridwelan::Edges &e = r.tables.edges;
        for (Column *c : {&e.left, &e.right, &e.parent, &e.child}) c->pop_back(); // the last edge lost
    }
    if (FFR_FAULT == 4 && !r.map.empty() && r.tables.mutations.node.size() == input.mutations.node.size())
        for (std::size_t i = 0; i < input.mutations.node.size(); ++i)
            r.tables.mutations.node[i] = r.map[input.mutations.node[i]]; // mutations moved by the node map
    std::vector<std::uint16_t> &stocks = r.tables.nodes.population;
    if (FFR_FAULT == 26 && !r.map.empty()) std::copy_n(input.nodes.population.begin(), stocks.size(), stocks.begin()); // of another row
    if (FFR_FAULT == 27)
        for (std::uint16_t &p : stocks) p &= 255; // the low byte alone
}

// The tables as a call reads them that takes populations for more or for less than numbers to copy.
Tables misstocked(Tables t) {
    if (FFR_FAULT == 28) t.nodes.population.resize(t.nodes.time.size()); // a length not looked at
    if (FFR_FAULT != 29 || reference::check_tables(FFR_MOST_LENGTH, t).number != 0) return t;
    ffridwelan::Edges kept;
    for (std::size_t i = 0; i < t.edges.left.size(); ++i)
        if (t.nodes.population[t.edges.parent[i]] == t.nodes.population[t.edges.child[i]])
            kept.add(t.edges.left[i], t.edges.right[i], t.edges.parent[i], t.edges.child[i]);
    t.edges = kept; // no parent in another stock
    return t;
}

std::uint64_t finish(reference::Result &r, const Tables &input, const Outs &outs) {
    spoil(r, input);
    const std::uint64_t number = r.answer.number, row = r.answer.row;
    if (number == 0) outs.lay(r.tables);
    if (FFR_FAULT == 6 && number != 0 && outs.block.length > 0) outs.block.cells[0] = 0; // the block changed by a refusal
    return FFR_FAULT == 5 ? row * 4294967296u + number : number * 4294967296u + row;
}

// The tables as a panel with a fault reads them.
Tables misread(Tables t) {
    if (FFR_FAULT != 13 || t.mutations.node.size() != t.mutations.site.size() || t.mutations.derived.size() != t.mutations.site.size()) return t;
    ffridwelan::Mutations kept;
    for (std::size_t i = 0; i < t.mutations.site.size(); ++i) {
        bool later = false;
        for (std::size_t k = 0; k < kept.site.size(); ++k) later = later || (kept.site[k] == t.mutations.site[i] && kept.node[k] == t.mutations.node[i]);
        if (!later) kept.add(t.mutations.site[i], t.mutations.node[i], t.mutations.derived[i]);
    }
    t.mutations = kept; // the second mutation on a node ignored
    return t;
}

// Whether a chromosome is missing at a site as a panel with a fault has it; the right answer is given.
bool misjudged(const Tables &t, std::uint32_t site, std::uint32_t birth, bool missing) {
    const std::size_t u = static_cast<std::size_t>(std::find(t.nodes.birth.begin(), t.nodes.birth.end(), birth) - t.nodes.birth.begin());
    bool parent = false, child = false, ever = false, own = false, mutated = false;
    for (std::size_t i = 0; i < t.edges.left.size(); ++i) {
        const bool holds = t.edges.left[i] <= t.sites.position[site] && t.sites.position[site] < t.edges.right[i];
        parent = parent || (holds && t.edges.child[i] == u);
        child = child || (holds && t.edges.parent[i] == u);
        ever = ever || t.edges.child[i] == u || t.edges.parent[i] == u;
    }
    for (std::size_t i = 0; i < t.mutations.site.size(); ++i)
        if (t.mutations.node[i] == u) mutated = true, own = own || t.mutations.site[i] == site;
    if (FFR_FAULT == 12) return missing && !mutated; // a mutation at another site counted as its own
    if (FFR_FAULT == 14) return !parent && !own;     // missing by the parent alone
    if (FFR_FAULT == 15) return !parent && !child;   // a mutation of its own not counted
    if (FFR_FAULT == 16) return missing && !ever;    // an edge anywhere counted as one here
    return missing;
}

// The planted faults in a panel's answer, before the blocks are looked at.
reference::Answer misanswered(const Tables &t, reference::Answer a, const Column &sites, const Column &fish) {
    if (FFR_FAULT == 0) return a;
    const bool no_site = std::any_of(sites.begin(), sites.end(), [&](std::uint32_t s) { return s >= t.sites.position.size(); });
    const bool no_fish = std::any_of(fish.begin(), fish.end(), [&](std::uint32_t b) {
        return std::find(t.nodes.birth.begin(), t.nodes.birth.end(), b) == t.nodes.birth.end();
    });
    if (a.number != 0 && a.number != 13 && a.number < 41) return a;
    if (FFR_FAULT == 10 && no_fish && !sites.empty()) return {42, 0};                       // by the list of fish first
    if (FFR_FAULT == 20 && no_site && !fish.empty()) return {41, 0};                        // by the list of sites first
    if (FFR_FAULT == 21 && (no_site || no_fish) && a.number == 0) return {no_site ? 41u : 42u, 0}; // a list looked at that has no cell
    return a;
}

// The planted faults in a panel's cells.
void spoil(reference::Panel &p, const Tables &t, const Column &sites, const Column &fish) {
    const reference::Panel right = p;
    for (std::size_t i = 0; i < fish.size() && FFR_FAULT != 0; ++i)
        for (std::size_t j = 0; j < sites.size(); ++j) {
            const std::size_t cell = i * sites.size() + j, turned = j * fish.size() + i;
            if (FFR_FAULT == 9) p.states[turned] = right.states[cell], p.missing[turned] = right.missing[cell]; // site by site
            if (FFR_FAULT == 22 && right.missing[cell] != 0) p.states[cell] = t.sites.ancestral[sites[j]];      // the made-up allele
            if (FFR_FAULT < 12 || FFR_FAULT > 16 || cell > 10000) continue;
            p.missing[cell] = misjudged(t, sites[j], fish[i], right.missing[cell] != 0) ? 1 : 0;
            if (p.missing[cell] != right.missing[cell]) p.states[cell] = p.missing[cell] != 0 ? 0 : t.sites.ancestral[sites[j]];
        }
    const std::size_t portion = 1024 * sites.size();
    if (FFR_FAULT == 19 && p.states.size() > portion) p.states.resize(portion); // fish past the first portion left out
}

} // namespace

// A column as the calls take it, its cells, and a lent column.
#define IN32(name) const std::uint32_t *name, std::size_t name##_len
#define IN16(name) const std::uint16_t *name, std::size_t name##_len
#define IN8(name) const std::uint8_t *name, std::size_t name##_len
#define OUT32(name) std::uint32_t *name, std::size_t name##_len
#define OUT16(name) std::uint16_t *name, std::size_t name##_len
#define OUT8(name) std::uint8_t *name, std::size_t name##_len
#define CELLS(name) {name, name + name##_len}
#define LENT(name) {name, name##_len}

// Tables 1 to 4 and the lent columns, by the names that both calls give them.
#define BASE_TABLES                                                                                                    \
    {{CELLS(time), CELLS(birth), CELLS(population)},                                                                   \
     {CELLS(left), CELLS(right), CELLS(parent), CELLS(child)},                                                         \
     {CELLS(position), CELLS(ancestral)},                                                                              \
     {CELLS(site), CELLS(node), CELLS(derived)}}
#define LENT_TABLES                                                                                                    \
    {LENT(out_time), LENT(out_birth), LENT(out_population), LENT(out_left), LENT(out_right), LENT(out_parent),         \
     LENT(out_child), LENT(out_position), LENT(out_ancestral), LENT(out_site), LENT(out_node), LENT(out_derived),      \
     LENT(block)}

extern "C" std::uint64_t ffr_clean(
    std::uint32_t length, IN32(time), IN32(birth), IN16(population), IN32(left), IN32(right), IN32(parent), IN32(child),
    IN32(position), IN8(ancestral), IN32(site), IN32(node), IN8(derived), IN32(samples), OUT32(out_time), OUT32(out_birth),
    OUT16(out_population), OUT32(out_left), OUT32(out_right), OUT32(out_parent), OUT32(out_child), OUT32(out_position),
    OUT8(out_ancestral), OUT32(out_site), OUT32(out_node), OUT8(out_derived), OUT32(out_map), OUT32(block)) {
    const Tables input = misstocked(BASE_TABLES);
    const Outs outs LENT_TABLES;
    const Out<std::uint32_t> map LENT(out_map);
    reference::Result r = reference::clean(length, input, CELLS(samples), outs.room(map.length));
    if (FFR_FAULT == 7 && r.answer.number == 13 && map.length > 0) map.cells[0] = 0; // written, and then no room found
    if (r.answer.number == 0) map.lay(r.map);
    return finish(r, input, outs);
}

extern "C" std::uint64_t ffr_join(
    std::uint32_t length, IN32(time), IN32(birth), IN16(population), IN32(left), IN32(right), IN32(parent), IN32(child),
    IN32(position), IN8(ancestral), IN32(site), IN32(node), IN8(derived), IN32(batch_time), IN32(batch_birth),
    IN16(batch_population), IN32(batch_left), IN32(batch_right), IN32(batch_parent), IN32(batch_child), IN32(batch_site),
    IN32(batch_node), IN8(batch_derived), OUT32(out_time), OUT32(out_birth), OUT16(out_population), OUT32(out_left),
    OUT32(out_right), OUT32(out_parent), OUT32(out_child), OUT32(out_position), OUT8(out_ancestral), OUT32(out_site),
    OUT32(out_node), OUT8(out_derived), OUT32(block)) {
    const Tables input BASE_TABLES;
    const Outs outs LENT_TABLES;
    reference::Batch batch{{CELLS(batch_time), CELLS(batch_birth), CELLS(batch_population)},
                           {CELLS(batch_left), CELLS(batch_right), CELLS(batch_parent), CELLS(batch_child)},
                           {CELLS(batch_site), CELLS(batch_node), CELLS(batch_derived)}};
    if (FFR_FAULT == 8) batch.mutations = {}; // the batch's mutations forgotten
    if (FFR_FAULT == 30) std::fill(batch.nodes.population.begin(), batch.nodes.population.end(), std::uint16_t{0}); // its populations forgotten
    if (FFR_FAULT == 31) batch.nodes.population.resize(batch.nodes.time.size());                                    // their length not looked at
    reference::Result r = reference::join(length, input, batch, outs.room(0));
    return finish(r, input, outs);
}

extern "C" std::uint64_t ffr_alleles(
    std::uint32_t length, IN32(time), IN32(birth), IN16(population), IN32(left), IN32(right), IN32(parent), IN32(child),
    IN32(position), IN8(ancestral), IN32(site), IN32(node), IN8(derived), IN32(sites), IN32(fish), OUT8(states),
    OUT8(missing)) {
    Tables input BASE_TABLES;
    if (FFR_FAULT == 32) input.nodes.population.resize(input.nodes.time.size()); // the length of populations not looked at
    const Out<std::uint8_t> first LENT(states), second LENT(missing);
    const Column listed CELLS(sites), births CELLS(fish);
    if (FFR_FAULT == 11 && first.length > 0) first.cells[0] = 0; // a byte written before a refusal
    const std::size_t looked_at = FFR_FAULT == 18 ? first.length : second.length, room = std::min(first.length, looked_at); // 18: one block alone
    reference::Panel p = reference::panel(length, misread(input), listed, births, first.length, looked_at);
    if (FFR_FAULT == 17 && p.answer.number == 13 && static_cast<std::uint32_t>(births.size() * listed.size()) <= room) p.answer = {}; // wraps
    if (FFR_FAULT == 24 && p.answer.number > 40 && room / listed.size() < births.size()) p.answer = {13, 7}; // room before the cells
    p.answer = misanswered(input, p.answer, listed, births);
    if (p.answer.number == 0 && !p.states.empty()) {
        spoil(p, input, listed, births);
        first.lay(p.states);
        p.missing.resize(std::min(p.missing.size(), second.length));
        second.lay(p.missing);
        if (FFR_FAULT == 23 && p.missing.size() < second.length) second.cells[p.missing.size()] = 0; // a cell past the panel
    }
    const std::uint64_t number = p.answer.number;
    return number * 4294967296u + p.answer.row;
}
