// Tests of populations: they are copied and play no other part, and their column is counted with those of its table.
#include "cases.hpp"

namespace testing {

namespace {

using ffridwelan::Populations;

// The same nodes with populations drawn anew, each another than before.
void restock(Random &random, Populations &stocks) {
    for (std::uint16_t &p : stocks) p = static_cast<std::uint16_t>(p + 1 + random.below(65535));
}

// Tables but for the populations.
Tables bare(Tables t) {
    t.nodes.population.clear();
    return t;
}

// Whether both calls gave tables that differ in populations at most, or both the same refusal.
template <class T> bool alike(const std::variant<T, ffridwelan::Refusal> &a, const std::variant<T, ffridwelan::Refusal> &b) {
    const auto *x = std::get_if<ffridwelan::Refusal>(&a), *y = std::get_if<ffridwelan::Refusal>(&b);
    if (x != nullptr && y != nullptr) return x->number == y->number && x->row == y->row;
    if (x != nullptr || y != nullptr) return false;
    const T &left = std::get<T>(a), &right = std::get<T>(b);
    if constexpr (std::is_same_v<T, Tables>)
        return bare(left) == bare(right);
    else if constexpr (std::is_same_v<T, ffridwelan::Cleaned>)
        return bare(left.tables) == bare(right.tables) && left.map == right.map;
    else
        return left.states == right.states && left.missing == right.missing;
}

// Each kept node has the population that it had.
bool kept(const Populations &before, const ffridwelan::Cleaned &c) {
    std::size_t rows = 0;
    for (std::size_t i = 0; i < before.size(); ++i) {
        if (c.map[i] == FFR_NONE) continue;
        ++rows;
        if (c.tables.nodes.population[c.map[i]] != before[i]) return false;
    }
    return rows == c.tables.nodes.population.size();
}

// The base's populations, then the batch's.
bool appended(const Populations &base, Populations batch, const Tables &joined) {
    batch.insert(batch.begin(), base.begin(), base.end());
    return joined.nodes.population == batch;
}

// Records and batches that differ in populations alone: so do their results, and no answer and no allele differs.
void copied(Suite &s, Random &random, int rounds) {
    unsigned long cleanings = 0, joins = 0;
    for (int round = 0; round < rounds; ++round) {
        const Record r = round == 0 ? listing() : random_record(random, 14);
        const Batch b = random_batch(random, r);
        Record other = r;
        Batch other_batch = b;
        restock(random, other.tables.nodes.population);
        restock(random, other_batch.nodes.population);
        const auto cleaned = ffridwelan::clean(r.length, r.tables, r.samples), cleaned_other = ffridwelan::clean(r.length, other.tables, r.samples);
        s.expect(alike(cleaned, cleaned_other), "cleaned alike but for populations");
        for (const auto &[was, is] : {std::pair(&r, &cleaned), std::pair(&static_cast<const Record &>(other), &cleaned_other)})
            if (const auto *c = std::get_if<ffridwelan::Cleaned>(is)) s.expect(kept(was->tables.nodes.population, *c), "populations cleaned"), ++cleanings;
        const auto joined = ffridwelan::join(r.length, r.tables, b), joined_other = ffridwelan::join(r.length, other.tables, other_batch);
        s.expect(alike(joined, joined_other), "joined alike but for populations");
        if (const auto *t = std::get_if<Tables>(&joined)) s.expect(appended(r.tables.nodes.population, b.nodes.population, *t), "populations joined"), ++joins;
        const Column sites = count_from(0, r.tables.sites.position.size());
        s.expect(alike(ffridwelan::alleles(r.length, r.tables, sites, r.samples), ffridwelan::alleles(r.length, other.tables, sites, r.samples)), "alleles of other stocks");
    }
    s.expect(rounds < 50 || (cleanings > 0 && joins > 0), "populations were copied");
}

// A column of populations that is shorter or longer than its table: 1 in a record and 20 in a batch, row 1, before anything else in it.
void ragged_stocks(Suite &s) {
    const auto is = [&](const char *what, const reference::Answer &a, std::uint32_t number) {
        s.expect(a.number == number && a.row == (number == 0 ? 0u : 1u), std::string(what) + " against the papers");
    };
    Batch births;
    births.nodes = {{0, 0}, {900, 901}, {1, 2}};
    Record base = listing();
    for (std::uint32_t &t : base.tables.nodes.time) ++t;
    for (const std::size_t length : {0, 4, 5, 6, 2000}) {
        Record r = base;
        r.tables.nodes.population.resize(length);
        const std::uint32_t due = length == 5 ? 0 : 1;
        is("ragged populations, cleaned", s.clean("ragged populations", r, Rooms::limits()), due);
        is("ragged populations, joined", s.join("ragged populations", r, births, Rooms::limits()), due);
        is("ragged populations, read", s.panel("ragged populations", r, {0, 1}, {501, 502}), due);
    }
    for (const std::size_t length : {0, 1, 2, 3, 2000}) {
        Batch b = births;
        b.nodes.population.resize(length);
        is("ragged batch populations", s.join("ragged batch populations", base, b, Rooms::limits()), length == 2 ? 0 : 20);
        if (length == 2) continue;
        b.nodes.birth = {501, 501}; // 22 comes later
        is("ragged batch populations, 22 too", s.join("ragged batch populations", base, b, Rooms::limits()), 20);
        Record r = base;
        r.tables.nodes.population.pop_back(); // the base is checked first
        is("both ragged", s.join("both ragged", r, b, Rooms::limits()), 1);
    }
}

// The room of table 1 counts the populations: just enough, one short, none.
void stock_rooms(Suite &s) {
    const Record r = listing(); // four cleaned nodes
    Batch births;
    births.nodes = {{0, 0}, {900, 901}, {1, 2}}; // seven joined nodes
    for (const std::size_t room : {0, 3, 4, 6, 7, 8}) {
        Rooms rooms = Rooms::limits();
        rooms.population = room;
        const reference::Answer cleaned = s.clean("room of populations", r, rooms), joined = s.join("room of populations", r, births, rooms);
        s.expect(cleaned.number == (room < 4 ? 13 : 0) && cleaned.row == (room < 4 ? 1 : 0), "room of cleaned populations against the papers");
        s.expect(joined.number == (room < 7 ? 13 : 0) && joined.row == (room < 7 ? 1 : 0), "room of joined populations against the papers");
    }
}

} // namespace

void stocks(Suite &s, Random &random, int rounds) {
    copied(s, random, rounds);
    ragged_stocks(s);
    stock_rooms(s);
}

} // namespace testing
