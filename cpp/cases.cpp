// Fixed cases: those that the scope paper does by hand or asks to run, tables at their limits, ragged tables, rooms one short.
#include "cases.hpp"

namespace testing {

Record listing() {
    Record r;
    r.length = 10;
    r.samples = {501, 502};
    r.tables.nodes = {{0, 0, 1, 2, 3}, {501, 502, 401, 301, 201}, {7, 0, 65535, 256, 3}};
    r.tables.edges = {{0, 4, 0, 0, 6, 0}, {10, 6, 10, 4, 10, 10}, {2, 2, 3, 3, 3, 4}, {0, 1, 2, 1, 1, 3}};
    r.tables.sites = {{5, 8}, {65, 67}};
    r.tables.mutations = {{0, 1, 1}, {3, 4, 2}, {84, 84, 71}};
    return r;
}

Record line(std::uint32_t nodes) {
    Record r;
    r.length = 7;
    for (std::uint32_t i = 0; i < nodes; ++i) r.tables.nodes.add(i, i + 1, stock_of(i + 1));
    for (std::uint32_t i = 1; i < nodes; ++i) r.tables.edges.add(0, 7, i, i - 1);
    r.samples = {1, nodes};
    return r;
}

Column count_from(std::uint32_t first, std::size_t count) {
    Column c(count);
    for (std::size_t i = 0; i < count; ++i) c[i] = first + static_cast<std::uint32_t>(i);
    return c;
}

Record steps(std::uint32_t edges) {
    Record r;
    r.length = edges;
    r.tables.nodes = {{0, 1}, {1, 2}, {9, 8}};
    for (std::uint32_t i = 0; i < edges; ++i) r.tables.edges.add(i, i + 1, 1, 0);
    r.samples = {1, 2};
    return r;
}

Record marked(std::uint32_t sites, std::uint32_t mutations) {
    Record r = listing();
    r.length = 1024;
    r.tables.edges = {{0}, {1024}, {2}, {0}};
    r.tables.sites.position = count_from(0, sites);
    r.tables.sites.ancestral.assign(sites, 65);
    r.tables.mutations.site.assign(mutations, sites / 2);
    r.tables.mutations.node.assign(mutations, 2);
    r.tables.mutations.derived.assign(mutations, 66);
    return r;
}

namespace {

void wants(Suite &s, const char *what, const Record &r, std::uint32_t number, std::uint32_t row) {
    const reference::Answer a = s.clean(what, r, Rooms::limits());
    s.expect(a.number == number && a.row == row, std::string(what) + " against the paper");
}

// The cleaned tables as the wrapper gives them are these.
void gives(Suite &s, const char *what, const Record &r, const Tables &want) {
    wants(s, what, r, 0, 0);
    const auto got = ffridwelan::clean(r.length, r.tables, r.samples);
    const auto *cleaned = std::get_if<ffridwelan::Cleaned>(&got);
    s.expect(cleaned != nullptr && cleaned->tables == want, std::string(what) + ": tables against the paper");
}

Record sampled(std::uint32_t samples) {
    Record r;
    r.tables.nodes.time.assign(300, 5);
    r.tables.nodes.birth = count_from(7, 300);
    for (std::uint32_t birth : r.tables.nodes.birth) r.tables.nodes.population.push_back(stock_of(birth));
    r.samples = count_from(7, samples);
    return r;
}

// Columns of a record, by table.
template <class Use> void each_column(Tables &t, Use use) {
    use(1, t.nodes.time), use(1, t.nodes.birth), use(1, t.nodes.population);
    use(2, t.edges.left), use(2, t.edges.right), use(2, t.edges.parent), use(2, t.edges.child);
    use(3, t.sites.position), use(3, t.sites.ancestral);
    use(4, t.mutations.site), use(4, t.mutations.node), use(4, t.mutations.derived);
}

} // namespace

void by_hand(Suite &s) {
    gives(s, "P1", listing(), {{{0, 0, 1, 2}, {501, 502, 401, 301}, {7, 0, 65535, 256}}, {{4, 4, 0, 6, 0, 6}, {6, 6, 4, 10, 4, 10}, {2, 2, 3, 3, 3, 3}, {0, 1, 0, 0, 1, 1}},
                               {{5, 8}, {65, 67}}, {{0, 1, 1}, {2, 3, 0}, {84, 84, 71}}});
    Record r = listing();
    r.samples = {501, 401};
    gives(s, "P2", r, {{{0, 1}, {501, 401}, {7, 65535}}, {{0}, {10}, {1}, {0}}, {{5, 8}, {65, 67}}, {{0, 1, 1}, {1, 1, 1}, {84, 84, 71}}});
    r.samples = {};
    gives(s, "P3", r, {{}, {}, {{5, 8}, {65, 67}}, {}});
    r.samples = {501, 501};
    wants(s, "P4", r, 12, 1);
    r.samples = {999};
    wants(s, "P5", r, 11, 0);
    r = listing();
    r.tables.edges.right[5] = 11;
    wants(s, "P6", r, 5, 5);
    r = listing();
    r.tables.nodes.time[4] = 2;
    wants(s, "P7", r, 5, 5);
    r = listing();
    r.length = 0;
    r.tables.nodes.birth[1] = 501;
    wants(s, "P8", r, 3, 0);
    r = listing();
    std::swap(r.tables.mutations.node[1], r.tables.mutations.node[2]);
    std::swap(r.tables.mutations.derived[1], r.tables.mutations.derived[2]);
    wants(s, "P9", r, 10, 2);

    r = listing();
    r.tables.edges = {{0, 4}, {4, 10}, {2, 2}, {0, 0}};
    r.samples = {501, 401};
    r.tables.mutations = {};
    gives(s, "touching edges", r, {{{0, 1}, {501, 401}, {7, 65535}}, {{0}, {10}, {1}, {0}}, {{5, 8}, {65, 67}}, {}});
}

// The premise of the customer's third demand: a fish named later must be listed, or its edge is shorter.
void named_later(Suite &s) {
    Record r = listing();
    const auto first = ffridwelan::clean(r.length, r.tables, r.samples);
    const auto *cleaned = std::get_if<ffridwelan::Cleaned>(&first);
    s.expect(cleaned != nullptr, "cleaned for 501 and 502");
    r.samples = {401, 501};
    gives(s, "from the raw input", r, {{{1, 0}, {401, 501}, {65535, 7}}, {{0}, {10}, {0}, {1}}, {{5, 8}, {65, 67}}, {{0, 1, 1}, {0, 0, 0}, {84, 84, 71}}});
    if (cleaned == nullptr) return;
    r.tables = cleaned->tables;
    gives(s, "from the cleaned", r, {{{1, 0}, {401, 501}, {65535, 7}}, {{4}, {6}, {0}, {1}}, {{5, 8}, {65, 67}}, {{0, 1, 1}, {0, 1, 1}, {84, 84, 71}}});
}

void at_limits(Suite &s) {
    wants(s, "1,024 nodes", line(1024), 0, 0);
    wants(s, "1,025 nodes", line(1025), 2, 1);
    wants(s, "4,096 edges", steps(4096), 0, 0);
    wants(s, "4,097 edges", steps(4097), 2, 2);
    wants(s, "512 sites", marked(512, 9), 0, 0);
    wants(s, "513 sites", marked(513, 9), 2, 3);
    wants(s, "1,024 mutations", marked(9, 1024), 0, 0);
    wants(s, "1,025 mutations", marked(9, 1025), 2, 4);
    wants(s, "256 samples", sampled(256), 0, 0);
    wants(s, "257 samples", sampled(257), 2, 5);
    Record r = listing();
    r.length = FFR_MOST_LENGTH;
    wants(s, "longest chromosome", r, 0, 0);
    r.length = FFR_MOST_LENGTH + 1;
    wants(s, "longer chromosome", r, 3, 0);
    wants(s, "4,096 cleaned edges", toggling(1023, 3), 0, 0);
    wants(s, "4,097 cleaned edges", toggling(1023, 4), 13, 2);
    wants(s, "long hanging", hanging(1024, 3000), 0, 0);
    Random random(5);
    wants(s, "breeding, 64 fish", breeding(random, 64, 15, 100000, 512), 0, 0);
    wants(s, "breeding, 256 fish", breeding(random, 256, 3, 100000, 512), 0, 0);
}

void ragged(Suite &s) {
    for (int which = 0; which < 12; ++which)
        for (int change : {-1, 1}) {
            Record r = listing();
            int i = 0;
            std::uint32_t table = 0;
            each_column(r.tables, [&](std::uint32_t number, auto &column) {
                if (i++ != which) return;
                table = number;
                column.resize(column.size() + static_cast<std::size_t>(change));
            });
            wants(s, "ragged", r, 1, table);
        }
}

// A call in exact room, then with each output column one cell short in turn, and with blocks of 0 to 5 cells.
template <class Call> void in_tight_room(Suite &s, const Rooms &exact, Call call) {
    const std::uint32_t table[] = {1, 1, 1, 2, 2, 2, 2, 3, 3, 4, 4, 4, 6, 7};
    call("exact room", exact);
    for (std::size_t i = 0; i < 14; ++i) {
        Rooms rooms = exact;
        const auto all_rooms = rooms.all();
        std::size_t &room = *all_rooms[i];
        if (room == 0) continue;
        --room;
        const reference::Answer a = call("one short", rooms);
        s.expect(a.number == 13 && a.row == table[i], "one short: table");
    }
    for (std::size_t block = 0; block < 6; ++block) {
        Rooms rooms = exact;
        rooms.block = block;
        call("block", rooms);
    }
}

void one_short(Suite &s, Random &random, int rounds) {
    for (int round = 0; round < rounds; ++round) {
        const Record r = round == 0 ? listing() : random_record(random, 14);
        if (reference::check(r.length, r.tables, r.samples).number != 0) continue;
        in_tight_room(s, Rooms::exact(reference::simplify(r.length, r.tables, r.samples)),
                      [&](const char *what, const Rooms &rooms) { return s.clean(what, r, rooms); });
    }
}

void join_cases(Suite &s, Random &random, int rounds) {
    for (int round = 0; round < rounds; ++round) {
        const Record r = round == 0 ? listing() : random_record(random, 14);
        const Batch b = random_batch(random, r);
        reference::Room all;
        all.nodes = all.edges = all.sites = all.mutations = all.map = all.block = 10000;
        const reference::Result joined = reference::join(r.length, r.tables, b, all);
        if (joined.answer.number != 0) continue;
        in_tight_room(s, Rooms::exact(joined),
                      [&](const char *what, const Rooms &rooms) { return s.join(what, r, b, rooms); });
    }
}

void join_limits(Suite &s) {
    const auto wants_join = [&](const char *what, const Record &r, const Batch &b, std::uint32_t number, std::uint32_t row) {
        const reference::Answer a = s.join(what, r, b, Rooms::limits());
        s.expect(a.number == number && a.row == row, std::string(what) + " against the paper");
    };
    for (std::uint32_t over : {0u, 1u}) {
        Batch nodes, edges, mutations;
        nodes.nodes = {Column(24 + over, 0), count_from(5000, 24 + over), ffridwelan::Populations(24 + over, 4)};
        wants_join("joined nodes", line(1000), nodes, over ? 21 : 0, over ? 1 : 0);
        edges.nodes = {{0}, {5000}, {4}};
        for (std::uint32_t i = 0; i < 96 + over; ++i) edges.edges.add(i, i + 1, 2, 5000);
        wants_join("joined edges", steps(4000), edges, over ? 21 : 0, over ? 2 : 0);
        mutations.nodes = {{0}, {5000}, {4}};
        for (std::uint32_t i = 0; i < 24 + over; ++i) mutations.mutations.add(i % 9, 5000, 67);
        wants_join("joined mutations", marked(9, 1000), mutations, over ? 21 : 0, over ? 4 : 0);
    }
    wants_join("base of 1,025 nodes", line(1025), {}, 2, 1);
    wants_join("base of 4,097 edges", steps(4097), {}, 2, 2);
    wants_join("base of 513 sites", marked(513, 9), {}, 2, 3);
    wants_join("base of 1,025 mutations", marked(9, 1025), {}, 2, 4);
    Random random(7);
    const Record big = breeding(random, 48, 15, 1000, 300);
    for (int round = 0; round < 20; ++round) {
        Record older = big;
        for (std::uint32_t &t : older.tables.nodes.time) t += 6;
        s.join("joined to a large record", older, random_batch(random, older), Rooms::limits());
    }
}

} // namespace testing
