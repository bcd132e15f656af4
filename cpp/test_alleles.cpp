// Tests of ffr_alleles: by hand, every refusal, rooms, long lists, and random panels compared with the second implementation.
#include "cases.hpp"

#include <thread>

namespace testing {

namespace {

const std::uint32_t kTop = 4294967295u;

Column all_sites(const Record &r) { return count_from(0, r.tables.sites.position.size()); }

// A panel whose answer is known by hand.
void wants(Suite &s, const char *what, const Record &r, const Column &sites, const Column &fish, std::size_t states, std::size_t missing,
           std::uint32_t number, std::uint32_t row) {
    const reference::Answer a = s.panel(what, r, sites, fish, states, missing);
    s.expect(a.number == number && a.row == row, std::string(what) + " against the papers");
}

// A panel whose blocks are known by hand, from the wrapper; what is missing is written as -1.
void gives(Suite &s, const char *what, const Record &r, const Column &sites, const Column &fish, const std::vector<int> &want) {
    s.panel(what, r, sites, fish);
    const auto got = ffridwelan::alleles(r.length, r.tables, sites, fish);
    const auto *panel = std::get_if<ffridwelan::Panel>(&got);
    bool good = panel != nullptr && panel->fish == fish.size() && panel->sites == sites.size() && panel->states.size() == want.size() &&
                panel->missing.size() == want.size();
    for (std::size_t i = 0; good && i < fish.size(); ++i)
        for (std::size_t j = 0; good && j < sites.size(); ++j) {
            const int due = want[i * sites.size() + j];
            const auto state = panel->state(i, j);
            good = due < 0 ? !state && panel->states[i * sites.size() + j] == 0 : state && *state == due;
        }
    s.expect(good, std::string(what) + ": cells against the papers");
}

// Lines that end and begin again, nodes that nothing ties to others, several mutations on one node at a site.
Record gaps() {
    Record r;
    r.length = 20;
    r.tables.nodes = {{0, 0, 1, 2, 5, 5}, {1, 2, 3, 4, 5, 6}, {1, 1, 2, 0, 65535, 2}};
    r.tables.edges = {{0, 5, 12, 0}, {10, 12, 16, 8}, {2, 2, 3, 3}, {0, 1, 1, 2}};
    r.tables.sites = {{3, 9, 11, 14, 18}, {'a', 'b', 'c', 'd', 'e'}};
    r.tables.mutations = {{0, 0, 0, 0, 1, 3, 4, 4}, {3, 3, 0, 0, 4, 3, 0, 0}, {'T', 'G', 'C', 'A', 'T', 'G', 'T', 'C'}};
    return r;
}

void known(Suite &s) {
    Record r = listing();
    gives(s, "the listing", r, {0, 1}, {501, 502, 401, 301, 201}, {84, 71, 84, 84, 84, 71, 84, 84, 65, 84});
    gives(s, "repeated and turned", r, {1, 0, 1}, {502, 501, 502}, {84, 84, 84, 71, 84, 71, 84, 84, 84});
    r.tables.sites.ancestral[0] = 0;
    r.tables.nodes.add(9, 601, 1);
    gives(s, "the state 0 is not missing", r, {0, 1}, {201, 601}, {0, 84, -1, -1});
    const int M = -1;
    gives(s, "gaps", gaps(), {0, 1, 2, 3, 4}, {1, 2, 3, 4, 5, 6},
          {'A', 'b', M, M, 'C', M, 'b', 'c', 'G', M, 'G', 'b', 'c', M, M, 'G', M, M, 'G', M, M, 'T', M, M, M, M, M, M, M, M});
    const auto unknown = ffridwelan::alleles(r.length, r.tables, {2}, {501});
    const auto *refusal = std::get_if<ffridwelan::Refusal>(&unknown);
    s.expect(refusal != nullptr && refusal->words() == "a listed site is not in the record (41, row 0)", "41 in words");
    const auto nobody = ffridwelan::alleles(r.length, r.tables, {1}, {501, 7});
    refusal = std::get_if<ffridwelan::Refusal>(&nobody);
    s.expect(refusal != nullptr && refusal->words() == "a listed birth number names no node (42, row 0)", "42 in words");
}

// With a list empty there is no single call: nothing is looked at but the tables, and nothing is written.
void empty_lists(Suite &s) {
    const Record r = listing();
    for (std::size_t room : {0, 1, 5}) {
        wants(s, "no list", r, {}, {}, room, room, 0, 0);
        wants(s, "no sites", r, {}, {501, 999}, room, 5 - room, 0, 0);
        wants(s, "no fish", r, {0, 77, kTop}, {}, 5 - room, room, 0, 0);
        wants(s, "an empty record", Record(), {}, {1}, room, room, 0, 0);
        wants(s, "an empty record, a site", Record(), {0}, {}, room, room, 0, 0);
        wants(s, "an empty record, a cell", Record(), {0}, {0}, room, room, 41, 0);
    }
    gives(s, "no cell by the wrapper", r, {}, {999}, {});
}

// A broken record with the number and row due.
struct Broken {
    std::uint32_t number, row;
    Record record;
};

std::vector<Broken> broken_records() {
    std::vector<Broken> all;
    const auto add = [&](std::uint32_t number, std::uint32_t row, auto change) {
        Record r = listing();
        change(r);
        all.push_back({number, row, r});
    };
    add(1, 1, [](Record &r) { r.tables.nodes.birth.pop_back(); });
    add(1, 1, [](Record &r) { r.tables.nodes.population.pop_back(); });
    add(1, 1, [](Record &r) { r.tables.nodes.population.push_back(0); });
    add(1, 1, [](Record &r) { r.tables.nodes.population.clear(); });
    add(1, 2, [](Record &r) { r.tables.edges.child.push_back(0); });
    add(1, 3, [](Record &r) { r.tables.sites.ancestral.pop_back(); });
    add(1, 4, [](Record &r) { r.tables.mutations.derived.push_back(1); });
    add(2, 1, [](Record &r) { r = line(1025); });
    add(2, 2, [](Record &r) { r = steps(4097); });
    add(2, 3, [](Record &r) { r = marked(513, 9); });
    add(2, 4, [](Record &r) { r = marked(9, 1025); });
    add(3, 0, [](Record &r) { r.length = 0; });
    add(3, 0, [](Record &r) { r.length = FFR_MOST_LENGTH + 1; });
    add(4, 4, [](Record &r) { r.tables.nodes.birth[4] = 501; });
    add(5, 5, [](Record &r) { r.tables.edges.right[5] = 11; });
    add(6, 1, [](Record &r) { r.tables.edges.child[0] = 1, r.tables.edges.child[1] = 0; });
    add(7, 3, [](Record &r) { r.tables.edges.right[3] = 5; });
    add(8, 1, [](Record &r) { r.tables.sites.position[1] = 5; });
    add(9, 1, [](Record &r) { r.tables.mutations.site[1] = 2; });
    add(10, 2, [](Record &r) { std::swap(r.tables.mutations.node[1], r.tables.mutations.node[2]); });
    return all;
}

// 1 to 10 go before everything that is wrong in the lists and the blocks.
void tables_first(Suite &s) {
    for (const Broken &b : broken_records()) {
        wants(s, "broken tables", b.record, {0}, {501}, 1, 1, b.number, b.row);
        wants(s, "broken tables, no list", b.record, {}, {}, 3, 3, b.number, b.row);
        wants(s, "broken tables, no site", b.record, {900}, {501}, 1, 1, b.number, b.row);
        wants(s, "broken tables, no fish", b.record, {0}, {999}, 1, 1, b.number, b.row);
        wants(s, "broken tables, no room", b.record, {0, 900}, {999, 501}, 0, 2, b.number, b.row);
    }
}

// 41 and 42 by the first such cell in the order of the block, whatever the room.
void cells_in_order(Suite &s) {
    struct Case {
        Column sites, fish;
        std::uint32_t number;
    };
    const Case cases[] = {
        {{2}, {501}, 41},          {{0}, {999}, 42},          {{2}, {999}, 41},          {{0, 2}, {999}, 42},
        {{2, 0}, {999}, 41},       {{0, 2}, {501, 999}, 41},  {{0, 2}, {999, 501}, 42},  {{2, 0}, {501, 999}, 41},
        {{2, 0}, {999, 501}, 41},  {{0, 1}, {501, 999}, 42},  {{0, 1, 0, 2}, {501}, 41}, {{0, 1, 0, kTop}, {502, 0}, 41},
        {{1, 1}, {502, kTop}, 42}, {{1, 512}, {kTop, 1}, 42}, {{0}, {501, 502, 0}, 42},  {{0, 1, 2}, {501, 502, 999}, 41}};
    for (const Case &c : cases)
        for (std::size_t states : {0, 1, 20})
            for (std::size_t missing : {0, 3, 20}) wants(s, "41 and 42", listing(), c.sites, c.fish, states, missing, c.number, 0);
    Column many(3000, 501), sites(700, 1); // the last of a long list
    many.back() = 999;
    wants(s, "42 at the end of a long list", listing(), sites, many, 9, 9, 42, 0);
    sites.back() = 2;
    wants(s, "41 before it", listing(), sites, many, 9, 9, 41, 0);
    many.front() = 999;
    wants(s, "42 in the first cell", listing(), sites, many, 9, 9, 42, 0);
}

// Blocks that are one cell short, just long enough, or longer, each for itself.
void tight_blocks(Suite &s, const Record &r, const Column &sites, const Column &fish) {
    const std::size_t n = sites.size() * fish.size();
    for (std::size_t states : {n - 1, n, n + 1, n + 9})
        for (std::size_t missing : {n - 1, n, n + 1, n + 9}) {
            const bool fits = states >= n && missing >= n;
            wants(s, "tight blocks", r, sites, fish, states, missing, fits ? 0 : 13, fits ? 0 : 7);
        }
    wants(s, "no first block", r, sites, fish, 0, n, 13, 7);
    wants(s, "no second block", r, sites, fish, n, 0, 13, 7);
    wants(s, "as many cells as fish", r, sites, fish, fish.size() - (sites.size() == 1), n, 13, 7);
    wants(s, "as many cells as sites", r, sites, fish, n, sites.size() - (fish.size() == 1), 13, 7);
}

// Numbers of cells at and past 2 to the 32, where a product of 32 bits would be small or 0. (2 to the 64 needs lists of 32 gigabytes.)
void wide(Suite &s) {
    const Record r = listing();
    struct Size {
        std::size_t sites, fish, wrapped;
    };
    for (const Size z : {Size{65536, 65536, 0}, Size{131072, 32768, 0}, Size{65537, 65536, 65536}, Size{65536, 65537, 65536}, Size{65535, 65537, 70000}}) {
        Column sites(z.sites, 1), fish(z.fish, 502);
        wants(s, "a wide panel", r, sites, fish, z.wrapped, z.wrapped, 13, 7);
        fish.back() = 999;
        wants(s, "a wide panel, the last fish unknown", r, sites, fish, z.wrapped, z.wrapped, 42, 0);
        sites.back() = 2;
        wants(s, "a wide panel, the last site too", r, sites, fish, z.wrapped, z.wrapped, 41, 0);
    }
    tight_blocks(s, r, Column(70000, 1), {502});
    tight_blocks(s, r, {0}, Column(70000, 501));
}

// Lists longer than the tables, in falling order, in turns and shuffled.
void long_lists(Suite &s, Random &random) {
    const Record broad = breeding(random, 64, 15, 100000, 512), pieces = pieces_of_one_parent(256, 15, 300);
    Record deep = line(FFR_MOST_NODES);
    deep.tables.sites = {{0, 2, 3, 6}, {'A', 'C', 'G', 'T'}};
    for (std::uint32_t node : {1023u, 700u, 64u, 63u, 63u, 2u}) deep.tables.mutations.add(2, node, static_cast<std::uint8_t>(node % 251));
    struct Size {
        std::size_t fish, sites;
    };
    for (const Record *r : {&broad, &pieces, static_cast<const Record *>(&deep)})
        for (const Size z : {Size{1, 1500}, Size{1023, 3}, Size{1024, 2}, Size{1025, 1}, Size{2049, 5}, Size{2500, r == &broad ? 600u : 20u}}) {
            const std::uint32_t count = static_cast<std::uint32_t>(r->tables.sites.position.size());
            Column sites, fish;
            for (std::size_t j = 0; j < z.sites; ++j) sites.push_back(count - 1 - static_cast<std::uint32_t>(j % count));
            for (std::size_t i = 0; i < z.fish; ++i) fish.push_back(r->tables.nodes.birth[i % r->tables.nodes.birth.size()]);
            s.panel("long lists, falling sites", *r, sites, fish);
            random.shuffle(sites);
            random.shuffle(fish);
            s.panel("long lists, shuffled", *r, sites, fish, sites.size() * fish.size() + 3, sites.size() * fish.size());
            s.panel("long lists, one cell short", *r, sites, fish, sites.size() * fish.size(), sites.size() * fish.size() - 1);
        }
}

// Tables that are as long as they may be, whole and with one entry unknown.
void full_tables(Suite &s) {
    Record edges = steps(FFR_MOST_EDGES), nodes = line(FFR_MOST_NODES);
    edges.tables.sites = {{0, 2047, 4095}, {'A', 'C', 'G'}};
    edges.tables.mutations = {{1}, {1}, {'T'}};
    gives(s, "4,096 edges", edges, {2, 1, 0}, {1, 2}, {'G', 'T', 'A', 'G', 'T', 'A'});
    nodes.tables.sites = {{6}, {'A'}};
    nodes.tables.mutations = {{0}, {FFR_MOST_NODES - 1}, {'T'}};
    gives(s, "1,024 nodes", nodes, {0}, {1, 1024, 512}, {'T', 'T', 'T'});
    gives(s, "1,024 mutations", marked(9, FFR_MOST_MUTATIONS), {4, 3}, {501, 401, 502}, {66, 65, 66, 65, -1, -1});
    const Record sites = marked(FFR_MOST_SITES, 9);
    gives(s, "512 sites", sites, {511, 256, 0}, {501, 301}, {65, 66, 65, -1, -1, -1});
    wants(s, "site 512 of 512", sites, {511, FFR_MOST_SITES}, {501}, 2, 2, 41, 0);
    wants(s, "birth 1,025 of 1,024", nodes, {0}, {1024, 1025}, 2, 2, 42, 0);
    wants(s, "birth 0 of 1,024", nodes, {0}, {1, 0}, 2, 2, 42, 0);
}

// An entry of a list: mostly one that there is.
std::uint32_t entry(Random &random, const Column &from, std::uint32_t unknown_of_1000) {
    if (from.empty() || random.below(1000) < unknown_of_1000) return random.chance(20) ? kTop : random.below(300);
    return from[random.below(from.size())];
}

void random_panels(Suite &s, Random &random, int rounds) {
    for (int round = 0; round < rounds; ++round) {
        Record r = random_record(random, random.chance(90) ? 14 : 40);
        if (random.chance(35))
            for (std::uint32_t i = 1 + random.below(3); i > 0; --i) damage(random, r);
        const std::uint32_t unknown = random.chance(75) ? 0 : 150;
        const std::size_t longest = random.chance(95) ? 9 : 200;
        Column sites, fish;
        for (std::uint32_t i = random.below(longest); i > 0; --i) sites.push_back(entry(random, all_sites(r), unknown));
        for (std::uint32_t i = random.below(longest); i > 0; --i) fish.push_back(entry(random, r.tables.nodes.birth, unknown));
        std::size_t rooms[2];
        for (std::size_t &room : rooms) {
            room = sites.size() * fish.size();
            if (random.chance(20)) room += random.below(20);
            else if (random.chance(8)) room = random.chance(70) && room > 0 ? room - 1 : random.below(room + 1);
        }
        s.panel("random panel", r, sites, fish, rooms[0], rooms[1]);
    }
}

// Demand 2 by the calls: wherever the cleaned tables give a sample a state, the input gives the same, and what is missing stays missing.
void kept_by_cleaning(Suite &s, Random &random, int rounds) {
    unsigned long states = 0, isolated = 0;
    for (int round = 0; round < rounds; ++round) {
        const Record r = random_record(random, 14);
        const auto cleaned = ffridwelan::clean(r.length, r.tables, r.samples);
        const auto *c = std::get_if<ffridwelan::Cleaned>(&cleaned);
        if (c == nullptr) continue;
        const auto before = ffridwelan::alleles(r.length, r.tables, all_sites(r), r.samples), after = ffridwelan::alleles(r.length, c->tables, all_sites(r), r.samples);
        const auto *was = std::get_if<ffridwelan::Panel>(&before), *is = std::get_if<ffridwelan::Panel>(&after);
        bool good = was != nullptr && is != nullptr;
        for (std::size_t i = 0; good && i < is->states.size(); ++i) {
            if (is->missing[i] == 0) good = was->missing[i] == 0 && was->states[i] == is->states[i], ++states;
            else if (was->missing[i] == 0) good = was->states[i] == r.tables.sites.ancestral[i % is->sites], ++isolated;
        }
        s.expect(good, "alleles kept by cleaning");
    }
    s.expect(rounds < 50 || (states > 0 && isolated > 0), "states kept and fish isolated");
}

// Lists that are columns of the record, and blocks side by side in one array.
void shared_memory(Suite &s) {
    const Record r = gaps();
    const Tables &t = r.tables;
    const Column &sites = t.mutations.site, &fish = t.nodes.birth;
    const std::size_t n = sites.size() * fish.size();
    States both(2 * n + 1, 0xee);
    const std::uint64_t answer = ffr_alleles(
        r.length, t.nodes.time.data(), 6, t.nodes.birth.data(), 6, t.nodes.population.data(), 6, t.edges.left.data(), 4, t.edges.right.data(), 4,
        t.edges.parent.data(), 4, t.edges.child.data(), 4, t.sites.position.data(), 5, t.sites.ancestral.data(), 5, sites.data(), 8, t.mutations.node.data(), 8,
        t.mutations.derived.data(), 8, sites.data(), 8, fish.data(), 6, both.data(), n, both.data() + n, n);
    const reference::Panel due = reference::panel(r.length, t, sites, fish, n, n);
    States want = due.states;
    want.insert(want.end(), due.missing.begin(), due.missing.end());
    want.push_back(0xee);
    s.expect(answer == 0 && both == want, "lists that are columns, blocks side by side");
}

void two_threads(Suite &s) {
    std::vector<Suite> suites(2);
    std::vector<std::thread> running;
    for (std::size_t i = 0; i < suites.size(); ++i)
        running.emplace_back([&suites, i] {
            Random random(90 + i);
            random_panels(suites[i], random, 200);
        });
    for (std::thread &t : running) t.join();
    for (const Suite &one : suites) {
        s.compared += one.compared;
        s.differ += one.differ;
        s.cells += one.cells;
        s.singles += one.singles;
    }
}

} // namespace

void panels(Suite &s, Random &random, int rounds) {
    const unsigned long before = s.compared;
    known(s);
    empty_lists(s);
    tables_first(s);
    cells_in_order(s);
    tight_blocks(s, listing(), {1, 0, 1}, {201, 501});
    tight_blocks(s, gaps(), {4, 0, 3}, {6, 1, 1, 5});
    tight_blocks(s, gaps(), {2}, {2});
    wide(s);
    full_tables(s);
    long_lists(s, random);
    shared_memory(s);
    random_panels(s, random, rounds);
    kept_by_cleaning(s, random, rounds / 10);
    two_threads(s);
    std::printf("panels: %lu compared\n", s.compared - before);
}

} // namespace testing
