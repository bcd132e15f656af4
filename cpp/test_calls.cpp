// Tests of the calls from C: thousands of random histories and damaged tables, compared cell by cell with the second
// implementation. Usage: test_calls [ROUNDS]. Prints how often each answer was met and `N compared, 0 differ`; with few
// rounds an answer may be missed, with kEnough it may not.
#include "cases.hpp"

#include <cstdlib>
#include <thread>

namespace testing {

namespace {

void random_cleanings(Suite &s, Random &random, int rounds) {
    for (int round = 0; round < rounds; ++round) {
        Record r = random_record(random, random.chance(90) ? 14 : 40);
        if (random.chance(60))
            for (std::uint32_t i = 1 + random.below(3); i > 0; --i) damage(random, r);
        Rooms exact = Rooms::limits();
        if (reference::check(r.length, r.tables, r.samples).number == 0)
            exact = Rooms::exact(reference::simplify(r.length, r.tables, r.samples));
        s.clean("random cleaning", r, random_rooms(random, exact));
    }
}

void random_joins(Suite &s, Random &random, int rounds) {
    for (int round = 0; round < rounds; ++round) {
        Record r = random_record(random, random.chance(90) ? 14 : 40);
        Batch b = random_batch(random, r);
        if (random.chance(25)) damage(random, r);
        if (random.chance(50))
            for (std::uint32_t i = 1 + random.below(3); i > 0; --i) damage(random, b);
        const Tables &t = r.tables;
        const Rooms exact = Rooms::even(t.nodes.time.size() + b.nodes.time.size(), t.edges.left.size() + b.edges.left.size(),
                                        t.sites.position.size(), t.mutations.site.size() + b.mutations.site.size(), 3);
        s.join("random join", r, b, random_rooms(random, exact));
    }
}

// One generation: each new fish has two parents among these and one crossing-over, and now and then a mutation.
Batch generation(Random &random, const Record &r, const Column &parents, std::uint32_t time, std::uint32_t first) {
    Batch b;
    for (std::uint32_t birth = first; birth < first + 5; ++birth) {
        b.nodes.add(time, birth, static_cast<std::uint16_t>(random.below(3)));
        const std::uint32_t point = 1 + random.below(r.length - 1);
        b.edges.add(0, point, parents[random.below(parents.size())], birth);
        b.edges.add(point, r.length, parents[random.below(parents.size())], birth);
        if (random.chance(50)) b.mutations.add(random.below(r.tables.sites.position.size()), birth, static_cast<std::uint8_t>(random.below(4)));
    }
    return b;
}

// The customer's third demand, by the wrapper: clean after any batches, or only at the end, and the last tables are equal.
void runs(Suite &s, Random &random, int rounds) {
    for (int round = 0; round < rounds; ++round) {
        Record often, once;
        const std::uint32_t generations = 2 + random.below(8);
        often.length = 2 + random.below(30);
        for (std::uint32_t i = 0; i < 5; ++i) often.tables.nodes.add(generations, i, static_cast<std::uint16_t>(i % 2));
        for (std::uint32_t x = 0; x < often.length; x += 3) often.tables.sites.add(x, 9);
        once = often;
        Column before = often.tables.nodes.birth, living = before; // a fish breeds in two generations
        bool good = true;
        for (std::uint32_t g = 1; g <= generations && good; ++g) {
            Column parents = living;
            parents.insert(parents.end(), before.begin(), before.end());
            const Batch b = generation(random, once, g == 1 ? living : parents, generations - g, 100 * g);
            auto joined = ffridwelan::join(often.length, often.tables, b), all = ffridwelan::join(once.length, once.tables, b);
            good = std::holds_alternative<Tables>(joined) && std::holds_alternative<Tables>(all);
            if (!good) break;
            often.tables = std::get<Tables>(joined);
            once.tables = std::get<Tables>(all);
            before = living;
            living = b.nodes.birth;
            Column named = living;
            if (g > 1 || before != living) named.insert(named.end(), before.begin(), before.end());
            if (!random.chance(50)) continue;
            random.shuffle(named);
            auto cleaned = ffridwelan::clean(often.length, often.tables, named);
            good = std::holds_alternative<ffridwelan::Cleaned>(cleaned);
            if (good) often.tables = std::get<ffridwelan::Cleaned>(cleaned).tables;
        }
        random.shuffle(living);
        auto last = ffridwelan::clean(often.length, often.tables, living), whole = ffridwelan::clean(once.length, once.tables, living);
        good = good && std::holds_alternative<ffridwelan::Cleaned>(last) && std::holds_alternative<ffridwelan::Cleaned>(whole) &&
               std::get<ffridwelan::Cleaned>(last).tables == std::get<ffridwelan::Cleaned>(whole).tables;
        s.expect(good, "run " + std::to_string(round) + ": cleaned often and once");
    }
}

// Empty tables, and a refusal in words, by the wrapper.
void wrapper(Suite &s) {
    const auto empty = ffridwelan::clean(1, {}, {});
    s.expect(std::holds_alternative<ffridwelan::Cleaned>(empty) && std::get<ffridwelan::Cleaned>(empty).map.empty(), "empty record");
    const auto unknown = ffridwelan::clean(1, {}, {5});
    const auto *refusal = std::get_if<ffridwelan::Refusal>(&unknown);
    s.expect(refusal != nullptr && refusal->words() == "a sample names no node (11, row 0)", "refusal in words");
    Record r = listing();
    s.expect(!ffridwelan::stored(r.length, r.tables, r.samples).has_value(), "a population is not stored");
    r.tables.nodes.population = {0, 0, 0, 0, 1};
    s.expect(!ffridwelan::stored(r.length, r.tables, r.samples).has_value(), "nor that of the last node");
    r.tables.nodes.population = {0, 0, 0, 0, 0};
    const auto bytes = ffridwelan::stored(r.length, r.tables, r.samples);
    s.expect(bytes.has_value() && bytes->size() == 6 + 2 * 6 + 5 * 10 + 6 * 14 + 2 * 7 + 3 * 7 + 2, "stored form");
}

// Input columns may be one another, or parts of one another: one array serves for times, birth numbers, positions and rows.
void shared_inputs(Suite &s) {
    Record r;
    const Column numbers{0, 1, 2, 3};
    const Column front{0, 1, 2}, back{1, 2, 3};
    r.length = 9;
    r.tables.nodes = {front, back, {5, 6, 5}};
    r.tables.edges = {{0, 0}, {9, 9}, {1, 2}, {0, 1}};
    r.tables.sites = {back, {7, 8, 9}};
    r.tables.mutations = {front, front, {8, 9, 7}};
    r.samples = back;
    const Outputs before(Rooms::limits(), 3);
    Outputs o = before;
    const std::uint32_t *n = numbers.data();
    const std::uint16_t stocks[] = {5, 6, 5};
    const std::uint8_t states[] = {7, 8, 9, 7};
    const std::uint32_t zeros_and_nines[] = {0, 0, 9, 9};
    const std::uint64_t answer = ffr_clean(
        9, n, 3, n + 1, 3, stocks, 3, zeros_and_nines, 2, zeros_and_nines + 2, 2, n + 1, 2, n, 2, n + 1, 3, states, 3, n, 3,
        n, 3, states + 1, 3, n + 1, 3, o.time.cells.data(), o.time.room, o.birth.cells.data(), o.birth.room,
        o.population.cells.data(), o.population.room, o.left.cells.data(), o.left.room, o.right.cells.data(), o.right.room,
        o.parent.cells.data(), o.parent.room, o.child.cells.data(), o.child.room, o.position.cells.data(), o.position.room,
        o.ancestral.cells.data(), o.ancestral.room, o.site.cells.data(), o.site.room, o.node.cells.data(), o.node.room,
        o.derived.cells.data(), o.derived.room, o.map.cells.data(), o.map.room, o.block.cells.data(), o.block.room);
    const reference::Result due = reference::clean(r.length, r.tables, r.samples, Rooms::limits().shortest());
    s.expect(due.answer.number == 0, "shared inputs are sound");
    s.judge("shared inputs", answer, due, o, before);
}

// The sanitizers keep stacks of their own.
#ifdef FFR_SANITIZED
const bool kSanitized = true;
#else
const bool kSanitized = false;
#endif

// Several threads call at the same time.
void threads(Suite &s) {
    const int count = 4;
    std::vector<Suite> suites(count);
    std::vector<std::thread> running;
    for (int i = 0; i < count; ++i)
        running.emplace_back([&suites, i] {
            Random random(50 + static_cast<std::uint64_t>(i));
            random_cleanings(suites[static_cast<std::size_t>(i)], random, 200);
        });
    for (std::thread &t : running) t.join();
    for (const Suite &one : suites) {
        s.compared += one.compared;
        s.differ += one.differ;
        s.cells += one.cells;
    }
}

// Results too long for what a cleaning keeps from its first sweep, in rooms that just take them and in ones that do not.
void swept_again(Suite &s) {
    struct Size {
        std::uint32_t children, pieces, sites;
    };
    for (const Size z : {Size{256, 15, 0}, Size{256, 8, 1}, Size{256, 9, 1}, Size{2, 1, 512}, Size{3, 2, 256}, Size{3, 2, 257}, Size{256, 15, 512}}) {
        const Record r = pieces_of_one_parent(z.children, z.pieces, z.sites);
        const reference::Result due = reference::simplify(r.length, r.tables, r.samples);
        s.expect(due.tables.edges.left.size() == std::size_t{z.children} * z.pieces && due.tables.mutations.site.size() == 2 * std::size_t{z.sites}, "pieces of one parent are kept");
        const Rooms exact = Rooms::exact(due);
        s.clean("swept again", r, Rooms::limits());
        s.clean("swept again, just room", r, exact);
        Random random(77);
        for (int round = 0; round < 20; ++round) s.clean("swept again, some room", r, random_rooms(random, exact));
    }
}

enum class Answers { clean, join, panel };

Met answers(Answers call) {
    Met m;
    for (std::uint32_t n : {0u, 3u, 4u, 5u, 6u, 7u, 8u, 9u, 10u}) m[{n, 0}];
    for (std::uint32_t t : {1u, 2u, 3u, 4u}) m[{1, t}], m[{2, t}];
    m[{13, 7}];
    if (call == Answers::panel) {
        m[{41, 0}], m[{42, 0}];
        return m;
    }
    for (std::uint32_t t : {1u, 2u, 3u, 4u}) m[{13, t}];
    if (call == Answers::join) {
        for (std::uint32_t n : {22u, 23u, 24u, 25u, 26u}) m[{n, 0}];
        for (std::uint32_t t : {1u, 2u, 4u}) m[{20, t}], m[{21, t}];
    } else {
        m[{11, 0}], m[{12, 0}], m[{2, 5}], m[{13, 6}];
    }
    return m;
}

} // namespace

} // namespace testing

int main(int count, char **words) {
    using namespace testing;
    const int kEnough = 3000;
    const int rounds = count > 1 ? std::atoi(words[1]) : 10000;
    Suite s;
    Random random(2026);
    by_hand(s);
    named_later(s);
    at_limits(s);
    swept_again(s);
    ragged(s);
    wrapper(s);
    shared_inputs(s);
    one_short(s, random, rounds / 50);
    random_cleanings(s, random, rounds);
    threads(s);
    join_cases(s, random, rounds / 50);
    join_limits(s);
    random_joins(s, random, rounds);
    runs(s, random, rounds / 50);
    stocks(s, random, rounds / 10);
    panels(s, random, rounds);
    if (!kSanitized && rounds >= kEnough) stack(s); // not for the short run under valgrind
    s.report("clean", s.cleanings, answers(Answers::clean));
    s.report("join", s.joins, answers(Answers::join));
    s.report("alleles", s.panels, answers(Answers::panel));
    std::printf("%lu cells of panels held to the single call\n%lu cells\n%lu compared, %lu differ\n", s.singles, s.cells, s.compared, s.differ);
    return s.differ == 0 && (s.missed == 0 || rounds < kEnough) ? 0 : 1;
}
