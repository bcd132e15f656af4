// The cost of the proved calls beside C++ that checks nothing, on the same tables in one program.
//   bench compare                     every shape and size: both cleaners give equal tables, both readers of panels equal bytes
//   bench METHOD SHAPE NODES CALLS    so many calls, for a counter of instructions: METHOD is s, clean, check, join, append, or
//                                     alleles (the panel of all sites and all nodes), parents (the same by a C++ loop) or singles
//                                     (the same by single calls), each also with -fish (one fish) or -site (one site) behind it
//   bench time                        tables of microseconds, least of nine (of three for panels)
#include <chrono>
#include <cstdio>
#include <cstdlib>
#include <cstring>
#include <string>

#include "calls.hpp"

using namespace bench;

struct Shape {
    const char *name;
    Tables (*make)(std::size_t);
};

static const Shape shapes[] = {
    {"wright-fisher", wright_fisher}, {"marked", marked}, {"deep", deep}, {"shuffled", shuffled}, {"line", line_under_changes},
    {"plain-line", plain_line}, {"comb", comb}, {"one-parent", one_parent}, {"one-child", one_child}};

// The check alone: a cleaning whose last sample is there twice is refused with 12, after every other rule.
static std::vector<std::uint32_t> repeated(const Tables &t) {
    std::vector<std::uint32_t> s = t.samples;
    if (s.size() == 256) s.pop_back();
    s.push_back(s.back());
    return s;
}

// All that the methods take, made once.
struct Task {
    Tables whole, base;
    Batch batch;
    std::vector<std::uint32_t> twice;
    Room room;
    Panel panel, one_fish, one_site;
    explicit Task(const Tables &t)
        : whole(t), twice(repeated(t)), panel(whole_panel(t)), one_fish(fish_panel(t)), one_site(site_panel(t)) {
        split(t, base, batch);
    }
};

// A method of a panel: its name up to the dash says how, what follows which panel.
static std::uint64_t call_panel(const std::string &method, Task &k) {
    const std::string how = method.substr(0, method.find('-'));
    Panel &p = method == how ? k.panel : method == how + "-fish" ? k.one_fish : k.one_site;
    if (how == "alleles") return alleles(k.whole, p);
    if (how == "singles") return singles(k.whole, p);
    panel_baseline(k.whole, p);
    return p.states.back();
}

static std::uint64_t call(const std::string &method, Task &k) {
    if (method == "s") return AlgorithmS(k.whole).run().out.left.size();
    if (method == "clean") return clean(k.whole, k.whole.samples, k.room);
    if (method == "check") return clean(k.whole, k.twice, k.room);
    if (method == "join") return join(k.base, k.batch, k.room);
    if (method == "append") return join_baseline(k.base, k.batch).left.size();
    for (const char *how : {"alleles", "parents", "singles"})
        for (const char *which : {"", "-fish", "-site"})
            if (method == std::string(how) + which) return call_panel(method, k);
    std::fprintf(stderr, "bench: no method %s\n", method.c_str());
    std::exit(2);
}

static bool equal_cleaned(Task &k) {
    const Result r = AlgorithmS(k.whole).run();
    if (call("clean", k) != 0 || !same(k.room.tables(k.whole.len), r.out)) return false;
    return std::equal(r.map.begin(), r.map.end(), k.room.map.begin());
}

static bool equal_joined(Task &k) {
    return call("join", k) == 0 && same(k.room.tables(k.whole.len), join_baseline(k.base, k.batch));
}

// The proved panels, and single calls for one fish of a small record, give the bytes of the C++ loop; the blocks are marked before each.
static bool equal_panels(Task &k, bool small) {
    struct Pair {
        const char *call, *loop;
        Panel &panel;
    };
    for (const Pair &p : {Pair{"alleles", "parents", k.panel}, Pair{"alleles-fish", "parents-fish", k.one_fish},
                          Pair{"alleles-site", "parents-site", k.one_site}, Pair{"singles-fish", "parents-fish", k.one_fish}}) {
        if (!std::strcmp(p.call, "singles-fish") && !small) continue;
        std::fill(p.panel.states.begin(), p.panel.states.end(), std::uint8_t{0xee});
        std::fill(p.panel.missing.begin(), p.panel.missing.end(), std::uint8_t{0xee});
        if (call(p.call, k) != 0) return false;
        const std::vector<std::uint8_t> states = p.panel.states, missing = p.panel.missing;
        call(p.loop, k);
        if (states != p.panel.states || missing != p.panel.missing) return false;
    }
    return true;
}

static int compare() {
    int differ = 0;
    for (const Shape &s : shapes)
        for (std::size_t n : {256, 512, 1024}) {
            Task k(s.make(n));
            const bool equal = equal_cleaned(k) && equal_joined(k) && call("check", k) >> 32 == 12 && equal_panels(k, n == 256);
            const auto gone = std::count(k.panel.missing.begin(), k.panel.missing.end(), 1);
            std::printf("%-14s %4zu nodes %4zu edges, batch of %4zu edges, panel of %6zu cells, %6ld missing: %s\n", s.name, k.whole.time.size(), k.whole.left.size(), k.batch.left.size(), k.panel.states.size(), static_cast<long>(gone), equal ? "equal" : "DIFFER");
            if (!equal) ++differ;
        }
    return differ;
}

static double micros(const std::string &method, Task &k, int rounds = 9, int calls = 10) {
    double least = 1e12;
    for (int i = 0; i < rounds; ++i) {
        const auto from = std::chrono::steady_clock::now();
        for (int c = 0; c < calls; ++c) call(method, k);
        least = std::min(least, std::chrono::duration<double, std::micro>(std::chrono::steady_clock::now() - from).count() / calls);
    }
    return least;
}

static void times() {
    std::printf("| Shape | Nodes | Edges | Cleaning | of which check | Algorithm S in C++ | Joining | Append and sort in C++ |\n|---|---|---|---|---|---|---|---|\n");
    for (const Shape &s : shapes)
        for (std::size_t n : {256, 512, 1024}) {
            Task k(s.make(n));
            std::printf("| %s | %zu | %zu | %.0f | %.0f | %.0f | %.0f | %.0f |\n", s.name, k.whole.time.size(), k.whole.left.size(), micros("clean", k), micros("check", k), micros("s", k), micros("join", k), micros("append", k));
        }
}

// Single calls are made for one fish only: for the whole panel they would take as long once for every fish.
static void panel_times() {
    std::printf("| Shape | Fish | Sites | Panel | C++ loop | One fish | C++ loop | Single calls | One site | C++ loop |\n|---|---|---|---|---|---|---|---|---|---|\n");
    for (const Shape &s : shapes) {
        Task k(s.make(1024));
        std::printf("| %s | %zu | %zu |", s.name, k.panel.fish.size(), k.panel.sites.size());
        for (const char *method : {"alleles", "parents", "alleles-fish", "parents-fish", "singles-fish", "alleles-site", "parents-site"})
            std::printf(" %.0f |", micros(method, k, 3, 1));
        std::printf("\n");
    }
}

int main(int argc, char **argv) {
    if (argc == 2 && !std::strcmp(argv[1], "compare")) return compare();
    if (argc == 2 && !std::strcmp(argv[1], "time")) {
        times();
        panel_times();
        return 0;
    }
    if (argc != 5) return 2;
    for (const Shape &s : shapes)
        if (!std::strcmp(argv[2], s.name)) {
            Task k(s.make(std::strtoul(argv[3], nullptr, 10)));
            std::uint64_t sum = 0;
            for (long c = std::strtol(argv[4], nullptr, 10); c > 0; --c) sum += call(argv[1], k);
            std::printf("%llu\n", static_cast<unsigned long long>(sum));
            return 0;
        }
    return 2;
}
