// The stack that a call takes, found by a thread on a painted one.
#include "cases.hpp"

#include <cstring>
#include <pthread.h>
#include <sys/mman.h>

namespace testing {

namespace {

const std::size_t kStack = 1 << 20;
const std::size_t kMost = 220 * 1024; // what a call may take

enum Kind { kNone, kClean, kJoin, kAlleles };
const char *const kNames[] = {"nothing", "cleaning", "join", "panel"};

struct Call {
    Kind kind = kNone;
    const char *what = "";
    Record record;
    Batch batch;
    Column sites, fish; // of a panel
    Outputs outputs{Rooms::limits(), 1};
    Blocks blocks{0, 0, 1};
    std::uint64_t answer = 1;

    Call() = default;
    Call(Kind k, const char *w, Record r, Batch b) : kind(k), what(w), record(std::move(r)), batch(std::move(b)) {}

    // A panel of so many fish, the record's nodes in turns, at every site from the last to the first.
    Call(const char *w, Record r, std::size_t listed) : kind(kAlleles), what(w), record(std::move(r)) {
        for (std::size_t i = record.tables.sites.position.size(); i > 0; --i) sites.push_back(static_cast<std::uint32_t>(i - 1));
        for (std::size_t i = 0; i < listed; ++i) fish.push_back(record.tables.nodes.birth[i % record.tables.nodes.birth.size()]);
        blocks = Blocks(sites.size() * fish.size(), sites.size() * fish.size(), 1);
    }
};

void *run_call(void *data) {
    Call &c = *static_cast<Call *>(data);
    if (c.kind == kClean) c.answer = call_clean(c.record.length, c.record.tables, c.record.samples, c.outputs);
    if (c.kind == kJoin) c.answer = call_join(c.record.length, c.record.tables, c.batch, c.outputs);
    if (c.kind == kAlleles) c.answer = call_alleles(c.record.length, c.record.tables, c.sites, c.fish, c.blocks);
    return nullptr;
}

// Runs a call on a stack of so many bytes, below which nothing can be written, and tells how many of them it has touched.
std::size_t stack_used(Call &c, std::size_t bytes_lent) {
    const std::size_t guard = 65536;
    void *whole = mmap(nullptr, guard + bytes_lent, PROT_READ | PROT_WRITE, MAP_PRIVATE | MAP_ANONYMOUS, -1, 0);
    if (whole == MAP_FAILED || mprotect(whole, guard, PROT_NONE) != 0) return 0;
    unsigned char *memory = static_cast<unsigned char *>(whole) + guard;
    std::memset(memory, 0xa5, bytes_lent);
    pthread_attr_t attributes;
    pthread_attr_init(&attributes);
    pthread_attr_setstack(&attributes, memory, bytes_lent);
    pthread_t thread;
    std::size_t used = 0;
    if (pthread_create(&thread, &attributes, run_call, &c) == 0) {
        pthread_join(thread, nullptr);
        std::size_t untouched = 0;
        while (untouched < bytes_lent && memory[untouched] == 0xa5) ++untouched;
        used = bytes_lent - untouched;
    }
    pthread_attr_destroy(&attributes);
    munmap(whole, guard + bytes_lent);
    return used;
}

// A line of nodes with one site and two mutations on its lowest node, all nodes older than 0 by so much.
Record marked_line(std::uint32_t nodes, std::uint32_t older) {
    Record r = line(nodes);
    for (std::uint32_t &t : r.tables.nodes.time) t += older;
    r.tables.sites.add(0, 'A');
    for (char state : {'C', 'G'}) r.tables.mutations.add(0, 0, static_cast<std::uint8_t>(state));
    return r;
}

// A line of nodes and one node beside it that is older than all; the first mutation of the site is on the lowest node, the second on the one
// beside. So the younger one comes first, and rule 10 has to go up the whole line.
Record younger_first(std::uint32_t nodes) {
    Record r = line(nodes - 1);
    r.tables.nodes.add(nodes, nodes, stock_of(nodes));
    r.tables.sites.add(0, 'A');
    r.tables.mutations.add(0, 0, 'C');
    r.tables.mutations.add(0, nodes - 1, 'G');
    return r;
}

// The same line as a batch, whose edges and mutations name birth numbers: rule 26 goes up it.
Batch as_batch(const Record &r) {
    Batch b;
    b.nodes = r.tables.nodes;
    b.edges = r.tables.edges;
    b.mutations = r.tables.mutations;
    for (std::vector<std::uint32_t> *rows : {&b.edges.parent, &b.edges.child, &b.mutations.node})
        for (std::uint32_t &row : *rows) row = r.tables.nodes.birth[row];
    return b;
}

// The deepest and broadest calls that we know how to make.
std::vector<Call> deep_calls() {
    Random random(11);
    Record broad = breeding(random, 48, 15, 100000, 400), hung = hanging(1000, 2000);
    for (Record *r : {&broad, &hung})
        for (std::uint32_t &t : r->tables.nodes.time) t += 6; // a batch can be younger
    hung.tables.sites.add(0, 'A');
    hung.tables.mutations.add(0, 0, 'C');
    Batch lowest; // a lowest node that the batch brings, with its two mutations: rule 26
    lowest.nodes.add(0, 5000, stock_of(5000));
    lowest.edges.add(0, 7, 1, 5000);
    for (char state : {'C', 'G'}) lowest.mutations.add(0, 5000, static_cast<std::uint8_t>(state));
    std::vector<Call> calls;
    for (Kind kind : {kClean, kJoin}) {
        calls.emplace_back(kind, "a broad record", broad, random_batch(random, broad));
        calls.emplace_back(kind, "two samples in turns under a line", hung, random_batch(random, hung));
        calls.emplace_back(kind, "two mutations below a line (10)", marked_line(FFR_MOST_NODES, 0), Batch{});
        calls.emplace_back(kind, "the younger mutation first, below a line (10)", younger_first(FFR_MOST_NODES), Batch{});
        calls.emplace_back(kind, "one parent in many pieces", pieces_of_one_parent(256, 15, 512), Batch{});
    }
    Record above = marked_line(FFR_MOST_NODES - 1, 1);
    above.tables.mutations = {};
    calls.emplace_back(kJoin, "two mutations below a line (26)", above, lowest);
    Record sites_only;
    sites_only.length = 7;
    sites_only.tables.sites.add(0, 'A');
    calls.emplace_back(kJoin, "the younger mutation first, below a line (26)", sites_only, as_batch(younger_first(FFR_MOST_NODES)));
    Record full = line(FFR_MOST_NODES); // the way up is the whole line at each of 512 sites, but for the oldest node's own mutations
    full.length = FFR_MOST_SITES;
    for (std::uint32_t &right : full.tables.edges.right) right = full.length;
    for (std::uint32_t x = 0; x < FFR_MOST_SITES; ++x) {
        full.tables.sites.add(x, 'A');
        for (char state : {'C', 'G'}) full.tables.mutations.add(x, FFR_MOST_NODES - 1, static_cast<std::uint8_t>(state));
    }
    calls.emplace_back("a broad record", broad, 1100);
    calls.emplace_back("two samples in turns under a line", hung, 1100);
    calls.emplace_back("two mutations below a line (10)", marked_line(FFR_MOST_NODES, 0), 1100);
    calls.emplace_back("the younger mutation first, below a line (10)", younger_first(FFR_MOST_NODES), 1100);
    calls.emplace_back("one parent in many pieces", pieces_of_one_parent(256, 15, 512), 1100);
    calls.emplace_back("two mutations above a line at 512 sites", full, 20);
    return calls;
}

} // namespace

void stack(Suite &s) {
    Call none;
    const std::size_t base = stack_used(none, kStack);
    std::size_t most[4] = {0, 0, 0, 0};
    for (Call &call : deep_calls()) {
        const std::size_t used = stack_used(call, kStack) - base;
        std::printf("stack of a %s, %s: %zu bytes\n", kNames[call.kind], call.what, used);
        s.expect(call.answer == 0, "a call on a stack of 1 MB");
        most[call.kind] = std::max(most[call.kind], used);
        call.answer = 1;
        stack_used(call, kMost); // a thread that has no more
        s.expect(call.answer == 0, "a call on a stack of 220 KiB");
    }
    std::printf("most stack: cleaning %zu bytes, join %zu bytes, panel %zu bytes\n", most[kClean], most[kJoin], most[kAlleles]);
    s.expect(std::max({most[kClean], most[kJoin], most[kAlleles]}) <= kMost, "220 KiB of stack are enough");
}

} // namespace testing
