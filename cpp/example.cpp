// A small breeding run: records births, joins a batch each generation, cleans every so often and at the end, and reads the
// alleles of the living fish and the stocks of what is kept. It writes the stored form to standard output, for the program
// ffridwelan to list, and tells what it does on standard error, alleles and stocks last; called as `example panel` it writes
// these two to standard output instead.
//
// The fish are diploid. A node of the tables is ONE CHROMOSOME, so that each fish is two nodes with two birth numbers, and
// what a parent gives is a gamete: one chromosome, pieced together from the parent's two.
//
// The first dams are of the home stock, the first sires of a visiting line. A gamete counts to the stock of the chromosome
// that gave it the longer stretch. That is this run's own rule: the calls copy the number and ask nothing of it.
#include "ffridwelan.hpp"

#include <cstdio>
#include <cstdlib>
#include <cstring>
#include <utility>

namespace {

using namespace ffridwelan;

const std::uint32_t kLength = 1000;    // positions of the chromosome
const std::uint32_t kFish = 4;         // fish in each generation: the first half are dams, the others sires
const std::uint32_t kGenerations = 12; // after the founders
const std::uint32_t kEvery = 4;        // generations between cleanings

const std::uint16_t kHome = 1, kVisiting = 2; // the stocks

struct Chromosome {
    std::uint32_t birth;
    std::uint16_t stock;
};

struct Fish {
    Chromosome from_dam, from_sire;
};

// What a call gave, or the end of the run with the refusal in words.
template <class T> T take(std::variant<T, Refusal> answer) {
    if (const Refusal *refusal = std::get_if<Refusal>(&answer)) {
        std::fprintf(stderr, "refused: %s\n", refusal->words().c_str());
        std::exit(1);
    }
    return std::get<T>(std::move(answer));
}

// A small generator, the same on every machine.
std::uint32_t draw(std::uint32_t count) {
    static std::uint64_t word = 20260115;
    word ^= word << 13;
    word ^= word >> 7;
    word ^= word << 17;
    return static_cast<std::uint32_t>((word >> 20) % count);
}

// A birth number that no chromosome has had. None is ever given twice: a join sees only those that are still in the record.
std::uint32_t next_birth() {
    static std::uint32_t last = 0;
    return ++last;
}

// The birth numbers of all these fish, two each.
Column chromosomes(const std::vector<Fish> &fish) {
    Column births;
    for (const Fish &f : fish) {
        births.push_back(f.from_dam.birth);
        births.push_back(f.from_sire.birth);
    }
    return births;
}

// The founders, dams of the home stock and sires of the visiting line, and a marker every 100 positions.
Tables founders(std::vector<Fish> &living) {
    Tables record;
    for (std::uint32_t i = 0; i < kFish; ++i) {
        const std::uint16_t stock = i < kFish / 2 ? kHome : kVisiting;
        const std::uint32_t a = next_birth(), b = next_birth();
        living.push_back(Fish{{a, stock}, {b, stock}});
        record.nodes.add(kGenerations, a, stock);
        record.nodes.add(kGenerations, b, stock);
    }
    for (std::uint32_t x = 50; x < kLength; x += 100) record.sites.add(x, 'A');
    return record;
}

// A new chromosome: one of the parent's two up to a crossing-over, the other from there on; now and then with a mutation.
Chromosome gamete(Batch &batch, std::uint32_t time, const Fish &parent, std::uint32_t sites) {
    const std::uint32_t birth = next_birth(), point = 1 + draw(kLength - 1);
    const bool dam_first = draw(2) == 0;
    const Chromosome &first = dam_first ? parent.from_dam : parent.from_sire;
    const Chromosome &second = dam_first ? parent.from_sire : parent.from_dam;
    const std::uint16_t stock = point >= kLength - point ? first.stock : second.stock; // that of the longer stretch
    batch.nodes.add(time, birth, stock);
    batch.edges.add(0, point, first.birth, birth);
    batch.edges.add(point, kLength, second.birth, birth);
    if (draw(4) == 0) {
        const std::uint32_t site = draw(sites), state = draw(3); // one after the other, so that every compiler draws the same
        batch.mutations.add(site, birth, static_cast<std::uint8_t>("CGT"[state]));
    }
    return Chromosome{birth, stock};
}

// One generation: each new fish has a gamete of a dam and one of a sire.
Batch births(std::uint32_t time, std::uint32_t sites, std::vector<Fish> &living) {
    Batch batch;
    std::vector<Fish> young;
    for (std::uint32_t i = 0; i < kFish; ++i) {
        const Fish &dam = living[draw(kFish / 2)], &sire = living[kFish / 2 + draw(kFish / 2)];
        const Chromosome from_dam = gamete(batch, time, dam, sites), from_sire = gamete(batch, time, sire, sites);
        young.push_back(Fish{from_dam, from_sire});
    }
    living = young;
    return batch;
}

// A marker that was not there before. Sites stand in order of position, so that those above it, and the mutations that
// name them, move up by one row; a batch made afterwards must name the new rows.
void new_site(Tables &record, std::uint32_t x, std::uint8_t ancestral) {
    Sites &s = record.sites;
    std::uint32_t row = 0;
    while (row < s.position.size() && s.position[row] < x) ++row;
    s.position.insert(s.position.begin() + row, x);
    s.ancestral.insert(s.ancestral.begin() + row, ancestral);
    for (std::uint32_t &site : record.mutations.site)
        if (site >= row) ++site;
}

// One chromosome's allele for people: its letter, or - where it is missing, which is not the ancestral state.
char letter(const Panel &panel, std::size_t chromosome, std::size_t site) {
    return static_cast<char>(panel.state(chromosome, site).value_or('-'));
}

// The genotypes of these fish at every site: a line for each fish, with its two birth numbers and, at each site, the allele
// that it has from the dam and the one from the sire.
void print_genotypes(std::FILE *out, const Tables &record, const std::vector<Fish> &fish) {
    Column sites;
    for (std::uint32_t row = 0; row < record.sites.position.size(); ++row) sites.push_back(row);
    const Panel panel = take(alleles(kLength, record, sites, chromosomes(fish))); // two rows of cells for each fish
    std::fprintf(out, "genotypes ");
    for (std::uint32_t x : record.sites.position) std::fprintf(out, " %4u", x);
    std::fprintf(out, "\n");
    for (std::size_t i = 0; i < fish.size(); ++i) {
        std::fprintf(out, "%4u, %4u", fish[i].from_dam.birth, fish[i].from_sire.birth);
        for (std::size_t j = 0; j < sites.size(); ++j) std::fprintf(out, "  %c/%c", letter(panel, 2 * i, j), letter(panel, 2 * i + 1, j));
        std::fprintf(out, "\n");
    }
}

// The birth numbers of the record's chromosomes, living and not, stock by stock.
void print_stocks(std::FILE *out, const Nodes &nodes) {
    for (std::uint16_t stock : {kHome, kVisiting}) {
        std::fprintf(out, "stock %u:", static_cast<unsigned>(stock));
        for (std::size_t i = 0; i < nodes.birth.size(); ++i)
            if (nodes.population[i] == stock) std::fprintf(out, " %u", nodes.birth[i]);
        std::fprintf(out, "\n");
    }
}

} // namespace

int main(int count, char **words) {
    const bool panel_only = count > 1 && std::strcmp(words[1], "panel") == 0;
    std::vector<Fish> living;
    Tables record = founders(living);
    for (std::uint32_t g = 1; g <= kGenerations; ++g) {
        if (g == 6) new_site(record, 500, 'G');
        const std::uint32_t sites = static_cast<std::uint32_t>(record.sites.position.size());
        record = take(join(kLength, record, births(kGenerations - g, sites, living)));
        if (g % kEvery != 0) continue;
        // Later batches and the last list name no older fish, so the living, with both their chromosomes, are all that
        // must be listed.
        const std::size_t before = record.nodes.time.size();
        record = take(clean(kLength, record, chromosomes(living))).tables;
        std::fprintf(stderr, "generation %u: %zu nodes cleaned to %zu, %zu edges\n", g, before, record.nodes.time.size(),
                     record.edges.left.size());
    }
    print_genotypes(panel_only ? stdout : stderr, record, living);
    print_stocks(panel_only ? stdout : stderr, record.nodes);
    if (panel_only) return 0;
    // The stored form has no field for stocks, and writing refuses any but 0. So a run keeps them beside the file, by birth
    // number, which no cleaning changes (here the lines just printed), and stores the tables without them.
    record.nodes.population.assign(record.nodes.population.size(), 0);
    const auto bytes = stored(kLength, record, chromosomes(living));
    if (!bytes) return 1;
    std::fwrite(bytes->data(), 1, bytes->size(), stdout);
    return 0;
}
