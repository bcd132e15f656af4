// Calls compared with the second implementation: answer, every output cell, and that the inputs are as they were.
#ifndef SUITE_HPP
#define SUITE_HPP

#include "histories.hpp"
#include "lent.hpp"

#include <cstdio>
#include <map>
#include <string>
#include <utility>

namespace testing {

// Answers met: number, and the table where the row is one.
using Met = std::map<std::pair<std::uint32_t, std::uint32_t>, unsigned long>;

struct Suite {
    unsigned long compared = 0, differ = 0, cells = 0, missed = 0;
    std::uint32_t pattern = 0;
    Met cleanings, joins, panels;
    unsigned long singles = 0; // cells held to the single call

    void fail(const std::string &what) {
        if (++differ <= 20) std::printf("differs: %s\n", what.c_str());
    }

    void expect(bool good, const std::string &what) {
        ++compared;
        if (!good) fail(what);
    }

    static void count(Met &met, const reference::Answer &a) {
        const bool table = a.number == 1 || a.number == 2 || a.number == 13 || a.number == 20 || a.number == 21;
        ++met[{a.number, table ? a.row : 0}];
    }

    void judge(const char *what, std::uint64_t answer, const reference::Result &r, const Outputs &got, Outputs want) {
        ++compared;
        cells += got.cells();
        want.lay(r);
        if (answer != r.answer.number * 4294967296ull + r.answer.row) {
            fail(std::string(what) + ": answer " + std::to_string(ffr_number(answer)) + " " + std::to_string(ffr_row(answer)) +
                 ", not " + std::to_string(r.answer.number) + " " + std::to_string(r.answer.row));
        } else if (const char *column = got.differs(want)) {
            fail(std::string(what) + ": column " + column + ", answer " + std::to_string(r.answer.number));
        }
    }

    // One cleaning; the answer that the second implementation gives is returned.
    reference::Answer clean(const char *what, const Record &record, const Rooms &rooms) {
        const Record copy = record;
        const Outputs before(rooms, pattern += 101);
        Outputs after = before;
        const std::uint64_t answer = call_clean(record.length, record.tables, record.samples, after);
        const reference::Result r = reference::clean(copy.length, copy.tables, copy.samples, rooms.shortest());
        judge(what, answer, r, after, before);
        if (!(copy.tables == record.tables) || copy.samples != record.samples) fail(std::string(what) + ": an input changed");
        if (r.answer.number == 0 && copy.length <= 40 && copy.tables.nodes.time.size() <= 16) {
            const reference::Result slow = reference::by_position(copy.length, copy.tables, copy.samples);
            if (!(slow.tables == r.tables) || slow.map != r.map) fail(std::string(what) + ": segments and positions");
        }
        count(cleanings, r.answer);
        return r.answer;
    }

    reference::Answer join(const char *what, const Record &record, const Batch &batch, const Rooms &rooms) {
        const Record copy = record;
        const Batch batch_copy = batch;
        const Outputs before(rooms, pattern += 101);
        Outputs after = before;
        const std::uint64_t answer = call_join(record.length, record.tables, batch, after);
        const reference::Result r = reference::join(copy.length, copy.tables, batch_copy, rooms.shortest());
        judge(what, answer, r, after, before);
        if (!(copy.tables == record.tables) || !(batch_copy.nodes == batch.nodes) || !(batch_copy.edges == batch.edges) ||
            !(batch_copy.mutations == batch.mutations))
            fail(std::string(what) + ": an input changed");
        count(joins, r.answer);
        return r.answer;
    }

    // One panel with blocks of so many cells. Small ones are held to the single call too: each cell to that of the second implementation,
    // and every eighth to the call that is tested, with lists of one.
    reference::Answer panel(const char *what, const Record &record, const Column &sites, const Column &fish, std::size_t states, std::size_t missing) {
        const Record copy = record;
        const Column sites_copy = sites, fish_copy = fish;
        const Blocks before(states, missing, pattern += 101);
        Blocks after = before, want = before;
        const std::uint64_t answer = call_alleles(record.length, record.tables, sites, fish, after);
        const reference::Panel due = reference::panel(copy.length, copy.tables, sites_copy, fish_copy, states, missing);
        ++compared;
        cells += after.states.cells.size() + after.missing.cells.size();
        want.lay(due);
        if (answer != due.answer.number * 4294967296ull + due.answer.row)
            fail(std::string(what) + ": answer " + std::to_string(ffr_number(answer)) + " " + std::to_string(ffr_row(answer)) + ", not " +
                 std::to_string(due.answer.number) + " " + std::to_string(due.answer.row));
        else if (const char *block = after.differs(want))
            fail(std::string(what) + ": block " + block + ", answer " + std::to_string(due.answer.number));
        if (!(copy.tables == record.tables) || sites_copy != sites || fish_copy != fish) fail(std::string(what) + ": an input changed");
        if (due.answer.number == 0 && sites.size() * fish.size() <= 60) one_by_one(what, record, sites, fish, after);
        count(panels, due.answer);
        return due.answer;
    }

    reference::Answer panel(const char *what, const Record &record, const Column &sites, const Column &fish) {
        return panel(what, record, sites, fish, sites.size() * fish.size(), sites.size() * fish.size());
    }

    // Each cell of a panel that is done against both single calls.
    void one_by_one(const char *what, const Record &record, const Column &sites, const Column &fish, const Blocks &got) {
        for (std::size_t i = 0; i < fish.size(); ++i)
            for (std::size_t j = 0; j < sites.size(); ++j) {
                const std::size_t cell = i * sites.size() + j;
                const reference::Single due = reference::read_allele(record.tables, sites[j], fish[i]);
                ++singles;
                if (due.answer.number != 0 || got.states.cells[cell] != due.state || got.missing.cells[cell] != (due.missing ? 1 : 0))
                    fail(std::string(what) + ": a cell against the second single call");
                if (cell % 8 != 0) continue; // the tables are checked in each call
                Blocks one(1, 1, pattern += 101);
                const std::uint64_t answer = call_alleles(record.length, record.tables, {sites[j]}, {fish[i]}, one);
                if (answer != 0 || got.states.cells[cell] != one.states.cells[0] || got.missing.cells[cell] != one.missing.cells[0])
                    fail(std::string(what) + ": a cell against the call for it alone");
            }
    }

    // How often each of these answers was met, and that no other was.
    void report(const char *call, const Met &met, const Met &wanted) {
        for (const auto &w : wanted) {
            const auto found = met.find(w.first);
            const unsigned long times = found == met.end() ? 0 : found->second;
            std::printf("%s %u", call, w.first.first);
            if (w.first.second != 0) std::printf(" table %u", w.first.second);
            std::printf(": %lu%s\n", times, times == 0 ? ", not met" : "");
            if (times == 0) ++missed;
        }
        for (const auto &m : met)
            if (wanted.count(m.first) == 0) fail(std::string(call) + ": answer " + std::to_string(m.first.first) + " not expected");
    }
};

// Rooms that fit, or are one short or odd somewhere.
inline Rooms random_rooms(Random &r, const Rooms &exact) {
    Rooms rooms = r.chance(30) ? Rooms::limits() : exact;
    const auto all = rooms.all();
    for (std::uint32_t i = r.below(3); i > 0 && r.chance(60); --i) {
        std::size_t &room = *all[r.below(all.size())];
        room = r.chance(60) ? room + r.below(4) : r.chance(80) && room > 0 ? room - 1 : r.below(5);
    }
    rooms.block = r.chance(70) ? 4 : r.below(6);
    return rooms;
}

} // namespace testing

#endif
