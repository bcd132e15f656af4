// The second implementation of cleaning: Algorithm S of the published method, which the benchmark has as its baseline, on
// tables that the second check has found sound.
#include "reference_parts.hpp"

#include "../bench/algorithm_s.hpp"

namespace reference {

Result simplify(std::uint32_t length, const Tables &t, const Column &samples) {
    bench::Tables in;
    in.len = length;
    in.time = t.nodes.time;
    in.birth = t.nodes.birth;
    in.population = t.nodes.population;
    in.left = t.edges.left;
    in.right = t.edges.right;
    in.parent = t.edges.parent;
    in.child = t.edges.child;
    in.position = t.sites.position;
    in.ancestral = t.sites.ancestral;
    in.site = t.mutations.site;
    in.node = t.mutations.node;
    in.derived = t.mutations.derived;
    in.samples = samples;
    const bench::Result got = bench::AlgorithmS(in).run();
    const bench::Tables &o = got.out;
    Result r;
    r.tables.nodes = {o.time, o.birth, o.population};
    r.tables.edges = {o.left, o.right, o.parent, o.child};
    r.tables.sites = {o.position, o.ancestral};
    r.tables.mutations = {o.site, o.node, o.derived};
    r.map = got.map;
    return r;
}

Result clean(std::uint32_t length, const Tables &t, const Column &samples, const Room &room) {
    Answer a = check(length, t, samples);
    if (a.number != 0) return refused(a);
    Result r = simplify(length, t, samples);
    a = fits(r.tables, room);
    if (a.number == 0 && r.map.size() > room.map) a = refuse(13, 6);
    if (a.number == 0 && room.block < 4) a = refuse(13, 7);
    return a.number == 0 ? r : refused(a);
}

} // namespace reference
