"""Writes the last two groups of stdin: alleles and panels of random sound tables, by a second reading that goes through every edge for
every answer.

usage: python3 alleles.py     (in this folder; the seeds are fixed, and what stands above the groups stays as it is)

A fish is missing at a site where no edge over the position names it and no mutation of the site is on it; 256, which is no byte, says so.
The populations are drawn by themselves and play no part in an answer.
"""
import pathlib
import random

HEAD = "G alleles of random tables, by a second reading\n"
PANELS = "G panels of random tables, by a second reading\n"
TABLES = 180
EACH = 3  # panels of each table


def tables(rng):
    """L, node rows (time, birth), edge rows (left, right, parent, child), sites, mutations; parents are older, keys rise."""
    length = rng.randint(2, 12)
    count = rng.randint(1, 7)
    times = rng.sample(range(20), count)
    births = rng.sample(range(100), count)
    edges = []
    for child in range(count):
        older = [p for p in range(count) if times[p] > times[child]]
        cuts = sorted({0, length, *(rng.randint(0, length) for _ in range(rng.randint(0, 3)))})
        for left, right in zip(cuts, cuts[1:]):
            if older and rng.random() < 0.5:
                edges.append((left, right, rng.choice(older), child))
    edges.sort(key=lambda e: (times[e[2]], births[e[2]], births[e[3]], e[0]))
    sites = [(x, rng.randint(0, 255)) for x in sorted(rng.sample(range(length), rng.randint(1, min(3, length))))]
    mutations = []
    for site in range(len(sites)):
        hit = [rng.randrange(count) for _ in range(rng.choice((0, 0, 1, 2, 3)))]
        for node in sorted(hit, key=lambda u: -times[u]):
            mutations.append((site, node, rng.randint(0, 255)))
    return length, list(zip(times, births)), edges, sites, mutations


def allele(edges, sites, mutations, site, node):
    """The state of a node row, or 256 where it is missing."""
    x, state = sites[site]
    over = [e for e in edges if e[0] <= x < e[1]]
    mine = [m for m in mutations if m[0] == site]
    if all(node not in (p, c) for _, _, p, c in over) and all(m[1] != node for m in mine):
        return 256
    while True:
        on = [m[2] for m in mine if m[1] == node]
        if on:
            return on[-1]
        up = [p for _, _, p, c in over if c == node]
        if not up:
            return state
        node = up[0]


def put(stocks, length, nodes, edges, sites, mutations):
    """The lines that give the tables."""
    yield f"S 12 12 {length}"
    yield " ".join(map(str, ["R", 13, *(stocks.choice((0, 65535, stocks.randrange(65536))) for _ in nodes)]))
    columns = [[r[k] for r in rows] for rows, width in ((nodes, 2), (edges, 4), (sites, 2), (mutations, 3)) for k in range(width)]
    for number, column in enumerate(columns):
        yield " ".join(map(str, ["R", number, *column]))


def lines(rng, stocks):
    length, nodes, edges, sites, mutations = tables(rng)
    yield from put(stocks, length, nodes, edges, sites, mutations)
    yield "R 11"
    for site in range(len(sites)):
        for node in range(len(nodes)):
            yield f"A {site} {nodes[node][1]} 0 0 {allele(edges, sites, mutations, site, node)}"


def panel(rng, nodes, edges, sites, mutations):
    """One panel: lists with repeats, now and then an entry that names nothing, blocks with a few bytes more than asked or one less."""
    births = [birth for _, birth in nodes]
    rows = [rng.randrange(len(sites)) for _ in range(rng.randint(0, 4))]
    fish = [rng.choice(births) for _ in range(rng.randint(0, 5))]
    if rows and rng.random() < 0.1:
        rows[rng.randrange(len(rows))] = len(sites)
    if fish and rng.random() < 0.1:
        fish[rng.randrange(len(fish))] = 100
    cells = len(rows) * len(fish)
    room = [max(0, cells + rng.choice((0, 0, 0, 1, 2, 5, 17, -1))) for _ in range(2)]
    for birth in fish:
        for row in rows:
            if row == len(sites):
                return [rows, fish, room, 41, 0, []]
            if birth == 100:
                return [rows, fish, room, 42, 0, []]
    if min(room) < cells:
        return [rows, fish, room, 13, 7, []]
    return [rows, fish, room, 0, 0, [allele(edges, sites, mutations, row, births.index(birth)) for birth in fish for row in rows]]


def panel_lines(rng, stocks):
    length, nodes, edges, sites, mutations = tables(rng)
    yield from put(stocks, length, nodes, edges, sites, mutations)
    for _ in range(EACH):
        rows, fish, room, number, row, cells = panel(rng, nodes, edges, sites, mutations)
        yield " ".join(map(str, ["P", len(rows), len(fish), *room, number, row, len(cells), *rows, *fish, *cells]))


def main():
    path = pathlib.Path(__file__).with_name("stdin")
    text = path.read_text()
    if HEAD in text:
        text = text[: text.index(HEAD)]
    text = text.rstrip("\n") + "\n"
    for head, made, seed in ((HEAD, lines, 103), (PANELS, panel_lines, 100)):
        rng, stocks = random.Random(seed), random.Random(106)
        text += "\n" + head + "".join(line + "\n" for _ in range(TABLES) for line in made(rng, stocks))
    path.write_text(text)


if __name__ == "__main__":
    main()
