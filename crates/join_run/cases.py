#!/usr/bin/env python3
"""Makes crates/join_run/stdin: joins, with what the second join (joining.py, written from 01 alone) says of each.

    python3 crates/join_run/cases.py > crates/join_run/stdin

A case is four little-endian words (kind: 0 ends a group and holds its name; the bytes that follow; where the numbers start in
them; how many numbers) and the bytes: the states of base and batch, then the numbers, each one byte below 254, or 254 and two
bytes, or 255 and four. The numbers: L; number, row and four counts of the answer due; the lent length of each of the twelve output
columns; start and length of the twelve columns of the base, of the ten of the batch and of the twelve due; then the columns.

That the program can tell was tried with faults planted in the second join, before there were populations. Of 1,900 cases differed: batch mutations put before the
base's 553, the earlier row of a shared pair told for 24 32, touching edges merged 769, batch edges dropped whose parent is in the
batch 704, ties ordered by row 1,034.
"""
import itertools
import random
import sys

sys.dont_write_bytecode = True
from joining import answer, join
from frames import base_of, batch_of, ended, framed, placed
from histories import STOCKS, copied, damaged, small, spoil, stocks
from second import LONGEST, NONE, TABLES

ROOM = [1024] * 2 + [4096] * 4 + [512] * 2 + [1024] * 4


def case(length, base, batch, lent=None, due=None):
    """A case's bytes; where due is given, the second join has to agree with it."""
    lent = lent or ROOM
    number, row, counts, out = answer(length, base, batch, lent)
    if due is not None:
        assert due in ((number, row), (number, row, out)), (due, number, row)
    states, cells = bytearray(), []
    places = placed(base, (7, 10), 87, states, cells)
    places += placed(batch, (8,), 87, states, cells)
    places += placed(out, (), 87, states, cells)
    return framed(bytes(states), [length, number, row] + counts + lent + places + cells)


# 01's listing as a record, and two births under its fish
RECORD = base_of([(10, 501, 7), (10, 502, 0), (11, 401, 65535), (12, 301, 7), (13, 201, 40000)],
                 [(0, 10, 2, 0), (4, 6, 2, 1), (0, 10, 3, 2), (0, 4, 3, 1), (6, 10, 3, 1), (0, 10, 4, 3)],
                 [(5, 65), (8, 67), (9, 71)], [(0, 3, 84), (1, 4, 84), (1, 2, 71)])
NODES = [(5, 601, 1), (5, 602, 65535), (4, 701, 0)]
EDGES = [(0, 4, 501, 601), (4, 10, 502, 601), (0, 10, 601, 701), (0, 10, 401, 602)]
MUTATIONS = [(2, 701, 67), (0, 601, 65), (1, 602, 84)]
BATCH = batch_of(NODES, EDGES, MUTATIONS)
EMPTY = batch_of([])
NOTHING = base_of([])


def orders():
    """Every order of the batch's edges, of its nodes and of its mutations; mutations of one site keep theirs."""
    ends = set()
    for edges in itertools.permutations(EDGES):
        batch = batch_of(NODES, edges, MUTATIONS)
        ends.add(str(join(RECORD, batch)))
        yield case(10, RECORD, batch, due=(0, 0))
    assert len(ends) == 1
    for nodes in itertools.permutations(NODES):
        batch = batch_of(nodes, EDGES, MUTATIONS)
        out = join(RECORD, batch)
        ends.add(str([[out[1][u] for u in out[k]] if k in (4, 5) else out[k] for k in (2, 3, 4, 5)]))
        yield case(10, RECORD, batch, due=(0, 0))
    assert len(ends) == 2
    for mutations in itertools.permutations(MUTATIONS):
        batch = batch_of(NODES, EDGES, mutations)
        ends.add(str(join(RECORD, batch)))
        yield case(10, RECORD, batch, due=(0, 0))
    assert len(ends) == 2
    for states in itertools.permutations((84, 1, 2)):
        batch = batch_of(NODES, EDGES, [(1, 602, s) for s in states])
        assert join(RECORD, batch)[10][-3:] == list(states)
        yield case(10, RECORD, batch, due=(0, 0))


def empties():
    """An empty batch gives the record; an empty base; both."""
    yield case(10, RECORD, EMPTY, due=(0, 0, RECORD))
    yield case(10, NOTHING, EMPTY, due=(0, 0, NOTHING))
    own = batch_of([(3, 1), (2, NONE), (1, 0)], [(0, 5, NONE, 0), (5, 10, 1, 0), (0, 10, 1, NONE)])
    yield case(10, NOTHING, own, due=(0, 0))
    yield case(10, NOTHING, EMPTY, [0] * 12, (0, 0))
    yield case(10, base_of([], [], [(3, 4)]), EMPTY, due=(0, 0))
    yield case(10, NOTHING, BATCH, due=(23, 0))
    yield case(0, NOTHING, EMPTY, due=(3, 0))
    yield case(LONGEST + 1, NOTHING, EMPTY, due=(3, 0))
    yield case(LONGEST, RECORD, BATCH, due=(0, 0))


def touching():
    """Edges that touch are not merged, in base, in batch and across; 24 is for a shared position only."""
    up = [(0, 3, 501, 601), (3, 7, 501, 601), (7, 10, 501, 601)]
    for edges in itertools.permutations(up):
        batch = batch_of(NODES[:1], edges)
        assert join(RECORD, batch)[2][:3] == [0, 3, 7]
        yield case(10, RECORD, batch, due=(0, 0))
    apart = base_of([(0, 1), (5, 2)], [(0, 4, 1, 0), (4, 10, 1, 0)])
    yield case(10, apart, EMPTY, due=(0, 0, apart))
    yield case(10, apart, batch_of([(1, 3)], [(4, 10, 2, 3), (0, 4, 2, 3)]), due=(0, 0))


def rooms():
    """Every output column one short, exactly fitting and one longer; two short at once; ragged columns; cells past the result."""
    fits = [len(c) for c in join(RECORD, BATCH)]
    table = [next(t + 1 for t, cs in enumerate(TABLES[:4]) if k in cs) for k in range(12)]
    yield case(10, RECORD, BATCH, fits, (0, 0))
    yield case(10, RECORD, BATCH, [n + 1 for n in fits], (0, 0))
    yield case(10, RECORD, BATCH, [n + 1 for n in ROOM], (0, 0))
    yield case(10, RECORD, BATCH, [n + k for k, n in enumerate(fits)], (0, 0))
    yield case(10, RECORD, BATCH, [0] * 12, (13, 1))
    for k in range(12):
        yield case(10, RECORD, BATCH, [n - (j == k) for j, n in enumerate(fits)], (13, table[k]))
        yield case(10, RECORD, BATCH, [n if j == k else n + 1 for j, n in enumerate(fits)], (0, 0))
        yield case(10, RECORD, BATCH, [0 if j == k else n for j, n in enumerate(ROOM)], (13, table[k]))
        for i in range(k):
            yield case(10, RECORD, BATCH, [n - (j in (i, k)) for j, n in enumerate(fits)], (13, min(table[i], table[k])))
    # the sites' room is asked for though no site comes
    yield case(10, RECORD, EMPTY, [2 if k == 7 else n for k, n in enumerate(ROOM)], (13, 3))


def in_a_row():
    """Two joins, the second over the first's result."""
    first = join(RECORD, BATCH)
    later = batch_of([(1, 801), (0, 802)], [(5, 10, 701, 801), (0, 5, 602, 801), (0, 10, 801, 802)],
                     [(2, 802, 1), (2, 801, 2), (0, 801, 3)])
    yield case(10, first, later, due=(26, 1))
    later = batch_of([(1, 801), (0, 802)], [(5, 10, 701, 801), (0, 5, 602, 801), (0, 10, 801, 802)],
                     [(2, 801, 1), (2, 802, 2), (0, 801, 3)])
    yield case(10, first, later, due=(0, 0))
    yield case(10, first, BATCH, due=(22, 0))
    yield case(10, RECORD, later, due=(23, 0))


def random_join(rng):
    """L, a base and a batch: a small history cut at a birth of youngest fish, which hang below any older fish."""
    length, columns = small(rng)
    base = copied(columns[:12])
    base[0] = [t // 2 + 9 for t in base[0]] if max(base[0]) > NONE - 9 else [t + 9 for t in base[0]]
    olds = {b: t for t, b in zip(base[0], base[1])}
    for k in range(len(base[2]) - 1, -1, -1):
        if base[0][base[4][k]] <= base[0][base[5][k]]:
            for c in TABLES[1]:
                base[c].pop(k)
    names = [b for b in rng.sample(range(200), 40) + [NONE, NONE - 1] if b not in olds][:rng.randint(0, 8)]
    young = [(rng.randint(0, 8), b) for b in names]
    rng.shuffle(young)
    ages = dict(olds)
    ages.update((b, t) for t, b in young)
    edges = []
    for t, b in young:
        older = [p for p, u in ages.items() if u > t]
        cuts = sorted({rng.randrange(length) for _ in range(rng.choice([0, 0, 1, 2, 3]))} | {0}) + [length]
        edges += [(l, r, rng.choice(older), b) for l, r in zip(cuts, cuts[1:]) if older and rng.random() < 0.9]
    rng.shuffle(edges)
    rows = [(rng.randrange(len(base[6])), *rng.choice(young)) for _ in range(rng.choice([0, 1, 2, 4, 6])) if young and base[6]]
    rng.shuffle(rows)
    if rng.random() < 0.8:
        rows.sort(key=lambda m: -m[1])
    batch = batch_of(young, edges, [(s, b, rng.randrange(256)) for s, _, b in rows])
    batch[9] = stocks(len(young))
    return length, base, batch


def any_room(rng, fits):
    """Room that fits, and at times one cell too little somewhere."""
    lent = [n + rng.choice([0, 0, 1, 5]) for n in fits]
    if rng.random() < 0.1:
        k = rng.randrange(11)
        lent[k] = max(fits[k] - 1, 0)
    if STOCKS.random() < 0.02:
        lent[11] = max(fits[11] - 1, 0)
    return lent


def damaged_batch(rng, length, base, batch):
    """One to three random changes of the batch's columns: a cell, a row exchanged, twice, a cell too few or too many; and the populations."""
    batch = copied(batch)
    names = base[1] + batch[1] + [7]
    for _ in range(rng.choice([1, 1, 2, 3])):
        k, way = rng.randrange(9), rng.randrange(12)
        column = batch[k]
        i = rng.randrange(len(column)) if column else None
        if way == 0 and column:
            column.pop()
        elif way == 1:
            column.append(rng.randrange(12))
        elif way < 5 and k in (1, 4, 5, 7) and column:
            column[i] = rng.choice(names)
        elif way < 7 and column:
            column[i] = rng.choice(column)
        elif column and k == 8:
            column[i] = rng.randrange(256)
        elif column:
            column[i] = rng.choice([column[i] + 1, max(column[i] - 1, 0), rng.randrange(13), NONE, length]) % (NONE + 1)
    spoil(batch[9])
    return batch


def random_cases(rng, n):
    for _ in range(n):
        length, base, batch = random_join(rng)
        yield case(length, base, batch, any_room(rng, [len(c) for c in answer(length, base, batch, ROOM)[3]]))


def damaged_cases(rng, n):
    for i in range(n):
        length, base, batch = random_join(rng)
        if i % 3 == 0:
            length, columns = damaged(rng, length, base + [[]])
            base = columns[:12]
        if i % 3 != 0 or i % 2 == 0:
            batch = damaged_batch(rng, length, base, batch)
        yield case(length, base, batch, any_room(rng, [len(c) for c in answer(length, base, batch, ROOM)[3]]))


def main():
    import batch_refusals
    rng = random.Random(20261116)
    groups = [('every order', orders()), ('nothing to join', empties()), ('touching edges', touching()), ('room', rooms()),
              ('refusals', batch_refusals.cases(case)), ('limits', batch_refusals.limits(case)), ('joins in a row', in_a_row()),
              ('random joins', random_cases(rng, 1000)), ('damaged joins', damaged_cases(rng, 600))]
    for name, cases in groups:
        sys.stdout.buffer.write(ended(name, cases))


if __name__ == '__main__':
    main()
