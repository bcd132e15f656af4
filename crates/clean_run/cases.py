#!/usr/bin/env python3
"""Makes crates/clean_run/stdin: cases for cleaning, with what the second cleaner (second.py, written from 01 alone) says of each.

    python3 crates/clean_run/cases.py > crates/clean_run/stdin

A case is four little-endian words (kind: 0 ends a group and holds its name; the bytes that follow; where the numbers start in
them; how many numbers) and the bytes: the states of the input, then the numbers, each one byte below 254, or 254 and two bytes,
or 255 and four. The numbers: L; number, row and four counts of the answer due; the lent length of each of the thirteen output
columns; start and length of the thirteen input columns and of the thirteen columns due; then the columns.

The program can tell. Tried before there were populations, with a fault planted in the second cleaner it reported differences, in 3,455
cases (and 627 of show_run):
a sample with a single child dropped 1,194 (156); touching edges not merged 811 (122); a sample's segment not the whole
chromosome 455 (63); room taken from one column only 134 (0); a mutation moved by the node map 90 (11); rule 7 forgotten 23 (4);
ties ordered by row 18 (0). With the last row of the node map left out of what is due it reported 2,264 (every case that is done and has a
node); with one more cell due after a refusal 1,190 (every case that is refused).
"""
import random
import struct
import sys

sys.dont_write_bytecode = True
import histories
from histories import STOCKS, copied, tables
from second import LONGEST, NONE, TABLES, answer

ROOM = [1024] * 2 + [4096] * 4 + [512] * 2 + [1024] * 5


def packed(v):
    if v < 254:
        return bytes([v])
    return b'\xfe' + struct.pack('<H', v) if v < 65536 else b'\xff' + struct.pack('<I', v)


def case(length, columns, lent=None, due=None):
    """A case's bytes; where due is given, the second cleaner has to agree with it."""
    lent = lent or ROOM
    number, row, counts, out = answer(length, columns, lent)
    if due is not None:
        assert due in ((number, row), (number, row, out)), (due, number, row)
    states, places, cells = b'', [], []
    for k, column in enumerate(columns):
        if k in (7, 10):
            places += [len(states), len(column)]
            states += bytes(column)
        else:
            places += [72 + len(cells), len(column)]
            cells += column
    for column in out:
        places += [72 + len(cells), len(column)]
        cells += column
    numbers = [length, number, row] + counts + lent + places + cells
    body = states + b''.join(map(packed, numbers))
    assert len(numbers) <= 53248 and len(body) <= 262144
    return struct.pack('<4I', 1, len(body), len(states), len(numbers)) + body


NODES = [(0, 501, 7), (0, 502, 0), (1, 401, 65535), (2, 301, 7), (3, 201, 40000)]
EDGES = [(0, 10, 2, 0), (4, 6, 2, 1), (0, 10, 3, 2), (0, 4, 3, 1), (6, 10, 3, 1), (0, 10, 4, 3)]
LISTING = tables(NODES, EDGES, [(5, 65), (8, 67)], [(0, 3, 84), (1, 4, 84), (1, 2, 71)], [501, 502])
# what 01 prints of it
LISTED = tables([(0, 501, 7), (0, 502, 0), (1, 401, 65535), (2, 301, 7)],
                [(4, 6, 2, 0), (4, 6, 2, 1), (0, 4, 3, 0), (6, 10, 3, 0), (0, 4, 3, 1), (6, 10, 3, 1)],
                [(5, 65), (8, 67)], [(0, 2, 84), (1, 3, 84), (1, 0, 71)])[:12] + [[0, 1, 2, 3, NONE]]


def changed(columns, *edits):
    """The columns with some cells (column, row, value), or whole columns (column, None, cells), replaced."""
    columns = copied(columns)
    for k, i, v in edits:
        if i is None:
            columns[k] = list(v)
        else:
            columns[k][i] = v
    return columns


def by_hand():
    """P1 to P9."""
    yield case(10, LISTING, due=(0, 0, LISTED))
    two = answer(10, changed(LISTING, (12, None, [501, 401])), ROOM)[3]
    assert [two[k] for k in (2, 3, 4, 5)] == [[0], [10], [1], [0]]
    yield case(10, changed(LISTING, (12, None, [501, 401])), due=(0, 0))
    none = answer(10, changed(LISTING, (12, None, [])), ROOM)
    assert none[:3] == (0, 0, [0, 0, 2, 0])
    yield case(10, changed(LISTING, (12, None, [])), due=(0, 0))
    yield case(10, changed(LISTING, (12, None, [501, 501])), due=(12, 1))
    yield case(10, changed(LISTING, (12, None, [999])), due=(11, 0))
    yield case(10, changed(LISTING, (3, 5, 11)), due=(5, 5))
    yield case(10, changed(LISTING, (0, 4, 2)), due=(5, 5))
    yield case(0, changed(LISTING, (1, 1, 501)), due=(3, 0))
    yield case(10, changed(LISTING, (9, 1, 2), (9, 2, 4), (10, 1, 71), (10, 2, 84)), due=(10, 2))


def wide(n, e=0, s=0, m=0, k=0):
    """Tables of so many rows that the rules allow: one parent, the edges apart, the samples listed backwards."""
    rows = [(0, b) for b in range(n - 1)] + [(1, 70000)] if n else []
    edges = [(3 * (i // 1023), 3 * (i // 1023) + 2, n - 1, i % 1023) for i in range(e)]
    return tables(rows, edges, [(x, x % 256) for x in range(s)], [(i // 2, 0, i % 256) for i in range(m)],
                  reversed(range(k)))


def limits():
    """01's limits, each with one more."""
    for length, due in ((LONGEST, (0, 0)), (LONGEST + 1, (3, 0)), (1, (5, 0)), (NONE, (3, 0)), (10, (0, 0)), (9, (5, 0))):
        yield case(length, LISTING, due=due)
    for size, due in (((1024,), (0, 0)), ((1025,), (2, 1)), ((1024, 4096, 0, 0, 9), (0, 0)), ((1024, 4097), (2, 2)),
                      ((2, 0, 512), (0, 0)), ((2, 0, 513), (2, 3)), ((2, 0, 512, 1024, 1), (0, 0)),
                      ((2, 0, 513, 1025), (2, 3)), ((2, 0, 512, 1025), (2, 4)), ((300, 0, 0, 0, 256), (0, 0)),
                      ((300, 0, 0, 0, 257), (2, 5)), ((1024, 4096, 512, 1024, 256), (0, 0)), ((0,), (0, 0))):
        yield case(3000, wide(*size), due=due)


def third():
    """Demand 3's premise: 401 had to be listed."""
    second = [401, 501]
    first = answer(10, changed(LISTING, (12, None, [501, 502])), ROOM)[3]
    after = changed(first[:12] + [second])
    for columns, edge in ((after, (4, 6)), (changed(LISTING, (12, None, second)), (0, 10))):
        out = answer(10, columns, ROOM)[3]
        assert (out[2], out[3]) == ([edge[0]], [edge[1]])
        yield case(10, columns, due=(0, 0))


def touching():
    """Edges (0,4) and (4,10) of one parent and child become one; also where they came by different unary ways, and not over a gap."""
    one = tables([(0, 1), (5, 2)], [(0, 4, 1, 0), (4, 10, 1, 0)], [], [], [1, 2])
    assert [c for c in answer(10, one, ROOM)[3][2:6]] == [[0], [10], [1], [0]]
    yield case(10, one, due=(0, 0))
    ways = tables([(0, 1), (5, 2), (1, 3), (2, 4)],
                  [(0, 4, 2, 0), (4, 10, 3, 0), (0, 10, 1, 2), (0, 10, 1, 3)], [], [], [1, 2])
    assert [c for c in answer(10, ways, ROOM)[3][2:6]] == [[0], [10], [1], [0]]
    yield case(10, ways, due=(0, 0))
    yield case(10, tables([(0, 1), (5, 2)], [(0, 4, 1, 0), (5, 10, 1, 0)], [], [], [1, 2]), due=(0, 0))


def rooms():
    """Every output column one short, exactly fitting and one longer; two short at once; cleaned edges past their limit."""
    fits = [len(c) for c in answer(10, LISTING, ROOM)[3]]
    table = [next((t + 1 for t, cs in enumerate(TABLES[:4]) if k in cs), 6) for k in range(13)]
    yield case(10, LISTING, fits, (0, 0))
    yield case(10, LISTING, [n + 1 for n in fits], (0, 0))
    yield case(10, LISTING, [0] * 13, (13, 1))
    for k in range(13):
        yield case(10, LISTING, [n - (j == k) for j, n in enumerate(fits)], (13, table[k]))
        yield case(10, LISTING, [n if j == k else n + 1 for j, n in enumerate(fits)], (0, 0))
        yield case(10, LISTING, [0 if j == k else n for j, n in enumerate(ROOM)], (13, table[k]))
        for i in range(k):
            yield case(10, LISTING, [n - (j in (i, k)) for j, n in enumerate(fits)], (13, min(table[i], table[k])))
    more = [n + 1 for n in ROOM]
    for history, due in ((histories.ladder(1023, 4), (0, 0)), (histories.ladder(1023, 5), (13, 2)),
                         (histories.ladder(2000, 1), (13, 2))):
        yield case(*history, due=due)
        yield case(*history, lent=more, due=due)
    yield case(*histories.ladder(1023, 4), lent=[n - (j == 3) for j, n in enumerate(ROOM)], due=(13, 2))
    yield case(*histories.ladder(1023, 5), lent=[7] + ROOM[1:], due=(13, 1))


def large(rng):
    """Histories at or near the limits."""
    yield case(*histories.breeding(rng, 16, 64, 3, 60000))
    yield case(*histories.breeding(rng, 4, 256, 4, 60000))
    yield case(*histories.breeding(rng, 64, 16, 3, 50000))
    yield case(*histories.breeding(rng, 32, 32, 2, 900000000, 200, 200, 40))
    yield case(*histories.line(400, 3000))
    yield case(*histories.line(1024, 200, 2))
    yield case(*histories.line(1024, 5))
    yield case(*histories.one_parent(1023, 4))
    yield case(*histories.one_child(1023, 4096))


def any_room(rng, length, columns):
    """Room that fits, and at times one cell too little somewhere."""
    fits = [len(c) for c in answer(length, columns, ROOM)[3]]
    lent = [n + rng.choice([0, 0, 1, 5]) for n in fits]
    if rng.random() < 0.1:
        k = rng.choice(histories.OTHERS)
        lent[k] = max(fits[k] - 1, 0)
    if STOCKS.random() < 0.02:
        lent[11] = max(fits[11] - 1, 0)
    return lent


def random_cases(rng, n):
    for _ in range(n):
        length, columns = histories.small(rng)
        yield case(length, columns, any_room(rng, length, columns))


def damaged_cases(rng, n):
    for _ in range(n):
        length, columns = histories.damaged(rng, *histories.small(rng))
        yield case(length, columns, any_room(rng, length, columns))


def main():
    import refusals
    rng = random.Random(20261115)
    groups = [('P1 to P9', by_hand()), ('limits', limits()), ('the premise of demand 3', third()), ('touching edges', touching()),
              ('room', rooms()), ('refusals', refusals.cases(case)), ('large histories', large(rng)),
              ('random histories', random_cases(rng, 2000)), ('damaged histories', damaged_cases(rng, 1200))]
    for name, cases in groups:
        sys.stdout.buffer.write(b''.join(cases) + struct.pack('<4I', 0, len(name), 0, 0) + name.encode())


if __name__ == '__main__':
    main()
