"""Each refusal, 1 to 12, alone: at the lowest row that can have it, and at the last row of a full table."""
from histories import copied, tables
from second import LONGEST, MOST, NONE, TABLES

LENGTH = 12288


def full_edges():
    """1,023 parents of one child and a full table of edges, each row 2 long with a gap after it, in order of position and of key."""
    rows = [(0, 9000)] + [(1, k) for k in range(1023)]
    edges = [(3 * k, 3 * k + 2, 1 + k // 5, 0) for k in range(4096)]
    return tables(rows, edges, [], [], [9000])


def changed(columns, *edits):
    columns = copied(columns)
    for k, i, v in edits:
        columns[k][i] = v
    return columns


def exchanged(columns, table, i, j):
    columns = copied(columns)
    for k in TABLES[table]:
        columns[k][i], columns[k][j] = columns[k][j], columns[k][i]
    return columns


def lengths(case):
    base = tables([(0, 1), (1, 2)], [(0, 5, 1, 0)], [(3, 4)], [(0, 0, 5)], [1])
    for t, table in enumerate(TABLES[:4]):
        for k in table:
            for cells in (base[k][:-1], base[k] + base[k][:1]):
                yield case(10, base[:k] + [cells] + base[k + 1:], due=(1, t + 1))
    ragged = copied(base)
    for k in (10, 6, 3, 11, 0):
        ragged[k] = []
        yield case(0, ragged, due=(1, 1 + next(t for t, table in enumerate(TABLES) if k in table)))
    for length in (0, LONGEST + 1, 2 * LONGEST, NONE):
        yield case(length, base, due=(3, 0))


def sized(sizes):
    """Columns of zeros, each as long as its table."""
    return [[0] * next(n for n, table in zip(sizes, TABLES) if k in table) for k in range(13)]


def too_many(case):
    for t, most in enumerate(MOST):
        yield case(10, sized([most + 1 if u == t else 0 for u in range(5)]), due=(2, t + 1))
        yield case(0, sized([MOST[u] + 1 if u >= t else 0 for u in range(5)]), due=(2, t + 1))


def nodes(case):
    base = tables([(k % 3, 5 * k) for k in range(1024)], [], [], [], [0])
    for i, j in ((1, 0), (1023, 0), (1023, 1022), (512, 511)):
        yield case(10, changed(base, (1, i, 5 * j)), due=(4, i))
    yield case(10, changed(base, (1, 1, 0), (1, 1023, 5)), due=(4, 1))


def edges(case):
    base = full_edges()
    yield case(LENGTH, base, due=(0, 0))
    breaks = [(4, 1024), (5, NONE), (3, LENGTH + 1), (4, 0)]
    for i in (0, 4095):
        for k, v in breaks + [(3, 3 * i), (2, 3 * i + 9)]:
            if i == 0 or k != 5:
                yield case(LENGTH, changed(base, (k, i, v)), due=(5, i))
    for i in (1, 4095):
        yield case(LENGTH, exchanged(base, 1, i - 1, i), due=(6, i))
        yield case(LENGTH, changed(base, (2, i, 3 * i - 2)), due=(7, i))
    twice = changed(base, *[(k, 4095, base[k][4094]) for k in (2, 3, 4, 5)])
    yield case(LENGTH, twice, due=(6, 4095))
    # the younger of two parents is named by no edge of the child it would be above
    few = tables([(1, 1), (1, 2), (3, 3)], [(0, 5, 2, 0), (0, 5, 2, 1)], [], [], [1])
    for v in (2, 1, 0):
        yield case(10, changed(few, (4, 1, v)), due=(5, 1) if v < 2 else (0, 0))
    # an earlier row that lies to the right
    back = tables([(0, 1), (1, 2), (2, 3)], [(5, 9, 1, 0), (0, 5, 2, 0)], [], [], [1])
    yield case(10, back, due=(0, 0))
    yield case(10, changed(back, (3, 1, 6)), due=(7, 1))


def sites(case):
    base = tables([(0, 1)], [], [(2 * k, k % 256) for k in range(512)], [], [1])
    yield case(1023, base, due=(0, 0))
    for i, v in ((511, 1023), (511, 1020), (1, 0), (511, NONE), (0, 1023)):
        yield case(1023, changed(base, (6, i, v)), due=(8, i))
    yield case(1022, base, due=(8, 511))


def mutations(case):
    rows = [(0, 1), (1, 2), (1, 3), (9, 4)]
    up = [(0, 50, 1, 0), (50, 99, 2, 0), (0, 99, 3, 1), (0, 99, 3, 2)]
    base = tables(rows, up, [(40, 0), (60, 0)], [(k // 512, 0, k % 256) for k in range(1024)], [1])
    yield case(99, base, due=(0, 0))
    for i in (0, 1023):
        yield case(99, changed(base, (8, i, 2)), due=(9, i))
        yield case(99, changed(base, (9, i, 4)), due=(9, i))
        yield case(99, changed(base, (9, i, NONE)), due=(9, i))
    yield case(99, changed(base, (8, 1023, 0)), due=(9, 1023))
    yield case(99, changed(base, (8, 0, 1)), due=(9, 1))
    # 2 is above 1 at the first site only, 3 at the second only, and 4 at both
    for i, u in ((1, 1), (1, 3), (1023, 2), (1023, 3), (511, 1)):
        yield case(99, changed(base, (9, i, u)), due=(10, i))
    for i, u in ((0, 1), (1, 2), (512, 3), (1023, 1)):
        yield case(99, changed(base, (9, i, u)), due=(0, 0))
    # on nodes that no sample is below, too
    yield case(99, changed(base[:12] + [[4]], (9, 1, 1)), due=(10, 1))


def samples(case):
    base = tables([(k, 9 * k) for k in range(256)], [], [], [], range(0, 9 * 256, 9))
    yield case(10, base, due=(0, 0))
    for i in (0, 255):
        yield case(10, changed(base, (12, i, 1)), due=(11, i))
    for i, j in ((1, 0), (255, 254), (255, 0)):
        yield case(10, changed(base, (12, i, 9 * j)), due=(12, i))
    yield case(10, changed(base, (12, 1, 0), (12, 255, 1)), due=(11, 255))


def cases(case):
    for part in (lengths, too_many, nodes, edges, sites, mutations, samples):
        yield from part(case)
