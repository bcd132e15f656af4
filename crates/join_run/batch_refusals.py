"""Each refusal of a join, alone at the lowest row that can have it and at the last row of a full batch, and behind an earlier one."""
from joining import BATCH
from frames import base_of, batch_of
from histories import copied
from second import LONGEST, NONE

LENGTH = 24
SITES = [(x, x) for x in range(0, 24, 4)]


def changed(columns, *edits):
    """The columns with some cells (column, row, value) replaced."""
    columns = copied(columns)
    for k, i, v in edits:
        columns[k][i] = v
    return columns


def exchanged(columns, own, i, j):
    columns = copied(columns)
    for k in own:
        columns[k][i], columns[k][j] = columns[k][j], columns[k][i]
    return columns


def full():
    """A base of one fish, and 1,023 births under it: 4,096 edges with a gap after each, 1,024 mutations, rows in no order."""
    base = base_of([(NONE, 9000)], [], SITES)
    nodes = [(k % 3, (k * 677) % 7919) for k in range(1023)]
    edges = [(3 * (k // 1023), 3 * (k // 1023) + 2, 9000, nodes[(k * 5) % 1023][1]) for k in range(4096)]
    mutations = [((k * 5) % 6, nodes[k % 1023][1], k % 256) for k in range(1024)]
    return base, batch_of(nodes, edges, mutations)


def few():
    """A base of three fish and a batch of three births, of which the last is under the other two."""
    base = base_of([(5, 1), (6, 2), (9, 3)], [(0, 12, 2, 0), (0, 24, 2, 1)], SITES, [(0, 2, 7), (3, 0, 8)])
    nodes = [(4, 10), (4, 11), (2, 12)]
    edges = [(0, 24, 1, 10), (0, 24, 2, 11), (0, 12, 10, 12), (12, 24, 11, 12)]
    return base, batch_of(nodes, edges, [(1, 10, 1), (1, 12, 2), (4, 11, 3), (4, 12, 4), (0, 12, 5)])


def base_first(case):
    """1 to 10 of the base, each with a batch that breaks every rule."""
    base, batch = few()
    spoiled = [[], [10], [9], [9], [99], [99], [99], [99], [1], [7, 7]]
    ragged = [base[:10] + [base[10][:-1]] + base[11:], base[:7] + [[1]] + base[8:], base[:2] + [[]] + base[3:], [[0]] + base[1:],
              base[:11] + [base[11][:-1]], base[:11] + [base[11] + [0]]]
    for t, columns in zip((4, 3, 2, 1, 1, 1), ragged):
        yield case(LENGTH, columns, spoiled, due=(1, t))
    long = [[0] * 1025] * 2 + [[0] * 4097] * 4 + [[0] * 513] * 2 + [[0] * 1025] * 4
    for t, n in ((1, 0), (2, 2), (3, 6), (4, 8)):
        yield case(LENGTH, [[] if k < n or n and k == 11 else c for k, c in enumerate(long)], spoiled, due=(2, t))
    for length in (0, LONGEST + 1, NONE):
        yield case(length, changed(base, (1, 2, 1)), spoiled, due=(3, 0))
    yield case(LENGTH, changed(base, (1, 2, 1), (3, 0, 99)), spoiled, due=(4, 2))
    yield case(LENGTH, changed(base, (3, 1, 99)), spoiled, due=(5, 1))
    yield case(LENGTH, exchanged(base, (2, 3, 4, 5), 0, 1), spoiled, due=(6, 1))
    yield case(LENGTH, changed(base_of([(0, 1), (1, 2), (2, 3)], [(0, 5, 1, 0), (5, 9, 2, 0)]), (2, 1, 4)), spoiled, due=(7, 1))
    yield case(LENGTH, changed(base, (6, 5, 24)), spoiled, due=(8, 5))
    yield case(LENGTH, changed(base, (9, 1, 3)), spoiled, due=(9, 1))
    yield case(LENGTH, changed(base, (8, 1, 0), (9, 0, 0), (9, 1, 2)), spoiled, due=(10, 1))


def shapes(case):
    """20: each batch column one short and one long; behind nothing but the base."""
    base, batch = few()
    for t, own, _ in BATCH:
        for k in own:
            for cells in (batch[k][:-1], batch[k] + batch[k][:1]):
                yield case(LENGTH, base, batch[:k] + [cells] + batch[k + 1:], due=(20, t))
    ragged = copied(batch)
    for t, k in ((4, 8), (2, 3), (1, 9), (1, 0)):
        ragged[k] = []
        yield case(LENGTH, base, ragged, due=(20, t))
    # hides 21 and all after it
    yield case(LENGTH, base, [[0] * 1022] * 2 + [[0] * 5000] * 4 + [[0] * 1024] * 2 + [[0] * 1025, [0] * 1022], due=(20, 4))


def births(case):
    """22: in the base, earlier in the batch; hides 23."""
    base, batch = full()
    batch[2:9] = [[] for _ in range(7)]
    for i in (0, 1022):
        yield case(LENGTH, base, changed(batch, (1, i, 9000)), due=(22, i))
    for i, j in ((1, 0), (1022, 0), (1022, 1021)):
        yield case(LENGTH, base, changed(batch, (1, i, batch[1][j])), due=(22, i))
    yield case(LENGTH, base, changed(batch, (1, 1022, 9000), (1, 700, batch[1][699])), due=(22, 700))
    base, batch = few()
    yield case(LENGTH, base, changed(batch, (1, 2, 3), (2, 0, 24)), due=(22, 2))
    yield case(LENGTH, base, changed(batch, (1, 0, NONE)), due=(23, 0))


def edges(case):
    """23 and 24."""
    base, batch = full()
    yield case(LENGTH, base, batch, due=(0, 0))
    batch[6:9] = [[] for _ in range(3)]
    for i in (0, 4095):
        left, own = batch[2][i], batch[1].index(batch[5][i])
        for edit in ((5, i, 9000), (5, i, 8999), (4, i, 8999), (3, i, left), (3, i, LENGTH + 1), (2, i, LENGTH), (4, i, batch[5][i]),
                     (5, i, NONE), (4, i, NONE)):
            yield case(LENGTH, base, changed(batch, edit), due=(23, i))
        yield case(LENGTH, base, changed(batch, (0, own, NONE)), due=(23, min(k for k in range(4096) if batch[5][k] == batch[5][i])))
    # the same child's first edge, drawn over its later one; the lowest later row of all
    again = [k for k in range(4096) if batch[5][k] == batch[5][4095]]
    yield case(LENGTH, base, changed(batch, (3, 4095, 24)), due=(0, 0))
    yield case(LENGTH, base, changed(batch, (2, 4095, batch[2][again[-2]])), due=(24, 4095))
    yield case(LENGTH, base, changed(batch, (3, again[0], LENGTH)), due=(24, again[1]))
    yield case(LENGTH, base, exchanged(changed(batch, (3, again[0], LENGTH)), (2, 3, 4, 5), again[0], 4095), due=(24, 4095))
    yield case(LENGTH, base, changed(batch, *[(k, 4095, batch[k][again[0]]) for k in (2, 3, 4, 5)]), due=(24, 4095))
    base, batch = few()
    yield case(LENGTH, base, batch, due=(0, 0))
    for i, p in ((2, 12), (3, 12), (0, 10), (0, 11), (1, 10)):
        yield case(LENGTH, base, changed(batch, (4, i, p)), due=(23, i))
    yield case(LENGTH, base, changed(batch, (2, 3, 11)), due=(24, 3))
    yield case(LENGTH, base, changed(batch, (5, 1, 10)), due=(24, 1))
    yield case(LENGTH, base, changed(batch, (5, 1, 10), (2, 3, 24)), due=(23, 3))
    # 24 hides 25
    yield case(LENGTH, base, changed(batch, (2, 3, 11), (6, 0, 6)), due=(24, 3))
    # over the base's edges of other children, no position is shared
    yield case(LENGTH, base, changed(batch, (4, 2, 3)), due=(0, 0))


def mutations(case):
    """25 and 26."""
    base, batch = full()
    batch[2:6] = [[] for _ in range(4)]
    for i in (0, 1023):
        for edit in ((6, i, 6), (6, i, NONE), (7, i, 9000), (7, i, 8999), (7, i, NONE)):
            yield case(LENGTH, base, changed(batch, edit), due=(25, i))
    base, batch = few()
    # 10 is above 12 to the left of 12, 11 to the right
    for rows, due in (([(1, 12, 1), (1, 10, 2)], (26, 1)), ([(1, 12, 1), (1, 11, 2)], (0, 0)), ([(4, 12, 1), (4, 10, 2)], (0, 0)),
                      ([(4, 12, 1), (4, 11, 2)], (26, 1)), ([(1, 12, 1), (4, 11, 2)], (0, 0)), ([(3, 12, 1), (3, 11, 2)], (26, 1)),
                      ([(4, 12, 1), (1, 12, 1), (1, 10, 2), (4, 11, 2)], (26, 2)), ([(1, 12, 1), (4, 12, 1), (4, 11, 2), (1, 10, 2)], (26, 2)),
                      ([(1, 12, 1), (1, 12, 2), (1, 12, 1)], (0, 0)), ([(1, 10, 1), (1, 12, 1), (1, 10, 1)], (26, 2)),
                      ([(1, 10, 1), (1, 10, 1), (1, 12, 1)], (0, 0)), ([(1, 12, 1), (1, 10, 2), (6, 10, 1)], (25, 2)),
                      ([(1, 12, 1), (1, 10, 2), (1, 3, 1)], (25, 2))):
        yield case(LENGTH, base, batch_of(list(zip(*batch[:2])), list(zip(*batch[2:6])), rows), due=due)
    # on a line through other births, at the last row
    line = [(200 - k, 100 + k) for k in range(200)]
    up = [(0, 24, 99 + k, 100 + k) for k in range(1, 200)]
    marks = [(k % 6, 100 + k, 1) for k in range(198)]
    yield case(LENGTH, base_of([], [], SITES), batch_of(line, up, marks + [(5, 299, 1), (5, 100, 1)]), due=(26, 199))
    yield case(LENGTH, base_of([], [], SITES), batch_of(line, up, [(5, 299, 1)] + marks), due=(26, 6))


def cases(case):
    for part in (base_first, shapes, births, edges, mutations):
        yield from part(case)


def limits(case):
    """Base and batch together at each limit, and one more; a batch of one row on a full base; L at its limit."""
    for n, m in ((1000, 24), (1023, 1), (1024, 0), (1, 1023), (0, 1024)):
        base = base_of([(1, k) for k in range(n)])
        batch = batch_of([(0, 5000 + k) for k in range(m)])
        yield case(LENGTH, base, batch, due=(0, 0))
        yield case(LENGTH, base, batch_of([(0, 5000 + k) for k in range(m + 1)]), due=(21, 1))
    old = [(3, 0)] + [(2, 1 + k) for k in range(500)]
    down = [(2 * (k // 500), 2 * (k // 500) + 1, 0, 1 + k % 500) for k in range(4096)]
    for n, m in ((4000, 96), (4095, 1), (4096, 0), (1, 4095)):
        young = [(1, 5000 + k) for k in range(500)]
        own = [(2 * (k // 500), 2 * (k // 500) + 1, (k * 7) % 501, 5000 + k % 500) for k in range(m + 1)]
        yield case(LENGTH, base_of(old, down[:n]), batch_of(young, own[:m]), due=(0, 0))
        yield case(LENGTH, base_of(old, down[:n]), batch_of(young, own), due=(21, 2))
    yield case(LENGTH, base_of(old), batch_of([(1, 5000)], [(0, 0, 0, 0)] * 4097, [(0, 1, 1)] * 1025), due=(21, 2))
    for n, m in ((1000, 24), (1023, 1), (1024, 0), (0, 1024)):
        sites = [(x, x % 256) for x in range(512)]
        base = base_of([(1, 1), (1, 2)], [], sites, [(k // 2, k % 2, k % 256) for k in range(n)])
        own = [((k * 5) % 512, 7 + k % 2, k % 256) for k in range(m + 1)]
        yield case(LONGEST, base, batch_of([(0, 7), (0, 8)], [], own[:m]), due=(0, 0))
        yield case(LONGEST, base, batch_of([(0, 7), (0, 8)], [], own), due=(21, 4))
    # 21 hides 22, and the lowest table of two is given
    yield case(LENGTH, base_of([(1, k) for k in range(1024)]), batch_of([(0, 0)]), due=(21, 1))
    yield case(LENGTH, base_of([(1, 1)]), batch_of([(0, k) for k in range(1024)], [(0, 0, 0, 0)] * 4097), due=(21, 1))
    top = base_of([(1, 1)], [], [(LONGEST - 1, 0)])
    for length, right, due in ((LONGEST, LONGEST, (0, 0)), (LONGEST, LONGEST + 1, (23, 0)), (LONGEST + 1, 5, (3, 0)),
                               (LONGEST - 1, 5, (8, 0))):
        yield case(length, top, batch_of([(0, 2)], [(0, right, 1, 2)], [(0, 2, 3)]), due=due)
