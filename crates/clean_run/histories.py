"""Histories for the cases of clean_run: random small ones, damaged ones, and large ones at or near the limits."""
import random

from second import LONGEST, MOST, NONE, TABLES, parents_at, too_old

# Populations, and what is done to their columns, are drawn by themselves: the rest of a history does not depend on them.
STOCKS = random.Random(106)
OTHERS = [k for k in range(13) if k != 11]


def stocks(n):
    """So many random populations, 0 and 65535 among them."""
    return [STOCKS.choice((0, 65535, STOCKS.randrange(65536), STOCKS.randrange(9))) for _ in range(n)]


def stock(row):
    """The population that a row of nodes gives, or one that goes by the birth number, so that a fish has the same in every table."""
    return row[2] if len(row) > 2 else (row[1] * 40503 % 65536, 65535, row[1] % 7, 0)[row[1] * 2654435761 // 65536 % 4]


def spoil(column):
    """At times a cell too few or too many in a column of populations, or another one."""
    way = STOCKS.randrange(40)
    if way == 0:
        column.append(STOCKS.randrange(65536))
    elif column and way == 1:
        column.pop()
    elif column and way < 6:
        column[STOCKS.randrange(len(column))] = STOCKS.randrange(65536)


def tables(nodes, edges, sites=(), mutations=(), samples=()):
    """Thirteen columns of rows; the edges are put into key order. A row of nodes is time, birth and, where it matters, population."""
    def key(e):
        return nodes[e[2]][0], nodes[e[2]][1], nodes[e[3]][1], e[0]
    rows = [(list(nodes), 2), (sorted(edges, key=key), 4), (list(sites), 2), (list(mutations), 3)]
    columns = [[r[k] for r in table] for table, width in rows for k in range(width)]
    return columns + [list(map(stock, nodes)), list(samples)]


def copied(columns):
    return [list(c) for c in columns]


def births(rng, n):
    """Different birth numbers: mostly small ones, with the least and the greatest of all among them at times."""
    if rng.random() < 0.7:
        return rng.sample(range(3 * n), n)
    return rng.sample([0, 1, NONE - 1, NONE] + rng.sample(range(2, NONE - 1), n), n)


def mutated(rng, columns, many, states=256):
    """Adds mutations in an order that rule 10 allows: any order if it is one, else the oldest node first."""
    time, rows = columns[0], []
    for s, x in enumerate(columns[6]):
        nodes = [rng.randrange(len(time)) for _ in range(many())]
        if too_old(parents_at(columns, x), nodes) is not None:
            nodes.sort(key=lambda u: -time[u])
        rows += [(s, u, rng.randrange(states)) for u in nodes]
    columns[8:11] = [[r[k] for r in rows] for k in range(3)]


def small(rng):
    """L and tables of 2 to 12 nodes: every child's chromosome is cut at random, and each piece has an older node or none above it."""
    n = rng.randint(2, 12)
    length = rng.choice([1, 2, 5, 10, 10, 10, 20, 200, LONGEST])
    oldest = rng.choice([2, 4, 8, 8, NONE])
    nodes = list(zip((rng.randint(0, oldest) for _ in range(n)), births(rng, n)))
    edges, rooted = [], rng.choice([0, 0.1, 0.4])
    for c in range(n):
        older = [p for p in range(n) if nodes[p][0] > nodes[c][0]]
        cuts = sorted({rng.randrange(length) for _ in range(rng.choice([0, 0, 1, 2, 4]))} | {0}) + [length]
        for l, r in zip(cuts, cuts[1:]):
            if older and rng.random() >= rooted:
                edges.append((l, r, rng.choice(older), c))
    positions = sorted({rng.randrange(length) for _ in range(rng.randint(0, 5))})
    sites = [(x, rng.randrange(256)) for x in positions]
    columns = tables(nodes, edges, sites)
    mutated(rng, columns, lambda: rng.choice([0, 1, 2, 4]))
    listed = [b for _, b in nodes]
    rng.shuffle(listed)
    columns[11:] = [stocks(n), listed[:rng.choice([0, 1, 2, 2, 3, 3, 4, 6, n])]]
    return length, columns


def damaged(rng, length, columns):
    """One to three random changes: a cell, a row exchanged with another, a row twice, a cell too few or too many, L; and the populations."""
    columns = copied(columns)
    for _ in range(rng.choice([1, 1, 2, 3])):
        k = rng.choice(OTHERS)
        column, way = columns[k], rng.randrange(24)
        i = rng.randrange(len(column)) if column else None
        if way == 0:
            length = rng.choice([0, max(length - 1, 0), LONGEST + 1, NONE])
        elif way == 1 and column:
            column.pop()
        elif way == 2:
            column.append(rng.randrange(12))
        elif 2 < way < 7 and column:
            table = next(t for t in TABLES if k in t)
            j = rng.randrange(len(column))
            if all(len(columns[c]) == len(column) for c in table):
                for c in table:
                    columns[c][i], columns[c][j] = columns[c][j], columns[c][i]
        elif 6 < way < 11 and column:
            column[i] = rng.choice(column)
        elif column and k in (7, 10):
            column[i] = rng.randrange(256)
        elif column:
            column[i] = rng.choice([column[i] + 1, max(column[i] - 1, 0), rng.randrange(13), NONE, length]) % (NONE + 1)
    spoil(columns[11])
    return length, columns


def breeding(rng, generations, size, cuts, length, sites=512, mutations=1024, listed=256):
    """Discrete generations of one size: each child has two parents in turns along its chromosome."""
    named, edges = rng.sample(range(60000), generations * size), []
    nodes = [(generations - 1 - u // size, b) for u, b in enumerate(named)]
    for c in range(size, generations * size):
        first = (c // size - 1) * size
        two = rng.sample(range(first, first + size), 2)
        ends = [0] + sorted(rng.sample(range(1, length), cuts)) + [length]
        edges += [(l, r, two[k % 2], c) for k, (l, r) in enumerate(zip(ends, ends[1:]))]
    columns = tables(nodes, edges, [(x, 65) for x in sorted(rng.sample(range(length), sites))])
    per = [mutations // max(sites, 1)] * sites
    mutated(rng, columns, lambda: per.pop(), 4)
    columns[11:] = [stocks(len(nodes)), [nodes[u][1] for u in rng.sample(range(len(nodes) - 300, len(nodes)), listed)]]
    return length, columns


def line(nodes, turns, samples=3):
    """A line of nodes with two samples hanging in turns below it, and a third below its top."""
    n = nodes - 3
    rows = [(k + 1, 10 + k) for k in range(n)] + [(0, 1), (0, 2), (0, 3)]
    edges = [(0, turns, k + 1, k) for k in range(n - 1)]
    edges += [(x, x + 1, 0, n + x % 2) for x in range(turns)] + [(0, turns, n - 1, n + 2)]
    return turns, tables(rows, edges, [(x, x) for x in range(min(turns, 200))], [(0, k, 1) for k in reversed(range(n))],
                         [1, 2, 3][:samples])


def one_parent(children, parts):
    """All edges are of one parent; a gap stands after each."""
    rows = [(0, c) for c in range(children)] + [(1, 5000)]
    edges = [(3 * k, 3 * k + 2, children, c) for c in range(children) for k in range(parts)]
    return 3 * parts, tables(rows, edges, [(0, 0)], [(0, c, c % 256) for c in range(children)], range(0, children, 4))


def one_child(parents, parts):
    """All edges are of one child, which has another parent in each part; the parents' rows are in no order."""
    rows = [(0, 9000)] + [(1 + k % 2, (k * 677) % 7919) for k in range(parents)]
    edges = [(3 * k, 3 * k + 2, 1 + k % parents, 0) for k in range(parts)]
    listed = [9000] + [b for _, b in rows[1:MOST[4]]]
    return 3 * parts, tables(rows, edges, [(1, 1)], [(0, 0, 2)], listed)


def ladder(turns, more):
    """An edge that comes and goes makes four output edges each time: a under v and then under p, b under v, v under p."""
    rows = [(0, 1), (0, 2), (1, 3), (2, 4)] + [(0, 5 + k) for k in range(more)]
    length = 2 * turns
    edges = [(0, length, 2, 0), (0, length, 3, 2)] + [(2 * k, 2 * k + 1, 2, 1) for k in range(turns)]
    edges += [(0, length, 3, 4 + k) for k in range(more)]
    return length, tables(rows, edges, [], [], [1, 2] + [5 + k for k in range(more)])
