"""A second join, written from 01 alone, for the cases of join_run and history_run.

A base is twelve columns: time, birth, left, right, parent, child, position, ancestral, site, node, derived, population. A batch is ten:
time, birth, left, right, parent birth, child birth, site, node birth, derived, population. The base's check is that of clean_run's
second.py.
"""
import os
import sys

sys.path.insert(0, os.path.join(os.path.dirname(os.path.abspath(__file__)), '..', 'clean_run'))
sys.dont_write_bytecode = True
from second import MOST, TABLES, check, too_old

# columns of each batch table, with its number and the table of the base that it goes into
BATCH = [(1, [0, 1, 9], TABLES[0]), (2, [2, 3, 4, 5], TABLES[1]), (4, [6, 7, 8], TABLES[3])]


def check_batch(length, base, batch):
    """01's number and row, 20 to 26; (0, 0) where there is no refusal. The base is sound."""
    time, birth, left, right, parent, child, site, node, derived, population = batch
    for t, own, _ in BATCH:
        if len({len(batch[k]) for k in own}) > 1:
            return 20, t
    for t, own, into in BATCH:
        if len(batch[own[0]]) + len(base[into[0]]) > MOST[t - 1]:
            return 21, t
    ages = dict(zip(base[1], base[0]))
    for i, b in enumerate(birth):
        if b in ages or b in birth[:i]:
            return 22, i
    young = dict(zip(birth, time))
    ages.update(young)
    for i, (l, r, p, c) in enumerate(zip(left, right, parent, child)):
        if c not in young or p not in ages or l >= r or r > length or ages[p] <= young[c]:
            return 23, i
    taken = {}
    for i, (l, r, c) in enumerate(zip(left, right, child)):
        if any(a < r and l < b for a, b in taken.get(c, [])):
            return 24, i
        taken.setdefault(c, []).append((l, r))
    for i, (s, u) in enumerate(zip(site, node)):
        if s >= len(base[6]) or u not in young:
            return 25, i
    above = []
    for s in set(site):
        x = base[6][s]
        rows = [i for i in range(len(site)) if site[i] == s]
        parents = {c: p for l, r, p, c in zip(left, right, parent, child) if l <= x < r}
        bad = too_old(parents, [node[i] for i in rows])
        if bad is not None:
            above.append(rows[bad])
    return (26, min(above)) if above else (0, 0)


def join(base, batch):
    """The twelve columns of the result, of a base and a batch that pass the check."""
    time, birth = base[0] + batch[0], base[1] + batch[1]
    row = {b: i for i, b in enumerate(birth)}
    edges = list(zip(*base[2:6]))
    edges += [(l, r, row[p], row[c]) for l, r, p, c in zip(*batch[2:6])]
    edges.sort(key=lambda e: (time[e[2]], birth[e[2]], birth[e[3]], e[0]))
    mutations = list(zip(*base[8:11]))
    mutations += [(s, row[u], d) for s, u, d in zip(*batch[6:9])]
    mutations.sort(key=lambda m: m[0])
    out = [time, birth] + [[e[k] for e in edges] for k in range(4)] + [list(base[6]), list(base[7])]
    return out + [[m[k] for m in mutations] for k in range(3)] + [base[11] + batch[9]]


def answer(length, base, batch, lent):
    """Number, row, the four counts and the result columns (none after a refusal), for output columns of the lent lengths."""
    nothing = [0] * 4, [[] for _ in range(12)]
    number, row = check(length, base + [[]])
    if not number:
        number, row = check_batch(length, base, batch)
    if number:
        return (number, row) + nothing
    out = join(base, batch)
    for t, table in enumerate(TABLES[:4]):
        if len(out[table[0]]) > min(lent[c] for c in table):
            return (13, t + 1) + nothing
    return 0, 0, [len(out[table[0]]) for table in TABLES[:4]], out
