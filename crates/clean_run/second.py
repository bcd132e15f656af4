"""A second check and a second cleaner, written from 01 alone, for the cases of clean_run and show_run.

The cleaner is 000's Algorithm S: ancestral segments of each node, youngest node first. A sample's segment is the whole
chromosome under its own name, so that a sample above a sample gets its edge and hides the lower one from what is above.

Tables are a list of thirteen columns: time, birth, left, right, parent, child, position, ancestral, site, node, derived, population,
samples.
"""
import bisect
import heapq

MOST = [1024, 4096, 512, 1024, 256]
TABLES = [[0, 1, 11], [2, 3, 4, 5], [6, 7], [8, 9, 10], [12]]
LONGEST = 1073741824
NONE = 4294967295


def parents_at(columns, x):
    """The parent of each node that has one at position x."""
    return {c: p for l, r, p, c in zip(*columns[2:6]) if l <= x < r}


def too_old(parents, nodes):
    """The first place in a list of nodes whose node is a proper ancestor of one before it."""
    barred = set()
    for i, u in enumerate(nodes):
        if u in barred:
            return i
        while u in parents:
            u = parents[u]
            barred.add(u)
    return None


def check(length, columns):
    """01's number and row, 1 to 12; (0, 0) where there is no refusal."""
    time, birth, left, right, parent, child, position, ancestral, site, node, derived, population, samples = columns
    for t, table in enumerate(TABLES):
        if len({len(columns[c]) for c in table}) > 1:
            return 1, t + 1
    for t, table in enumerate(TABLES):
        if len(columns[table[0]]) > MOST[t]:
            return 2, t + 1
    if length == 0 or length > LONGEST:
        return 3, 0
    seen = set()
    for i, b in enumerate(birth):
        if b in seen:
            return 4, i
        seen.add(b)
    for i, (l, r, p, c) in enumerate(zip(left, right, parent, child)):
        if p >= len(time) or c >= len(time) or l >= r or r > length or time[p] <= time[c]:
            return 5, i
    keys = [(time[p], birth[p], birth[c], l) for l, p, c in zip(left, parent, child)]
    for i in range(1, len(keys)):
        if keys[i] <= keys[i - 1]:
            return 6, i
    taken = {}
    for i, (l, r, c) in enumerate(zip(left, right, child)):
        if any(l < b and a < r for a, b in taken.get(c, [])):
            return 7, i
        taken.setdefault(c, []).append((l, r))
    for i, x in enumerate(position):
        if x >= length or (i > 0 and x <= position[i - 1]):
            return 8, i
    for i, (s, u) in enumerate(zip(site, node)):
        if s >= len(position) or u >= len(time) or (i > 0 and s < site[i - 1]):
            return 9, i
    for s in sorted(set(site)):
        i = too_old(parents_at(columns, position[s]), [u for t, u in zip(site, node) if t == s])
        if i is not None:
            return 10, site.index(s) + i
    for i, b in enumerate(samples):
        if b not in seen:
            return 11, i
    for i, b in enumerate(samples):
        if b in samples[:i]:
            return 12, i
    return 0, 0


def pieces(lines, l, r):
    """The parts within [l, r) of segments that are in order."""
    for a, b, v in lines[max(bisect.bisect_right(lines, (l, NONE + 1, 0)) - 1, 0):]:
        if a >= r:
            return
        if b > l:
            yield max(a, l), min(b, r), v


def segments(length, time, edges, sampled):
    """The ancestral segments of every node, and every piece of a standing node's edges, as Algorithm S finds them."""
    below = [[] for _ in time]
    for l, r, p, c in edges:
        below[p].append((l, r, c))
    lines, found = [None] * len(time), []
    for u in sorted(range(len(time)), key=lambda u: time[u]):
        queue = [piece for l, r, c in below[u] for piece in pieces(lines[c], l, r)]
        heapq.heapify(queue)
        own = []
        while queue:
            l, here = queue[0][0], []
            while queue and queue[0][0] == l:
                here.append(heapq.heappop(queue))
            r = min([b for _, b, _ in here] + [a for a, _, _ in queue[:1]])
            for _, b, v in here:
                if r < b:
                    heapq.heappush(queue, (r, b, v))
            if u in sampled or len(here) > 1:
                found.extend((l, r, u, v) for _, _, v in here)
                own.append((l, r, u))
            else:
                own.append((l, r, here[0][2]))
        lines[u] = [(0, length, u)] if u in sampled else own
    return lines, found


def clean(length, columns):
    """The thirteen result columns, the node map last, of tables that pass the check."""
    time, birth, left, right, parent, child, position, ancestral, site, node, derived, population, samples = columns
    named = {b: i for i, b in enumerate(birth)}
    listed = [named[b] for b in samples]
    lines, found = segments(length, time, zip(left, right, parent, child), set(listed))
    others = {p for _, _, p, _ in found} - set(listed)
    kept = listed + sorted(others, key=lambda u: (time[u], birth[u]))
    row = {u: i for i, u in enumerate(kept)}
    edges = []
    for l, r, p, c in sorted(found, key=lambda f: (time[f[2]], birth[f[2]], birth[f[3]], f[0])):
        if edges and edges[-1][1:] == [l, p, c]:
            edges[-1][1] = r
        else:
            edges.append([l, r, p, c])
    moved = []
    for s, u, d in zip(site, node, derived):
        moved += [(s, row[v], d) for _, _, v in pieces(lines[u], position[s], position[s] + 1)]
    out = [[time[u] for u in kept], [birth[u] for u in kept]]
    out += [[e[0] for e in edges], [e[1] for e in edges], [row[e[2]] for e in edges], [row[e[3]] for e in edges]]
    out += [list(position), list(ancestral)]
    out += [[m[k] for m in moved] for k in range(3)]
    return out + [[population[u] for u in kept], [row.get(u, NONE) for u in range(len(time))]]


def answer(length, columns, lent):
    """Number, row, the four counts and the result columns (none after a refusal), for output columns of the lent lengths."""
    nothing = [0] * 4, [[] for _ in range(13)]
    number, row = check(length, columns)
    if number:
        return (number, row) + nothing
    out = clean(length, columns)
    for t, table in enumerate(TABLES):
        rows = len(out[table[0]])
        if rows > min(lent[c] for c in table) or (t == 1 and rows > MOST[1]):
            return (13, 6 if t == 4 else t + 1) + nothing
    return 0, 0, [len(out[table[0]]) for table in TABLES[:4]], out
