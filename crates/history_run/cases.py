#!/usr/bin/env python3
"""Makes crates/history_run/stdin: whole histories of joins and cleanings, with the end that the second join (join_run/joining.py) and
the second cleaner (clean_run/second.py) come to where only the end is cleaned.

    python3 crates/history_run/cases.py > crates/history_run/stdin

A history is a case as in join_run; its numbers: L; how many steps; start and length of the twelve columns of the start record and of
the twelve due; for each step 21 cells, its kind (1 join, 2 clean, 3 the last cleaning) and start and length of its columns (ten of a
batch, one of a list); then the columns. The program runs it twice, with every cleaning and with only the last.

It must be able to fail, and does: in the second group every cleaning leaves out one fish that is named later, so demand 3's premise is
broken. Of these 40 histories 18 ended in a join refused with 23 (the parent was no longer in the record), 2 in a last cleaning refused
with 11, and in 20 no call was refused and the two ends differ. Histories that come out right in spite of it are passed over.
"""
import os
import random
import sys

sys.path.insert(0, os.path.join(os.path.dirname(os.path.abspath(__file__)), '..', 'join_run'))
sys.dont_write_bytecode = True
from joining import check_batch, join
from frames import batch_of, ended, framed, placed
from histories import stocks, tables
from second import LONGEST, MOST, check, clean

JOIN, CLEAN, LAST = 1, 2, 3


def case(length, start, steps, due):
    """A history's bytes."""
    states, cells, first = bytearray(), [], 50 + 21 * len(steps)
    numbers = placed(start, (7, 10), first, states, cells) + placed(due, (7, 10), first, states, cells)
    for kind, columns in steps:
        places = placed(columns, (8,), first, states, cells)
        numbers += [kind] + places + [0] * (20 - len(places))
    return framed(bytes(states), [length, len(steps)] + numbers + cells)


def run(length, start, steps, every):
    """The twelve columns at the end, or nothing where a step is refused."""
    record = start
    for kind, columns in steps:
        if kind == JOIN:
            if check_batch(length, record, columns) != (0, 0):
                return None
            record = join(record, columns)
        elif every or kind == LAST:
            if check(length, record + columns) != (0, 0):
                return None
            record = clean(length, record + columns)[:12]
        assert all(len(record[k]) <= MOST[t] for t, k in enumerate((0, 2, 6, 8)))
    return record


def cut(rng, length, most):
    """A chromosome's ends and a few cuts between them."""
    return sorted({rng.randrange(length) for _ in range(rng.randint(0, most))} | {0}) + [length]


def born(rng, length, time, births, olds, sites):
    """A batch of births at one time or two: each has up to three parents along its chromosome, among older fish, or a gap."""
    ages, nodes, edges, mutations = dict(olds), [], [], []
    for b in births:
        nodes.append((time - (rng.random() < 0.25), b))
    nodes.sort(key=lambda n: -n[0])
    for t, b in nodes:
        older = sorted(p for p, u in ages.items() if u > t)
        ends = cut(rng, length, 2)
        edges += [(l, r, rng.choice(older), b) for l, r in zip(ends, ends[1:]) if rng.random() < 0.95]
        ages[b] = t
    for t, b in nodes:
        mutations += [(rng.randrange(sites), b, rng.randrange(256)) for _ in range(rng.choice([0, 0, 1, 2]))]
    shuffled = list(nodes)
    rng.shuffle(shuffled)
    rng.shuffle(edges)
    batch = batch_of(shuffled, edges, mutations)
    batch[9] = stocks(len(shuffled))
    return batch


def history(rng):
    """L, a start record and the batches of 3 to 8 generations, and a last list."""
    length = rng.choice([5, 20, 20, 200, LONGEST])
    generations, size = rng.randint(3, 8), rng.randint(2, 6)
    names = rng.sample(range(250), 1 + size * (generations + 1))
    positions = sorted(rng.sample(range(length), min(length, rng.randint(1, 5))))
    first = [(100, b) for b in names[:size]] + [(120, names[-1])]
    above = [(0, rng.randint(1, length), size, u) for u in range(size) if rng.random() < 0.5]
    marks = [(s, u, rng.randrange(256)) for s in range(len(positions)) for u in (size, rng.randrange(size)) if rng.random() < 0.4]
    start = tables(first, above, [(x, rng.randrange(256)) for x in positions], marks)[:12]
    start[11] = stocks(len(first))
    live, batches = {b: t for t, b in first}, []
    for g in range(1, generations + 1):
        births = names[g * size:(g + 1) * size]
        batches.append(born(rng, length, 100 - 3 * g, births, live, len(positions)))
        live.update(zip(batches[-1][1], batches[-1][0]))
        # few fish of earlier generations go on breeding
        for b in list(live):
            if b not in births and rng.random() < 0.5:
                del live[b]
    every = names[:size] + [b for batch in batches for b in batch[1]]
    last = rng.sample(sorted(live), min(len(live), rng.randint(1, 6))) + rng.sample(every, rng.choice([0, 0, 1, 2]))
    return length, start, batches, list(dict.fromkeys(last))


def steps_of(rng, length, start, batches, last, forget=False):
    """The steps, with cleanings at random times that list every fish then in the record that is named later, and some others."""
    steps, record = [], start
    for i, batch in enumerate(batches):
        steps.append((JOIN, batch))
        if record is None or check_batch(length, record, batch) != (0, 0):
            record = None
            continue
        record = join(record, batch)
        if rng.random() < 0.6:
            named = {p for later in batches[i + 1:] for p in later[4]} | set(last)
            listed = [b for b in record[1] if b in named]
            if forget and listed:
                listed.remove(rng.choice(listed))
            listed += [b for b in record[1] if b not in named and rng.random() < 0.15]
            rng.shuffle(listed)
            steps.append((CLEAN, [listed]))
            record = clean(length, record + [listed])[:12]
    return steps + [(LAST, [last])]


def whole(rng, n):
    """Histories whose two ends are one."""
    for _ in range(n):
        length, start, batches, last = history(rng)
        steps = steps_of(rng, length, start, batches, last)
        due = run(length, start, steps, False)
        assert due is not None and due == run(length, start, steps, True)
        yield case(length, start, steps, due)


def broken(rng, n):
    """Histories in which cleanings leave out a fish that is named later: n that are refused, and n with two ends."""
    refused, apart = n, n
    while refused + apart:
        length, start, batches, last = history(rng)
        steps = steps_of(rng, length, start, batches, last, forget=True)
        due = run(length, start, steps, False)
        seen = run(length, start, steps, True)
        if seen is None and refused:
            refused -= 1
        elif seen is not None and seen != due and apart:
            apart -= 1
        else:
            continue
        yield case(length, start, steps, due)


def main():
    rng = random.Random(20261117)
    for name, cases in (('every named fish is listed', whole(rng, 400)), ('one is left out', broken(rng, 20))):
        sys.stdout.buffer.write(ended(name, cases))


if __name__ == '__main__':
    main()
