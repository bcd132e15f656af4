#!/usr/bin/env python3
"""Makes crates/stored_run/stdin: cases for the stored form with what a second reader, written here from 01 alone, says of each.

A case is a head of 17 little-endian words and the bytes: kind (0 ends a group and holds its name, 1 reads into room for
every limit, 2 and 3 into a few rows), the number of bytes, six unused, then number, row, L, rows of tables 1 to 5 and a number
for all lent cells. The population, the last column of the nodes, has no field: it is 0 in each row read.
"""
import struct
import sys

MARKS = [b'SA', b'ND', b'ED', b'SI', b'MU']
FIELDS = {b'SA': [4], b'ND': [4, 4], b'ED': [4, 4, 2, 2], b'SI': [4, 1], b'MU': [2, 2, 1]}
MOST = {b'SA': 256, b'ND': 1024, b'ED': 4096, b'SI': 512, b'MU': 1024}
ROOM = {
    1: {b'SA': [256], b'ND': [1024, 1024, 1024], b'ED': [4096] * 4, b'SI': [512, 512], b'MU': [1024] * 3},
    2: {b'SA': [1], b'ND': [4, 3, 4], b'ED': [5, 5, 4, 5], b'SI': [2, 3], b'MU': [3, 3, 2]},
    3: {b'SA': [1], b'ND': [4, 4, 3], b'ED': [5, 5, 4, 5], b'SI': [2, 3], b'MU': [3, 3, 2]},
}
TABLES = [b'ND', b'ED', b'SI', b'MU', b'SA']


def read(s, room):
    """Record by record: (number, row, L, rows by mark)."""
    if len(s) < 2:
        return 32, 0, 0, None
    if s[:2] != b'SQ':
        return 31, 0, 0, None
    if len(s) < 6:
        return 32, 0, 0, None
    length = int.from_bytes(s[2:6], 'little')
    rows = {m: [] for m in MARKS}
    at, stage = 6, 0
    while True:
        if len(s) - at < 2:
            return 32, at, 0, None
        mark = s[at:at + 2]
        if mark == b'EN':
            if len(s) > at + 2:
                return 33, at + 2, 0, None
            break
        if mark not in MARKS or MARKS.index(mark) < stage:
            return 31, at, 0, None
        stage = MARKS.index(mark)
        if len(rows[mark]) == MOST[mark]:
            return 34, at, 0, None
        size = sum(FIELDS[mark])
        if len(s) - at - 2 < size:
            return 32, at, 0, None
        o, row = at + 2, []
        for w in FIELDS[mark]:
            row.append(int.from_bytes(s[o:o + w], 'little'))
            o += w
        rows[mark].append(row + [0] if mark == b'ND' else row)
        at = o
    for i, m in enumerate(TABLES):
        if len(rows[m]) > min(room[m]):
            return 13, i + 1, 0, None
    return 0, 0, length, rows


def case(kind, s):
    room = ROOM[kind]
    number, row, length, rows = read(s, room)
    fold, counts = 0, [0] * 5
    for i, m in enumerate(TABLES):
        if rows:
            counts[i] = len(rows[m])
        for j, n in enumerate(room[m]):
            for k in range(n):
                v = rows[m][k][j] if rows and k < len(rows[m]) else 7
                fold = fold % 4294967291 * 31 + v
    return struct.pack('<17I', kind, len(s), 0, 0, 0, 0, 0, 0, number, row, length, *counts, fold % 4294967291) + s


def record(mark, *values):
    return mark + b''.join(v.to_bytes(w, 'little') for v, w in zip(values, FIELDS[mark]))


def first(length):
    return b'SQ' + length.to_bytes(4, 'little')


def some(mark, n):
    return b''.join(record(mark, *((k + j) % 200 for j in range(len(FIELDS[mark])))) for k in range(n))


LISTING = [first(10)] + [record(b'SA', b) for b in (501, 502)]
LISTING += [record(b'ND', *r) for r in ((0, 501), (0, 502), (1, 401), (2, 301), (3, 201))]
LISTING += [record(b'ED', *r) for r in ((0, 10, 2, 0), (4, 6, 2, 1), (0, 10, 3, 2), (0, 4, 3, 1), (6, 10, 3, 1), (0, 10, 4, 3))]
LISTING += [record(b'SI', *r) for r in ((5, 65), (8, 67))]
LISTING += [record(b'MU', *r) for r in ((0, 3, 84), (1, 4, 84), (1, 2, 71))] + [b'EN']


def main():
    whole = b''.join(LISTING)
    out = []

    def group(name, cases):
        out.extend(case(k, s) for k, s in cases)
        out.append(struct.pack('<17I', 0, len(name), *[0] * 15) + name.encode())

    group('the empty file', [(1, b'')])
    group("the listing's input", [(1, whole)])
    group('cut at every length', [(1, whole[:n]) for n in range(len(whole))])
    group('a byte flipped', [(1, whole[:n] + bytes([whole[n] ^ f]) + whole[n + 1:]) for n in range(len(whole)) for f in (1, 255)])
    extra = [record(m, *[0] * len(FIELDS[m])) for m in MARKS] + [first(1), b'EN', b'S2', b'??', b'sa', b'E', b'\n']
    group('a mark at every place', [(1, b''.join(LISTING[:n]) + e + b''.join(LISTING[n:])) for n in range(len(LISTING) + 1) for e in extra])
    group('records left out', [(1, b''.join(LISTING[:n] + LISTING[n + 1:])) for n in range(len(LISTING))])
    ends = []
    for m in MARKS:
        ends.append((1, first(0) + some(m, MOST[m]) + b'EN'))
        ends.append((1, first(0) + some(m, MOST[m]) + m))
        ends.append((1, first(0) + some(m, MOST[m]) + m[:1]))
    ends.append((1, first(0) + some(b'SA', 257) + b'EN'))
    ends.append((1, first(0) + some(b'SA', 256) + some(b'ND', 1) + some(b'SA', 1)))
    ends.append((1, first(4294967295) + b''.join(some(m, MOST[m]) for m in MARKS) + b'EN'))
    group('limits', ends)
    group('bytes after EN', [(1, whole + e) for e in (b'\n', b'E', b'EN', whole)])
    fits = {b'SA': 1, b'ND': 3, b'ED': 4, b'SI': 2, b'MU': 2}
    close = [(kind, first(3) + b''.join(some(m, fits[m] + (1 if m in more else 0)) for m in MARKS) + b'EN')
             for kind in (2, 3) for more in [()] + [tuple(TABLES[i:]) for i in range(5)] + [(m,) for m in TABLES]]
    group('little room', close)
    group('no rows', [(1, first(0) + b'EN'), (1, first(1073741825) + b'EN'), (2, first(0) + b'EN'), (3, first(0) + b'EN')])
    sys.stdout.buffer.write(b''.join(out))


main()
