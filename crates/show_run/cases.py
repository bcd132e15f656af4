#!/usr/bin/env python3
"""Makes crates/show_run/stdin: stored files with the text that the listing program has to print for each, said by a reader and a
printer written here from 01 alone, over the second cleaner of clean_run.

    python3 crates/show_run/cases.py > crates/show_run/stdin

A case is three little-endian words (kind: 0 ends a group and holds its name; the lengths of file and text), the file and the text.
"""
import os
import random
import struct
import sys

sys.path.insert(0, os.path.join(os.path.dirname(os.path.abspath(__file__)), '..', 'clean_run'))
sys.dont_write_bytecode = True
import histories
from histories import tables
from second import LONGEST, NONE, answer

# mark, most rows, widths of the fields, the columns that they fill; no field fills that of the populations, 11
KINDS = [(b'SA', 256, '<I', [12]), (b'ND', 1024, '<II', [0, 1]), (b'ED', 4096, '<IIHH', [2, 3, 4, 5]),
         (b'SI', 512, '<IB', [6, 7]), (b'MU', 1024, '<HHB', [8, 9, 10])]
ROOM = [1024] * 2 + [4096] * 4 + [512] * 2 + [1024] * 5


def stored(length, columns):
    """The file of these tables but their populations, or nothing where a row number is too wide or columns differ in length."""
    out = b'SQ' + struct.pack('<I', length)
    for mark, _, form, ks in KINDS:
        if len({len(columns[k]) for k in ks}) > 1:
            return None
        for row in zip(*(columns[k] for k in ks)):
            if any(v > 65535 for v, f in zip(row, form[1:]) if f == 'H'):
                return None
            out += mark + struct.pack(form, *row)
    return out + b'EN'


def read(s):
    """L and the columns, each population 0, or number and row of the refusal."""
    columns, at, stage = [[] for _ in range(13)], 0, -1
    while True:
        mark = s[at:at + 2]
        if len(mark) < 2:
            return 32, at
        if stage == -1:
            if mark != b'SQ':
                return 31, at
            if len(s) < 6:
                return 32, at
            length, at, stage = struct.unpack_from('<I', s, 2)[0], 6, 0
            continue
        if mark == b'EN':
            columns[11] = [0] * len(columns[0])
            return (33, at + 2) if len(s) > at + 2 else (0, length, columns)
        kind = next((k for k in range(stage, 5) if KINDS[k][0] == mark), None)
        if kind is None:
            return 31, at
        stage, (_, most, form, ks) = kind, KINDS[kind]
        if len(columns[ks[0]]) == most:
            return 34, at
        if len(s) < at + 2 + struct.calcsize(form):
            return 32, at
        for k, v in zip(ks, struct.unpack_from(form, s, at + 2)):
            columns[k].append(v)
        at += 2 + struct.calcsize(form)


def printed(s):
    """What the program prints for these bytes."""
    if len(s) > 65536:
        return 'too long\n'
    got = read(s)
    if got[0]:
        return 'refused %d %d\n' % got
    number, row, _, out = answer(got[1], got[2], ROOM)
    if number:
        return 'refused %d %d\n' % (number, row)
    lines = ['Q %d' % got[1]]
    lines += ['N %d %d %d %d' % (i, t, b, p) for i, (t, b, p) in enumerate(zip(out[0], out[1], out[11]))]
    lines += ['E %d %d %d %d' % e for e in zip(*out[2:6])]
    lines += ['S %d %d' % s for s in zip(*out[6:8])]
    lines += ['M %d %d %d' % m for m in zip(*out[8:11])]
    lines += ['X %d %s' % (i, '-' if v == NONE else v) for i, v in enumerate(out[12])]
    return '\n'.join(lines) + '\n'


LISTING = 10, tables([(0, 501), (0, 502), (1, 401), (2, 301), (3, 201)],
                     [(0, 10, 2, 0), (4, 6, 2, 1), (0, 10, 3, 2), (0, 4, 3, 1), (6, 10, 3, 1), (0, 10, 4, 3)],
                     [(5, 65), (8, 67)], [(0, 3, 84), (1, 4, 84), (1, 2, 71)], [501, 502])


def plain():
    """Tables that are not refused, the smallest first."""
    yield stored(*LISTING)
    for length in (1, 10, LONGEST):
        yield stored(length, tables([], []))
    yield stored(10, tables([(0, 7)], [], [], [], [7]))
    yield stored(10, tables([(NONE, NONE)], [], [(9, 255)], [(0, 0, 0)], [NONE]))
    yield stored(10, tables([(0, 7)], [], [(0, 1)], [(0, 0, 2)]))
    yield stored(LONGEST, tables([(0, 1), (NONE, 2)], [(0, LONGEST, 1, 0)], [(LONGEST - 1, 0)], [(0, 1, 3)], [2, 1]))
    yield stored(10, tables([(0, 1), (5, 2)], [(0, 4, 1, 0), (4, 10, 1, 0)], [], [], [1, 2]))
    yield stored(10, tables([(0, 1), (5, 2), (1, 3), (2, 4)],
                            [(0, 4, 2, 0), (4, 10, 3, 0), (0, 10, 1, 2), (0, 10, 1, 3)], [], [], [1, 2]))
    yield stored(10, tables([(0, 1), (1, 2)], [(0, 10, 1, 0)], [(3, 0)], [(0, 1 - k // 512, k % 256) for k in range(1024)], [1]))
    yield stored(*histories.line(1024, 5))
    yield stored(*histories.line(300, 900, 2))
    yield stored(*histories.ladder(1023, 4))


def refused():
    """Each refusal that a file can lead to."""
    length, columns = LISTING
    yield stored(0, columns)
    yield stored(LONGEST + 1, columns)
    for k, i, v in ((1, 1, 501), (3, 5, 11), (0, 4, 2), (4, 0, 5), (4, 0, 65535), (2, 1, 6), (3, 3, 5), (6, 1, 5), (6, 1, 10),
                    (8, 0, 2), (8, 0, 65535), (9, 2, 9), (8, 1, 0), (9, 2, 4), (12, 1, 500), (12, 1, 501)):
        edited = histories.copied(columns)
        edited[k][i] = v
        yield stored(length, edited)
    edited = histories.copied(columns)
    for k in (2, 3, 4, 5):
        edited[k][0], edited[k][1] = edited[k][1], edited[k][0]
    yield stored(length, edited)
    edited = histories.copied(columns)
    edited[9][1], edited[9][2] = edited[9][2], edited[9][1]
    yield stored(length, edited)
    yield stored(*histories.ladder(1023, 5))
    whole = stored(length, columns)
    yield from (b'', b'S', b'EN', whole + b'\n', whole + b'EN', whole[:-1], whole[:-2], whole[:-3], b'X' + whole)
    yield b'SQ' + bytes(4) + b'SA\x00\x00\x00\x00' * 257 + b'EN'
    for mark, most, form, _ in KINDS:
        yield b'SQ' + bytes(4) + (mark + bytes(struct.calcsize(form))) * most + mark


def long():
    """Files of 65,536 bytes, and of one more."""
    length, columns = histories.one_child(599, 4096)
    columns[6:11] = [list(range(40)), list(range(40)), [k // 2 for k in range(56)], [0] * 56, list(range(56))]
    columns[12] = columns[12][:252]
    whole = stored(length, columns)
    assert len(whole) == 65536 and printed(whole).startswith('Q ')
    yield whole
    yield whole + b'\n'
    yield bytes(65536)
    yield bytes(65537)
    yield stored(*LISTING) + bytes(65536 - len(stored(*LISTING)))


def chance(rng, n):
    """Random histories, and some of them damaged as tables or as bytes."""
    for k in range(n):
        length, columns = histories.small(rng)
        if k % 3 == 1:
            length, columns = histories.damaged(rng, length, columns)
        whole = stored(length, columns)
        if whole is None:
            continue
        if k % 3 == 2:
            i = rng.randrange(len(whole))
            whole = rng.choice([whole[:i], whole[:i] + bytes([rng.randrange(256)]) + whole[i + 1:]])
        yield whole


def main():
    assert printed(stored(*LISTING)).split('\n')[5:7] == ['E 4 6 2 0', 'E 4 6 2 1']
    groups = [('tables that are not refused', plain()), ('refusals', refused()), ('long files', long()),
              ('random files', chance(random.Random(65536), 600))]
    for name, files in groups:
        for s in files:
            text = printed(s).encode()
            sys.stdout.buffer.write(struct.pack('<3I', 1, len(s), len(text)) + s + text)
        sys.stdout.buffer.write(struct.pack('<3I', 0, len(name), 0) + name.encode())


main()
