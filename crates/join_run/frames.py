"""How cases of joins are written: the numbers in few bytes, the columns, and the end of a group."""
import struct

from histories import stock, tables


def packed(v):
    if v < 254:
        return bytes([v])
    return b'\xfe' + struct.pack('<H', v) if v < 65536 else b'\xff' + struct.pack('<I', v)


def framed(states, numbers, kind=1):
    """The bytes of a case."""
    body = states + b''.join(map(packed, numbers))
    assert len(numbers) <= 65536 and len(body) <= 262144
    return struct.pack('<4I', kind, len(body), len(states), len(numbers)) + body


def placed(columns, bytes_at, start, states, cells):
    """Start and length of each column; those of states go to states, the others to cells, which stand from start on."""
    places = []
    for k, column in enumerate(columns):
        if k in bytes_at:
            places += [len(states), len(column)]
            states += bytes(column)
        else:
            places += [start + len(cells), len(column)]
            cells += column
    return places


def batch_of(nodes, edges=(), mutations=()):
    """The ten columns of a batch, rows as they come; a row of nodes may give its population."""
    columns = [[r[k] for r in rows] for rows, width in ((nodes, 2), (edges, 4), (mutations, 3)) for k in range(width)]
    return columns + [list(map(stock, nodes))]


def base_of(nodes, edges=(), sites=(), mutations=()):
    return tables(nodes, edges, sites, mutations)[:12]


def ended(name, cases):
    """The bytes of a group and its end."""
    return b''.join(cases) + struct.pack('<4I', 0, len(name), 0, 0) + name.encode()
