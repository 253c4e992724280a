"""The cells of a group's two tables, and the bytes that tell plan_cases to make them, as crates/shown/src/coded.rt takes them."""

import struct

from planner import FORBIDDEN, MOST_CELL

# where plan_cases takes the cells from: the group before, codes, or a generator; and by how much the source is more where weights are given
KEPT, CODES, GENERATOR = 1, 2, 3
WEIGHED = 4

# the cells that a code from 240 on stands for
SPECIAL = [
    1048575,
    1048576,
    4294967295,
    4294967294,
    1048574,
    2147483648,
    2147483647,
    16777216,
    65536,
    65535,
    1000000,
    524288,
    262143,
    4096,
    1000,
    256,
]
CODE = dict([(k, k) for k in range(240)] + [(cell, 240 + k) for k, cell in enumerate(SPECIAL)])
LEGAL = [cell for cell in SPECIAL if cell <= MOST_CELL]

# each of a generator's numbers is the one before it times this, modulo this
MULTIPLIED, PRIME = 48271, 2 ** 31 - 1


class Cells:
    """Both tables, their source, and the bytes that stand for them in the input."""

    def __init__(self, source, told, rates, distortions):
        self.source, self.told, self.rates, self.distortions = source, told, rates, distortions


def kept(before):
    """The tables of the group before."""
    return Cells(KEPT, b"", before.rates, before.distortions)


def coded(rates, distortions):
    """A byte for each cell."""
    return Cells(CODES, bytes(CODE[c] for c in rates + distortions), rates, distortions)


def generated(lengths, rates, distortions):
    """Each table by its seed, base, span and forbid."""
    told = struct.pack("<8Q", *rates, *distortions)
    return Cells(GENERATOR, told, stream(lengths[0], *rates), stream(lengths[1], *distortions))


def stream(size, seed, base, span, forbid):
    """A generator's cells, as crates/shown/src/stream.rt draws them."""
    x, out = seed % PRIME, []
    for _ in range(size):
        x = x * MULTIPLIED % PRIME
        out.append(FORBIDDEN if forbid and x % forbid == 0 else base + x % span)
    return out


def seed_of(k, x):
    """The seed with which a generator draws cell k from the number x."""
    return x * pow(MULTIPLIED, -(k + 1), PRIME) % PRIME


def illegal_at(k, forbid=0, opened=()):
    """A generator of which cell k is over the range, as the first, and the opened cells are not forbidden. A cell is 1 to 1,048,576, by a
    number's remainder modulo 1,048,576."""
    over = MOST_CELL + 1
    for turn in range(PRIME // over):
        made = (seed_of(k, MOST_CELL + turn * over), 1, over, forbid)
        cells = stream(max((k, *opened)) + 1, *made)
        legal = all(cell <= MOST_CELL or cell == FORBIDDEN for cell in cells[:k])
        if legal and cells[k] == over and all(cells[j] != FORBIDDEN for j in opened):
            return made
    raise AssertionError("no seed for cell %d" % k)


def legal_at(k, forbid):
    """A generator of small cells of which cell k is not forbidden."""
    return next(made for made in ((seed, 0, 1000, forbid) for seed in range(1, 100)) if stream(k + 1, *made)[k] != FORBIDDEN)
