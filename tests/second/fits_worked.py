"""The worked tables with every budget that matters to them, and small legal tables of which something can be said by hand: where nothing is
allowed, where a beginning of less rate leads nowhere or to more, and sums and budgets of which fewer bits would say something else."""

from edges import TOP
from laws import LAWS
from plan_cells import coded, generated, kept
from plan_worked import T, U, V
from planner import FORBIDDEN, MOST_CELL

# budgets of which fewer bits are less than any plan of table T takes, and those that are not negative in more bits alone
WIDE = [2 ** w + 8 for w in (8, 12, 16, 20, 24, 30, 31, 48, 62)] + [2 ** w + low for w in (32, 63) for low in (-1, 0, 3, 8)] + [TOP - 8, TOP]


def worked(out):
    out.whole(*T[:3], coded(*T[3:]))
    out.whole(*U[:3], coded(*U[3:]))
    for rate in (0, 1, MOST_CELL - 1, MOST_CELL):
        out.whole(1, 1, 0, coded([rate], [MOST_CELL - rate]))
    out.group(*T[:3], coded(*T[3:]), WIDE)
    out.group(*U[:3], coded(*U[3:]), [2 ** w + 1 for w in (8, 16, 30, 31, 32, 48, 63)])


def under_laws(out):
    """Table V, of which each law has another least rate; then of 4 settings after each other one step alone open, with no way at any budget
    where the law rules it out."""
    made = coded(*V[3:])
    for law in LAWS:
        out.group(*V[:2], law, made, [4, 5, 6, 7, 8, 9, TOP])
        made = kept(made)
    for before, after in ((0, 2), (3, 1), (0, 3), (3, 0)):
        rates = [FORBIDDEN] * 20
        rates[before], rates[4 + 4 * before + after] = 1, 2
        made = coded(rates, [5] * 20)
        for law in LAWS:
            out.group(2, 4, law, made, [2, 3, TOP])
            made = kept(made)
    # the law asks nothing of scan 0
    for setting in (0, 2, 3, 15):
        out.group(1, 16, 1 + setting % 2, coded([FORBIDDEN if q != setting else 4 for q in range(16)], [0] * 16), [3, 4])


# Nothing is allowed


CLOSED = [0, 9, 2 ** 32 - 1, 2 ** 32 + 9, 2 ** 34, TOP]


def none_at_all(out):
    """No at any budget: a scan all forbidden, the first, one between or the last; or scans that do not meet."""
    out.group(*T[:3], coded(T[3][:2] + [FORBIDDEN] * 4, T[4]), CLOSED)
    out.group(*T[:3], coded([FORBIDDEN] * 2 + T[3][2:], T[4]), CLOSED)
    out.group(*T[:3], coded([10, FORBIDDEN, FORBIDDEN, FORBIDDEN, 9, 5], T[4]), CLOSED)
    out.group(1, 1, 2, coded([FORBIDDEN], [FORBIDDEN]), CLOSED)
    out.group(4, 2, 1, coded([0, 1] + [0] * 4 + [FORBIDDEN] * 4 + [0] * 4, [0] * 14), CLOSED)
    out.group(3, 1, 0, coded([1, FORBIDDEN, 1], [0, 4, 0]), CLOSED)


# Ways


# N and Q, and the rates
WAYS = [
    # the beginning of less rate leads nowhere, at once or a scan later, and the other goes on
    (2, 2, [0, 5] + [FORBIDDEN, FORBIDDEN, 1, 2]),
    (2, 2, [5, 0] + [2, 1, FORBIDDEN, FORBIDDEN]),
    (3, 2, [0, 5] + [0, FORBIDDEN, FORBIDDEN, 1] + [FORBIDDEN, FORBIDDEN, 2, 3]),
    (3, 2, [0, 5] + [0, 0, 4, 4] + [FORBIDDEN, FORBIDDEN, FORBIDDEN, 3]),
    # it leads to more in the end
    (2, 2, [0, 3] + [9, 8, 1, 2]),
    (2, 2, [3, 0] + [1, 2, 9, 8]),
    (3, 2, [1, 2] + [0, 3, 4, 9] + [20, 30, 2, 9]),
    (3, 3, [4, 2, 7] + [5, 9, 3, 6, 1, 8, 0, 0, 0] + [9, 9, 9, 12, 15, 20, 9, 9, 1]),
    # a row of zeros, or of ones, that nothing leads to
    (2, 2, [7, FORBIDDEN] + [FORBIDDEN, 5, 0, 0]),
    (2, 2, [FORBIDDEN, 7] + [1, 1, FORBIDDEN, 9]),
    (3, 2, [7, 2] + [FORBIDDEN, 3, FORBIDDEN, 9] + [1, 1, 6, 8]),
    # rows and columns are not to be exchanged
    (2, 3, [5, 0, 9] + [1, 1, 1, 6, 8, 7, 1, 1, 1]),
    (3, 3, [5, 0, 9] + [1, 1, 1, 6, 8, 7, 1, 1, 1] + [4, 3, 2, 0, 1, 1, 9, 9, 9]),
    # each cell, and each scan's least, within the budget, and their sum not
    (3, 1, [5, 5, 5]),
    (4, 2, [3, 3] + [3] * 4 + [2] * 4 + [3] * 4),
    # nothing costs anything, or the last scan alone does
    (4, 2, [0] * 14),
    (3, 2, [0] * 6 + [4, 3, 4, 4]),
]


def ways(out):
    for turn, (scans, settings, rates) in enumerate(WAYS):
        out.near(scans, settings, LAWS[turn % 3], coded(rates, [7] * len(rates)), (0,))


# Sums


def sums(out):
    """One rate after another, and a sum that fewer bits would make small: with the budget just under it that lets all but the last scan by."""
    for first, second in ((239, 17), (65535, 1), (65535, 65535), (524288, 524288), (MOST_CELL, 1), (1, MOST_CELL)):
        out.near(2, 1, 0, coded([first, second], [3, 4]), ())
    for bits in range(21, 30):
        scans = 2 ** (bits - 20) + 1
        made = generated((scans, scans), (1, MOST_CELL, 1, 0), (1, MOST_CELL, 1, 0))
        out.group(scans, 1, LAWS[bits % 3], made, [2 ** bits - 1, 2 ** bits, scans * MOST_CELL - 1, scans * MOST_CELL])
    # the largest sum of all
    made = generated((1024, 1024), (1, MOST_CELL, 1, 0), (1, 0, 1, 0))
    out.group(1024, 1, 2, made, [0, MOST_CELL, 1073740799, 1073740800, 1073740801, 2 ** 30, 2 ** 32, TOP])


def worked_tables(out):
    worked(out)
    under_laws(out)
    none_at_all(out)
    ways(out)
    sums(out)
