"""The worked tables T and U of document 01 with every limit that matters to them, and the smallest tables of which one or no plan is
allowed. Table V tells the laws apart (plan_laws.py)."""

from edges import TOP
from laws import LAWS
from plan_cells import coded
from plan_limits import all_limits, one_of_each
from planner import AVERAGE, CEILING, FORBIDDEN, MINMAX, MULTIPLIER

T = (2, 2, 0, [10, 4, 8, 3, 9, 5], [2, 7, 3, 6, 4, 10])
U = (1, 3, 0, [9, 6, 2], [0, 8, 10])
V = (2, 4, 2, [5] * 4 + [9, 9, 4, 1] + [9] * 4 + [6, 9, 9, 9] + [2, 9, 9, 9], [1] * 4 + [3] * 16)

BUDGETS = [(which, b, 0) for b in (0, 8, 9, 13, 18, TOP) for which in (MINMAX, AVERAGE)]
CALLS = BUDGETS + [(CEILING, 0, 0), (CEILING, FORBIDDEN, 0), (MULTIPLIER, 0, 1), (MULTIPLIER, 9, 4)]


def whole(out, table):
    scans, settings, law, rates, distortions = table
    out.group(scans, settings, law, coded(rates, distortions), all_limits(table))


def blocked(out):
    """Table T with one of its two scans forbidden, and then the other."""
    out.group(2, 2, 0, coded([10, 4] + [FORBIDDEN] * 4, T[4]), CALLS)
    out.group(2, 2, 0, coded([FORBIDDEN] * 2 + [8, 3, 9, 5], T[4]), CALLS)


def single_cells(out):
    """Tables of one cell, at the ends of its range and past them."""
    for rate in (1048574, 1048575, 1048576):
        out.group(1, 1, 0, coded([rate], [0]), CALLS)
    for distortion in (1048574, 1048575, 1048576):
        out.group(1, 1, 0, coded([0], [distortion]), CALLS)
    out.group(1, 1, 0, coded([0], [0]), CALLS)


def single_steps(out):
    """Of 4 settings after each other, one step allowed alone, under every law."""
    for before, after in ((0, 2), (3, 1), (0, 3), (3, 0), (1, 3)):
        rates = [FORBIDDEN] * 20
        rates[before], rates[4 + 4 * before + after] = 1, 2
        for law in LAWS:
            out.group(2, 4, law, coded(rates, [5] * 20), CALLS if law < 2 else one_of_each(9, 4))


def worked_tables(out):
    whole(out, T)
    whole(out, U)
    blocked(out)
    single_cells(out)
    single_steps(out)
