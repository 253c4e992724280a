"""Large tables: the most scans and settings, sums at their largest, and sizes in between. Their cells come from generators, each given by
its seed, base, span and forbid."""

import planner
from edges import TOP
from laws import LAWS
from plan_cells import generated
from plan_limits import stretched
from planner import AVERAGE, CEILING, FORBIDDEN, MINMAX, MOST_CELL, MOST_TERM, MULTIPLIER

# the most scans and settings
SIZES = (1024, 16)
# the largest rate of a plan
MOST = 1024 * MOST_CELL

# any legal cell, but for the seed; every cell at the top of its range; zeros; cells below nine
WIDE = (0, 1048576, 0)
TOP_CELLS = (1, 1048575, 1, 0)
ZEROS = (1, 0, 1, 0)
NINE = (2, 0, 9, 0)

TERMS = [(0, 1), (1, 1), (MOST_TERM, MOST_TERM), (MOST_TERM, 1), (1, MOST_TERM), (MOST_TERM - 1, MOST_TERM), (355, 113)]
THIRDS = TERMS[:3] + [(2, 3)] + stretched(2, 3)


def large(out, scans, settings, law, rates, distortions, budgets, ceilings, terms, lengths=None, plan=None, scratch=None):
    size = planner.cells(scans, settings)
    made = generated(lengths or (size, size), rates, distortions)
    calls = [(CEILING, x, 0) for x in ceilings] + [(MULTIPLIER, n, d) for n, d in terms]
    calls += [(which, b, 0) for b in budgets for which in (MINMAX, AVERAGE)]
    out.group(scans, settings, law, made, calls, plan, scratch)


def any_cells(out):
    for law, seed in ((0, 11), (1, 12)):
        large(out, *SIZES, law, (seed,) + WIDE, (seed + 100,) + WIDE, (250000000, 70000000, TOP), (600000, 1048575, 70000), TERMS)
    large(out, *SIZES, 2, (13,) + WIDE, (113,) + WIDE, (250000000,), (), ())


def some_forbidden(out):
    large(out, *SIZES, 1, (21, 0, 1048576, 5), (22, 0, 1048576, 0), (150000000, 90000000, 0), (700000, 100), TERMS[:3])


def few_values(out):
    """Almost everything ties."""
    large(out, *SIZES, 0, (31, 0, 2, 0), (32, 0, 3, 0), (0, 100, 300), (0, 1, 2), THIRDS)
    large(out, *SIZES, 1, (33, 1, 3, 7), (34, 0, 4, 0), (1030, 1100), (1, 3), THIRDS)


def top_cells(out):
    """Both sums at their largest, and the largest cost; then rates at the top and no distortion, and the other way round."""
    for law in (0, 1):
        large(out, *SIZES, law, TOP_CELLS, TOP_CELLS, (MOST - 1, MOST, MOST + 1, TOP), (1048574, 1048575, FORBIDDEN), TERMS)
    large(out, *SIZES, 0, TOP_CELLS, ZEROS, (MOST - 1, MOST), (0,), TERMS)
    large(out, *SIZES, 1, ZEROS, TOP_CELLS, (0, TOP), (1048574, 1048575), TERMS)


def far_end(out):
    """The far end of a table: an illegal cell there, a length one off, buffers one short and exact."""
    size = planner.cells(*SIZES)
    far = (43, 1, 1048576, 0)
    for rates, distortions in ((far, NINE), (NINE, far), ((44, 2, 1048576, 0), far)):
        large(out, *SIZES, 0, rates, distortions, (TOP,), (5,), TERMS[:1])
    for lengths in ((size - 1, size), (size, size + 1)):
        large(out, *SIZES, 0, NINE, NINE, (TOP,), (5,), TERMS[:1], lengths)
    for budget, plan, scratch in ((TOP, 1023, 16384), (TOP, 1024, 16383), (900, 1024, 16384)):
        large(out, *SIZES, 0, NINE, NINE, (budget,), (5,), TERMS[:1], None, plan, scratch)


def in_between(out):
    for scans, settings in ((1024, 1), (1024, 2), (1023, 3), (100, 16), (257, 5), (64, 9)):
        spread = scans * 300000
        # under law 2 the shortest, whose plans take the least to show
        for law in LAWS if scans == 64 else (0, 1):
            rates, distortions = (scans + law,) + WIDE, (settings + law,) + WIDE
            large(out, scans, settings, law, rates, distortions, (spread, spread // 2, TOP), (900000, 1048575), TERMS[:3])


def large_tables(out):
    any_cells(out)
    some_forbidden(out)
    few_values(out)
    top_cells(out)
    far_end(out)
    in_between(out)
