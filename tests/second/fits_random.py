"""Random tables for the question whether something fits: small ones with and without illegal cells, with budgets at and beside what lets a scan
be read; tables whose least rate tells the laws apart; and wide and long ones."""

import itertools

import planner
from edges import TOP
from fits_calls import every_rate, least_rates
from laws import LAWS, keeps
from plan_cells import coded, generated, illegal_at, kept, legal_at, stream
from plan_limits import beside
from plan_random import drawn, forbid, many_zeros, random_generated
from planner import FORBIDDEN, MOST_CELL

OUT = (MOST_CELL + 1, FORBIDDEN - 1, FORBIDDEN)


# Styles: the rates and the distortions of so many cells


def far_apart(draw, size):
    return drawn(size, lambda: draw.randint(0, 200)), [0] * size


def few_values(draw, size):
    return drawn(size, lambda: draw.choice([1, 2, 4])), drawn(size, lambda: draw.choice([0, MOST_CELL]))


def seldom_small(draw, size):
    """Few rates are small, so that the way of least rate is a narrow one."""
    return drawn(size, lambda: draw.choice([0, 1, 30, 31, 32, 40])), drawn(size, lambda: draw.randint(0, 9))


def ends_of_the_range(draw, size):
    return drawn(size, lambda: draw.choice([0, 1, MOST_CELL - 1, MOST_CELL])), [MOST_CELL] * size


STYLES = [far_apart, few_values, seldom_small, many_zeros, ends_of_the_range]


# Small tables


SHAPES = [(2, 2), (3, 2), (4, 2), (3, 3), (2, 4), (5, 2), (3, 4), (4, 3), (2, 6), (6, 2), (2, 5), (5, 3), (3, 5), (7, 1), (1, 6)]


def spoil(draw, scans, settings, rates, distortions):
    """One to three cells, each of a scan that is drawn first, since most cells are those of the later ones."""
    for _ in range(draw.choice([1, 1, 2, 3])):
        scan = draw.choice(range(1, scans)) if scans > 1 and draw.random() < 0.9 else 0
        k = draw.randrange(planner.cell(settings, scan, 0, 0), planner.cells(scan + 1, settings))
        draw.choice([rates, distortions])[k] = draw.choice(OUT)


def random_budgets(draw, scans, settings, law, made):
    """On and beside what lets a scan be read, and what some beginning takes."""
    least = least_rates(scans, settings, law, made) or [3]
    some = sorted(every_rate(scans, settings, law, made)) or [3]
    near = [least[-1] - 1, least[-1], beside(draw, draw.choice(least)), beside(draw, draw.choice(some))]
    return sorted({max(0, rate) for rate in near})


def small_tables(out, draw):
    """The styles in turn under each law, two of three tables with illegal cells."""
    for turn in range(75):
        scans, settings = SHAPES[turn % len(SHAPES)]
        law, size = LAWS[turn // 3 % 3], planner.cells(scans, settings)
        tables = forbid(draw, scans, settings, *STYLES[turn % len(STYLES)](draw, size))
        if turn % 3:
            spoil(draw, scans, settings, *tables)
        made = coded(*tables)
        out.group(scans, settings, law, made, random_budgets(draw, scans, settings, law, made))


# Tables that tell


# what may follow what: each law, law 2 the wrong way round, and laws 1 and 2 with other widths
READINGS = [lambda p, q, law=law: keeps(law, p, q) for law in LAWS] + [
    lambda p, q: keeps(2, q, p),
    lambda p, q: abs(p - q) <= 1,
    lambda p, q: abs(p - q) <= 3,
    lambda p, q: q <= p + 1,
    lambda p, q: q <= p + 3,
]


def least_by(may, scans, settings, rates):
    """The least rate of a sequence that keeps a reading of the law, of a table of which nothing is forbidden."""
    here = rates[:settings]
    for scan in range(1, scans):
        here = [min(here[p] + rates[planner.cell(settings, scan, p, q)] for p in range(settings) if may(p, q)) for q in range(settings)]
    return min(here)


def told_laws(out, draw):
    """Tables of which every reading has another least rate, with the budgets at both sides of the law's own. There is none of two scans, where
    law 0 takes either a coarser step, as law 2 turned round does, or a finer one, as law 2 does. Every second table has a scan more, whose
    last cell is illegal: whether that is read tells the laws as well."""
    for turn, (scans, settings) in enumerate(((4, 6), (5, 6), (5, 7), (4, 8), (6, 9), (5, 11), (4, 12), (5, 14), (6, 16))):
        least = []
        while len(set(least)) < len(READINGS):
            rates = draw.randrange(1, 10 ** 6), 0, 1000, 0
            cells = stream(planner.cells(scans, settings), *rates)
            least = [least_by(may, scans, settings, cells) for may in READINGS]
        scans += turn % 2
        size = planner.cells(scans, settings)
        made = generated((size, size), rates, illegal_at(size - 1) if turn % 2 else (1, 0, 9, 0))
        for law in LAWS:
            out.group(scans, settings, law, made, [least[law] - 1, least[law]])
            made = kept(made)


# Wide and long tables


# N, Q, law, and of the rates base, span and forbid; of the second no way leads to the end
LONG = [
    (1024, 1, 0, (0, 9, 0)),
    (1024, 2, 1, (0, 3, 7)),
    (1024, 2, 0, (0, 3, 0)),
    (1024, 3, 2, (0, 1048576, 0)),
    (300, 7, 1, (5, 60, 5)),
    (64, 16, 2, (1, 1000, 11)),
    (17, 16, 1, (0, 2, 3)),
    (200, 9, 0, (1048000, 576, 4)),
]


def around_the_end(out, scans, settings, law, made):
    """Budgets that end in the middle, that let all but the last scan by that can be reached, and at both sides of what that one takes."""
    least = least_rates(scans, settings, law, made)
    out.group(scans, settings, law, made, sorted({least[len(least) // 2], least[-2], max(least[-1] - 1, 0), least[-1], TOP}))


def long_tables(out):
    for turn, (scans, settings, law, rates) in enumerate(LONG):
        size = planner.cells(scans, settings)
        around_the_end(out, scans, settings, law, generated((size, size), (turn + 41, *rates), (turn + 61, 0, 1048576, 0)))
    size = planner.cells(1024, 16)
    made = generated((size, size), (3, 1, 4000, 5), (4, 0, 1048576, 0))
    for law in LAWS:
        around_the_end(out, 1024, 16, law, made)
        made = kept(made)


def far_cells(out):
    """The largest tables with an illegal cell in one scan or another, its first or its last, of the rates or of the distortions, and the
    budgets at both sides of what lets that scan be read."""
    size = planner.cells(1024, 16)
    for turn, scan in enumerate((2, 16, 255, 256, 700, 1022, 1023, 1023)):
        k = planner.cell(16, scan, 0, 0) if turn // 2 % 2 else planner.cells(scan + 1, 16) - 1
        rates, distortions = (illegal_at(k, 5), legal_at(k, 0)) if turn % 2 else (legal_at(k, 5), illegal_at(k))
        made = generated((size, size), rates, distortions)
        least = least_rates(1024, 16, turn % 3, made)
        assert len(least) == scan
        out.group(1024, 16, turn % 3, made, sorted({max(least[-1] - 1, 0), least[-1]}))


def generated_tables(out, draw):
    """Small tables with cells of any size, by generators."""
    for scans, settings in itertools.product((2, 4, 9), (2, 3, 8)):
        law, made = draw.choice(LAWS), random_generated(draw, planner.cells(scans, settings))
        least = least_rates(scans, settings, law, made) or [3]
        out.group(scans, settings, law, made, sorted({max(least[-1] - 1, 0), least[-1], draw.choice(least)}))


def random_tables(out, draw):
    small_tables(out, draw)
    told_laws(out, draw)
    generated_tables(out, draw)
    long_tables(out)
    far_cells(out)
