"""What is read and what is not: illegal cells in every scan, with budgets just under, at and over what lets that scan be read; in cells that
no sequence can use; several at once; and behind beginnings that cost little and lead nowhere."""

import itertools

import planner
from edges import TOP
from fits_calls import budgets_of, every_rate, least_rates
from laws import LAWS
from plan_cells import coded, kept
from plan_worked import T
from planner import FORBIDDEN, MOST_CELL

OVER = MOST_CELL + 1


def spoilt(rates, distortions, cells):
    """The tables with illegal cells, each given by its table, 0 rates and 1 distortions, and its number."""
    both = list(rates), list(distortions)
    for table, k in cells:
        both[table][k] = OVER
    return coded(*both)


def changed(table, rates, distortions):
    return coded(*([changes.get(k, c) for k, c in enumerate(old)] for old, changes in zip(table[3:], (rates, distortions))))


# Table T


def worked(out):
    """Table T, of which scan 1 is read from 4 on, and the cells at both sides of their limits in either scan."""
    for rates, distortions in (
        ({3: OVER}, {}),
        ({}, {1: OVER}),
        ({}, {5: OVER}),
        ({2: OVER}, {}),
        ({0: FORBIDDEN, 1: FORBIDDEN, 3: OVER}, {}),
        ({0: FORBIDDEN, 1: FORBIDDEN}, {0: OVER, 1: FORBIDDEN}),
        ({1: FORBIDDEN, 3: OVER}, {}),
        ({0: FORBIDDEN - 1}, {}),
    ):
        made = changed(T, rates, distortions)
        out.group(*T[:3], made, budgets_of(every_rate(*T[:3], made), (0, 3, 4, TOP)))


# a rate and the distortion beside it
PAIRS = [
    (MOST_CELL - 1, MOST_CELL - 1),
    (MOST_CELL, MOST_CELL),
    (OVER, 0),
    (0, OVER),
    (FORBIDDEN - 1, 0),
    (FORBIDDEN - 1, FORBIDDEN),
    (0, FORBIDDEN - 1),
    (0, FORBIDDEN),
    (OVER, FORBIDDEN),
    (FORBIDDEN, FORBIDDEN),
    (FORBIDDEN, OVER),
    (FORBIDDEN, 0),
    (2 ** 31, 0),
    (2 ** 31 - 1, 1),
    (0, 2 ** 31),
    (2 ** 24, 2 ** 24),
    (1, 2 ** 24),
]


def limits_of_cells(out):
    """In scan 0, in scan 1, and alone."""
    for rate, distortion in PAIRS:
        out.group(*T[:3], changed(T, {1: rate}, {1: distortion}), [3, 18])
        out.group(*T[:3], changed(T, {4: rate}, {4: distortion}), [3, 4, 18])
        out.group(1, 1, 0, coded([rate], [distortion]), [0, TOP])


# Every scan


# five scans of two settings: the least rates of beginnings are 3, 5, 9, 14 and 16
FIVE = [3, 5] + [2, 6, 4, 1] + [9, 4, 3, 7] + [6, 5, 8, 7] + [2, 3, 2, 4], [1] * 18
# four scans of three settings: they are 2, 5, 8 and 9
FOUR = [2, 4, 9] + [5, 3, 7, 1, 8, 6, 0, 2, 2] + [4, 9, 5, 3, 6, 8, 2, 7, 7] + [1, 6, 4, 9, 8, 3, 5, 2, 6], [3] * 30


def ends_of(settings, scan):
    """A scan's first and last cell."""
    return planner.cell(settings, scan, 0, 0), planner.cells(scan + 1, settings) - 1


def every_scan(out):
    """One illegal cell in one scan after another, of the rates and then of the distortions, at the scan's ends in turn."""
    for scan, table in itertools.product(range(5), (0, 1)):
        out.near(5, 2, LAWS[(scan + table) % 3], spoilt(*FIVE, [(table, ends_of(2, scan)[(scan + table) % 2])]))
    for scan in range(4):
        out.near(4, 3, LAWS[scan % 3], spoilt(*FOUR, [(scan % 2, ends_of(3, scan)[scan // 2])]))
    # nothing costs anything: every scan is read
    for scan in range(5):
        out.group(5, 2, 0, spoilt([0] * 18, [0] * 18, [(scan % 2, planner.cell(2, scan, 0, 1))]), [0, 1])
    # all cells of the last scan, of the last two, and of all
    for start in (14, 10, 0):
        out.near(5, 2, 1, spoilt(*FIVE, [(start // 10 % 2, k) for k in range(start, 18)]))


def just_read(out, law, cells):
    """FOUR with illegal cells, with the budgets at both sides of what lets the first scan be read that has one."""
    made = spoilt(*FOUR, cells)
    least = least_rates(4, 3, law, made)[-1]
    out.group(4, 3, law, made, [least - 1, least])


def every_cell(out):
    """Each cell of a later scan by itself."""
    for scan in (1, 3):
        first, last = ends_of(3, scan)
        for k in range(first, last + 1):
            just_read(out, LAWS[k % 3], [(k % 2, k)])


def several(out):
    """More than one illegal cell: of a scan the lowest is carried, over both tables, and the first scan that is read and has one decides."""
    starts = [planner.cell(3, scan, 0, 0) for scan in range(4)]
    for scan in (1, 3):
        start = starts[scan]
        for lower, higher in ((0, 1), (0, 8), (2, 3), (4, 5), (5, 7), (7, 8)):
            for table in (0, 1):
                just_read(out, LAWS[table], [(table, start + lower), (1 - table, start + higher)])
    for table in (0, 1):
        out.near(4, 3, 2, spoilt(*FOUR, [(table, 1), (1 - table, 2)]))
        # a cell that is illegal in both tables, and another behind it in one
        out.near(4, 3, 2, spoilt(*FOUR, [(0, starts[2] + 4), (1, starts[2] + 4), (table, starts[2] + 6)]))
    for scans in ((0, 1), (1, 2), (2, 3), (1, 3), (0, 3), (1, 2, 3)):
        for table in (0, 1):
            out.near(4, 3, LAWS[scans[0]], spoilt(*FOUR, [((scan + table) % 2, starts[scan] + 2 - table) for scan in scans]))


# Cells that no sequence can use


def ruled_out(out):
    """Steps that the law rules out, in a scan between and in the last, of which the cells are judged all the same."""
    for before, after in ((0, 3), (3, 0)):
        for scan, table in ((1, 0), (2, 1)):
            made = spoilt([2, 1, 3, 4] + [1] * 16 + [2] * 16, [5] * 36, [(table, planner.cell(4, scan, before, after))])
            for law in LAWS:
                out.near(3, 4, law, made, (TOP,))
                made = kept(made)


# N, Q, law and the rates, and the illegal cells of which each is tried
OUT_OF_REACH = [
    # the row of a setting that is forbidden in scan 0, or that takes more than the budget which reads scan 1
    (2, 3, 0, [1, FORBIDDEN, 5] + [2] * 9, (6, 8, 9, 11)),
    # one way alone leads on: the row of scan 2 that it does not come to, and a cell of the one that it does
    (3, 2, 1, [1, 2] + [FORBIDDEN, FORBIDDEN, FORBIDDEN, 3] + [1, 1, 1, FORBIDDEN], (6, 7, 8)),
    (3, 2, 2, [4, FORBIDDEN] + [0, FORBIDDEN, 0, 0] + [7, 2, 0, 0], (8, 9)),
    # the law leads from 0 to 0, 1 and 2 alone: the row of 3
    (3, 4, 1, [1] + [FORBIDDEN] * 3 + [2] * 16 + [1] * 16, (16, 19, 32, 35)),
    (3, 4, 2, [1] + [FORBIDDEN] * 3 + [2] * 16 + [1] * 16, (16, 35)),
]


def out_of_reach(out):
    for scans, settings, law, rates, places in OUT_OF_REACH:
        for turn, k in enumerate(places):
            out.near(scans, settings, law, spoilt(rates, [1] * len(rates), [(turn % 2, k)]), ())


# Beginnings that cost little and lead nowhere


# N, Q, law and the rates; the scan behind that has an illegal cell
NOWHERE = [
    # 0 leads nowhere, and 1 goes on at more
    (3, 2, 0, [0, 5] + [FORBIDDEN, FORBIDDEN, 1, 2] + [3] * 4, 2),
    (3, 2, 1, [5, 0] + [2, 1, FORBIDDEN, FORBIDDEN] + [3] * 4, 2),
    # it leads nowhere a scan later: what follows is not asked
    (3, 2, 2, [0, 5] + [0, FORBIDDEN, FORBIDDEN, 1] + [FORBIDDEN, FORBIDDEN, 2, 3], 2),
    (4, 2, 0, [0, 5] + [0, FORBIDDEN, FORBIDDEN, 1] + [FORBIDDEN, FORBIDDEN, 2, 3] + [1] * 4, 3),
    # no way leads to the end, and what leads to the illegal cell is read all the same
    (3, 2, 0, [0, 5] + [0, 0, 4, 4] + [FORBIDDEN] * 4, 1),
    (4, 1, 1, [1, 1, 3, FORBIDDEN], 2),
    (4, 2, 2, [2, 3] + [1, FORBIDDEN, FORBIDDEN, 1] + [FORBIDDEN, 4, FORBIDDEN, 2] + [0, 0, FORBIDDEN, FORBIDDEN], 2),
    # the next scan takes more than any budget that lets the one before by
    (3, 2, 1, [1, 2] + [30, 40, 35, 50] + [0] * 4, 2),
    (4, 1, 0, [1, 1, 100, 1], 3),
    (4, 1, 2, [1, 1, 100, 1], 2),
    # a scan all forbidden, or scans that do not meet, and no budget reads what stands behind
    (3, 2, 0, [1, 2] + [FORBIDDEN] * 4 + [0] * 4, 2),
    (3, 2, 1, [1, FORBIDDEN] + [FORBIDDEN, FORBIDDEN, 0, 0] + [0] * 4, 2),
    (4, 1, 1, [1, FORBIDDEN, 0, 0], 3),
    (2, 2, 2, [FORBIDDEN, FORBIDDEN] + [0] * 4, 1),
    # the law alone leaves no way on, or one that takes more
    (3, 4, 1, [1] + [FORBIDDEN] * 3 + [FORBIDDEN] * 3 + [2] + [0] * 12 + [1] * 16, 2),
    (3, 4, 0, [1] + [FORBIDDEN] * 3 + [FORBIDDEN] * 3 + [2] + [0] * 12 + [1] * 16, 2),
    (3, 4, 2, [1] + [FORBIDDEN] * 3 + [7, 8, 9, 2] + [0] * 12 + [1] * 16, 2),
    (3, 4, 1, [FORBIDDEN] * 3 + [1] + [0] * 12 + [2, 9, 8, 7] + [1] * 16, 2),
    (3, 4, 2, [FORBIDDEN] * 3 + [1] + [0] * 12 + [2, 9, 8, 7] + [1] * 16, 2),
    # the last way of all that is tried is the one that goes on
    (3, 3, 0, [9, 9, 1] + [9] * 8 + [1] + [9] * 9, 2),
]


def nowhere(out):
    for turn, (scans, settings, law, rates, scan) in enumerate(NOWHERE):
        made = spoilt(rates, [0] * len(rates), [(turn % 2, ends_of(settings, scan)[1])])
        out.near(scans, settings, law, made)


def what_is_read(out):
    worked(out)
    limits_of_cells(out)
    every_scan(out)
    every_cell(out)
    several(out)
    ruled_out(out)
    out_of_reach(out)
    nowhere(out)
