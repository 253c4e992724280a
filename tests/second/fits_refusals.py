"""Calls of the question whether something fits that are refused before a scan is read, and those just within: numbers at both sides of their
limits, lengths of the tables, and two or more faults at once, of which the first in the document's order has to come."""

import itertools

import planner
from edges import TOP
from fits_calls import least_rates
from laws import LAWS, NO_LAWS
from plan_cells import coded, generated, kept
from plan_worked import T, U
from planner import FORBIDDEN, MOST_CELL

OVER = MOST_CELL + 1


# Numbers


def numbers(out):
    """N, Q and law at both sides of their limits and far beyond, with tables of one cell, which any other N or Q makes the wrong length."""
    made = coded([3], [4])
    for scans in (0, 1, 2, 1024, 1025, 2 ** 8 + 1, 2 ** 16 + 1, 2 ** 32 + 1, 2 ** 63 + 1, TOP):
        out.group(scans, 1, 0, made, [2, 3])
        made = kept(made)
    for settings in (0, 2, 16, 17, 2 ** 8 + 1, 2 ** 16 + 1, 2 ** 32 + 1, 2 ** 63 + 1, TOP):
        out.group(1, settings, 0, made, [2, 3])
    for law in LAWS + NO_LAWS:
        out.group(1, 1, law, made, [2, 3])
    # table T, under the next number that is no law, and by numbers of which fewer bits are its own
    made = coded(*T[3:])
    others = (2, 2, 3), (2 ** 32 + 2, 2, 0), (2, 2 ** 32 + 2, 0), (2, 2, 2 ** 32 + 2), (TOP, TOP, TOP), (258, 2, 0), (2, 258, 0)
    for scans, settings, law in others:
        out.group(scans, settings, law, made, [3, 8, 9])
        made = kept(made)


def exact_tables(out):
    """N and Q at both sides of their limits, with tables of the exact length, and budgets at both sides of the least rate."""
    for scans, settings in ((64, 1), (65, 1), (1023, 1), (1024, 1), (1025, 1), (1, 15), (1, 16), (1, 17), (2, 16), (2, 17), (1024, 2), (1025, 2)):
        size = planner.cells(scans, settings)
        made = generated((size, size), (5 + scans, 0, 9, 0), (6 + settings, 0, 9, 0))
        least = least_rates(scans, settings, 2, made)[-1]
        out.group(scans, settings, 2, made, [max(least - 1, 0), least, 4096])


# Lengths


# a table of three scans and three settings
THREE = (3, 3, 1, [5, 1, 3] + [2, 4, 6] * 6, [1, 2, 3] + [7, 1, 4] * 6)


def table_lengths(out):
    """Tables one short, one long, of no length and of lengths that another reading of the cells would take; also where the budget, or a cell
    that is forbidden, would let nothing be read of what is missing."""
    for scans, settings, law, rates, distortions in (T, U, THREE):
        size = len(rates)
        lengths = [(size - 1, size), (size + 1, size), (size, size - 1), (size, size + 1), (size - 1, size + 1), (size + 1, size - 1)]
        lengths += [(0, size), (size, 0), (0, 0), (size - 1, size - 1), (size + 1, size + 1)]
        lengths += [(other, other) for other in (settings, scans * settings, scans * settings ** 2, scans * settings + 1) if other != size]
        for turn, (r, d) in enumerate(lengths):
            out.group(scans, settings, law, coded((rates * 2)[:r], (distortions * 2)[:d]), [(9, 0)[turn % 2]])
    out.group(*T[:3], coded([FORBIDDEN] * 5, [0] * 5), [0, TOP])
    # beside an illegal cell in scan 0
    for r, d in ((5, 6), (6, 5), (7, 6), (6, 7)):
        for first, beside in ((OVER, 2), (10, OVER)):
            out.group(*T[:3], coded([first, 4, 8, 3, 9, 5, 5][:r], [beside, 7, 3, 6, 4, 10, 9][:d]), [0, 9])
    # of the largest tables one cell more or less
    size = planner.cells(1024, 16)
    for r, d in ((size + 1, size), (size, size - 1)):
        out.group(1024, 16, 0, generated((r, d), (7, 0, 9, 0), (8, 0, 9, 0)), [TOP])


# Several conditions at once, by the number that each has alone


def faulty(out, faults, turn):
    """A call with these faults, 0 for a budget that nothing is within; where a fault can be made in several ways, the turn chooses."""
    tables = [list(T[3]), list(T[4])]
    if 7 in faults:
        # in scan 0, so that it is read, and in scan 1 where the budget reads it
        tables[turn % 2][1 if 0 in faults else 1 + turn % 4] = (OVER, FORBIDDEN - 1)[turn // 2 % 2]
    if 5 in faults:
        tables[turn % 2] = (tables[turn % 2][:5], tables[turn % 2] + [0], [])[turn % 3]
    law = NO_LAWS[turn % len(NO_LAWS)] if 3 in faults else turn % 3
    settings = (0, 17, 2 ** 32 + 2)[turn % 3] if 2 in faults else 2
    scans = (1025, 0, 2 ** 32 + 2)[turn % 3] if 1 in faults else 2
    out.group(scans, settings, law, coded(*tables), [turn % 4 if 0 in faults else 9 + turn])


ORDER = (1, 2, 3, 5, 7, 0)


def at_once(out, draw):
    """Every two, neighbours in the order in five ways, and three or more."""
    for turn, pair in enumerate(itertools.combinations(ORDER, 2)):
        faulty(out, pair, turn)
    for pair in zip(ORDER, ORDER[1:]):
        for turn in range(1, 6):
            faulty(out, pair, turn)
    for turn in range(20):
        faulty(out, draw.sample(ORDER, draw.randint(3, 6)), turn)


def refusals(out, draw):
    numbers(out)
    exact_tables(out)
    table_lengths(out)
    at_once(out, draw)
