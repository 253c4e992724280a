"""Calls of the true best that are refused early, and those just within: numbers at both sides of their limits, lengths of tables, weights and
buffers, illegal cells, and two or more of these at once, of which the first in the document's order has to come."""

import itertools

import planner
from best_calls import needs
from best_worked import BLOCKED
from edges import TOP
from laws import LAWS, NO_LAWS
from plan_cells import coded, generated, illegal_at, kept
from plan_worked import T, U
from planner import FORBIDDEN, MOST_BUDGET, MOST_CELL

OVER = MOST_CELL + 1

# budgets that are too large, among them those of which fewer bits are small, and those that one more, or 4,096 more, makes 0
LARGE_BUDGETS = (4096, 4097, 8191, 65535, 65536, 2 ** 32 - 1, 2 ** 32, 2 ** 32 + 7, 2 ** 52, 2 ** 62, 2 ** 63, TOP - 4095, TOP - 1, TOP)


# Numbers


def numbers(out):
    """N, Q, law and B at both sides of their limits and far beyond, with a table of one cell, and all beside one number that is too large."""
    made = coded([3], [4])
    for scans in (0, 2, 64, 65, 1024, 1025, 2 ** 32 + 1, TOP):
        out.group(scans, 1, 0, made, [3], (1, 4, 16))
        made = kept(made)
    for settings in (0, 2, 16, 17, 256 + 1, 2 ** 32 + 1, TOP):
        out.group(1, settings, 0, made, [3], (1, 4, 16))
    for law in NO_LAWS:
        out.group(1, 1, law, made, [3], (1, 4, 16))
    # with the buffers of the largest budget, with those of a budget of 3, and with none
    out.group(1, 1, 0, made, [MOST_BUDGET, *LARGE_BUDGETS], (1, 4096, 16384))
    out.group(1, 1, 1, made, [3, 4, *LARGE_BUDGETS[-4:]], (1, 4, 16))
    out.group(1, 1, 2, made, [0, *LARGE_BUDGETS[-4:]], (0, 0, 0))


def exact_tables(out):
    """N and Q at both sides of their limits, with tables of the exact length."""
    for scans, settings, budget in ((64, 1, 70), (65, 1, 70), (1024, 1, 70), (1, 16, 9), (1, 17, 9), (2, 16, 9), (2, 17, 9), (63, 2, 40)):
        size = planner.cells(scans, settings)
        made = generated((size, size), (5 + scans, 0, 3, 0), (6 + settings, 0, 9, 0))
        out.group(scans, settings, 2, made, [budget, MOST_BUDGET + 1])


# Lengths


def table_lengths(out):
    """Tables and weights one short, one long and of no length."""
    for scans, settings, law, rates, distortions in (T, U):
        size = len(rates)
        for r, d in ((size - 1, size), (size + 1, size), (size, size - 1), (size, size + 1), (size - 1, size + 1), (0, size), (size, 0)):
            out.group(scans, settings, law, coded((rates * 2)[:r], (distortions * 2)[:d]), [9])
        made = coded(rates, distortions)
        for size in (0, scans - 1, scans + 1, scans + 256):
            out.group(scans, settings, law, made, [9], weights=bytes([1] * size))


# a table of three scans and three settings, with a budget that some sequences meet
THREE = (3, 3, 1, [5, 1, 3] + [2, 4, 6] * 6, [1, 2, 3] + [7, 1, 4] * 6)


def buffer_lengths(out):
    """Each buffer exactly as long as needed, one short, one longer, much longer and of no length, on a success, on 8 and on 9."""
    changed = [(0, 0, 0), (0, -1, 0), (0, 0, -1), (-1, 0, 0), (1, 0, 0), (0, 1, 0), (0, 0, 1), (9, 300, 500)]
    for rates, budget in ((T[3], 17), (BLOCKED, 17), (T[3], 8)):
        made = coded(rates, T[4])
        for more in changed:
            out.group(*T[:3], made, [budget], needs(2, 2, budget, more))
            made = kept(made)
    for lent in ((2, 72, 0), (2, 0, 144), (0, 72, 144), (0, 0, 0)):
        out.group(*T[:3], coded(*T[3:]), [17], lent)


def other_needs(out):
    """Lengths that another reading of the needs would find enough: without the 1 of B + 1, or without one of the factors; each beside the
    other buffer in its right length. Then budgets beside the one whose need is lent."""
    for table, budget in ((T, 17), (THREE, 9)):
        scans, settings = table[:2]
        plan, choices, totals = needs(scans, settings, budget)
        made = coded(*table[3:])
        square = settings * settings
        for length in (scans * settings * budget, settings * (budget + 1), scans * (budget + 1), scans * settings, square * (budget + 1) - 1):
            out.group(*table[:3], made, [budget], (plan, min(length, choices - 1), totals))
            made = kept(made)
        for length in (4 * settings * budget, settings * (budget + 1), 4 * (budget + 1), 4 * settings, 2 * settings * (budget + 1), totals - 3):
            out.group(*table[:3], made, [budget], (plan, choices, length))
        out.group(*table[:3], made, [budget - 1, budget, budget + 1, MOST_BUDGET, MOST_BUDGET + 1], (plan, choices, totals))


def largest_needs(out):
    """The largest budget with buffers that are one short: a byte of choices, a cell of totals, a byte of plan; lengths of more than 16 bits."""
    made = coded(*T[3:])
    for more in ((0, -1, 0), (0, 0, -1), (0, 0, 0)):
        out.group(*T[:3], made, [MOST_BUDGET], needs(2, 2, MOST_BUDGET, more))
        made = kept(made)
    size = planner.cells(16, 16)
    made = generated((size, size), (7, 0, 9, 0), (8, 0, 9, 0))
    for more in ((0, -1, 0), (0, 0, -1), (-1, 0, 0)):
        out.group(16, 16, 0, made, [MOST_BUDGET], needs(16, 16, MOST_BUDGET, more))
        made = kept(made)
    # the largest call of all needs more choices than best_cases can lend, 2^22 bytes, of which fewer bits would be none
    size = planner.cells(64, 16)
    out.group(64, 16, 0, generated((size, size), (7, 0, 9, 0), (8, 0, 9, 0)), [MOST_BUDGET], (64, 0, 262144))


# Cells


def illegal_cells(out):
    """Rates and distortions over their range, the lowest of two, beside a forbidden rate, where the law rules a cell out, by its weight, and
    in scans far behind."""
    for rates, distortions in (
        ({3: OVER}, {}),
        ({}, {5: OVER}),
        ({3: OVER}, {2: OVER}),
        ({0: FORBIDDEN - 1}, {0: OVER}),
        ({2: FORBIDDEN, 5: FORBIDDEN - 1}, {2: FORBIDDEN}),
        ({0: FORBIDDEN}, {0: OVER}),
        ({5: MOST_CELL}, {5: MOST_CELL}),
    ):
        tables = [[changes.get(k, cell) for k, cell in enumerate(table)] for changes, table in ((rates, T[3]), (distortions, T[4]))]
        out.group(*T[:3], coded(*tables), [17])
    # the step from 0 to 3, which laws 1 and 2 rule out
    at = planner.cell(4, 1, 0, 3)
    made = coded([OVER if k == at else 1 for k in range(20)], [2] * 20)
    for law in LAWS:
        out.group(2, 4, law, made, [2])
        made = kept(made)
    # a product over the limit in scan 1, or with the weight of scan 0 alone; weight 0 excuses no cell
    pairs = (524288, (1, 2)), (524288, (2, 1)), (4096, (255, 255)), (65536, (16, 15)), (65536, (15, 16)), (65536, (0, 255)), (MOST_CELL, (3, 2))
    for distortion, weights in pairs + ((MOST_CELL, (255, 1)), (OVER, (1, 0))):
        out.group(*T[:3], coded(T[3], T[4][:3] + [distortion] + T[4][4:]), [13], weights=bytes(weights))
    size = planner.cells(64, 2)
    for k in (0, size - 1):
        out.group(64, 2, 0, generated((size, size), (7, 0, 9, 0), illegal_at(k)), [30])


# Several conditions at once, by the number that each has alone


def faulty_tables(faults, turn):
    """Table T and its weights with the faults of its cells and of its lengths."""
    tables, weights = [list(T[3]), list(T[4])], bytes([1, 1])
    if 8 in faults:
        tables[0][2:] = [FORBIDDEN] * 4
    if 7 in faults:
        # in scan 0, so that what is forbidden hides none
        tables[turn % 2][1] = OVER
    if 5 in faults and turn % 3 == 2:
        weights = bytes([1] * (1 + turn % 2 * 2))
    elif 5 in faults:
        tables[turn % 3] = tables[turn % 3][:5] if turn % 2 else tables[turn % 3] + [0]
    return *tables, weights


def faulty(out, faults, turn):
    """A call with these faults; where a fault can be made in several ways, the turn chooses."""
    rates, distortions, weights = faulty_tables(faults, turn)
    budget = 8 if 9 in faults else 17
    less = [(-1, 0, 0), (0, -1, 0), (0, 0, -1), (-2, -9, -9)][turn % 4]
    lent = needs(2, 2, budget, less if 6 in faults else (0, 0, 0))
    budget = (4096, TOP, 2 ** 32 + 17)[turn % 3] if 19 in faults else budget
    law = NO_LAWS[turn % len(NO_LAWS)] if 3 in faults else turn % 3
    settings = (0, 17, 2 ** 32 + 2)[turn % 3] if 2 in faults else 2
    scans = (65, 0, 2 ** 32 + 2)[turn % 3] if 1 in faults else 2
    out.group(scans, settings, law, coded(rates, distortions), [budget], lent, weights)


ORDER = (1, 2, 3, 19, 5, 6, 7, 8, 9)


def two_at_once(out):
    """Every two, and neighbours in the order in four ways."""
    for turn, pair in enumerate(itertools.combinations(ORDER, 2)):
        faulty(out, pair, turn)
    for pair in zip(ORDER, ORDER[1:]):
        for turn in (1, 2, 3):
            faulty(out, pair, turn)


def more_at_once(out, draw):
    for turn in range(20):
        faulty(out, draw.sample(ORDER, draw.randint(3, 6)), turn)


def refusals(out, draw):
    numbers(out)
    exact_tables(out)
    table_lengths(out)
    buffer_lengths(out)
    other_needs(out)
    largest_needs(out)
    illegal_cells(out)
    two_at_once(out)
    more_at_once(out, draw)
