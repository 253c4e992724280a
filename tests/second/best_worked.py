"""The worked tables with every budget that matters to them, and small tables of which something can be said by hand: where the rate decides,
where the first does, where a way that begins better ends worse, and sums at the ends of their range."""

import planner
from best_calls import needs
from edges import around
from laws import LAWS
from plan_cells import coded, generated, kept
from plan_worked import T, U, V
from planner import FORBIDDEN, MOST_BUDGET, MOST_CELL

# table T under law 1, which rules nothing out of it
ONE = T[:2] + (1,) + T[3:]
BLOCKED = [10, 4] + [FORBIDDEN] * 4


def all_budgets(table, weights=None, ends=(0,)):
    """Budgets on, under and over every sequence's rate, and these."""
    allowed = planner.ByTryingAll(planner.Table(*table, weights)).allowed
    return sorted({*around({s[1] for s in allowed if s[1] <= MOST_BUDGET}, MOST_BUDGET), *ends})


def whole(out, table, weights=None, ends=(0,), made=None):
    """A table with all its budgets."""
    out.group(*table[:3], made or coded(*table[3:]), all_budgets(table, weights, ends), weights=weights)


# Worked tables


def worked(out):
    whole(out, T, ends=(0, MOST_BUDGET))
    whole(out, U, ends=(0, 1, MOST_BUDGET))
    # one byte of choices, four cells of totals
    out.group(1, 1, 0, coded([0], [0]), [0], (1, 1, 4))
    out.group(1, 1, 0, coded([0], [0]), [0, 1, MOST_BUDGET])
    # 65 scans are refused with 1; a budget of 4,096 is with 19, before tables and weights that are short, and with one scan too
    out.group(65, 1, 0, coded([0] * 65, [0] * 65), [0, MOST_BUDGET, MOST_BUDGET + 1])
    out.group(*T[:3], coded(T[3][:5], T[4][:5]), [MOST_BUDGET + 1, 17], needs(2, 2, 17))
    out.group(*T[:3], coded(*T[3:]), [MOST_BUDGET + 1, 17], needs(2, 2, 17), b"\1")
    out.group(1, 1, 0, coded([0], [0]), [MOST_BUDGET + 1], needs(1, 1, MOST_BUDGET + 1))
    out.group(1, 1, 0, coded([], []), [MOST_BUDGET + 1, 0], needs(1, 1, 0))


def weighed(out):
    """T by weights: where nothing weighs, the least rate of all is the best, and the peak is plain."""
    made = coded(*ONE[3:])
    for weights in ((0, 1), (1, 1), (2, 1), (1, 0), (0, 0), (255, 254)):
        out.group(*ONE[:3], made, [8, 9, 12, 13, 17, 18], weights=bytes(weights))
        made = kept(made)


def under_laws(out):
    """Table V, of which each law has another plan."""
    made = coded(*V[3:])
    for law in LAWS:
        out.group(*V[:2], law, made, [5, 6, 7, 8, 9, 10, MOST_BUDGET])
        made = kept(made)


def single_steps(out):
    """Of 4 settings after each other one step alone is open: 8 where the law rules it out, at any budget, and 9 where it does not."""
    for before, after in ((0, 2), (3, 1), (0, 3), (3, 0)):
        rates = [FORBIDDEN] * 20
        rates[before], rates[4 + 4 * before + after] = 1, 2
        made = coded(rates, [5] * 20)
        for law in LAWS:
            out.group(2, 4, law, made, [0, 2, 3])
            made = kept(made)


# None, or none within the budget


def none_at_all(out):
    """8 at any budget: one scan all forbidden, or two that do not meet."""
    out.group(*T[:3], coded(BLOCKED, T[4]), [0, 8, 13, MOST_BUDGET])
    out.group(*T[:3], coded([FORBIDDEN] * 2 + T[3][2:], T[4]), [0, 8, 13, MOST_BUDGET])
    out.group(*T[:3], coded([10, FORBIDDEN, FORBIDDEN, FORBIDDEN, 9, 5], T[4]), [0, 13, MOST_BUDGET])
    out.group(1, 1, 2, coded([FORBIDDEN], [FORBIDDEN]), [0, MOST_BUDGET])
    # rates over every budget, and then no way on
    out.group(*T[:3], coded([MOST_CELL] * 2 + [FORBIDDEN] * 4, T[4]), [0, MOST_BUDGET])
    out.group(3, 2, 1, coded([0, 1] + [3] * 4 + [FORBIDDEN] * 4, [0] * 10), [0, 3, 4, MOST_BUDGET])


def none_within(out):
    """9: the least rate is one more than the budget, or as large as it can be, or one that fewer bits would not show; each cell within the
    budget and the sum not; the one that fits forbidden, or ruled out by the law."""
    for rate in (1, 256, 1000, 4096, 65536, 262143, MOST_CELL):
        out.group(1, 1, 0, coded([rate], [3]), [0, min(rate - 1, MOST_BUDGET)])
    for rate in (1, 256, 4096, 65535):
        out.group(2, 1, 1, coded([rate, 1], [3, 0]), [0, min(rate, MOST_BUDGET)])
    # two rates whose sum is 65,536, 131,072 or 1,048,576
    for first, second in ((65535, 1), (65536, 65536), (524288, 524288), (MOST_CELL, 1), (4096, 0)):
        out.group(2, 1, 2, coded([first, second], [3, 4]), [0, 1, MOST_BUDGET])
    out.group(3, 1, 0, coded([5, 5, 5], [1, 1, 1]), [5, 14, 15])
    out.group(*T[:3], coded([10, FORBIDDEN] + T[3][2:], T[4]), [9, 12, 13])
    out.group(*V[:2], 1, coded(*V[3:]), [6, 8, 9])
    for scans, settings in ((64, 1), (64, 2)):
        size = planner.cells(scans, settings)
        out.group(scans, settings, 1, generated((size, size), (1, MOST_CELL, 1, 0), (1, MOST_CELL, 1, 0)), [0, 4094])


# Ties


# two scans of two settings: the distortions, and the rates
TWO = [
    # the rate decides among equal distortions, and it is never the first that has the least
    ([4] * 6, [5, 3, 2, 1, 4, 1]),
    ([2, 3, 7, 7, 6, 6], [3, 2, 2, 2, 2, 2]),
    # all is equal, and the first decides
    ([1] * 6, [2] * 6),
    # 0 then 1 and 1 then 0 are equal, and the last setting is higher in the first
    ([1, 1, 9, 1, 1, 9], [2, 2, 2, 2, 2, 2]),
    ([1, 1, 1, 1, 1, 1], [2, 2, 9, 2, 2, 9]),
    # equal in the end: one begins with less rate and the other with less distortion, either way round
    ([1, 3, 3, 9, 1, 9], [3, 1, 1, 1, 3, 3]),
    ([3, 1, 9, 1, 9, 3], [1, 3, 3, 3, 1, 1]),
    # the beginning of less rate and distortion ends in more
    ([0, 3, 9, 8, 1, 2], [0, 2, 7, 9, 1, 0]),
    ([3, 0, 1, 2, 9, 8], [2, 0, 1, 0, 7, 9]),
    # the way of less rate has more distortion in the end
    ([5, 5, 6, 0, 6, 1], [2, 1, 1, 3, 1, 4]),
]


def ties(out):
    for distortions, rates in TWO:
        whole(out, (2, 2, 0, rates, distortions))
    # of 27 sequences the rate and the distortion are equal, or the one, or the other
    out.group(3, 3, 0, coded([2] * 21, [1] * 21), [5, 6, 7])
    out.group(3, 3, 1, coded([0] * 21, [5 * k % 7 for k in range(21)]), [0, 1])
    out.group(3, 3, 2, coded([4 * k % 5 for k in range(21)], [0] * 21), [0, 1, 2, 4, 12])
    # so many that are equal that trying all would not end: the first is that of setting 0 alone
    size = planner.cells(64, 3)
    out.group(64, 3, 1, generated((size, size), (1, 1, 1, 0), (1, 1, 1, 0)), [63, 64, 65])


# Sums


def exact_sums(out):
    """A rate of exactly 4,095 fits, and one of 4,096 does not: in one scan, in 63 and in 64."""
    for rate in (4094, 4095, 4096):
        out.group(1, 1, 0, generated((1, 1), (1, rate, 1, 0), (1, 3, 1, 0)), [4094, MOST_BUDGET])
    out.group(63, 1, 0, coded([65] * 63, [MOST_CELL] * 63), [4094, MOST_BUDGET])
    out.group(64, 1, 0, coded([64] * 64, [MOST_CELL] * 64), [MOST_BUDGET])
    out.group(64, 1, 0, coded([63] + [64] * 63, [MOST_CELL] * 64), [4094, MOST_BUDGET])


def one_or_other(scans, first, second):
    """Two settings of which each scan may take either, the same in all: the rate and the distortion of the one and of the other."""
    size = planner.cells(scans, 2)
    return coded([first[0], second[0]] * (size // 2), [first[1], second[1]] * (size // 2))


def top_sums(out):
    """64 scans of distortions at the top of their range, one less for a rate of 1, which the last scans then take; and the other way round,
    where the first ones do. With weights, products at the limit."""
    for first, second in (((0, MOST_CELL), (1, MOST_CELL - 1)), ((1, MOST_CELL - 1), (0, MOST_CELL))):
        out.group(64, 2, 0, one_or_other(64, first, second), [0, 1, 40, 63, 64])
    # 255 times 4,112 is just within the limit, 1 times 1,048,575 is the limit itself
    weights = bytes([255, 1] * 32)
    size = planner.cells(64, 2)
    made = generated((size, size), (3, 0, 3, 0), (4, 4111, 2, 0))
    out.group(64, 2, 2, made, [20, 30], weights=weights)
    out.group(64, 1, 0, coded([1] * 64, [MOST_CELL] * 64), [64], weights=bytes([0, 1] * 32))
    made = generated((size, size), (3, 0, 3, 0), (4, 69904, 2, 0))
    out.group(64, 2, 1, made, [25], weights=bytes([15] * 64))


def worked_tables(out):
    worked(out)
    weighed(out)
    under_laws(out)
    single_steps(out)
    none_at_all(out)
    none_within(out)
    ties(out)
    exact_sums(out)
    top_sums(out)
