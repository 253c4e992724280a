"""Random tables for the true best: small ones in styles that make ties of every kind, with budgets drawn from their own sequences; small ones
that tell a wrong order, a wrong law or wrong weights; and large ones, of which few take long."""

import itertools

import planner
from best_calls import needs
from laws import LAWS, keeps
from plan_cells import coded, generated, kept
from plan_laws import OPENED, leaning, outcomes, under_each_law, with_open
from plan_limits import beside
from plan_random import drawn, forbid, many_zeros, ties_in_cost, ties_in_everything, ties_in_rate
from plan_weights import other_weights, some_weights
from planner import BEST, FORBIDDEN, MOST_BUDGET, MOST_CELL


# Styles: the rates and the distortions of so many cells


def ties_in_distortion(draw, size):
    """With unequal rates."""
    return drawn(size, lambda: draw.randint(0, 9)), drawn(size, lambda: draw.randint(1, 2))


def some_too_large(draw, size):
    """Rates of which some are over every budget."""
    return drawn(size, lambda: draw.choice([0, 1, 2, 3, 4096, MOST_CELL])), drawn(size, lambda: draw.choice([0, 1, 2, MOST_CELL]))


def few_sums(draw, size):
    """Few values: many sequences have one rate, and many one distortion."""
    return drawn(size, lambda: draw.choice([1, 2, 4])), drawn(size, lambda: draw.choice([0, 3, 6]))


STYLES = [ties_in_everything, ties_in_distortion, few_sums, ties_in_rate, ties_in_cost, many_zeros, some_too_large]


# Small tables


SHAPES = [(2, 2), (3, 2), (4, 2), (3, 3), (2, 4), (1, 5), (5, 2), (3, 4), (4, 3), (2, 6), (7, 2), (2, 5), (5, 3), (3, 5), (6, 1)]


def random_budgets(draw, table, weights):
    """Two, on and beside what sequences take."""
    allowed = planner.ByTryingAll(planner.Table(*table, weights)).allowed
    rates = [s[1] for s in allowed if s[1] <= MOST_BUDGET] or [3]
    chosen = [draw.choice(rates), draw.choice([min(rates), draw.choice(rates), sum(rates) // len(rates)])]
    return sorted({max(0, beside(draw, rate)) for rate in chosen})


def small_tables(out, draw):
    """The styles in turn under each law, every second table with weights."""
    for turn in range(75):
        scans, settings = SHAPES[turn % len(SHAPES)]
        law, size = LAWS[turn // 3 % 3], planner.cells(scans, settings)
        rates, distortions = forbid(draw, scans, settings, *STYLES[turn % len(STYLES)](draw, size))
        weights = some_weights(draw, scans) if turn % 2 else None
        if weights and max([d for r, d in zip(rates, distortions) if r != FORBIDDEN], default=0) > MOST_CELL // 255:
            weights = bytes(draw.randrange(2) for _ in range(scans))
        table = scans, settings, law, rates, distortions
        budgets = random_budgets(draw, table, weights)
        more = [draw.choice([0, 0, 1, 4]) for _ in range(3)]
        out.group(scans, settings, law, coded(rates, distortions), budgets, needs(scans, settings, max(budgets), more), weights)


# Tables that tell


# other orders to choose by, of a sequence's settings, rate, distortion and peak: the rate forgotten, the most rate, the rate before the
# distortion, the last of equals, the lower last setting, the peak for the distortion, the sum of both
OTHERS = [
    lambda s: (s[2], s[0]),
    lambda s: (s[2], -s[1], s[0]),
    lambda s: (s[1], s[2], s[0]),
    lambda s: (s[2], s[1], [-q for q in s[0]]),
    lambda s: (s[2], s[1], s[0][::-1]),
    lambda s: (s[3], s[1], s[0]),
    lambda s: (s[1] + s[2], s[1], s[0]),
]


def right(allowed, budget):
    return min((s for s in allowed if s[1] <= budget), key=lambda s: (s[2], s[1], s[0]), default=None)


def other_orders(allowed, budget):
    """Whether every other order has another plan."""
    within = [s for s in allowed if s[1] <= budget]
    return within and all(min(within, key=other)[0] != right(allowed, budget)[0] for other in OTHERS)


def told_orders(out, draw):
    """Tables with a budget at which every other order has another plan, and with weights every other weighing too."""
    for turn, (scans, settings) in enumerate(((3, 2), (4, 2), (3, 3), (4, 3), (5, 2), (3, 4), (2, 4), (2, 5), (4, 4), (3, 3), (6, 2), (2, 6))):
        law, size, budget = LAWS[turn % 3], planner.cells(scans, settings), None
        while budget is None:
            tables = drawn(size, lambda: draw.randint(0, 3)), drawn(size, lambda: draw.randint(0, 2))
            weights = some_weights(draw, scans) if turn % 2 else None
            weighings = [weights] + (other_weights(weights) if weights else [])
            allowed = [planner.ByTryingAll(planner.Table(scans, settings, law, *tables, w)).allowed for w in weighings]
            told = [b for b in sorted({s[1] + 1 for s in allowed[0]}) if other_orders(allowed[0], b)]
            told = [b for b in told if all(right(other, b)[0] != right(allowed[0], b)[0] for other in allowed[1:])]
            budget = draw.choice(told) if told else None
        out.group(scans, settings, law, coded(*tables), [budget], weights=weights)


def told_budgets(out, draw):
    """Tables with a budget at which, and at those beside it, there are three plans."""
    for turn, (scans, settings) in enumerate(((3, 2), (3, 3), (4, 2), (2, 4), (4, 3), (3, 4), (5, 2), (2, 5), (1, 6))):
        law, size, told = LAWS[turn % 3], planner.cells(scans, settings), []
        while not told:
            tables = drawn(size, lambda: draw.randint(0, 4)), drawn(size, lambda: draw.randint(0, 9))
            allowed = planner.ByTryingAll(planner.Table(scans, settings, law, *tables)).allowed
            plans = [right(allowed, b) for b in range(max(s[1] for s in allowed) + 2)]
            told = [b for b in range(1, len(plans) - 1) if plans[b] and plans[b + 1] != plans[b] != plans[b - 1]]
        budget = draw.choice(told)
        out.group(scans, settings, law, coded(*tables), [budget - 1, budget, budget + 1])


def told_laws(out, draw):
    """Tables of which each law has another answer, and law 2 another than when it is turned round; then tables that the law alone refuses,
    with 8 or with 9."""
    for scans, settings in ((2, 4), (3, 4), (4, 4), (3, 5), (2, 7), (2, 10)):
        told = False
        while not told:
            made, budget = leaning(draw, scans, settings), draw.randint(scans, 12 * scans)
            *three, turned = [answer for answer, in outcomes(scans, settings, made, [(BEST, budget)])]
            told = 9 not in three and all(a != b for a, b in itertools.combinations(three, 2)) and three[2] != turned
        under_each_law(out, scans, settings, made, [budget])
    for opened in OPENED:
        steps = list(itertools.product(range(4), repeat=2))
        kinds = [[s for s in steps if keeps(1, *s)], [s for s in steps if s[0] > s[1] + 2], [s for s in steps if s[1] > s[0] + 2]]
        ways = [(draw.choice(kind), over) for kind, over in zip(kinds, opened) if over is not None]
        under_each_law(out, 2, 4, with_open(draw, 2, 4, ways), [9], (1, 2))


# Wide and long tables


def wide_tables(out, draw):
    """16 settings, with ties and without, some forbidden, under each law."""
    for turn, (scans, span, budget) in enumerate(((2, 3, 2), (2, 60, 40), (3, 4, 3), (3, 30, 25), (4, 9, 6), (5, 3, 1))):
        size = planner.cells(scans, 16)
        rates, distortions = (turn + 21, 1, span, (0, 7)[turn % 2]), (turn + 31, 0, (3, 1000)[turn // 2 % 2], 0)
        made = generated((size, size), rates, distortions)
        for law in LAWS:
            out.group(scans, 16, law, made, [budget + scans])
            made = kept(made)
        out.group(scans, 16, LAWS[turn % 3], made, [budget + scans], weights=some_weights(draw, scans))


# N, Q, law, the budget, and of the rates and the distortions base, span and forbid
LONG = [
    (64, 1, 0, 266, (0, 9, 0), (0, 9, 0)),
    (64, 2, 1, 60, (0, 3, 0), (0, 3, 0)),
    (64, 3, 2, 90, (0, 4, 9), (0, 1048576, 0)),
    (64, 5, 1, 40, (0, 3, 5), (1048000, 576, 0)),
    (40, 9, 2, 30, (0, 5, 0), (0, 5, 0)),
    (64, 16, 1, 80, (1, 3, 0), (0, 100, 0)),
    (64, 16, 2, 66, (1, 3, 11), (0, 3, 0)),
    (20, 7, 0, 1000, (0, 200, 0), (0, 1000, 0)),
]
# these are the ones that take long: the largest budget with the most scans and with the most settings that there is room for, and the most of
# both with the largest budget that there is room for
LONGEST = [
    (64, 4, 2, 4095, (30, 100, 0), (0, 1048576, 0)),
    (16, 16, 0, 4095, (100, 1000, 0), (0, 100000, 0)),
    (64, 16, 1, 1023, (5, 60, 0), (0, 1000, 0)),
]


def long_tables(out, draw):
    for turn, (scans, settings, law, budget, rates, distortions) in enumerate(LONG + LONGEST):
        size = planner.cells(scans, settings)
        made = generated((size, size), (turn + 41, *rates), (turn + 61, *distortions))
        out.group(scans, settings, law, made, [budget])
        if distortions[0] + distortions[1] <= MOST_CELL // 255 and turn < len(LONG):
            out.group(scans, settings, law, kept(made), [budget], weights=some_weights(draw, scans))


def random_tables(out, draw):
    small_tables(out, draw)
    told_orders(out, draw)
    told_budgets(out, draw)
    told_laws(out, draw)
    wide_tables(out, draw)
    long_tables(out, draw)
