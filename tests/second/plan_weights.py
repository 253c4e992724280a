"""Scans of unequal weight: table T with the weights of which something can be said by hand, weights that are not N long, cells whose product
with their scan's weight is at the limit and over it, where the weight of another scan would show, forbidden cells that no weight makes
illegal, random small tables in which much ties, and large tables."""

import itertools

import planner
from edges import TOP
from laws import LAWS
from plan_cells import coded, generated, kept, seed_of, stream
from plan_large import SIZES, TOP_CELLS, WIDE
from plan_limits import one_of_each, random_limits
from plan_random import drawn
from plan_refusals import one_call
from plan_worked import T
from planner import AVERAGE, CEILING, FORBIDDEN, MINMAX, MOST_CELL, MOST_TERM, MULTIPLIER

# table T under law 1, which rules nothing out of it
ONE = T[:2] + (1,) + T[3:]


def under_each(out, table, made, calls, several):
    """The same tables with one list of weights after another, and the calls that are given for it."""
    for weights in several:
        out.group(*table, made, calls(bytes(weights)), weights=bytes(weights))
        made = kept(made)


# Table T


def worked(out):
    """Each budget and ceiling at which T's answers change, and each multiplier at which two sequences tie."""

    def calls(weights):
        slopes = planner.ByTryingAll(planner.Table(*ONE, weights)).every_slope()
        asked = [(which, budget, 0) for budget in (8, 9, 12, 13, 17, 18, TOP) for which in (MINMAX, AVERAGE)]
        asked += [(CEILING, x, 0) for x in (2, 3, 5, 6, 7, 9, 10)]
        return asked + [(MULTIPLIER, n, d) for n, d in dict.fromkeys(slopes + [(3, 5), (9, 4)])]

    made = coded(*ONE[3:])
    under_each(out, ONE[:3], made, calls, ((2, 1), (0, 1), (1, 0), (0, 0)))
    under_each(out, ONE[:3], kept(made), lambda weights: one_of_each(9, 4, 13, 7), ((1, 1), (255, 254), (254, 255)))


def worked_cells(out):
    """A distortion of T's scan 1 over the limit by itself or by its product, at cell 3, with the weights of the two scans: one call of those
    that are refused in turn, and two where planning goes on."""
    changed, pairs = (524288, 1000000, 1048575, 1048576, 65536, 4096), ((1, 2), (2, 1), (1, 0), (255, 255))
    for k, (distortion, weights) in enumerate(itertools.product(changed, pairs)):
        distortions = T[4][:3] + [distortion] + T[4][4:]
        legal = planner.lowest_illegal(2, T[3], distortions, weights) is None
        calls = one_of_each(9, 4, 17, 7)[k % 2 :: 2] if legal else one_call(k % 4)
        out.group(*ONE[:3], coded(T[3], distortions), calls, weights=bytes(weights))
    # the weight 0 excuses no cell, in scan 1 and in scan 0
    for k, weights in ((3, (1, 0)), (1, (0, 1)), (5, (0, 0))):
        out.group(*ONE[:3], coded(T[3], T[4][:k] + [1048576] + T[4][k + 1 :]), one_of_each(9, 4, 17, 7), weights=bytes(weights))
    # products that are small again in 32 bits; the plain cell is over the limit
    for distortion, weights in ((2147483648, (1, 2)), (2147483648, (0, 128)), (16777216, (1, 0)), (4294967295, (1, 255)), (4294967294, (0, 0))):
        out.group(*ONE[:3], coded(T[3], T[4][:3] + [distortion] + T[4][4:]), one_call(distortion % 4), weights=bytes(weights))


def forbidden_cells(out):
    """Beside a forbidden rate no product is illegal, and it counts for nothing: in either scan, with weights at the top."""
    for barred, hidden in ((3, FORBIDDEN), (0, FORBIDDEN), (3, 65536), (5, 4294967294), (2, 1048576), (1, 16777216), (1, 65536)):
        rates, distortions = list(T[3]), list(T[4])
        rates[barred], distortions[barred] = FORBIDDEN, hidden
        out.group(*ONE[:3], coded(rates, distortions), one_of_each(3, 5, 13, 7), weights=bytes([255, 255]))
    # 8 and no 7
    out.group(2, 2, 2, coded([FORBIDDEN] * 6, [FORBIDDEN] * 6), one_of_each(), weights=bytes([255, 255]))


# Lengths


def lengths(out):
    """Weights too few and too many, alone and beside other conditions: 5 comes after 1 to 4 and before 6 and 7."""
    made = coded(*T[3:])
    for size in (0, 1, 3, 4, 6):
        out.group(*T[:3], made, one_of_each(9, 4, 17, 7), weights=bytes([1] * size))
        made = kept(made)
    for which, scans, settings, law, d, plan, scratch in (
        (MULTIPLIER, 2, 2, 0, 0, 3, 6),
        (AVERAGE, 2, 2, 3, 4, 3, 6),
        (MINMAX, 2, 17, 0, 4, 3, 6),
        (CEILING, 0, 2, 0, 4, 3, 6),
        (AVERAGE, 2, 2, 0, 4, 1, 6),
        (MINMAX, 2, 2, 0, 4, 3, 3),
    ):
        for size in (1, 2, 3):
            out.group(scans, settings, law, made, [(which, 9, d)], plan, scratch, bytes([2] * size))
    # more scans than tables can have, with few weights, or as many as fewer bits of the number would say
    for scans, size in ((1025, 3), (2 ** 32 + 2, 2), (TOP, 0), (0, 0)):
        out.group(scans, 2, 0, made, one_call(size % 4), 3, 6, bytes([1] * size))
    # an illegal cell behind it; tables of another length beside weights that are right
    for distortions, size in ((T[4][:5] + [1048576], 3), (T[4][:5] + [1048576], 2), (T[4] + [0], 2), (T[4][:5], 2), (T[4][:5], 3)):
        out.group(*T[:3], coded(T[3], distortions), one_call(size), weights=bytes([2] * size))
    # 256 too many, which a byte of the length would not show
    out.group(20, 1, 1, coded([1] * 20, [2] * 20), one_of_each(), weights=bytes([2] * 276))


# Products at the limit


def one_scan_heavier(scans, weight, others):
    """For each scan the weights of which it has the first, and the others the second."""
    return [bytes(weight if scan == k else others for scan in range(scans)) for k in range(scans)]


def every_scan(out):
    """A distortion that one weight takes over the limit and the next lower does not, in the first cell of each scan or in the last: the scan
    that has the weight tells the cell. Tables of one, two and three settings."""
    for scans, settings, place in ((5, 1, 0), (4, 2, 0), (4, 2, -1), (3, 3, 0), (3, 3, -1)):
        distortions = []
        for scan in range(scans):
            run = [65535] * (settings ** 2 if scan else settings)
            run[place] = 65536
            distortions += run
        made = coded([1] * len(distortions), distortions)
        for k, weights in enumerate(one_scan_heavier(scans, 16, 15) + [bytes([15] * scans), bytes([16] * scans)]):
            out.group(scans, settings, 0, made, one_call(k % 4), weights=weights)
            made = kept(made)


def only_over(scans, settings, k, top, span, most):
    """A generator of which cell k is `top`, and the others at most `most` and less than `span` below the top."""
    for turn in range(2000):
        made = (seed_of(k, span - 1 + turn * span), top + 1 - span, span, 0)
        cells = stream(planner.cells(scans, settings), *made)
        if [(j, cell) for j, cell in enumerate(cells) if cell > most] == [(k, top)]:
            return made
    raise AssertionError("no seed for cell %d" % k)


def exact_products(out):
    """Cell k alone over what its scan's weight allows; then the same cells with that weight on all scans but its own, and one less for all,
    so that it is at the limit with the weight on every scan. 3, 5, 15, 155 and 205 divide 1,048,575."""
    chosen = [(3, 1), (5, 0), (15, 5), (16, 6), (155, 2), (205, 1), (255, 2), (255, 9)]
    for turn, (weight, k) in enumerate(chosen):
        scans, settings, law = 3, 2, turn % 3
        most, scan = MOST_CELL // weight, planner.scan_of(settings, k)
        size = planner.cells(scans, settings)
        rates, distortions = (turn + 1, 0, 9, 0), only_over(scans, settings, k, most + 1, 64, most)
        heavy = one_scan_heavier(scans, weight, weight - 1)[scan]
        light = one_scan_heavier(scans, weight - 1, weight)[scan]
        made = generated((size, size), rates, distortions)
        out.group(scans, settings, law, made, one_call(turn % 4), weights=heavy)
        out.group(scans, settings, law, kept(made), one_call((turn + 1) % 4), weights=light)
        at_limit = generated((size, size), rates, (distortions[0], distortions[1] - 1) + distortions[2:])
        assert max(at_limit.distortions) == most
        out.group(scans, settings, law, at_limit, one_of_each(9, 4, 11, most - 9)[turn % 4 :][:2], weights=bytes([weight] * scans))
    # cell 3 of tables of T's size, as the largest: the weight 2 takes the first two over the limit, and none of the other cells
    for top in (600000, 524288, 524287):
        made = generated((6, 6), (1, 0, 9, 0), only_over(2, 2, 3, top, 500000, min(top - 1, 524287)))
        under_each(out, ONE[:3], made, lambda weights: one_of_each(9, 4, 11), ((1, 2), (2, 1)))


def far_products(out):
    """The same at the ends of scans of 16 settings, and where the last scan of the largest table begins."""
    for turn, (scans, k) in enumerate(((3, 15), (3, 16), (3, 271), (3, 272), (3, 527), (1024, 261647), (1024, 261648))):
        scan, size = planner.scan_of(16, k), planner.cells(scans, 16)
        # the largest tables have few cells that are near the top
        weight, span = (255, 4000) if scans == 3 else (2, 500000)
        most = MOST_CELL // weight
        made = generated((size, size), (turn + 1, 0, 9, 0), only_over(scans, 16, k, most + 1, span, most))
        out.group(scans, 16, 1, made, one_call(turn % 4), weights=one_scan_heavier(scans, weight, 1)[scan])
        if scans == 3:
            out.group(scans, 16, 1, kept(made), one_call(turn % 4), weights=one_scan_heavier(scans, 1, weight)[scan])


# Random small tables


SHAPES = [(2, 2), (3, 2), (2, 3), (4, 2), (3, 3), (2, 4), (5, 2), (3, 4), (1, 4), (6, 2), (4, 3), (2, 5)]
FEW = [(0, 1), (0, 1, 2), (1, 2), (0, 1, 2, 255), (2, 255), (0, 255), (1, 3, 254)]


def ties(draw, size):
    """Small rates and distortions: sums tie often, and with other weights others do."""
    most = draw.choice([1, 2, 3, 9])
    return drawn(size, lambda: draw.randint(0, most)), drawn(size, lambda: draw.choice([0, 1, 2, 3, draw.randint(0, 9)]))


def cost_ties(draw, size):
    """Rate and distortion of a cell have the same sum, and doubled distortions in every second table."""
    most, times = draw.choice([3, 6]), draw.choice([1, 2])
    rates = drawn(size, lambda: draw.randint(0, most))
    return rates, [times * (most - rate) for rate in rates]


def large_cells(draw, size):
    """As large as the greatest weight allows, or far smaller."""
    return drawn(size, lambda: draw.randint(0, 20)), drawn(size, lambda: draw.choice([0, 1, 256, 1000, 4096]))


STYLES = [ties, cost_ties, ties, large_cells]


def some_weights(draw, scans):
    """Of two scans or more, at least two that differ."""
    few = draw.choice(FEW)
    while True:
        weights = bytes(draw.choice(few) for _ in range(scans))
        if scans == 1 or len(set(weights)) > 1:
            return weights


def small_tables(out, draw):
    for k in range(36):
        scans, settings = SHAPES[k % len(SHAPES)]
        law, size = LAWS[k // len(SHAPES) % 3], planner.cells(scans, settings)
        rates, distortions = STYLES[k % len(STYLES)](draw, size)
        if k % 3 == 2:
            for barred in draw.sample(range(size), max(size // 6, 1)):
                rates[barred], distortions[barred] = FORBIDDEN, draw.choice([FORBIDDEN, 0, 65536, 239])
        weights = some_weights(draw, scans)
        calls = random_limits(draw, (scans, settings, law, rates, distortions, weights))
        out.group(scans, settings, law, coded(rates, distortions), calls, scans, scans * settings, weights)


def other_weights(weights):
    """What a planner might weigh with: 1, the weight of the next scan, and that of the scan before."""
    return [planner.ones(len(weights)), weights[1:] + weights[-1:], weights[:1] + weights[:-1]]


def second_keys(out, draw):
    """Tables of one rate, in which the distortion decides under a ceiling: drawn until the settings are others with any other weights, of a
    ceiling plan with and without a ceiling, and of a minmax plan."""
    for turn, (scans, settings) in enumerate(((3, 2), (4, 2), (3, 3), (4, 3), (2, 4), (3, 4))):
        size, law, told = planner.cells(scans, settings), LAWS[turn % 3], False
        while not told:
            rates, distortions, weights = [1] * size, drawn(size, lambda: draw.randint(0, 9)), some_weights(draw, scans)
            calls = [(CEILING, draw.randint(5, 8), 0), (CEILING, FORBIDDEN, 0), (MINMAX, scans, 0), (MINMAX, TOP, 0)]
            tables = [planner.Table(scans, settings, law, rates, distortions, w) for w in [weights] + other_weights(weights)]
            makers = [planner.ByTryingAll(table) for table in tables]
            answers = [[planner.outcome(maker, which, limit) for which, limit, _ in calls] for maker in makers]
            plans = [[answer if answer == 9 else answer[1] for answer in each] for each in answers]
            told = all(right != 9 and right not in wrong for right, *wrong in zip(*plans))
        out.group(scans, settings, law, coded(rates, distortions), calls, weights=weights)


# Large tables


def at_the_top(out):
    """Every product at the limit, so that both sums and the cost are as large as they can be."""
    scans, settings, weight = SIZES[0], 2, 15
    size = planner.cells(scans, settings)
    made = generated((size, size), TOP_CELLS, (1, MOST_CELL // weight, 1, 0))
    calls = one_of_each(MOST_TERM, MOST_TERM, TOP, made.distortions[0]) + [(MULTIPLIER, 1, MOST_TERM), (MULTIPLIER, 0, 1)]
    out.group(scans, settings, 0, made, calls, weights=bytes([weight] * scans))


def large_tables(out, draw):
    """Weights of every value beside distortions that allow them, few weights, and cells of every size beside the weights 0 and 1."""
    any_weights, few, no_or_one = [bytes(draw.choice(some) for _ in range(1024)) for some in (range(256), (0, 1, 2, 255), (0, 1))]
    for settings, law, weights, calls in (
        (4, 1, any_weights, [(MULTIPLIER, 15000, 7), (AVERAGE, 200000, 0)]),
        (16, 2, few, [(MULTIPLIER, 9, 4), (AVERAGE, 250000, 0)]),
    ):
        size = planner.cells(1024, settings)
        made = generated((size, size), (51 + settings, 0, 1000, 0), (52 + settings, 0, 4113, 0))
        out.group(1024, settings, law, made, calls, weights=weights)
    size = planner.cells(40, 9)
    made = generated((size, size), (61,) + WIDE, (62,) + WIDE)
    out.group(40, 9, 1, made, one_of_each(3, 2, 40 * 300000, 700000), weights=no_or_one[:40])


def unequal_weights(out, draw):
    worked(out)
    worked_cells(out)
    forbidden_cells(out)
    lengths(out)
    every_scan(out)
    exact_products(out)
    far_products(out)
    small_tables(out, draw)
    second_keys(out, draw)
    at_the_top(out)
    large_tables(out, draw)
