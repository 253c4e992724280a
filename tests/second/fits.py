#!/usr/bin/env python3
"""Whether something fits at all, written from request [7] of document 02, and sharing nothing with the library.

`answer` is a whole call: the number that comes back (0: no refusal), and beside it 1 for yes or 0 for no, or what a refusal carries. Past the
checks of numbers and lengths it takes the answer from one of two makers. `ByTryingAll` lists every allowed beginning of a small table and
reads each outcome off its definition. `ByDynamicProgram` is for tables that are too large for that: it knows the least rate of a beginning of
every length, and asks afterwards what the budget stops. Run as a program, this file holds the two against each other, against worked cases,
and, where all cells are legal, against the average and the minmax answers of planner.py, which count 8 and 9 as no; and it changes what is
not read, which must change nothing."""

import itertools
import math
import random
import sys
from collections import namedtuple

import planner
from laws import LAWS, NO_LAWS, keeps
from planner import AVERAGE, FORBIDDEN, MINMAX, MOST_CELL, MOST_SCANS, cell, cells, scan_of

TOP = 2 ** 64 - 1

# both tables in their exact lengths, with cells that may be illegal
Series = namedtuple("Series", "scans settings law rates distortions")


class ByTryingAll:
    """Every allowed beginning of a small table, and the outcomes as they are defined."""

    def __init__(self, series):
        self.series = series
        self.illegal = [[] for _ in range(series.scans)]
        for k, (rate, distortion) in enumerate(zip(series.rates, series.distortions)):
            # no weights: each cell counts as it is
            if not planner.legal_cell(rate, distortion, 1):
                self.illegal[scan_of(series.settings, k)].append(k)
        self.found = {}

    def rates_of(self, plan):
        """The rate cells of a beginning."""
        places = [cell(self.series.settings, scan, plan[scan - 1] if scan else 0, setting) for scan, setting in enumerate(plan)]
        return [self.series.rates[k] for k in places]

    def beginnings(self, length):
        """The rates of all allowed beginnings of so many scans, which are legal: nothing is asked of what follows them."""
        assert not any(self.illegal[:length])
        if length not in self.found:
            plans = itertools.product(range(self.series.settings), repeat=length)
            lawful = (plan for plan in plans if all(keeps(self.series.law, p, q) for p, q in zip(plan, plan[1:])))
            self.found[length] = [sum(rates) for rates in map(self.rates_of, lawful) if FORBIDDEN not in rates]
        return self.found[length]

    def within(self, length, budget):
        """Whether some allowed beginning of so many scans is within the budget."""
        return any(rate <= budget for rate in self.beginnings(length))

    def is_read(self, scan, budget):
        """Scan 0 is always read, and a later one where all before it are legal and a beginning of as many scans is within the budget."""
        return scan == 0 or (not any(self.illegal[:scan]) and self.within(scan, budget))

    def answer(self, budget):
        """Of the outcomes exactly one holds: the lowest illegal cell of a scan that is read, no, or yes."""
        scans = range(self.series.scans)
        outcomes = [(7, [min(self.illegal[scan])]) for scan in scans if self.is_read(scan, budget) and self.illegal[scan]]
        good = [self.is_read(scan, budget) and not self.illegal[scan] for scan in scans]
        if any(all(good[:length]) and not self.within(length, budget) for length in range(1, self.series.scans + 1)):
            outcomes.append((0, [0]))
        if not any(self.illegal) and self.within(self.series.scans, budget):
            outcomes.append((0, [1]))
        [outcome] = outcomes
        return outcome


class ByDynamicProgram:
    """Forward scan by scan, up to the first scan with an illegal cell: the least rate of a beginning by its last setting, and of all of that
    length. That scan is read where no length before it has stopped the budget."""

    def __init__(self, series):
        settings, square = series.settings, series.settings ** 2
        # of the beginnings of one scan, of two and so on
        self.least = []
        # the lowest illegal cell of the first scan that has one
        self.illegal = None
        before = [[p for p in range(settings) if keeps(series.law, p, q)] for q in range(settings)]
        here, start, end = [], 0, settings
        while start < len(series.rates):
            over = [k for k in range(start, end) if series.rates[k] != FORBIDDEN and max(series.rates[k], series.distortions[k]) > MOST_CELL]
            if over:
                self.illegal = over[0]
                break
            known = [math.inf if rate == FORBIDDEN else rate for rate in series.rates[start:end]]
            if start == 0:
                here = known
            else:
                here = [min(here[p] + known[settings * p + q] for p in before[q]) for q in range(settings)]
            self.least.append(min(here))
            start, end = end, end + square

    def answer(self, budget):
        if any(least > budget for least in self.least):
            return 0, [0]
        return (0, [1]) if self.illegal is None else (7, [self.illegal])


def answer(make, scans, settings, law, budget, rates, distortions):
    """The number, and the answer or what is carried. `make` gives the maker for a series."""
    number = planner.out_of_range(MOST_SCANS, scans, settings, law)
    if number:
        return number, [0]
    if len(rates) != cells(scans, settings) or len(distortions) != cells(scans, settings):
        return 5, [0]
    return make(Series(scans, settings, law, rates, distortions)).answer(budget)


# The check of this file by itself


YES, NO = (0, [1]), (0, [0])
OVER = MOST_CELL + 1
T = (2, 2, 0, [10, 4, 8, 3, 9, 5], [2, 7, 3, 6, 4, 10])
U = (1, 3, 0, [9, 6, 2], [0, 8, 10])


def changed(table, rates=(), distortions=()):
    """A table with some cells changed, given by their numbers."""
    scans, settings, law, *both = table
    return scans, settings, law, *([dict(changes).get(k, c) for k, c in enumerate(old)] for old, changes in zip(both, (rates, distortions)))


# the table, the budgets, and the answer
WORKED = [
    (T, (9, 13, 17, TOP), YES),
    # 8 reads scan 1, and 3 does not: scan 0 takes 10 or 4
    (T, (0, 3, 4, 8), NO),
    (changed(T, rates={3: OVER}), (0, 3), NO),
    (changed(T, rates={3: OVER}), (4, 8, 9, TOP), (7, [3])),
    (changed(T, distortions={1: OVER}), (0, 3, 4, 9, TOP), (7, [1])),
    # scan 0 is forbidden, so that no budget reads scan 1
    (changed(T, rates={0: FORBIDDEN, 1: FORBIDDEN, 3: OVER}), (0, 3, 9, TOP), NO),
    (changed(T, rates={0: FORBIDDEN, 1: FORBIDDEN}, distortions={0: OVER, 1: FORBIDDEN}), (0, 9, TOP), NO),
    # the lowest of a scan over both tables, and the first scan that is read and has one
    (changed(T, rates={4: OVER}, distortions={2: OVER, 5: OVER}), (4, TOP), (7, [2])),
    (changed(T, rates={1: OVER, 2: OVER}, distortions={0: OVER}), (0, TOP), (7, [0])),
    # of one scan its cells alone decide
    (U, (2, 6, TOP), YES),
    (U, (0, 1), NO),
    (changed(U, distortions={0: OVER}), (0, 1, 2, TOP), (7, [0])),
    ((1, 1, 2, [MOST_CELL], [MOST_CELL]), (MOST_CELL, TOP), YES),
    ((1, 1, 2, [MOST_CELL], [MOST_CELL]), (0, MOST_CELL - 1), NO),
    ((1, 1, 1, [FORBIDDEN], [FORBIDDEN]), (0, FORBIDDEN, TOP), NO),
    # from 0 to 3, which law 0 alone allows, and from 3 to 0, which law 1 does not
    ((2, 4, 0, [0] + [FORBIDDEN] * 6 + [1] + [FORBIDDEN] * 12, [0] * 20), (1,), YES),
    ((2, 4, 2, [0] + [FORBIDDEN] * 6 + [1] + [FORBIDDEN] * 12, [0] * 20), (1, TOP), NO),
    ((2, 4, 2, [FORBIDDEN] * 3 + [0] + [FORBIDDEN] * 12 + [1] + [FORBIDDEN] * 3, [0] * 20), (1,), YES),
    ((2, 4, 1, [FORBIDDEN] * 3 + [0] + [FORBIDDEN] * 12 + [1] + [FORBIDDEN] * 3, [0] * 20), (1, TOP), NO),
]

# what is refused before a scan is read: each beside an illegal cell in scan 0
EARLY = [
    ((0, 0, 3, [], []), 1),
    ((1025, 17, 3, [OVER] * 6, [0] * 6), 1),
    ((2 ** 32 + 2, 2, 0, [OVER] * 6, [0] * 6), 1),
    ((2, 17, 3, [OVER] * 6, [0] * 6), 2),
    ((2, 0, 3, [OVER] * 6, [0] * 6), 2),
    *[((2, 2, law, [OVER] * 5, [0] * 6), 3) for law in NO_LAWS],
    ((2, 2, 2, [OVER] * 5, [0] * 6), 5),
    ((2, 2, 2, [OVER] * 6, [0] * 7), 5),
]


def worked(make):
    for (scans, settings, law, *tables), budgets, right in WORKED:
        for budget in budgets:
            assert answer(make, scans, settings, law, budget, *tables) == right, (scans, settings, law, tables, budget)
    for (scans, settings, law, *tables), number in EARLY:
        assert answer(make, scans, settings, law, 9, *tables) == (number, [0])


def as_planned(series, budget, weights):
    """Whether the average and the minmax call give a plan, of tables that are legal with these weights."""
    maker = planner.ByDynamicProgram(planner.Table(*series, weights))
    given = [planner.outcome(maker, call, budget) not in (8, 9) for call in (AVERAGE, MINMAX)]
    assert given[0] == given[1]
    return given[0]


def anything_behind(draw, tried, budget):
    """The same tables up to the last scan that is read, and cells of any kind behind it."""
    settings, law, rates, distortions = tried.series[1:]
    last = max(scan for scan in range(tried.series.scans) if tried.is_read(scan, budget))
    end = cells(last + 1, settings)
    behind = [[draw.choice([0, 1, MOST_CELL, OVER, FORBIDDEN - 1, FORBIDDEN]) for _ in table[end:]] for table in (rates, distortions)]
    return Series(tried.series.scans, settings, law, rates[:end] + behind[0], distortions[:end] + behind[1])


def random_series(draw):
    """A small table, of which half have cells that may be illegal."""
    settings = draw.randint(1, 5)
    scans = draw.randint(1, {1: 9, 2: 6, 3: 4, 4: 4, 5: 3}[settings])
    size, top = cells(scans, settings), draw.choice([0, 1, 3, 10, MOST_CELL])
    forbidden, spoilt = draw.choice([0, 0.1, 0.3]), draw.choice([0, 0, 0.02, 0.1])
    rates = [FORBIDDEN if draw.random() < forbidden else draw.randint(0, top) for _ in range(size)]
    distortions = [draw.choice([0, MOST_CELL, OVER, FORBIDDEN]) if rate == FORBIDDEN else draw.randint(0, MOST_CELL) for rate in rates]
    for table in (rates, distortions):
        table[:] = [draw.choice([OVER, FORBIDDEN - 1, FORBIDDEN]) if draw.random() < spoilt else c for c in table]
    return Series(scans, settings, draw.choice(LAWS), rates, distortions)


def main():
    for make in (ByTryingAll, ByDynamicProgram):
        worked(make)
    draw = random.Random(7)
    counts = {"yes": 0, "no": 0, "7": 0, "planned": 0}
    for _ in range(2000):
        series = random_series(draw)
        tried, programmed = ByTryingAll(series), ByDynamicProgram(series)
        near = [min(least, TOP) for least in programmed.least] or [9]
        for budget in {0, TOP, *(min(max(draw.choice(near) + draw.choice([-1, 0, 1]), 0), TOP) for _ in range(3))}:
            right = tried.answer(budget)
            assert right == programmed.answer(budget), (series, budget)
            counts["7" if right[0] else ("no", "yes")[right[1][0]]] += 1
            other = anything_behind(draw, tried, budget)
            assert right == ByTryingAll(other).answer(budget) == ByDynamicProgram(other).answer(budget), (series, other, budget)
            # weight 0 excuses no illegal cell, and makes no other
            weights = bytes(draw.randrange(2) for _ in range(series.scans))
            if planner.lowest_illegal(series.settings, series.rates, series.distortions, weights) is None:
                assert right == (YES if as_planned(series, budget, weights) else NO), (series, budget)
                counts["planned"] += 1
    assert min(counts.values()) > 1000
    print("fits.py: the examples hold, both makers answer alike, and %d times as planning does" % counts["planned"])


if __name__ == "__main__":
    sys.exit(main())
