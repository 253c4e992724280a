#!/usr/bin/env python3
"""What the four planning calls and the true best must answer, written from document 01 and requests [2], [5] and [6] of document 02, and
sharing nothing with the library.

`answer` is a whole call: the number that comes back (0: no refusal), the values beside it, and what both lent buffers hold afterwards;
`best_answer` is one of the true best, with its three. They take their plans from one of two makers. `ByTryingAll` lists every allowed
sequence of a small table and reads each definition off the list. `ByDynamicProgram` is for tables that are too large for that. Each weighs
the distortions by itself: the one scan by scan along a sequence, the other cell by cell, before it plans. Run as a program, this file holds
the two against each other, and both against the examples of document 01, a table that tells the laws apart, tables whose scans have unequal
weights, and the examples of the true best, which it also holds against the average plan and its floor."""

import itertools
import math
import random
import sys
from fractions import Fraction

from laws import LAWS, NO_LAWS, keeps

CEILING, MULTIPLIER, MINMAX, AVERAGE, BEST = 1, 2, 3, 4, 5

MOST_SCANS = 1024
# of the true best
MOST_SHORT, MOST_BUDGET = 64, 4095
MOST_SETTINGS = 16
MOST_TERM = 1073741823
MOST_CELL = 1048575
FORBIDDEN = 4294967295


# Tables


def cells(scans, settings):
    """How many cells a table has."""
    return settings + (scans - 1) * settings ** 2


def cell(settings, scan, before, setting):
    """Where a scan's cell stands; scan 0 has no setting before it."""
    if scan == 0:
        return setting
    return settings + (scan - 1) * settings ** 2 + before * settings + setting


def scan_of(settings, k):
    """The scan whose cell k is."""
    return 0 if k < settings else 1 + (k - settings) // settings ** 2


def ones(scans):
    """The weights that change nothing."""
    return bytes([1]) * scans


def legal_cell(rate, distortion, weight):
    """Beside a forbidden rate nothing is illegal. A distortion over the limit is illegal at any weight, also at 0."""
    if rate == FORBIDDEN:
        return True
    return rate <= MOST_CELL and distortion <= MOST_CELL and weight * distortion <= MOST_CELL


def lowest_illegal(settings, rates, distortions, weights):
    """The lowest illegal cell over both tables, or None."""
    for k, (rate, distortion) in enumerate(zip(rates, distortions)):
        if not legal_cell(rate, distortion, weights[scan_of(settings, k)]):
            return k
    return None


class Table:
    """A table that passed the refusals 1 to 7. Where no weights are given, each is 1."""

    def __init__(self, scans, settings, law, rates, distortions, weights=None):
        self.scans, self.settings, self.law = scans, settings, law
        self.rates, self.distortions = rates, distortions
        self.weights = ones(scans) if weights is None else weights
        assert len(self.weights) == scans

    def totals(self, plan):
        """Rate, distortion and peak of a sequence: the distortion weighs each scan's cell, the peak takes it as it is."""
        before, rate, distortion, peak = 0, 0, 0, 0
        for scan, setting in enumerate(plan):
            k = cell(self.settings, scan, before, setting)
            rate += self.rates[k]
            distortion += self.weights[scan] * self.distortions[k]
            peak = max(peak, self.distortions[k])
            before = setting
        return rate, distortion, peak


# Refusals


def out_of_range(most, scans, settings, law):
    """The refusals 1 to 3, by the most scans that a call takes: the number, or None."""
    if not 1 <= scans <= most:
        return 1
    if not 1 <= settings <= MOST_SETTINGS:
        return 2
    return None if law in LAWS else 3


def not_exact(scans, settings, rates, distortions, weights):
    """Refusal 5."""
    exact = cells(scans, settings)
    return len(rates) != exact or len(distortions) != exact or len(weights) != scans


def early_refusal(call, scans, settings, law, limits, rates, distortions, weights, plan_length, scratch_length):
    """The refusals 1 to 7, in their order: the number and what it carries, or None."""
    number = out_of_range(MOST_SCANS, scans, settings, law)
    if number:
        return number, 0
    if call == MULTIPLIER:
        n, d = limits
        if not (0 <= n <= MOST_TERM and 1 <= d <= MOST_TERM):
            return 4, 0
    if not_exact(scans, settings, rates, distortions, weights):
        return 5, 0
    if plan_length < scans or scratch_length < scans * settings:
        return 6, 0
    illegal = lowest_illegal(settings, rates, distortions, weights)
    if illegal is not None:
        return 7, illegal
    return None


def best_needs(scans, settings, budget):
    """The bytes of plan, the bytes of choices and the cells of totals that the true best needs."""
    return scans, scans * settings * (budget + 1), 4 * settings * (budget + 1)


def early_best_refusal(scans, settings, law, budget, rates, distortions, weights, lengths):
    """The same of the true best: 19 stands where a multiplier has 4. The lengths are those of plan, choices and totals."""
    number = out_of_range(MOST_SHORT, scans, settings, law)
    if number:
        return number, 0
    if budget > MOST_BUDGET:
        return 19, 0
    if not_exact(scans, settings, rates, distortions, weights):
        return 5, 0
    if any(length < need for length, need in zip(lengths, best_needs(scans, settings, budget))):
        return 6, 0
    illegal = lowest_illegal(settings, rates, distortions, weights)
    if illegal is not None:
        return 7, illegal
    return None


class Refusal(Exception):
    """8 or 9."""


def least_floor(n, d, budget, rate, distortion):
    """The least whole F, 0 or more, with d F + n B at least d D + n R."""
    floor = max(0, -((n * budget - d * distortion - n * rate) // d))

    def proved(f):
        return d * f + n * budget >= d * distortion + n * rate

    assert proved(floor) and (floor == 0 or not proved(floor - 1))
    return floor


# Each maker answers a call with its values and the settings, or raises 8 or 9. Rate, distortion and peak come last but for the floor.


class ByTryingAll:
    """Every allowed sequence of a small table, and the definitions read off the list."""

    def __init__(self, table):
        self.table = table
        # in the order that "first" means
        self.allowed = []
        for plan in itertools.product(range(table.settings), repeat=table.scans):
            if self.is_allowed(plan):
                self.allowed.append((plan,) + table.totals(plan))
        self.chosen = {}
        self.slopes = None

    def is_allowed(self, plan):
        table = self.table
        for scan, setting in enumerate(plan):
            before = plan[scan - 1] if scan else 0
            if scan and not keeps(table.law, before, setting):
                return False
            if table.rates[cell(table.settings, scan, before, setting)] == FORBIDDEN:
                return False
        return True

    def some_allowed(self):
        if not self.allowed:
            raise Refusal(8)

    def ceiling(self, x):
        self.some_allowed()
        under = [s for s in self.allowed if s[3] <= x]
        if not under:
            raise Refusal(9)
        plan, rate, distortion, peak = min(under, key=lambda s: (s[1], s[2], s[0]))
        return [rate, distortion, peak], plan

    def minmax(self, budget):
        self.some_allowed()
        # some sequence's peak is the least X, since between two peaks nothing changes
        for x in sorted({s[3] for s in self.allowed}):
            if any(s[3] <= x and s[1] <= budget for s in self.allowed):
                values, plan = self.ceiling(x)
                return [x] + values, plan
        raise Refusal(9)

    def choose(self, n, d):
        if (n, d) not in self.chosen:
            self.chosen[n, d] = min(self.allowed, key=lambda s: (d * s[2] + n * s[1], s[1], s[0]))
        return self.chosen[n, d]

    def multiplier(self, n, d):
        self.some_allowed()
        plan, rate, distortion, peak = self.choose(n, d)
        return [rate, distortion, peak], plan

    def every_slope(self):
        """Zero, and each multiplier at which two sequences tie: between two of these no multiplier plan changes, and at one of them the
        lower rate of the two that tie is taken, so the least multiplier of any kind is among them. Of the sequences with one rate only the
        least distortion counts, since no multiplier chooses another."""
        if self.slopes is None:
            least = {}
            for _, rate, distortion, _ in self.allowed:
                least[rate] = min(distortion, least.get(rate, distortion))
            found = {(0, 1)}
            for low, high in itertools.combinations(sorted(least), 2):
                n, d = least[low] - least[high], high - low
                if n > 0:
                    common = math.gcd(n, d)
                    found.add((n // common, d // common))
            self.slopes = sorted(found, key=lambda s: Fraction(*s))
        return self.slopes

    def average(self, budget):
        self.some_allowed()
        if all(s[1] > budget for s in self.allowed):
            raise Refusal(9)
        for n, d in self.every_slope():
            plan, rate, distortion, peak = self.choose(n, d)
            if rate <= budget:
                return [n, d, rate, distortion, peak, least_floor(n, d, budget, rate, distortion)], plan
        raise AssertionError("a budget that a sequence meets has a multiplier")

    def best(self, budget):
        self.some_allowed()
        within = [s for s in self.allowed if s[1] <= budget]
        if not within:
            raise Refusal(9)
        plan, rate, distortion, peak = min(within, key=lambda s: (s[2], s[1], s[0]))
        return [rate, distortion, peak], plan


class ByDynamicProgram:
    """Plans from the last scan back: for each setting before, the least key of what follows, and on a tie the lowest setting, so that the
    walk forward meets the first of the best. The true best is planned from the first scan on, by the ways to each setting that no other way
    beats. The distortions are weighed cell by cell, once: a later scan's weight is that of its whole square."""

    # keys are pairs of sums, of which the second stays below this
    SECOND = 1 << 31

    def __init__(self, table):
        self.table = table
        self.chosen = {}
        first, *later = table.weights
        spread = [first] * table.settings + [weight for weight in later for _ in range(table.settings ** 2)]
        self.weighed = [weight * distortion for weight, distortion in zip(spread, table.distortions)]

    def totals(self, plan):
        """Rate, distortion and peak of a plan, from the weighed cells."""
        square, places = self.table.settings ** 2, [plan[0]]
        for scan in range(1, len(plan)):
            places.append(self.table.settings + (scan - 1) * square + plan[scan - 1] * self.table.settings + plan[scan])
        return [sum(self.table.rates[k] for k in places), sum(self.weighed[k] for k in places), max(self.table.distortions[k] for k in places)]

    def least(self, keys):
        """The plan with the least sum of its cells' keys (None: may not be used), or None."""
        table = self.table
        settings, scans = table.settings, table.scans
        followers = [[q for q in range(settings) if keeps(table.law, p, q)] for p in range(settings)]
        after, steps = [0] * settings, []
        for scan in range(scans - 1, 0, -1):
            start = cell(settings, scan, 0, 0)
            least, step = [], []
            for p in range(settings):
                row = start + p * settings
                found, taken = None, None
                for q in followers[p]:
                    key, rest = keys[row + q], after[q]
                    if key is not None and rest is not None and (found is None or key + rest < found):
                        found, taken = key + rest, q
                least.append(found)
                step.append(taken)
            after = least
            steps.append(step)
        found, taken = None, None
        for q in range(settings):
            key, rest = keys[q], after[q]
            if key is not None and rest is not None and (found is None or key + rest < found):
                found, taken = key + rest, q
        if found is None:
            return None
        plan = [taken]
        for step in reversed(steps):
            plan.append(step[plan[-1]])
        return tuple(plan)

    def keyed(self, key, x=MOST_CELL):
        """The key of each cell, of its rate and its weighed distortion; the ceiling is asked of the plain one."""
        each = zip(self.table.rates, self.table.distortions, self.weighed)
        return [None if rate == FORBIDDEN or plain > x else key(rate, weighed) for rate, plain, weighed in each]

    def under(self, x):
        if ("under", x) not in self.chosen:
            self.chosen["under", x] = self.least(self.keyed(lambda r, w: r * self.SECOND + w, min(x, MOST_CELL)))
        return self.chosen["under", x]

    def choose(self, n, d):
        if (n, d) not in self.chosen:
            self.chosen[n, d] = self.least(self.keyed(lambda r, w: (d * w + n * r) * self.SECOND + r))
        return self.chosen[n, d]

    def some_allowed(self):
        """The plan of least rate, of all allowed."""
        plan = self.under(MOST_CELL)
        if plan is None:
            raise Refusal(8)
        return plan

    def ceiling(self, x):
        self.some_allowed()
        plan = self.under(x)
        if plan is None:
            raise Refusal(9)
        return self.totals(plan), plan

    def minmax(self, budget):
        if self.totals(self.some_allowed())[0] > budget:
            raise Refusal(9)
        # the least X is a distortion cell, and a higher ceiling never needs more rate
        shown = sorted({d for r, d in zip(self.table.rates, self.table.distortions) if r != FORBIDDEN})
        low, high = 0, len(shown) - 1
        while low < high:
            middle = (low + high) // 2
            plan = self.under(shown[middle])
            if plan is not None and self.totals(plan)[0] <= budget:
                high = middle
            else:
                low = middle + 1
        plan = self.under(shown[low])
        return [shown[low]] + self.totals(plan), plan

    def multiplier(self, n, d):
        self.some_allowed()
        plan = self.choose(n, d)
        return self.totals(plan), plan

    def average(self, budget):
        totals = self.totals
        low = totals(self.some_allowed())
        if low[0] > budget:
            raise Refusal(9)
        n, d = 0, 1
        plan = self.choose(n, d)
        high = totals(plan)
        # high's rate is over the budget and low's is not: where a plan beats both at the multiplier that ties them, it takes the place of
        # one; where none does, every smaller multiplier prefers high to each sequence within the budget
        while high[0] > budget:
            n, d = low[1] - high[1], high[0] - low[0]
            common = math.gcd(n, d)
            n, d = n // common, d // common
            plan = self.choose(n, d)
            here = totals(plan)
            if d * here[1] + n * here[0] == d * low[1] + n * low[0]:
                break
            if here[0] <= budget:
                low = here
            else:
                high = here
        rate, distortion, peak = totals(plan)
        return [n, d, rate, distortion, peak, least_floor(n, d, budget, rate, distortion)], plan

    @staticmethod
    def unbeaten(ways):
        """Of ways to one setting, each its rate, its distortion and its settings, those that no other beats. What can follow is the same for
        all, so a way beats another where neither its rate nor its distortion is more, and where both are the same if it is the first. By
        rising rate, then, each way that is left has less distortion than the one before."""
        left = []
        for way in sorted(ways):
            if not left or way[1] < left[-1][1]:
                left.append(way)
        return left

    def onward(self, k, ways, setting, budget):
        """These ways, each with a setting more, by cell k, as far as they are within the budget."""
        rate, distortion = self.table.rates[k], self.weighed[k]
        if rate == FORBIDDEN:
            return []
        return [(r + rate, d + distortion, way + bytes([setting])) for r, d, way in ways if r + rate <= budget]

    def ways(self, budget):
        """The unbeaten ways through all scans, of each last setting."""
        settings, law = self.table.settings, self.table.law
        here = [self.onward(q, [(0, 0, b"")], q, budget) for q in range(settings)]
        for scan in range(1, self.table.scans):
            there = []
            for q in range(settings):
                before = [p for p in range(settings) if keeps(law, p, q)]
                steps = [self.onward(cell(settings, scan, p, q), here[p], q, budget) for p in before]
                there.append(self.unbeaten(itertools.chain(*steps)))
            here = there
        return here

    def best(self, budget):
        if self.totals(self.some_allowed())[0] > budget:
            raise Refusal(9)
        _, _, way = min((d, r, way) for r, d, way in itertools.chain(*self.ways(budget)))
        return self.totals(way), tuple(way)


# Whole calls


def planned(maker, call, limits):
    if call == CEILING:
        return maker.ceiling(limits[0])
    if call == MULTIPLIER:
        return maker.multiplier(*limits)
    if call == MINMAX:
        return maker.minmax(limits[0])
    if call == BEST:
        return maker.best(limits[0])
    return maker.average(limits[0])


def answer(make, call, scans, settings, law, limits, rates, distortions, weights, plan, scratch):
    """The number, the values and both buffers as the caller gets them back. `make` gives the maker for a table; limits are X, n and d, or
    B."""
    early = early_refusal(call, scans, settings, law, limits, rates, distortions, weights, len(plan), len(scratch))
    if early:
        return early[0], [early[1]], plan, scratch
    used = scans * settings
    cleared = bytes(used) + scratch[used:]
    try:
        values, settled = planned(make(Table(scans, settings, law, rates, distortions, weights)), call, limits)
    except Refusal as late:
        return late.args[0], [0], plan, cleared
    return 0, values, bytes(settled) + plan[scans:], cleared


def best_answer(make, scans, settings, law, budget, rates, distortions, weights, plan, choices, totals):
    """The same of the true best, with its three buffers; totals is a list of cells."""
    lengths = len(plan), len(choices), len(totals)
    early = early_best_refusal(scans, settings, law, budget, rates, distortions, weights, lengths)
    if early:
        return early[0], [early[1]], plan, choices, totals
    _, bytes_used, cells_used = best_needs(scans, settings, budget)
    cleared = bytes(bytes_used) + choices[bytes_used:], [0] * cells_used + totals[cells_used:]
    try:
        values, settled = planned(make(Table(scans, settings, law, rates, distortions, weights)), BEST, (budget,))
    except Refusal as late:
        return late.args[0], [0], plan, *cleared
    return 0, values, bytes(settled) + plan[scans:], *cleared


# The check of this file by itself


def worked():
    """Document 01, "Bench tables"."""
    t = (2, 2, 0, [10, 4, 8, 3, 9, 5], [2, 7, 3, 6, 4, 10])
    u = (1, 3, 0, [9, 6, 2], [0, 8, 10])
    blocked = (2, 2, 0, [10, 4] + [FORBIDDEN] * 4, [2, 7, 3, 6, 4, 10])
    single = (1, 1, 0, [0], [0])
    sequences = {(0, 0): (18, 5, 3), (0, 1): (13, 8, 6), (1, 0): (13, 11, 7), (1, 1): (9, 17, 10)}
    for plan, totals in sequences.items():
        assert Table(*t).totals(plan) == totals
    for maker in (ByTryingAll, ByDynamicProgram):

        def ask(table, call, *limits):
            scans, settings, law, rates, distortions = table
            got = answer(maker, call, scans, settings, law, limits, rates, distortions, ones(scans), b"\7" * 3, b"\7" * 9)
            return got[0], got[1], tuple(got[2][:scans])

        def average(n, d, plan, floor):
            return 0, [n, d] + list(sequences[plan]) + [floor], plan

        def simple(plan, *first):
            return 0, list(first) + list(sequences[plan]), plan

        assert ask(t, AVERAGE, 18) == average(0, 1, (0, 0), 5)
        assert ask(t, AVERAGE, 17) == average(3, 5, (0, 1), 6)
        assert ask(t, AVERAGE, 13) == average(3, 5, (0, 1), 8)
        assert ask(t, AVERAGE, 12) == average(9, 4, (1, 1), 11)
        assert ask(t, AVERAGE, 9) == average(9, 4, (1, 1), 17)
        assert ask(t, AVERAGE, 8)[0] == 9
        assert ask(u, AVERAGE, 7) == (0, [10, 7, 2, 10, 10, 3], (2,))
        assert ask(t, CEILING, 7) == simple((0, 1))
        assert ask(t, CEILING, 5) == simple((0, 0))
        assert ask(t, CEILING, 2)[0] == 9
        assert ask(t, MINMAX, 17) == simple((0, 1), 6)
        assert ask(t, MINMAX, 12) == simple((1, 1), 10)
        assert ask(t, MULTIPLIER, 9, 4) == simple((1, 1))
        assert ask(t, MULTIPLIER, 3, 5) == simple((0, 1))
        for budget in (0, 8, 13, 2 ** 64 - 1):
            assert ask(blocked, AVERAGE, budget)[0] == 8 and ask(blocked, MINMAX, budget)[0] == 8
        assert ask((1, 1, 0, [1048575], [0]), AVERAGE, 2 ** 64 - 1)[0] == 0
        assert ask((1, 1, 0, [1048576], [0]), AVERAGE, 2 ** 64 - 1)[:2] == (7, [0])
        assert ask(single, AVERAGE, 0) == (0, [0, 1, 0, 0, 0, 0], (0,))
    assert keeps(1, 0, 2) and keeps(1, 3, 1) and not keeps(1, 0, 3)
    assert cells(1024, 16) == 261904


def lawful():
    """The laws on every pair of settings, and on table V, of which each law has another plan: 0 then 3 takes the least rate, then 3 then 0,
    and then, of what law 1 allows, 0 then 2."""
    for before, setting in itertools.product(range(MOST_SETTINGS), repeat=2):
        coarser = setting - before
        assert keeps(0, before, setting)
        assert keeps(1, before, setting) == (coarser in (-2, -1, 0, 1, 2))
        assert keeps(2, before, setting) == (coarser < 0 or coarser in (0, 1, 2))
        assert not any(keeps(law, before, setting) for law in NO_LAWS)
    v = [5] * 4 + [9, 9, 4, 1] + [9] * 4 + [6, 9, 9, 9] + [2, 9, 9, 9], [1] * 4 + [3] * 16
    assert [len(ByTryingAll(Table(2, 4, law, *v)).allowed) for law in LAWS] == [16, 14, 15]
    for maker in (ByTryingAll, ByDynamicProgram):

        def ask(law, call, *limits):
            number, values, plan, _ = answer(maker, call, 2, 4, law, limits, *v, ones(2), b"\7" * 2, b"\7" * 8)
            return number, values, tuple(plan)

        for law, plan, rate in ((0, (0, 3), 6), (1, (0, 2), 9), (2, (3, 0), 7)):
            totals = [rate, 4, 3]
            assert ask(law, CEILING, FORBIDDEN) == ask(law, MULTIPLIER, 1, 1) == (0, totals, plan)
            for budget in (5, 6, 7, 8, 9):
                if rate <= budget:
                    assert ask(law, MINMAX, budget) == (0, [3] + totals, plan)
                    assert ask(law, AVERAGE, budget) == (0, [0, 1] + totals + [4], plan)
                else:
                    assert ask(law, MINMAX, budget) == ask(law, AVERAGE, budget) == (9, [0], (7, 7))
        for law in NO_LAWS:
            for call, *limits in ((CEILING, 0), (MULTIPLIER, 1, 0), (MINMAX, 0), (AVERAGE, 0)):
                assert ask(law, call, *limits) == (3, [0], (7, 7))


# Table T under law 1 by weights: what a call is asked, the number that comes back, the values and the settings.
WEIGHED_T = [
    ((2, 1), AVERAGE, (17,), 0, [3, 5, 13, 10, 6, 8], (0, 1)),
    ((2, 1), AVERAGE, (12,), 0, [7, 2, 9, 24, 10, 14], (1, 1)),
    ((0, 1), AVERAGE, (13,), 0, [1, 5, 13, 4, 7, 4], (1, 0)),
    ((0, 1), CEILING, (7,), 0, [13, 4, 7], (1, 0)),
    ((1, 1), CEILING, (7,), 0, [13, 8, 6], (0, 1)),
    ((0, 1), MINMAX, (13,), 0, [6, 13, 6, 6], (0, 1)),
    ((1, 0), AVERAGE, (13,), 0, [0, 1, 13, 2, 6, 2], (0, 1)),
    ((1, 0), AVERAGE, (12,), 0, [5, 4, 9, 7, 10, 4], (1, 1)),
    # nothing weighs: the least rate of all, at any budget that takes it
    ((0, 0), AVERAGE, (9,), 0, [0, 1, 9, 0, 10, 0], (1, 1)),
    ((0, 0), AVERAGE, (17,), 0, [0, 1, 9, 0, 10, 0], (1, 1)),
    ((0, 0), AVERAGE, (2 ** 64 - 1,), 0, [0, 1, 9, 0, 10, 0], (1, 1)),
    ((0, 0), AVERAGE, (8,), 9, [0], (7, 7)),
    # a ceiling and an X of minmax are plain
    ((0, 0), CEILING, (9,), 0, [13, 0, 6], (0, 1)),
    ((0, 0), CEILING, (2,), 9, [0], (7, 7)),
    ((0, 0), MINMAX, (17,), 0, [6, 13, 0, 6], (0, 1)),
    ((255, 255), CEILING, (7,), 0, [13, 255 * 8, 6], (0, 1)),
]

# Distortion 3 of table T and the weights, with the lowest illegal cell. Cells 0 and 1 are of scan 0, the others of scan 1.
ILLEGAL_T = [
    (600000, (1, 2), 3),
    (600000, (2, 1), None),
    (524287, (1, 2), None),
    (524287, (2, 2), None),
    (524288, (1, 2), 3),
    (524288, (2, 1), None),
    (1048575, (255, 1), None),
    (1048575, (255, 0), None),
    (1048576, (1, 0), 3),
    (1048576, (0, 0), 3),
    (4112, (255, 255), None),
    (4113, (255, 255), 3),
]


def weighed():
    """Request [5]: table T with unequal weights, lengths of weights that are not N, illegal products, and the scan of every cell."""
    rates, distortions = [10, 4, 8, 3, 9, 5], [2, 7, 3, 6, 4, 10]
    every = [(CEILING, 1048575), (MULTIPLIER, 1, 1), (MINMAX, 2 ** 64 - 1), (AVERAGE, 2 ** 64 - 1)]
    for maker in (ByTryingAll, ByDynamicProgram):

        def ask(call, limits, weights, rates=rates, distortions=distortions, plan=2, scratch=4):
            number, values, plan, _ = answer(maker, call, 2, 2, 1, limits, rates, distortions, weights, b"\7" * plan, b"\7" * scratch)
            return number, values, tuple(plan)

        for weights, call, limits, *right in WEIGHED_T:
            assert ask(call, limits, bytes(weights)) == tuple(right), (weights, call, limits)
        for call, *limits in every:
            for size in (0, 1, 3, 4, 6):
                # 5 comes before a short buffer and an illegal cell
                assert ask(call, limits, bytes(size))[:2] == (5, [0])
                assert ask(call, limits, bytes(size), distortions=[2 ** 20] * 6, plan=0)[:2] == (5, [0])
            assert ask(call, limits, bytes([1, 1]), distortions=[2 ** 20] * 6, scratch=3)[:2] == (6, [0])
            for distortion, weights, illegal in ILLEGAL_T:
                changed = distortions[:3] + [distortion] + distortions[4:]
                number, values, _ = ask(call, limits, bytes(weights), distortions=changed)
                assert (number, values) == (7, [illegal]) if illegal is not None else number == 0
                # beside a forbidden rate nothing is illegal, by itself or by its product
                for hidden in (distortion, 4294967295):
                    closed = rates[:3] + [FORBIDDEN] + rates[4:], distortions[:3] + [hidden] + distortions[4:]
                    assert ask(call, limits, bytes(weights), *closed)[0] == 0
    for settings in range(1, MOST_SETTINGS + 1):
        places = [(scan, p, q) for scan in range(4) for p in range(settings if scan else 1) for q in range(settings)]
        assert [cell(settings, *place) for place in places] == list(range(cells(4, settings)))
        assert [scan_of(settings, k) for k in range(cells(4, settings))] == [place[0] for place in places]


# The true best of tables T and U by weights: the budget, the number that comes back, the values and the settings.
BEST_T = [
    ((1, 1), 8, 9, [0], (7, 7)),
    ((1, 1), 9, 0, [9, 17, 10], (1, 1)),
    ((1, 1), 12, 0, [9, 17, 10], (1, 1)),
    ((1, 1), 13, 0, [13, 8, 6], (0, 1)),
    ((1, 1), 17, 0, [13, 8, 6], (0, 1)),
    ((1, 1), 18, 0, [18, 5, 3], (0, 0)),
    ((1, 1), 4095, 0, [18, 5, 3], (0, 0)),
    ((1, 1), 4096, 19, [0], (7, 7)),
    ((0, 1), 13, 0, [13, 4, 7], (1, 0)),
    ((0, 0), 4095, 0, [9, 0, 10], (1, 1)),
]
BEST_U = [(1, 9, [0], (7,)), (2, 0, [2, 10, 10], (2,)), (7, 0, [6, 8, 8], (1,)), (9, 0, [9, 0, 0], (0,))]


def best_of(maker, table, budget, weights=None, more=(0, 0, 0), rates=None):
    """A call of the true best with buffers that are longer than needed by so much, or shorter: what it answers, and the buffers."""
    scans, settings, law, plain, distortions = table
    lengths = [max(need + extra, 0) for need, extra in zip(best_needs(scans, settings, min(budget, MOST_BUDGET)), more)]
    weights = ones(scans) if weights is None else bytes(weights)
    lent = b"\7" * lengths[0], b"\7" * lengths[1], [7] * lengths[2]
    return best_answer(maker, scans, settings, law, budget, plain if rates is None else rates, distortions, weights, *lent)


def short_series():
    """Request [6]: tables T and U, 8 and 9, the numbers and lengths at both sides of their limits, and what the buffers hold afterwards."""
    t = (2, 2, 0, [10, 4, 8, 3, 9, 5], [2, 7, 3, 6, 4, 10])
    u = (1, 3, 0, [9, 6, 2], [0, 8, 10])
    blocked = t[3][:2] + [FORBIDDEN] * 4
    for maker in (ByTryingAll, ByDynamicProgram):
        for weights, budget, *right in BEST_T:
            number, values, plan, choices, totals = best_of(maker, t, budget, weights)
            assert [number, values, tuple(plan)] == right, (weights, budget)
            if number in (0, 8, 9):
                assert not any(choices) and not any(totals)
        for budget, *right in BEST_U:
            number, values, plan, _, _ = best_of(maker, u, budget)
            assert [number, values, tuple(plan)] == right, budget
        for budget in (0, 13, 4095):
            assert best_of(maker, t, budget, rates=blocked)[:2] == (8, [0])
        assert best_of(maker, (1, 1, 0, [0], [0]), 0) == (0, [0, 0, 0], b"\0", b"\0", [0] * 4)
        # a buffer too short, longer ones on 0, 8 and 9, and an illegal cell behind a short buffer
        for more in ((-1, 0, 0), (0, -1, 0), (0, 0, -1)):
            assert best_of(maker, t, 17, more=more)[:2] == best_of(maker, t, 17, more=more, rates=[2 ** 20] * 6)[:2] == (6, [0])
        for budget, rates, number, plan in ((17, t[3], 0, b"\0\1"), (17, blocked, 8, b"\7\7"), (8, t[3], 9, b"\7\7")):
            _, choices, totals = best_needs(2, 2, budget)
            right = plan + b"\7" * 3, bytes(choices) + b"\7" * 2, [0] * totals + [7] * 5
            got = best_of(maker, t, budget, more=(3, 2, 5), rates=rates)
            assert got[0] == number and got[2:] == right
        assert best_of(maker, t, 17, more=(3, 2, 5), rates=[10, 4, 8, 3, 9, 2 ** 20])[:2] == (7, [5])
        # 19 comes after 1 to 3 and before 5
        for scans, law, budget, number in ((64, 0, 3, 0), (64, 0, 4096, 19), (65, 0, 4096, 1), (0, 0, 0, 1), (64, 3, 4096, 3)):
            table = scans, 1, law, [0] * scans, [1048575] * scans
            assert best_of(maker, table, budget)[0] == number
            assert best_of(maker, table, budget, rates=[])[0] == (number or 5)


def outcome(maker, call, *limits):
    try:
        return planned(maker, call, limits)
    except Refusal as late:
        return late.args[0]


def between(maker, budget):
    """The true best is refused as the average plan is; its distortion is at most that plan's, and at least the floor that it proves."""
    average, best = outcome(maker, AVERAGE, budget), outcome(maker, BEST, budget)
    if average in (8, 9) or best in (8, 9):
        return average == best
    *_, distortion, _, floor = average[0]
    return floor <= best[0][1] <= distortion


def agree(table, budgets, ceilings, multipliers):
    """The two makers answer alike."""
    tried, programmed = ByTryingAll(table), ByDynamicProgram(table)
    low = [b for b in budgets if b <= MOST_BUDGET]
    asked = [(call, b) for b in budgets for call in (MINMAX, AVERAGE)] + [(BEST, b) for b in low]
    asked += [(CEILING, x) for x in ceilings] + [(MULTIPLIER,) + m for m in multipliers]
    assert all(between(maker, b) for maker in (tried, programmed) for b in low)
    for call, *limits in asked:
        assert outcome(tried, call, *limits) == outcome(programmed, call, *limits), (vars(table), call, limits)
    for plan, *totals in tried.allowed:
        assert programmed.totals(plan) == totals
    return len(asked)


def random_weights(draw, scans, top):
    """Weights at which distortions up to `top` are legal: often few values, and now and then all 1."""
    most = min(255, MOST_CELL // max(top, 1))
    few = draw.choice([[1], [0, 1], [0, 1, 2], [0, 1, 2, 255], [1, 2, 3], [254, 255], range(256)])
    few = [weight for weight in few if weight <= most] or [0, 1]
    return bytes(draw.choice(few) for _ in range(scans))


def main():
    worked()
    lawful()
    weighed()
    short_series()
    draw = random.Random(20)
    asked = 0
    for _ in range(2000):
        settings = draw.randint(1, 6)
        scans = draw.randint(1, {1: 9, 2: 6, 3: 4, 4: 3, 5: 3, 6: 2}[settings])
        span = draw.choice([1, 2, 3, 10, 200, MOST_CELL])
        size = cells(scans, settings)
        rates = [FORBIDDEN if draw.random() < 0.15 else draw.randint(0, span) for _ in range(size)]
        distortions = [draw.randint(0, draw.choice([span, 3])) for _ in range(size)]
        # a forbidden cell's distortion is never met
        distortions = [draw.choice([d, FORBIDDEN]) if r == FORBIDDEN else d for r, d in zip(rates, distortions)]
        weights = random_weights(draw, scans, max([d for r, d in zip(rates, distortions) if r != FORBIDDEN], default=0))
        assert lowest_illegal(settings, rates, distortions, weights) is None
        table = Table(scans, settings, draw.choice(LAWS), rates, distortions, weights)
        budgets = [0, MOST_BUDGET, 2 ** 64 - 1] + [draw.randint(0, (span + 1) * scans) for _ in range(5)]
        multipliers = [(0, 1), (1, 1), (MOST_TERM, 1), (1, MOST_TERM), (draw.randint(0, 9), draw.randint(1, 9))]
        asked += agree(table, budgets, [0, draw.choice(distortions), draw.randint(0, span), FORBIDDEN], multipliers)
    print("planner.py: the examples hold, and both makers answer %d calls alike" % asked)


if __name__ == "__main__":
    sys.exit(main())
