"""Calls of the true best, group by group: the bytes that best_cases reads for them, and the lines that it must write, from the answers of
planner.py. The form of both stands in best_vectors.py."""

import struct
from collections import Counter

import planner
from buffers import pattern, shown
from list_calls import filled, table_shown
from plan_calls import WEIGHTS_ROOM, makers
from plan_cells import WEIGHED
from planner import MOST_BUDGET

# the room that best_cases has for each table, for plan, choices and totals
ROOM = (262144, 262144, 2048, 1049600, 262400)

# where the patterns of plan and choices start, and the cells of totals
PLAN_START, CHOICES_START, TOTALS_START = 13, 100, 2000000000

# how much longer than needed the three buffers are where nothing is said of them
MORE = (2, 3, 5)


def needs(scans, settings, budget, more=(0, 0, 0)):
    """The lengths of plan, choices and totals that a call needs, and so much more, or less."""
    return [need + extra for need, extra in zip(planner.best_needs(scans, settings, budget), more)]


class Group:
    """One table, and the lengths of plan, choices and totals that its calls are lent. Where no weights are given, the input tells of none,
    and best_cases lends a 1 for each scan, as far as it has room."""

    def __init__(self, scans, settings, law, made, lent, weights):
        self.scans, self.settings, self.law, self.made, self.lent = scans, settings, law, made, lent
        self.given, self.weights = weights is not None, planner.ones(min(scans, WEIGHTS_ROOM)) if weights is None else weights
        self.makers = makers(scans, settings)

    def told(self, calls):
        """The bytes of the group before its calls: ten words and the cells; where weights are given, another source, an eleventh word with
        their length, and the weights behind the cells."""
        lengths = len(self.made.rates), len(self.made.distortions), *self.lent
        assert all(length <= room for length, room in zip(lengths, ROOM)) and len(self.weights) <= WEIGHTS_ROOM
        words = [self.made.source, self.scans, self.settings, self.law, *lengths, calls]
        if not self.given:
            return struct.pack("<10Q", *words) + self.made.told
        words[0] += WEIGHED
        return struct.pack("<11Q", *words, len(self.weights)) + self.made.told + self.weights

    def answer(self, budget):
        """What every maker answers alike."""
        table = self.scans, self.settings, self.law, budget, self.made.rates, self.made.distortions, self.weights
        plan, choices, totals = self.lent
        before = pattern(plan, PLAN_START), pattern(choices, CHOICES_START), filled(totals, TOTALS_START)
        answers = [planner.best_answer(make, *table, *before) for make in self.makers]
        assert all(a == answers[0] for a in answers)
        return answers[0]


class BestCalls:
    """All groups: the input, the lines, how many groups there are, how many answers with each number, and about how many steps the calls
    take that are not refused early."""

    def __init__(self):
        self.stdin, self.lines, self.groups, self.counts, self.steps = [], [], 0, Counter(), 0

    def group(self, scans, settings, law, made, budgets, lent=None, weights=None):
        """One table and its calls, each a budget. Buffers that are not given are a little longer than the largest of these budgets needs, and
        weights that are not given are all 1."""
        if lent is None:
            lent = needs(scans, settings, max(b for b in budgets if b <= MOST_BUDGET), MORE)
        group = Group(scans, settings, law, made, lent, weights)
        self.stdin.append(group.told(len(budgets)))
        self.groups += 1
        for budget in budgets:
            self.stdin.append(struct.pack("<Q", budget))
            number, *others = group.answer(budget)
            self.steps += scans * settings ** 2 * (budget + 1) if number in (0, 8, 9) else 0
            self.answered(number, *others)

    def answered(self, number, values, plan, choices, totals):
        self.counts[number] += 1
        text = "".join("%d " % x for x in [number] + values)
        text += "p" + shown(plan, PLAN_START) + "s" + shown(choices, CHOICES_START) + "t" + table_shown(totals, TOTALS_START)
        self.lines.append(text + "\n")
