"""Planning calls, group by group: the bytes that plan_cases reads for them, as crates/plan_cases/src/main.rt takes them, and the lines that
it must write, from the answers of planner.py.

A line holds the number that comes back, the values (ceiling and multiplier: rate, distortion, peak; minmax: X before these; average: n and
d before, the floor after; a refusal: what it carries), "p" with the plan buffer and "s" with the scratch buffer."""

import struct
from collections import Counter

import planner
from buffers import pattern
from lines import line
from plan_cells import WEIGHED
from planner import MULTIPLIER

# a table with more sequences than this is planned by dynamic programming alone
MOST_TRIED = 1024

# the room that plan_cases has for each table and buffer, and for weights
ROOM = (262144, 262144, 2048, 32768)
WEIGHTS_ROOM = 2048

# where the patterns of the two buffers start
PLAN_START, SCRATCH_START = 13, 100


class Kept:
    """A maker of plans that is made when the first call of a group gets so far, and kept for the others."""

    def __init__(self, kind):
        self.kind, self.maker = kind, None

    def __call__(self, table):
        if self.maker is None:
            self.maker = self.kind(table)
        return self.maker


def makers(scans, settings):
    """Every kind of maker that a table of this size allows."""
    small = scans <= planner.MOST_SCANS and settings ** scans <= MOST_TRIED
    return [Kept(kind) for kind in ([planner.ByTryingAll] if small else []) + [planner.ByDynamicProgram]]


class Group:
    """One table, and the lengths of the two buffers that its calls are lent. Where no weights are given, the input tells of none, and
    plan_cases lends a 1 for each scan, as far as it has room: more scans than that are refused with 1."""

    def __init__(self, scans, settings, law, made, plan, scratch, weights):
        self.scans, self.settings, self.law, self.made, self.plan, self.scratch = scans, settings, law, made, plan, scratch
        self.given, self.weights = weights is not None, planner.ones(min(scans, WEIGHTS_ROOM)) if weights is None else weights
        self.makers = makers(scans, settings)

    def told(self, calls):
        """The bytes of the group before its calls: nine words and the cells; where weights are given, another source, a tenth word with
        their length, and the weights behind the cells."""
        lengths = (len(self.made.rates), len(self.made.distortions), self.plan, self.scratch)
        assert all(length <= room for length, room in zip(lengths, ROOM)) and len(self.weights) <= WEIGHTS_ROOM
        words = [self.made.source, self.scans, self.settings, self.law, *lengths, calls]
        if not self.given:
            return struct.pack("<9Q", *words) + self.made.told
        words[0] += WEIGHED
        return struct.pack("<10Q", *words, len(self.weights)) + self.made.told + self.weights

    def answer(self, which, limit, other):
        """What every maker answers alike."""
        limits = (limit, other) if which == MULTIPLIER else (limit,)
        table = self.scans, self.settings, self.law, limits, self.made.rates, self.made.distortions, self.weights
        before = pattern(self.plan, PLAN_START), pattern(self.scratch, SCRATCH_START)
        answers = [planner.answer(make, which, *table, *before) for make in self.makers]
        assert all(a == answers[0] for a in answers)
        return answers[0]


class PlanCalls:
    """All groups: the input, the lines, how many groups there are, and how many answers with each number."""

    def __init__(self):
        self.stdin, self.lines, self.groups, self.counts = [], [], 0, Counter()

    def group(self, scans, settings, law, made, calls, plan=None, scratch=None, weights=None):
        """One table and its calls, each (which, limit, other). Buffers that are not given are a little longer than needed, and weights that
        are not given are all 1."""
        plan = scans + 2 if plan is None else plan
        scratch = scans * settings + 3 if scratch is None else scratch
        group = Group(scans, settings, law, made, plan, scratch, weights)
        self.stdin.append(group.told(len(calls)))
        self.groups += 1
        for call in calls:
            self.stdin.append(struct.pack("<3Q", *call))
            self.answered(*group.answer(*call))

    def answered(self, number, values, plan, scratch):
        self.counts[number] += 1
        self.lines.append(line(number, values, ("p", plan, PLAN_START), ("s", scratch, SCRATCH_START)))
