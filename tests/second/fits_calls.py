"""Calls of the question whether something fits, group by group: the bytes that fits_cases reads for them, and the lines that it must write,
from the answers of fits.py. The form of both stands in fits_vectors.py."""

import struct
from collections import Counter

import fits
from edges import TOP, around
from lines import line
from plan_calls import MOST_TRIED, Kept

# of a table with more scans than this the beginnings of every length are too many to list
MOST_LENGTHS = 20

# the room that fits_cases has for each table
ROOM = 262144


def makers(scans, settings):
    """Every kind of maker that a table of this size allows."""
    small = scans <= MOST_LENGTHS and settings ** scans <= MOST_TRIED
    return [Kept(kind) for kind in ([fits.ByTryingAll] if small else []) + [fits.ByDynamicProgram]]


def least_rates(scans, settings, law, made):
    """The least rate of an allowed beginning of one scan, of two and so on, as far as scans are legal and there is one."""
    least = fits.ByDynamicProgram(fits.Series(scans, settings, law, made.rates, made.distortions)).least
    return [rate for rate in least if rate <= TOP]


def every_rate(scans, settings, law, made):
    """The rates of all allowed beginnings, as far as scans are legal."""
    tried = fits.ByTryingAll(fits.Series(scans, settings, law, made.rates, made.distortions))
    legal = next((scan for scan in range(scans) if tried.illegal[scan]), scans)
    return {rate for length in range(1, legal + 1) for rate in tried.beginnings(length)}


def budgets_of(rates, ends=(0, TOP)):
    """On, under and over each rate, and these."""
    return sorted({*around(rates, TOP), *ends})


class FitsCalls:
    """All groups: the input, the lines, how many groups there are, and how many answers of each kind."""

    def __init__(self):
        self.stdin, self.lines, self.groups, self.counts = [], [], 0, Counter()

    def group(self, scans, settings, law, made, budgets):
        """One table and its calls, each a budget; every maker answers alike."""
        lengths = len(made.rates), len(made.distortions)
        assert max(lengths) <= ROOM
        self.stdin.append(struct.pack("<7Q", made.source, scans, settings, law, *lengths, len(budgets)) + made.told)
        self.groups += 1
        kinds = makers(scans, settings)
        for budget in budgets:
            self.stdin.append(struct.pack("<Q", budget))
            answers = [fits.answer(make, scans, settings, law, budget, made.rates, made.distortions) for make in kinds]
            assert all(a == answers[0] for a in answers)
            self.answered(*answers[0])

    def answered(self, number, values):
        self.counts[str(number) if number else ("no", "yes")[values[0]]] += 1
        self.lines.append(line(number, values))

    def near(self, scans, settings, law, made, ends=(0, TOP)):
        """One table with budgets on, under and over what lets each of its scans be read, and these."""
        self.group(scans, settings, law, made, budgets_of(least_rates(scans, settings, law, made), ends))

    def whole(self, scans, settings, law, made, ends=(0, TOP)):
        """One table with budgets on, under and over the rate of every beginning, and these."""
        self.group(scans, settings, law, made, budgets_of(every_rate(scans, settings, law, made), ends))
