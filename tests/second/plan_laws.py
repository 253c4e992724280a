"""What tells the step laws apart: table V under each of them and under numbers that are no law, steps of every size in tables of each Q,
and tables of which every call answers otherwise under another law, or is refused otherwise, also under law 2 turned round."""

import itertools

import planner
from laws import LAWS, NO_LAWS, keeps
from plan_cells import coded, kept
from plan_limits import all_limits, one_of_each, random_limits
from plan_worked import V
from planner import CEILING, FORBIDDEN, MINMAX

# what may follow what: each law, and law 2 the wrong way round
READINGS = [lambda p, q, law=law: keeps(law, p, q) for law in LAWS] + [lambda p, q: keeps(2, q, p)]


def under_each_law(out, scans, settings, made, calls, laws=LAWS):
    """The same tables and calls under one law after another."""
    for law in laws:
        out.group(scans, settings, law, made, calls)
        made = kept(made)


def table_v(out):
    """Every limit that matters under each law, and each call under every number that is no law."""
    scans, settings, _, rates, distortions = V
    made = coded(rates, distortions)
    for law in LAWS:
        out.group(scans, settings, law, made, all_limits((scans, settings, law, rates, distortions)))
        made = kept(made)
    under_each_law(out, scans, settings, made, one_of_each(budget=7), NO_LAWS)


# Steps


def ladder(settings, steps):
    """Two scans of which these steps alone are open. Each has more distortion than the one before it and less rate, so that a ceiling at
    its distortion, or a budget at its rate, finds it where the law allows it and another where not."""
    rates, distortions = [0] * settings + [FORBIDDEN] * settings ** 2, [0] * (settings + settings ** 2)
    for k, (before, after) in enumerate(steps):
        at = planner.cell(settings, 1, before, after)
        rates[at], distortions[at] = len(steps) - k, k
    return coded(rates, distortions)


def chosen_steps(settings):
    """Of few settings all steps; of 16 those of two and of three, finer and coarser, and the longest; of the others some of these."""
    last = settings - 1
    steps = list(itertools.product(range(settings), repeat=2))
    if settings <= 4:
        return steps
    if settings == 16:
        return [(p, q) for p, q in steps if abs(p - q) in (2, 3, last)]
    return [(0, 2), (0, 3), (last, 0), (last - 2, last), (last - 3, last)]


def steps_of_each_size(out):
    """Of up to three settings no law rules out a step, and 4 are the first of which one does."""
    for settings in range(1, 17):
        steps = chosen_steps(settings)
        calls = [(CEILING, k, 0) if k % 2 else (MINMAX, len(steps) - k, 0) for k in range(len(steps))]
        under_each_law(out, 2, settings, ladder(settings, steps), calls, LAWS if settings in (3, 4) else (2,))


# Tables that tell


class ByReading(planner.ByTryingAll):
    """Every sequence that keeps a reading of the law, of a table under law 0."""

    def __init__(self, table, may):
        self.may = may
        super().__init__(table)

    def is_allowed(self, plan):
        return super().is_allowed(plan) and all(self.may(p, q) for p, q in zip(plan, plan[1:]))


def outcomes(scans, settings, made, calls):
    """For each reading what the calls answer: values and plan, or the number of a refusal."""
    table = planner.Table(scans, settings, 0, made.rates, made.distortions)
    makers = [ByReading(table, may) for may in READINGS]
    return [[planner.outcome(maker, *call) for call in calls] for maker in makers]


def leaning(draw, scans, settings):
    """Tables in which the steps that law 1 rules out are the better ones."""
    size = planner.cells(scans, settings)
    rates, distortions = [[draw.randint(0, 9) for _ in range(size)] for _ in range(2)]
    for scan, before, after in itertools.product(range(1, scans), range(settings), range(settings)):
        if keeps(1, before, after):
            at = planner.cell(settings, scan, before, after)
            rates[at] += draw.randint(0, 20)
            distortions[at] += draw.randint(0, 20)
    return coded(rates, distortions)


def answered_otherwise(out, draw):
    """Tables of which each of the four calls has an answer under law 2 that it has under no other reading."""
    for scans, settings in ((2, 4), (3, 4), (4, 4), (3, 5), (3, 6), (2, 7), (2, 10)):
        told = False
        while not told:
            made = leaning(draw, scans, settings)
            calls = random_limits(draw, (scans, settings, 2, made.rates, made.distortions))
            *others, second, turned = outcomes(scans, settings, made, calls)
            told = all(mine not in theirs for mine, *theirs in zip(second, turned, *others))
        under_each_law(out, scans, settings, made, calls)


# Tables that are refused by the law alone


def with_open(draw, scans, settings, ways):
    """Of the later scans these ways alone are open, each within budget and ceiling of 9 or over both."""
    size = planner.cells(scans, settings)
    rates = [draw.randint(0, 2) for _ in range(settings)] + [FORBIDDEN] * (size - settings)
    distortions = [draw.randint(0, 9) for _ in range(size)]
    for way, over in ways:
        for scan in range(1, scans):
            at = planner.cell(settings, scan, way[scan - 1], way[scan])
            rates[at], distortions[at] = draw.randint(0, 2) + 10 * over, draw.randint(0, 9) + 10 * over
    return coded(rates, distortions)


# of the steps that every law allows, of the finer ones that law 1 rules out, and of such coarser ones: None where none is open, otherwise
# whether the one that is open is over the limits
OPENED = [(None, finer, coarser) for finer in (None, False, True) for coarser in (None, False, True)][1:]
OPENED += [(True, None, False), (True, False, None), (True, False, True)]


def refused_otherwise(out, draw):
    """One step alone of each kind, and then ways of both a finer and a coarser one, which law 0 alone allows."""
    calls = one_of_each(2, 3, 9, 9)
    for opened in OPENED:
        settings = draw.randint(4, 6)
        steps = list(itertools.product(range(settings), repeat=2))
        kinds = [[s for s in steps if keeps(1, *s)], [s for s in steps if s[0] > s[1] + 2], [s for s in steps if s[1] > s[0] + 2]]
        ways = [(draw.choice(kind), over) for kind, over in zip(kinds, opened) if over is not None]
        under_each_law(out, 2, settings, with_open(draw, 2, settings, ways), calls, (1, 2))
    for way in ((0, 3, 0), (3, 0, 3)):
        for over in (False, True):
            under_each_law(out, 3, 4, with_open(draw, 3, 4, [(way, over)]), calls)


def laws_apart(out, draw):
    table_v(out)
    steps_of_each_size(out)
    answered_otherwise(out, draw)
    refused_otherwise(out, draw)
