"""Planning calls on a table with the limits that matter to it: budgets, ceilings and multipliers. A call is (which, limit, other): the
budget B, the ceiling X, or n and d of a multiplier. A table is N, Q, law, rates and distortions, and then the weights where they are not
all 1."""

import planner
from edges import TOP, around
from planner import AVERAGE, CEILING, FORBIDDEN, MINMAX, MOST_TERM, MULTIPLIER

# takes the place of a sequence, with its rate, distortion and peak, where none is allowed
NONE = ((), 3, 3, 3)


def one_of_each(n=1, d=1, budget=TOP, x=FORBIDDEN):
    return [(CEILING, x, 0), (MULTIPLIER, n, d), (MINMAX, budget, 0), (AVERAGE, budget, 0)]


def stretched(n, d):
    """The same fraction in its largest terms, and the nearest fractions over that d: a tie that rounding would miss or make up shows."""
    k = MOST_TERM // max(n, d)
    return [(n * k + step, d * k) for step in (-1, 0, 1) if 0 <= n * k + step <= MOST_TERM]


# Every limit of a table


def all_limits(table):
    """Budgets on, under and over every sequence's rate, ceilings at every cell and beside it, every multiplier at which two sequences tie,
    and the ends of each range."""
    tried = planner.ByTryingAll(planner.Table(*table))
    budgets = around({s[1] for s in tried.allowed}, TOP) + [0, TOP]
    ceilings = around(set(table[4]), FORBIDDEN) + [0, FORBIDDEN]
    slopes = [s for s in tried.every_slope() if max(s) <= MOST_TERM]
    multipliers = slopes + [m for s in slopes for m in stretched(*s)]
    multipliers += [(0, 1), (0, MOST_TERM), (1, 1), (MOST_TERM, 1), (1, MOST_TERM), (MOST_TERM, MOST_TERM)]
    calls = [(which, b, 0) for b in sorted(set(budgets)) for which in (MINMAX, AVERAGE)]
    calls += [(CEILING, x, 0) for x in sorted(set(ceilings))]
    calls += [(MULTIPLIER, n, d) for n, d in sorted(set(multipliers))]
    return calls


# Limits drawn from a table's sequences


def beside(draw, value):
    """Mostly the value itself."""
    return value + draw.choice([-1, 0, 0, 0, 1])


def mostly(draw, value, ends):
    return draw.choice([value] * 18 + ends)


def random_budget(draw, some, other, low):
    near = beside(draw, draw.choice([some[1], some[1], other[1], low, (some[1] + other[1]) // 2]))
    return mostly(draw, max(near, 0), [0, TOP])


def random_ceiling(draw, some, flat, distortions):
    near = beside(draw, draw.choice([some[3], flat, draw.choice(distortions)]))
    return mostly(draw, min(max(near, 0), FORBIDDEN), [0, FORBIDDEN])


def random_multiplier(draw, some, other):
    n, d = abs(some[2] - other[2]), abs(some[1] - other[1])
    if d == 0 or draw.random() < 0.2:
        n, d = draw.choice([(0, 1), (1, 1), (1, 2), (2, 1), (MOST_TERM, 1), (1, MOST_TERM), (draw.randint(0, 50), draw.randint(1, 50))])
    if draw.random() < 0.4:
        n, d = draw.choice(stretched(n, d))
    return n, d


def random_limits(draw, table):
    """One of each call, its limit drawn from the sequences themselves, so that it falls on, under and over what matters."""
    allowed = planner.ByTryingAll(planner.Table(*table)).allowed
    some, other = [draw.choice(allowed) if allowed else NONE for _ in range(2)]
    low = min(s[1] for s in allowed or [NONE])
    flat = min(s[3] for s in allowed or [NONE])
    x = random_ceiling(draw, some, flat, table[4])
    n, d = random_multiplier(draw, some, other)
    budgets = [random_budget(draw, some, other, low) for _ in range(2)]
    return [(CEILING, x, 0), (MULTIPLIER, n, d), (MINMAX, budgets[0], 0), (AVERAGE, budgets[1], 0)]
