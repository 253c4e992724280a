"""Random small tables, in styles that make ties of every kind, with limits drawn from their own sequences."""

import planner
from laws import LAWS
from plan_cells import LEGAL, PRIME, SPECIAL, coded, generated
from plan_limits import all_limits, random_limits
from planner import FORBIDDEN, MOST_CELL

# N and Q
SHAPES = (
    [(n, 1) for n in (1, 2, 3, 5, 8, 21)]
    + [(n, 2) for n in (1, 2, 2, 3, 3, 4, 4, 5, 5, 6, 7, 8)]
    + [(n, 3) for n in (1, 2, 2, 3, 3, 4, 5)]
    + [(n, 4) for n in (1, 2, 2, 3, 3, 4)]
    + [(1, 5), (2, 5), (3, 5), (2, 6), (1, 16)]
)
# few of these: trying all takes long
LARGER = [(5, 4), (3, 6), (4, 5), (2, 16), (9, 2), (10, 2), (3, 8)]
# these with all limits
SMALLEST = [(1, 2), (1, 4), (2, 2), (2, 2), (2, 3), (3, 2), (1, 16)]


# Styles: the rates and the distortions of so many cells


def drawn(size, one):
    return [one() for _ in range(size)]


def both(size, one):
    return drawn(size, one), drawn(size, one)


def ties_in_everything(draw, size):
    return both(size, lambda: draw.randint(0, 2))


def ties_in_rate(draw, size):
    """With unequal distortions."""
    return drawn(size, lambda: draw.randint(1, 2)), drawn(size, lambda: draw.randint(0, 40))


def ties_in_cost(draw, size):
    """Rate and distortion have the same sum in each cell, so every sequence ties at 1/1."""
    rates = drawn(size, lambda: draw.randint(0, 9))
    return rates, [9 - r for r in rates]


def many_zeros(draw, size):
    return both(size, lambda: draw.choice([0, 0, draw.randint(0, 9)]))


def all_zeros(draw, size):
    """All rates or all distortions."""
    some = drawn(size, lambda: draw.randint(0, 20))
    return ([0] * size, some) if draw.random() < 0.5 else (some, [0] * size)


def ends_of_the_range(draw, size):
    return both(size, lambda: draw.choice(LEGAL + [0, 1]))


def all_the_same(draw, size):
    return [draw.choice([0, 7, MOST_CELL])] * size, [draw.choice([0, 7, MOST_CELL])] * size


def far_apart(draw, size):
    """Few values: slopes that do not reduce, and that reduce."""
    return drawn(size, lambda: draw.choice([2, 3, 12, 30])), drawn(size, lambda: draw.choice([0, 4, 9, 18]))


def any_code(draw, size):
    return both(size, lambda: draw.randint(0, 239))


STYLES = [
    ties_in_everything,
    ties_in_rate,
    ties_in_cost,
    many_zeros,
    all_zeros,
    ends_of_the_range,
    all_the_same,
    far_apart,
    any_code,
]


# Tables


def forbid(draw, scans, settings, rates, distortions):
    """Forbid single cells, and now and then a whole scan; beside them stand distortions of any value."""
    share = draw.choice([0, 0, 0, 0.1, 0.25, 0.5])
    barred = [k for k in range(len(rates)) if draw.random() < share]
    if draw.random() < 0.04:
        scan = draw.randrange(scans)
        first = planner.cell(settings, scan, 0, 0)
        barred += range(first, first + (settings ** 2 if scan else settings))
    for k in barred:
        rates[k] = FORBIDDEN
        distortions[k] = draw.choice([distortions[k], 0] + SPECIAL)
    return rates, distortions


def random_generated(draw, size):
    span = draw.choice([2, 5, 1000, 1048576])
    rates, distortions = [(draw.randrange(1, PRIME), 0, span, draw.choice([0, 0, 5, 11])) for _ in range(2)]
    # no distortion is forbidden
    return generated((size, size), rates, distortions[:3] + (0,))


def random_coded(draw, scans, settings, size):
    style = draw.choice(STYLES)
    return coded(*forbid(draw, scans, settings, *style(draw, size)))


def small_table(out, draw, scans, settings, limits):
    """A table of this shape, with the calls that `limits` gives for it."""
    law = draw.choice(LAWS)
    size = planner.cells(scans, settings)
    made = random_generated(draw, size) if draw.random() < 0.15 else random_coded(draw, scans, settings, size)
    plan, scratch = scans + draw.choice([0, 0, 1, 2]), scans * settings + draw.choice([0, 0, 1, 3])
    calls = limits((scans, settings, law, made.rates, made.distortions))
    out.group(scans, settings, law, made, calls, plan, scratch)


def small_tables(out, draw):
    def one_of_each(table):
        return random_limits(draw, table)

    def all_but(left_out):
        return lambda table: [call for call in random_limits(draw, table) if call[0] != left_out]

    # each of these leaves one of the four calls out, a different one from table to table
    for k in range(3000):
        small_table(out, draw, *SHAPES[k % len(SHAPES)], all_but(1 + k // 7 % 4))
    for k in range(56):
        small_table(out, draw, *LARGER[k % len(LARGER)], one_of_each)
    for k in range(49):
        small_table(out, draw, *SMALLEST[k % len(SMALLEST)], all_limits)
