"""Planning calls that are refused: numbers out of range, lengths that do not fit, illegal cells, and several of these at once."""

import planner
from edges import TOP
from laws import LAWS, NO_LAWS
from plan_cells import coded, generated, kept
from plan_limits import one_of_each
from plan_worked import T, U
from planner import AVERAGE, FORBIDDEN, MINMAX, MOST_TERM, MULTIPLIER

RATES_OUT = (1048576, 4294967294, 2147483648, 16777216, 2147483647)
DISTORTIONS_OUT = (1048576, 4294967294, 4294967295, 2147483648, 2147483647)


def one_call(which):
    """The call alone that stands at this place among one of each."""
    return one_of_each()[which : which + 1]


# Numbers


def single_cell(out):
    """N, Q and law at both sides of their limits and far beyond, with tables of one cell."""
    lone = coded([3], [4])
    out.group(1, 1, 0, lone, one_of_each())
    for scans in (0, 1, 2, 1024, 1025, 2 ** 32, 2 ** 32 + 1, TOP):
        for settings in (0, 1, 2, 16, 17, 2 ** 32, 2 ** 32 + 1, TOP):
            for law in (0, 1, 2, 3, 2 ** 32, 2 ** 32 + 1, TOP):
                out.group(scans, settings, law, kept(lone), one_call((scans + 3 * settings + 5 * law) % 4), 1, 1)


def exact_length(out):
    """N, Q and law at both sides of their limits, with tables of the exact length."""
    for scans, settings in ((1, 16), (2, 16), (1024, 1), (1025, 1), (1, 17), (2, 17), (1023, 1)):
        size = planner.cells(scans, settings)
        for law in (0, 1, 2, 3):
            made = generated((size, size), (5 + scans, 0, 9, 0), (6 + settings, 0, 9, 0))
            out.group(scans, settings, law, made, one_of_each(budget=9 * scans // 2), min(scans, 1100) + 1)


def multipliers(out):
    ends = (0, 1, MOST_TERM - 1, MOST_TERM, MOST_TERM + 1, 2 ** 32, 2 ** 32 + 1, TOP)
    out.group(*T[:3], coded(*T[3:]), [(MULTIPLIER, n, d) for n in ends for d in ends])
    # the same numbers are no concern of the others
    out.group(*T[:3], coded(*T[3:]), [(which, limit, 0) for which in (MINMAX, AVERAGE) for limit in ends])


# Lengths


def table_lengths(out):
    """Tables too short and too long, each beside every length of the other."""
    for scans, settings, law, rates, distortions in (T, U, (3, 2, 1, [1] * 10, [2] * 10)):
        size = len(rates)
        for r in (0, 1, size - 1, size, size + 1, size + 9):
            for d in (0, 1, size - 1, size, size + 1, size + 9):
                made = coded((rates * 4)[:r], (distortions * 4)[:d])
                out.group(scans, settings, law, made, one_of_each())


def buffer_lengths(out):
    """Buffers too short, exact and longer, on a success, on 8 and on 9."""
    blocked = [10, 4] + [FORBIDDEN] * 4
    for rates, budget, x in ((T[3], 17, 7), (blocked, 17, 7), (T[3], 8, 2)):
        for plan in (0, 1, 2, 3, 7):
            for scratch in (0, 3, 4, 5, 13):
                out.group(*T[:3], coded(rates, T[4]), one_of_each(9, 4, budget, x), plan, scratch)
    rates, distortions = [5, 1, 3] + [2, 4, 6] * 6, [1, 2, 3] + [7, 1, 4] * 6
    for plan in (0, 2, 3, 4, 20):
        for scratch in (0, 1, 8, 9, 10, 63, 64, 65, 90):
            out.group(3, 3, 1, coded(rates, distortions), one_of_each(3, 5, 9, 4), plan, scratch)


# Cells


def with_illegal(draw, size, k, turn):
    """Small cells, of which cell k, another one, or both are illegal, in one of eight ways."""
    rates, distortions = [draw.randint(0, 9) for _ in range(size)], [draw.randint(0, 9) for _ in range(size)]
    other = draw.randrange(size)
    if turn in (0, 2, 4, 6):
        rates[k] = draw.choice(RATES_OUT)
    if turn in (1, 2, 5, 7):
        distortions[k] = draw.choice(DISTORTIONS_OUT)
    if turn in (3, 5):
        rates[other] = draw.choice(RATES_OUT)
    if turn in (3, 4):
        distortions[other] = draw.choice(DISTORTIONS_OUT)
    if turn in (6, 7):
        # a forbidden rate makes the distortion beside it legal, and no other
        rates[other] = FORBIDDEN
        distortions[other] = draw.choice(DISTORTIONS_OUT)
    return coded(rates, distortions)


def illegal_cells(out, draw):
    """Each cell of a table in turn, one or two illegal ones, rates and distortions, also where law 1 rules the cell out; and under law 2
    the cell of 0 and then 3, which it rules out, and that of 3 and then 0, which it does not."""
    for scans, settings, law in ((2, 2, 0), (1, 3, 1), (2, 4, 1), (3, 2, 0)):
        size = planner.cells(scans, settings)
        for k in range(size):
            for turn in range(8):
                made = with_illegal(draw, size, k, turn)
                out.group(scans, settings, law, made, one_call(draw.randrange(4)))
    for k in (planner.cell(4, 1, 0, 3), planner.cell(4, 1, 3, 0)):
        for turn in (0, 1, 4):
            out.group(2, 4, 2, with_illegal(draw, planner.cells(2, 4), k, turn), one_call(draw.randrange(4)))


def all_forbidden(out):
    """All rates forbidden, all distortions beyond the range: 8, and no 7."""
    for scans, settings in ((1, 1), (2, 2), (3, 3)):
        size = planner.cells(scans, settings)
        for distortion in DISTORTIONS_OUT:
            out.group(scans, settings, 1, coded([FORBIDDEN] * size, [distortion] * size), one_of_each())


# Several conditions at once


def faulty_cells(draw, faults):
    """Table T with the faults of its cells and of its lengths."""
    rates, distortions = list(T[3]), list(T[4])
    if faults[6]:
        rates[draw.randrange(6)] = draw.choice([1048576, 4294967294])
    if faults[7]:
        rates[2:] = [FORBIDDEN] * 4
    if faults[6] and draw.random() < 0.5:
        distortions[draw.randrange(6)] = 1048576
    if faults[4]:
        rates, distortions = draw.choice([(rates[:5], distortions), (rates, distortions + [0]), (rates[:5], distortions[:5])])
    return coded(rates, distortions)


def several_faults(out, draw):
    """The first condition in the document's order has to come."""
    for _ in range(300):
        law = draw.choice(LAWS)
        budget, x = draw.choice([(TOP, FORBIDDEN), (17, 7), (8, 2), (0, 0)])
        faults = [draw.random() < 0.3 for _ in range(8)]
        made = faulty_cells(draw, faults)
        plan, scratch = draw.choice([(1, 6), (3, 3), (0, 0)]) if faults[5] else (3, 6)
        n, d = draw.choice([(MOST_TERM + 1, 1), (1, 0), (1, MOST_TERM + 1), (TOP, TOP)]) if faults[3] else (9, 4)
        law = draw.choice(NO_LAWS) if faults[2] else law
        settings = draw.choice([0, 17, TOP]) if faults[1] else 2
        scans = draw.choice([0, 1025, TOP]) if faults[0] else 2
        out.group(scans, settings, law, made, one_of_each(n, d, budget, x), plan, scratch)


def refusals(out, draw):
    single_cell(out)
    exact_length(out)
    multipliers(out)
    table_lengths(out)
    buffer_lengths(out)
    illegal_cells(out, draw)
    all_forbidden(out)
    several_faults(out, draw)
