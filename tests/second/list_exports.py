"""Exports: lengths of the text, forbidden cells, illegal ones, tables of a wrong length, numbers out of range, and several faults at once;
and what was exported, imported and exported again."""

import itertools

import lists
from edges import TOP
from list_imports import LENGTHS
from lists import T, T_LIST
from planner import FORBIDDEN, MOST_CELL, cells

RATES_OUT = (MOST_CELL + 1, FORBIDDEN - 1, 2147483648)
DISTORTIONS_OUT = (MOST_CELL + 1, FORBIDDEN)


def changed(rates=(), distortions=()):
    """Table T's cells, with changes given by their places."""
    out = list(T[2]), list(T[3])
    for table, changes in zip(out, (rates, distortions)):
        for at, value in changes:
            table[at] = value
    return out


def text_lengths(out):
    """Too short by one and by all, exact, and longer; then with a cell forbidden, and with all."""
    for length in (0, 1, 54, 55, 56, 64, 65, 66, 67, 90):
        out.give(*T, length)
        out.give(2, 2, *changed([(3, FORBIDDEN)], [(3, 777)]), length)
    for length in (0, 1, 9):
        out.give(2, 2, [FORBIDDEN] * 6, T[3], length)
        out.give(1, 1, [FORBIDDEN], [FORBIDDEN], length)
        out.give(1, 1, [0], [0], length)
    out.give(1, 1, [0], [0], 10)


def every_length(out):
    """Rates and distortions, scans and settings, of every count of digits."""
    out.give(1, 16, LENGTHS, LENGTHS[::-1])
    out.give(11, 1, [1] * 11, [2] * 11)
    out.give(101, 1, [FORBIDDEN] * 98 + [7, 8, 9], [5] * 101)
    # of 16 settings, some pairs
    rates = [FORBIDDEN] * cells(2, 16)
    for before, setting in ((0, 0), (0, 15), (9, 10), (10, 9), (15, 0), (15, 15)):
        rates[16 + 16 * before + setting] = 100 * before + setting
    out.give(2, 16, rates, list(range(272)))


def forbidden_cells(out, draw):
    """Some cells forbidden, with any distortion beside them."""
    for k in range(6):
        for distortion in (0, 777, MOST_CELL + 1, FORBIDDEN):
            out.give(2, 2, *changed([(k, FORBIDDEN)], [(k, distortion)]))
        out.give(2, 2, *changed([(j, FORBIDDEN) for j in range(6) if j != k]))
    for _ in range(8):
        open_cells = {draw.randrange(6) for _ in range(3)}
        rates = [rate if k in open_cells else FORBIDDEN for k, rate in enumerate(T[2])]
        out.give(2, 2, rates, [d if k in open_cells else draw.randint(0, FORBIDDEN) for k, d in enumerate(T[3])])


def illegal_cells(out):
    """Each cell in turn, its rate, its distortion or both, with room for a text and with none; a rate that is nearly the marker is no
    forbidden one, and a distortion never has a marker. Of several the lowest."""
    for k in range(6):
        for rate in RATES_OUT:
            out.give(2, 2, *changed([(k, rate)]), 80)
        for distortion in DISTORTIONS_OUT:
            out.give(2, 2, *changed((), [(k, distortion)]), 0)
        out.give(2, 2, *changed([(k, FORBIDDEN - 1)], [(k, FORBIDDEN)]), 80)
        # beside one that is forbidden and one that is illegal, before it or behind
        other = (k + 2) % 6
        out.give(2, 2, *changed([(k, FORBIDDEN), (other, MOST_CELL + 1)], [(k, FORBIDDEN)]), 80)
        out.give(2, 2, *changed([(k, MOST_CELL + 1)], [(other, MOST_CELL + 1)]), 0)
    out.give(2, 2, [FORBIDDEN] * 5 + [MOST_CELL + 1], [FORBIDDEN] * 6, 80)
    out.give(1, 1, [MOST_CELL], [MOST_CELL])
    out.give(1, 1, [MOST_CELL + 1], [0])
    out.give(1, 1, [0], [MOST_CELL + 1])


def table_lengths(out):
    """Tables too short and too long, each beside every length of the other, with illegal cells or none, and with no room for a text."""
    for r in (0, 1, 5, 6, 7, 12):
        for d in (0, 1, 5, 6, 7, 12):
            rates = (T[2] * 2)[:r] if (r + d) % 3 else [MOST_CELL + 1] * r
            out.give(2, 2, rates, (T[3] * 2)[:d], 0 if (r + d) % 2 else 80)


def numbers(out):
    """N and Q at both sides of their limits and far beyond, with T's tables, which numbers that are cut would take."""
    for scans in (0, 1, 2, 1024, 1025, 2 ** 32, 2 ** 32 + 2, 2 ** 63, TOP):
        for settings in (0, 1, 2, 16, 17, 2 ** 32, 2 ** 32 + 2, TOP):
            out.give(scans, settings, T[2], T[3], 80)


def several_faults(out):
    """1, 2, 5, 7, 6 in that order: every set of faults at once."""
    for one, two, five, seven, six in itertools.product((False, True), repeat=5):
        rates, distortions = changed([(4, MOST_CELL + 1)] if seven else ())
        out.give(1025 if one else 2, 17 if two else 2, rates[:5] if five else rates, distortions, 65 if six else 80)


def again(out, draw):
    """A list is imported, exported, and its export imported and exported once more; and tables with any distortion beside forbidden rates
    are exported, imported and exported."""
    for k in range(6):
        scans, settings = draw.choice([(2, 2), (1, 4), (3, 2), (4, 1)])
        tables = lists.random_tables(draw, scans, settings, 0.3, draw.choice([9, MOST_CELL]))
        text = lists.list_of(scans, settings, *tables)
        if k % 2:
            out.take(scans, settings, lists.rearranged(draw, text))
        else:
            out.give(scans, settings, *tables)
            out.take_kept(scans, settings, len(text))
        out.give_kept(scans, settings)
        out.take_kept(scans, settings, len(text))
        out.give_kept(scans, settings, len(text))
    # what is left after a refused import is no table: its cells are as they were filled, over the range
    out.take(2, 2, T_LIST + b"x")
    out.give_kept(2, 2)


def exports(out, draw):
    text_lengths(out)
    every_length(out)
    forbidden_cells(out, draw)
    illegal_cells(out)
    table_lengths(out)
    numbers(out)
    several_faults(out)
    again(out, draw)
