"""Imports: lists that are taken, in every form that a list can have, the lengths of what is lent, numbers out of range, and random texts."""

import lists
from edges import TOP
from lists import LINE_END, T, T_LIST
from planner import MOST_CELL, cells

# of T's table: a list that is taken, and one that is refused by each number, in its last line
ENDINGS = [b"", b"1,1,1,5\r\n", b"1,1,1,5,1048576\r\n", b"0,,1,4,7\r\n"]
# numbers of one to seven digits, where their count changes and at the end of a cell's range
LENGTHS = [0, 1, 9, 10, 99, 100, 999, 1000, 9999, 10000, 99999, 100000, 999999, 1000000, MOST_CELL - 1, MOST_CELL]


def joined(lines):
    return b"".join(line + LINE_END for line in lines)


def worked_lists(out):
    """The worked texts that are taken: T's list, one cell of it missing, one line alone without its end, all quoted, none."""
    out.take(2, 2, T_LIST)
    out.take(2, 2, T_LIST.replace(b"1,0,1,3,6\r\n", b""))
    out.take(2, 2, b"0,,0,10,2")
    out.take(2, 2, b'"0","","1","0000004","7"\r\n')
    out.take(2, 2, b"")
    # and again into tables and scratch of the exact length
    for text in (T_LIST, b"0,,0,10,2", b""):
        out.take(2, 2, text, (6, 6, 6))


def forms(out, draw):
    """T's lines in any order and form."""
    lines = lists.lines_of(T_LIST)
    quoted = [b",".join(b'"%s"' % field for field in line.split(b",")) for line in lines]
    padded = [b",".join(field and field.zfill(7) for field in line.split(b",")) for line in lines]
    both = [b",".join(b'"%s"' % (field and field.zfill(7)) for field in line.split(b",")) for line in lines]
    for form in (lines, quoted, padded, both):
        out.take(2, 2, joined(form)[:-2])
        out.take(2, 2, joined(form[::-1]))
    for _ in range(12):
        out.take(2, 2, lists.rearranged(draw, T_LIST))
    # one field quoted, or with its zeros, at a time
    for k in range(5):
        for line in (b"0,,1,4,7", b"1,0,1,3,6"):
            fields = line.split(b",")
            out.take(2, 2, b",".join(fields[:k] + [b'"%s"' % fields[k]] + fields[k + 1 :]))
            if fields[k]:
                out.take(2, 2, b",".join(fields[:k] + [fields[k].zfill(7)] + fields[k + 1 :]) + LINE_END)


def every_cell(out):
    """Each cell by itself, and the list of all."""
    for scans, settings in ((3, 2), (2, 3)):
        size = cells(scans, settings)
        lines = lists.lines_of(lists.list_of(scans, settings, list(range(100, 100 + size)), list(range(200, 200 + size))))
        for line in lines:
            out.take(scans, settings, line + LINE_END)
        out.take(scans, settings, joined(lines))
        out.take(scans, settings, joined(lines[::2] + lines[1::2]))
    # scans and settings of more digits
    for scans, settings, line in (
        (11, 1, b"9,0,0,1,2"),
        (11, 1, b"10,0,0,1,2"),
        (101, 2, b"99,1,0,1,2"),
        (101, 2, b"100,0,1,1,2"),
        (1001, 1, b"999,0,0,1,2"),
        (1001, 1, b"1000,0,0,1,2"),
        (1, 16, b"0,,9,1,2"),
        (1, 16, b"0,,10,1,2"),
        (3, 16, b"2,9,15,1,2"),
        (3, 16, b"2,15,9,1,2"),
        (1024, 16, b"512,7,8,1,2"),
    ):
        out.take(scans, settings, line + LINE_END)


def every_length(out):
    """Rates and distortions of every count of digits."""
    text = joined(b"0,,%d,%d,%d" % (k, rate, d) for k, (rate, d) in enumerate(zip(LENGTHS, LENGTHS[::-1])))
    out.take(1, 16, text)
    out.take(1, 16, joined(lists.lines_of(text)[::-1]))


def lent_lengths(out):
    """Rates, distortions and scratch too short, exact and longer, each beside two that are exact, with every way to end."""
    for ending in ENDINGS:
        text = T_LIST[:-12] + ending
        for k in range(3):
            for length in (0, 1, 5, 6, 7, 15):
                out.take(2, 2, text, tuple(length if k == j else 6 for j in range(3)))
        for lengths in ((0, 0, 0), (5, 5, 5), (6, 6, 6), (5, 7, 7), (7, 5, 7), (7, 7, 5), (30, 20, 10)):
            out.take(2, 2, text, lengths)


def numbers(out):
    """N and Q at both sides of their limits and far beyond: with tables for 2 by 2, which a number that is cut would take, and with none."""
    for scans in (0, 1, 2, 1024, 1025, 2 ** 32, 2 ** 32 + 2, 2 ** 63, TOP):
        for settings in (0, 1, 2, 16, 17, 2 ** 32, 2 ** 32 + 2, TOP):
            out.take(scans, settings, (b"0,,0,10,2\r\n", b"x")[(scans + settings) % 2], (6, 7, 8))
    for scans, settings in ((0, 0), (0, 2), (1025, 0), (TOP, TOP), (2, 0), (2, 17), (2, TOP), (2, 2)):
        out.take(scans, settings, b"x", (0, 0, 0))
        out.take(scans, settings, b"", (0, 0, 0))
    # the sizes at the limits, exact and one short
    for scans, settings in ((1024, 1), (1, 16), (1024, 16)):
        size = cells(scans, settings)
        line = b"%d,%s,%d,1,2" % (scans - 1, b"%d" % (settings - 1) if scans > 1 else b"", settings - 1)
        for lengths in ((size, size, size), (size - 1, size, size), (size, size - 1, size), (size, size, size - 1)):
            out.take(scans, settings, line, lengths)


def scratch_content(out):
    """Scratch of any content: whatever a byte is before, its cell has no line yet. The starts give the first and the last cell every small
    number, and the largest ones that the pattern has."""
    for start in list(range(8)) + [213, 214, 215, 216, 217, 249, 250]:
        out.take(2, 2, T_LIST, (6, 6, 6), start)
    for start in (0, 250):
        out.take(2, 2, T_LIST + b"1,1,1,5,10", None, start)
        out.take(2, 2, b"", None, start)
        out.take(2, 2, b"x", None, start)


def random_texts(out, draw):
    """Small lists, most of them spoilt."""
    for k in range(160):
        scans, settings = draw.choice([(1, 1), (1, 3), (2, 2), (3, 1), (2, 2)])
        tables = lists.random_tables(draw, scans, settings, draw.choice([0.3, 0.6]), draw.choice([3, 300, MOST_CELL]))
        text = lists.rearranged(draw, lists.list_of(scans, settings, *tables))
        out.take(scans, settings, lists.spoilt(draw, text) if k % 5 else text)


def imports(out, draw):
    worked_lists(out)
    forms(out, draw)
    every_cell(out)
    every_length(out)
    lent_lengths(out)
    numbers(out)
    scratch_content(out)
    random_texts(out, draw)
