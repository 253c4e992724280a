#!/usr/bin/env python3
"""What import and export of the encoder's lists must answer, written from document 02, [1], document 01's tables and RFC 4180, and sharing
nothing with the library.

`import_list` and `export_list` are whole calls: the number that comes back (0: no refusal), the values beside it, and what is lent to be
written as it stands afterwards. The value of an export is its length and of a refusal what it carries; an import that succeeds has none.
Run as a program, this file holds the worked cases, reads their texts and random ones in a second way, each as a whole with Python's own
reader of RFC 4180, and looks whether what was imported, exported and imported again is the same."""

import csv
import io
import random
import re
import sys

from planner import FORBIDDEN, MOST_CELL, MOST_SCANS, MOST_SETTINGS, cell, cells, lowest_illegal, ones

MALFORMED, OUT_OF_RANGE, TWICE = 16, 17, 18

LINE_END = b"\r\n"
# A field, in quotes or not, and what it holds. A comma, a line end or a quote within quotes is no digit, so that a line may be parted at
# every comma and a text at every line end: the parts of a field that held one are malformed too, and in the line where it starts.
FIELD = re.compile(rb'"([0-9]{0,7})"|([0-9]{0,7})')


class Refusal(Exception):
    """The number and what it carries."""


# Lines


def lines_of(text):
    """The lines, without their ends. The last end may be missing, and behind it there is no line."""
    lines = text.split(LINE_END)
    return lines[:-1] if lines[-1] == b"" else lines


def content(field):
    """The digits that a field holds, or None where it is no field of a list."""
    found = FIELD.fullmatch(field)
    return None if found is None else found[1] or found[2] or b""


def measurement(contents):
    """Scan, previous setting, setting, rate and distortion of a line, given by what its fields hold; None where it is malformed. At scan 0,
    however it is written, there is no previous setting."""
    if len(contents) != 5 or None in contents:
        return None
    scan, before, *others = contents
    if b"" in [scan] + others:
        return None
    if (int(scan) == 0) != (before == b""):
        return None
    return [int(digits) if digits else None for digits in contents]


def in_range(scans, settings, scan, before, setting, rate, distortion):
    if scan >= scans or setting >= settings or (before is not None and before >= settings):
        return False
    return rate <= MOST_CELL and distortion <= MOST_CELL


def contents_of(text):
    """Of each line what its fields hold."""
    for line in lines_of(text):
        yield [content(field) for field in line.split(b",")]


def measured(scans, settings, text, read=contents_of):
    """The cells that have a line, each with its rate and distortion. `read` gives of each line of a text what its fields hold."""
    found = {}
    for number, contents in enumerate(read(text), 1):
        numbers = measurement(contents)
        if numbers is None:
            raise Refusal(MALFORMED, number)
        if not in_range(scans, settings, *numbers):
            raise Refusal(OUT_OF_RANGE, number)
        scan, before, setting, rate, distortion = numbers
        at = cell(settings, scan, before, setting)
        if at in found:
            raise Refusal(TWICE, number)
        found[at] = rate, distortion
    return found


# Whole calls


def check_numbers(scans, settings):
    if not 1 <= scans <= MOST_SCANS:
        raise Refusal(1, 0)
    if not 1 <= settings <= MOST_SETTINGS:
        raise Refusal(2, 0)


def import_list(scans, settings, text, rates, distortions, scratch):
    """The number, what it carries, both tables and scratch."""
    try:
        check_numbers(scans, settings)
        size = cells(scans, settings)
        if min(len(rates), len(distortions), len(scratch)) < size:
            raise Refusal(6, 0)
    except Refusal as refusal:
        return refusal.args[0], [refusal.args[1]], rates, distortions, scratch
    wiped = bytes(size) + scratch[size:]
    try:
        found = measured(scans, settings, text)
    except Refusal as refusal:
        return refusal.args[0], [refusal.args[1]], rates, distortions, wiped
    told = [found.get(k, (FORBIDDEN, 0)) for k in range(size)]
    return 0, [], [rate for rate, _ in told] + rates[size:], [d for _, d in told] + distortions[size:], wiped


def places(scans, settings):
    """Scan, previous setting and setting of each cell, in the order of cells."""
    for scan in range(scans):
        for before in range(settings) if scan else [""]:
            for setting in range(settings):
                yield scan, before, setting


def list_of(scans, settings, rates, distortions):
    """The export of legal tables."""
    told = zip(places(scans, settings), rates, distortions)
    return "".join("%s,%s,%s,%d,%d\r\n" % (*place, rate, d) for place, rate, d in told if rate != FORBIDDEN).encode()


def exported(scans, settings, rates, distortions, room):
    check_numbers(scans, settings)
    if not len(rates) == len(distortions) == cells(scans, settings):
        raise Refusal(5, 0)
    # a list has no weights
    illegal = lowest_illegal(settings, rates, distortions, ones(scans))
    if illegal is not None:
        raise Refusal(7, illegal)
    made = list_of(scans, settings, rates, distortions)
    if room < len(made):
        raise Refusal(6, 0)
    return made


def export_list(scans, settings, rates, distortions, text):
    """The number, the length or what it carries, and the text buffer."""
    try:
        made = exported(scans, settings, rates, distortions, len(text))
    except Refusal as refusal:
        return refusal.args[0], [refusal.args[1]], text
    return 0, [len(made)], made + text[len(made) :]


# Random lists


def random_tables(draw, scans, settings, forbidden, top):
    """Legal tables, the share of forbidden cells and the largest other one given."""
    rates = [FORBIDDEN if draw.random() < forbidden else draw.randint(0, top) for _ in range(cells(scans, settings))]
    return rates, [draw.randint(0, 2 ** 32 - 1) if rate == FORBIDDEN else draw.randint(0, top) for rate in rates]


def dressed(draw, line):
    """The same line with some fields in quotes and some with leading zeros."""
    out = []
    for digits in line.split(b","):
        if digits and draw.random() < 0.4:
            digits = digits.zfill(draw.randint(1, 7))
        out.append(b'"%s"' % digits if draw.random() < 0.4 else digits)
    return b",".join(out)


def rearranged(draw, text):
    """The lines of a list in another order, dressed, and with or without the last line end."""
    lines = [dressed(draw, line) for line in lines_of(text)]
    draw.shuffle(lines)
    return LINE_END.join(lines) + (LINE_END if lines and draw.random() < 0.7 else b"")


SPOILERS = [b",", b'"', b'""', b"\r", b"\n", b"\r\n", b" ", b"\0", b"-", b"+", b"0", b"1", b"9", b"00", b"1048576", b"9999999"]
SPOILERS += [b"\xef\xbb\xbf"]


def spoilt(draw, text):
    """A text with a change or two: a piece put in, in place of others or not, a piece left out, or a line a second time."""
    for _ in range(draw.choice([1, 1, 2])):
        at = draw.randint(0, len(text))
        end = min(len(text), at + draw.choice([0, 0, 1, 2]))
        lines = lines_of(text)
        if lines and draw.random() < 0.2:
            lines.insert(draw.randint(0, len(lines)), dressed(draw, draw.choice(lines)))
            text = LINE_END.join(lines) + LINE_END
        else:
            text = text[:at] + draw.choice(SPOILERS + [b""]) + text[end:]
    return text


# The self check

T = (2, 2, [10, 4, 8, 3, 9, 5], [2, 7, 3, 6, 4, 10])
T_LIST = b"0,,0,10,2\r\n0,,1,4,7\r\n1,0,0,8,3\r\n1,0,1,3,6\r\n1,1,0,9,4\r\n1,1,1,5,10\r\n"


def imports(text, number, carried=None, scans=2, settings=2):
    """An import into tables and scratch that are longer than needed: what comes back is as said, and tables and scratch are as the number
    says. Gives back the cells that are not forbidden."""
    size = cells(scans, settings)
    judged_alike(scans, settings, text)
    rates, distortions, scratch = [5] * (size + 1), [6] * (size + 2), b"\7" * (size + 3)
    answered = import_list(scans, settings, text, rates, distortions, scratch)
    if number:
        assert answered == (number, [carried], rates, distortions, bytes(size) + b"\7\7\7"), (text, answered)
        return None
    back, values, rates, distortions, scratch = answered
    assert (back, values, scratch) == (0, [], bytes(size) + b"\7\7\7"), (text, answered)
    assert (rates[size:], distortions[size:]) == ([5], [6, 6])
    assert all(d == 0 for rate, d in zip(rates, distortions[:size]) if rate == FORBIDDEN)
    return {k: (rates[k], distortions[k]) for k in range(size) if rates[k] != FORBIDDEN}


def worked():
    """Table T, and texts of one or two lines."""
    whole = {k: pair for k, pair in enumerate(zip(T[2], T[3]))}
    assert len(T_LIST) == 66
    for more in (b"", b"\1\2"):
        assert export_list(*T, bytes(66) + more) == (0, [66], T_LIST + more)
    assert export_list(*T, b"\3" * 65) == (6, [0], b"\3" * 65)
    assert imports(T_LIST, 0) == imports(T_LIST[:-2], 0) == whole
    rates, distortions = list(T[2]), list(T[3])
    rates[3], distortions[3] = FORBIDDEN, 777
    without = T_LIST.replace(b"1,0,1,3,6\r\n", b"")
    assert export_list(2, 2, rates, distortions, bytes(55)) == (0, [55], without)
    del whole[3]
    assert imports(without, 0) == whole
    assert imports(b"", 0) == {} and export_list(2, 2, [FORBIDDEN] * 6, T[3], b"") == (0, [0], b"")
    assert imports(b"0,,0,10,2", 0) == {0: (10, 2)}
    assert imports(b'"0","","1","0000004","7"\r\n', 0) == {1: (4, 7)}
    for text in (b"0,,0,10,2\n", b"0,0,0,10,2\r\n", b"1,,0,8,3\r\n", b"2,,0,1,1\r\n", b"0,,0,10,2,\r\n"):
        imports(text, 16, 1)
    for text in (b"2,0,0,1,1\r\n", b"0,,0,1048576,0\r\n", b"0,,2,1,1\r\nx"):
        imports(text, 17, 1)
    imports(b"0,,0,10,2\r\n0,,00,10,2\r\n", 18, 2)
    imports(b"0,,0,10,2\r\n0,,00,1048576,2\r\n", 17, 2)
    imports(b"0,,0,10,2\r\n\r\n", 16, 2)


def decided():
    """The other cases that a rule speaks of: what is malformed, and the orders."""
    good = b"0,,0,10,2\r\n"
    for line in (b"0,,0,10,2\r", b"0,,0,1\r0,2", b"\xef\xbb\xbf0,,0,10,2", b"0,,0, 10,2", b"0,,0,+1,2", b"0,,0,\0,2", b"0,,0,01048575,2"):
        imports(good + line + LINE_END, 16, 2)
    for line in (b'0,,0,"1"0,2', b'0,,0,"10,2', b'0,,0,1""0,2', b'0,,0,"1""0",2', b'0,,0,"1\r\n0",2', b'0,,0,"10,2"', b'"0,,0,10,2"'):
        imports(good + line + LINE_END, 16, 2)
    for line in (b"0,,0,4294967295,2", b"0,,0,10", b"0,,0,,2", b"0,,,10,2", b",,0,10,2", b'"",,0,10,2', b"00,0,0,10,2", b"", b"x"):
        imports(good + line + LINE_END, 16, 2)
    assert imports(b'0000000,"","0000001","0","1048575"', 0) == {1: (0, 1048575)}
    imports(b"1,2,0,1,1\r\n", 17, 1)
    imports(b"1,0,0,1,1048576\r\n", 17, 1)
    imports(LINE_END, 16, 1)
    # 16 before 17 before 18 in a line, and the first line with any of them
    imports(good + b"0,,0,9999999,x\r\n", 16, 2)
    imports(good + b"0,,0,1,1\r\nx\r\n", 18, 2)
    imports(good + b"0,,2,1,1\r\n0,,0,1,1\r\n", 17, 2)
    # 1, 2 and 6 come before any line, and change nothing
    for scans, settings, short, number in ((0, 0, 0, 1), (1025, 17, 1, 1), (2, 0, 1, 2), (2, 17, 0, 2), (2, 2, 1, 6)):
        for lengths in ((6 - short, 6, 6), (6, 6 - short, 6), (6, 6, 6 - short)):
            lent = [5] * lengths[0], [6] * lengths[1], b"\7" * lengths[2]
            assert import_list(scans, settings, b"x", *lent) == (number, [0], *lent)
    # export: 5 before 7 before 6
    over = [10, 4, 8, 1048576, 9, FORBIDDEN - 1]
    assert export_list(2, 2, over, T[3], b"") == (7, [3], b"")
    assert export_list(2, 2, over, T[3][:5] + [1048576, 0], b"") == (5, [0], b"")
    assert export_list(1025, 0, over, T[3], b"") == (1, [0], b"") and export_list(2, 17, over, T[3], b"") == (2, [0], b"")


# A CR or an LF by itself
BARE = re.compile(rb"\r(?!\n)|(?<!\r)\n")


def by_csv(text):
    """The same as contents_of, by Python's reader of RFC 4180, which is given the whole text and finds lines, fields and quotes by itself.
    It is laxer in three ways, none of which keeps a text from being compared. A CR or LF by itself it takes for a line end: to a list it is
    one of the bytes that no field has, and is made another of them here. A quote behind the start of a field is content to it, and no digit.
    An empty line has no fields to it, and they are not five. Where it refuses the text, the line that it is at is malformed."""
    try:
        for fields in csv.reader(io.StringIO(BARE.sub(b"x", text).decode("latin-1"), newline=""), strict=True):
            yield [field.encode("latin-1") if re.fullmatch("[0-9]{0,7}", field) else None for field in fields]
    except csv.Error:
        yield [None]


def outcome(scans, settings, text, read):
    try:
        return measured(scans, settings, text, read)
    except Refusal as refusal:
        return refusal.args


def judged_alike(scans, settings, text):
    """The text, read in both ways, gives the same cells, or the same refusal at the same line; what the fields of a line say is judged by
    the same functions in both. Gives back the number."""
    found = outcome(scans, settings, text, contents_of)
    assert found == outcome(scans, settings, text, by_csv), (scans, settings, text)
    return found[0] if isinstance(found, tuple) else 0


def round_trip(draw, scans, settings, rates, distortions):
    """Export and import give the tables back, but for what stands beside forbidden rates, and from then on nothing changes; the lines in any
    order and form say the same."""
    size = cells(scans, settings)
    text = list_of(scans, settings, rates, distortions)
    assert len(text) <= 28 * size
    plain = [0 if rate == FORBIDDEN else d for rate, d in zip(rates, distortions)]
    again = rearranged(draw, text)
    for form in (text, again):
        assert import_list(scans, settings, form, [1] * size, [2] * size, b"\3" * size) == (0, [], rates, plain, bytes(size))
    assert export_list(scans, settings, rates, plain, bytes(len(text))) == (0, [len(text)], text)
    return again


def main():
    worked()
    decided()
    full = list_of(1024, 16, [MOST_CELL] * cells(1024, 16), [MOST_CELL] * cells(1024, 16))
    assert len(full) == 6722470
    draw, numbers = random.Random(40), {}
    for _ in range(3000):
        scans, settings = draw.choice([(1, 1), (1, 16), (2, 2), (3, 3), (2, 4), (12, 2), (120, 1), (2, 11)])
        tables = random_tables(draw, scans, settings, draw.choice([0, 0.2, 0.8, 1]), draw.choice([3, 300, MOST_CELL]))
        text = round_trip(draw, scans, settings, *tables)
        for form in (text, spoilt(draw, text)):
            number = judged_alike(scans, settings, form)
            numbers[number] = numbers.get(number, 0) + 1
    assert set(numbers) == {0, 16, 17, 18}
    print("lists.py: the worked cases hold, 3000 tables come back, and %d texts are judged alike in two ways" % sum(numbers.values()))


if __name__ == "__main__":
    sys.exit(main())
