"""Calls of import and export: the bytes that list_cases reads for them, and the lines that it must write, from the answers of lists.py. The
form of both stands in list_vectors.py."""

import struct
from collections import Counter
from itertools import groupby

import lists
from buffers import pattern, shown
from plan_cells import stream
from planner import FORBIDDEN, cells

# the room that list_cases has for each table, for scratch, and for a text
ROOM, TEXT_ROOM = 262144, 2097152

# where the cells of the two tables before an import start, and the patterns of scratch and text
RATES_START, DISTORTIONS_START = 2000000000, 3000000000
SCRATCH_START, TEXT_START = 100, 13

IMPORT, EXPORT = 1, 2
# what a line shows of tables and texts
WHOLE, DIGEST = 0, 1
# where an export's cells come from
KEPT, GIVEN, GENERATORS = 1, 2, 3

# a digest's numbers are modulo this: it is over every cell, so that no two cells count alike
MODULUS = 4294967311


def digest(content):
    """The digest of a table's cells or a text's bytes."""
    x = 1
    for part in content:
        x = (x * 48271 + part) % MODULUS
    return "c%d. " % x


def filled(size, start):
    """A table before an import: no list has such a cell."""
    return list(range(start, start + size))


def table_shown(table, start):
    """Every cell of a table that was filled from `start`."""

    def kind(k):
        return "k" if table[k] == start + k else {FORBIDDEN: "f", 0: "z"}.get(table[k])

    text = []
    for letter, run in groupby(range(len(table)), kind):
        if letter:
            text.append("%s%d." % (letter, len(list(run))))
        else:
            text += ["%d." % table[k] for k in run]
    return "".join(text) + " "


class ListCalls:
    """The calls, beside what list_cases keeps from call to call: both tables and the text."""

    def __init__(self):
        self.stdin, self.lines, self.counts = [], [], {"import": Counter(), "export": Counter()}
        self.rates, self.distortions, self.text = [0] * ROOM, [0] * ROOM, bytearray(TEXT_ROOM)

    def told(self, form, *numbers):
        self.stdin.append(struct.pack("<" + form, *numbers))

    def answered(self, call, number, values, *shown_parts):
        self.counts[call][number] += 1
        self.lines.append("".join("%d " % x for x in [number] + values) + "".join(shown_parts) + "\n")

    # Imports

    def take(self, scans, settings, text, lengths=None, start=SCRATCH_START, show=WHOLE):
        """An import of this text. The lengths are those of rates, distortions and scratch; where they are not said, a little more than
        needed."""
        self.take_kept(scans, settings, len(text), 0, text, lengths, start, show)

    def take_kept(self, scans, settings, length, at=0, piece=b"", lengths=None, start=SCRATCH_START, show=WHOLE):
        """An import of so many bytes of the text that is kept, after this piece has taken the place of what was there."""
        size = cells(scans, settings)
        r, d, s = lengths or (size + 1, size + 2, size + 3)
        assert max(r, d, s) <= ROOM and max(length, at + len(piece)) <= TEXT_ROOM and start < 256
        self.told("BBQQIIIBIII", IMPORT, show, scans, settings, r, d, s, start, length, at, len(piece))
        self.stdin.append(bytes(piece))
        self.text[at : at + len(piece)] = piece
        lent = filled(r, RATES_START), filled(d, DISTORTIONS_START), pattern(s, start)
        number, values, rates, distortions, scratch = lists.import_list(scans, settings, bytes(self.text[:length]), *lent)
        if number in (0, 16, 17, 18):
            assert number == lists.judged_alike(scans, settings, bytes(self.text[:length]))
        self.rates[:r], self.distortions[:d] = rates, distortions
        tables = (rates, RATES_START), (distortions, DISTORTIONS_START)
        r, d = [digest(table) if show == DIGEST else table_shown(table, first) for table, first in tables]
        self.answered("import", number, values, "r" + r, "d" + d, "s" + shown(scratch, start))

    # Exports

    def give(self, scans, settings, rates, distortions, text=None, show=WHOLE):
        """An export of these tables, with a text buffer of so many bytes; where that is not said, a little more than needed."""
        given = struct.pack("<%dI" % (len(rates) + len(distortions)), *rates, *distortions)
        self.given(scans, settings, GIVEN, given, rates, distortions, text, show)

    def give_generated(self, scans, settings, rates, distortions, text=None, show=WHOLE):
        """Of tables by generators, each given by its seed, base, span and forbid."""
        size = cells(scans, settings)
        made = stream(size, *rates), stream(size, *distortions)
        self.given(scans, settings, GENERATORS, struct.pack("<8Q", *rates, *distortions), *made, text, show)

    def give_kept(self, scans, settings, text=None, show=WHOLE):
        """Of the tables as they are kept."""
        size = cells(scans, settings)
        self.given(scans, settings, KEPT, b"", self.rates[:size], self.distortions[:size], text, show)

    def given(self, scans, settings, source, cells_told, rates, distortions, text, show):
        if text is None:
            number, values, _ = lists.export_list(scans, settings, rates, distortions, bytes(TEXT_ROOM))
            text = 5 if number else values[0] + 3
        assert len(rates) <= ROOM and len(distortions) <= ROOM and text <= TEXT_ROOM
        self.told("BBQQIIIB", EXPORT, show, scans, settings, len(rates), len(distortions), text, source)
        self.stdin.append(cells_told)
        self.rates[: len(rates)], self.distortions[: len(distortions)] = rates, distortions
        number, values, after = lists.export_list(scans, settings, rates, distortions, pattern(text, TEXT_START))
        self.text[:text] = after
        self.answered("export", number, values, "t" + (digest(after) if show == DIGEST else shown(after, TEXT_START)))
