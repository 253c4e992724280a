"""Calls of the plan-file reader and writer: the bytes that file_cases reads for them, as crates/file_cases/src/main.rt takes them, and the
lines that it must write, from the answers of planfile.py.

A line holds the number that comes back, the values (a read: the eleven fields from N to floor in their order in the file, the version, and
whether the plan is weighted; a write: the file's length; a refusal: what it carries), and "b" with the lent buffer. The writer's fields are
twelve, of which the last says whether the plan is weighted."""

import struct
from collections import Counter

import planfile
from buffers import pattern
from lines import line

# the room that file_cases has for a file, the writer's settings, and a lent buffer
FILE_ROOM, GIVEN_ROOM, LENT_ROOM = 4608, 2048, 4608

# where the pattern of a lent buffer starts
START = 13


def runs(before, after):
    """What turns the one into the other, as change.rt takes it. Differences a few bytes apart make one run."""
    spans = []
    for k in range(len(after)):
        if before[k] == after[k]:
            continue
        if spans and k - spans[-1][1] <= 3 and k - spans[-1][0] < 255:
            spans[-1][1] = k + 1
        else:
            spans.append([k, k + 1])
    assert len(spans) <= 255
    told = b"".join(struct.pack("<HB", a, e - a) + bytes(after[a:e]) for a, e in spans)
    return bytes([len(spans)]) + told


class FileCalls:
    """The calls, beside what file_cases keeps from call to call: the file, the writer's settings and its fields."""

    def __init__(self):
        self.stdin, self.lines, self.counts, self.good = [], [], {"read": Counter(), "write": Counter()}, Counter()
        self.file, self.given, self.fields = bytearray(FILE_ROOM), bytearray(GIVEN_ROOM), [0] * len(planfile.NAMES)

    def read(self, file, lent):
        """A read with a settings buffer of so many bytes."""
        assert len(file) <= FILE_ROOM and lent <= LENT_ROOM
        self.stdin.append(b"\1" + runs(self.file, file) + struct.pack("<HH", len(file), lent))
        self.file[: len(file)] = file
        self.answered("read", *planfile.read(bytes(file), pattern(lent, START)))

    def write(self, f, given, lent=None):
        """A write of these fields and settings, with a file buffer of so many bytes; where that is not said, a little more than needed."""
        lent = planfile.length_for(f["scans"]) + 5 if lent is None else lent
        assert len(given) <= GIVEN_ROOM and lent <= LENT_ROOM
        self.stdin.append(b"\2" + self.changed_fields(f) + runs(self.given, given) + struct.pack("<HH", len(given), lent))
        self.given[: len(given)] = given
        self.answered("write", *planfile.write(f, bytes(given), pattern(lent, START)))

    def both(self, f, settings, lent=None, version=1):
        """The plan's file of that version through the reader, and its fields and settings through the writer, which makes that of QPL2."""
        self.read(planfile.composed(f, settings, version), len(settings) + 1 if lent is None else lent)
        self.write(f, settings)

    def changed_fields(self, f):
        """The bytes that tell of the fields that are not as in the write before."""
        before, self.fields = self.fields, [f[name] for name in planfile.NAMES]
        changed = [(k, value) for k, value in enumerate(self.fields) if value != before[k]]
        return bytes([len(changed)]) + b"".join(struct.pack("<BQ", k, value) for k, value in changed)

    def answered(self, call, number, values, lent):
        self.counts[call][number] += 1
        if (call, number) == ("read", 0):
            self.good[tuple(values[-2:])] += 1
        self.lines.append(line(number, values, ("b", lent, START)))
