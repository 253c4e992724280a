"""Buffers of every kind of length, lent to the reader and the writer, and the writer's settings likewise."""

import planfile
from file_changes import qpl1, sample, with_bytes, with_entry


def lent_to_the_reader(out, f, chosen):
    """Beside a good file, bad entries, a bad header and a bad block."""
    file, scans = qpl1(f, chosen), f["scans"]
    faulty = [with_entry(file, 0, 15), with_entry(file, scans - 1, 15), with_bytes(file, {13: 1}), with_bytes(file, {509: 9}, False)]
    for each in [file] + faulty:
        for lent in sorted({0, 1, scans - 1, scans, scans + 1, scans + 40, 1024, 1025, 4608}):
            out.read(each, lent)


def lent_to_the_writer(out, f, chosen):
    """Beside good settings, a bad one, one too few, and a bad field."""
    length = planfile.length_for(f["scans"])
    for lent in sorted({0, 1, 63, 64, 65, 512, 1023, 1024, 1025, 1535, 1536, 1537, length + 3000}):
        out.write(f, chosen, lent)
        out.write(f, chosen[:-1] + [16], lent)
        out.write(f, chosen[:-1], lent)
        out.write(dict(f, law=3), chosen[:-1] + [16], lent)


def given_to_the_writer(out, f, chosen):
    """Settings too few and too many, good and bad."""
    scans = f["scans"]
    for size in sorted({0, 1, scans // 2, scans - 1, scans, scans + 1, 2048}):
        given = (chosen + [255] * 2048)[:size]
        out.write(f, given)
        out.write(f, given, planfile.length_for(scans))
        out.write(f, [255] * size)


def buffer_lengths(out, draw):
    for one in ((1, 1, 0, 0), (2, 3, 1, 1), (64, 16, 0, 0), (65, 4, 1, 1), (1008, 9, 0, 0), (1009, 9, 1, 1), (1024, 16, 0, 0)):
        plan = sample(draw, *one)
        lent_to_the_reader(out, *plan)
        lent_to_the_writer(out, *plan)
        given_to_the_writer(out, *plan)
