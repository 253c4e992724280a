"""Whether a plan is weighted, byte 13: in files of both versions and as the writer's number, beside other faults, and what it does to the rule
that the peak is at most the distortion. In QPL1 the bytes 13 to 15 are one run of zeros; in QPL2 byte 13 is a field, and 14 to 15 are the
next."""

import itertools

import planfile
from edges import TOP
from file_changes import BREAKERS, broken, sample, with_bytes, with_entry, with_field
from file_fields import PEAK, TOTAL
from laws import LAWS

VERSIONS, KINDS = (1, 2), (planfile.AVERAGE, planfile.MINMAX)

# what is no mark: the next numbers, and those of which fewer bits would be one
NO_MARKS = (2, 3, 255, 256, 257, 2 ** 32, 2 ** 32 + 1, 2 ** 63, 2 ** 63 + 1, TOP - 1, TOP)

# Table T under law 1: N, Q, law, kind, budget, n, d, rate, distortion, peak, floor and the mark of what is planned with weights 0 1, 2 1,
# 1 0 and 0 0, and the settings. The first has more peak than distortion.
WORKED = [
    ([2, 2, 1, 0, 13, 1, 5, 13, 4, 7, 4, 1], [1, 0]),
    ([2, 2, 1, 1, 13, 0, 0, 13, 6, 6, 0, 1], [0, 1]),
    ([2, 2, 1, 0, 17, 3, 5, 13, 10, 6, 8, 1], [0, 1]),
    ([2, 2, 1, 0, 12, 7, 2, 9, 24, 10, 14, 1], [1, 1]),
    ([2, 2, 1, 0, 12, 5, 4, 9, 7, 10, 4, 1], [1, 1]),
    ([2, 2, 1, 0, 9, 0, 1, 9, 0, 10, 0, 1], [1, 1]),
    ([2, 2, 1, 1, 9, 0, 0, 9, 0, 10, 0, 1], [1, 1]),
]


def worked(out, draw):
    """Each plan as both versions, through the writer, and with the mark taken away."""
    for values, settings in WORKED:
        f = dict(zip(planfile.NAMES, values))
        file = planfile.composed(f, settings)
        if values == WORKED[0][0]:
            assert [planfile.number(file[at : at + 4]) for at in (508, 1020)] == [169743, 1013]
        for mark in (1, 0):
            out.both(dict(f, weighted=mark), settings, 2, 2)
            out.read(planfile.composed(dict(f, weighted=mark), settings, 1), 2)


# Bytes 13 to 15


def small_plan(draw, kind):
    """A plan whose peak is under its distortion, with settings that are few to show."""
    f, settings = sample(draw, 2 + kind, 3, 0, kind)
    return dict(f, budget=200, rate=100, distortion=80, peak=70, floor=60 * (kind == 0)), settings


def mark_bytes(out, draw):
    """Byte 13 with bytes 14 and 15, also such that cancel in a wrapping sum."""
    for kind, version in itertools.product(KINDS, VERSIONS):
        f, settings = small_plan(draw, kind)
        file = planfile.composed(f, settings, version)
        for mark, zeros in itertools.product((0, 1, 2, 3, 128, 254, 255), ((0, 0), (1, 0), (0, 1), (0, 255), (128, 128))):
            out.read(with_bytes(file, dict(zip((13, 14, 15), (mark,) + zeros))), f["scans"])
        out.read(with_bytes(file, {13: 255, 14: 1}), f["scans"])
        out.read(with_bytes(file, {13: 1, 14: 255}), f["scans"])


def beside_others(out, draw):
    """A mark, a wrong mark, and the zeros behind it broken, each with one other field broken: what stands before counts first."""
    f, settings = small_plan(draw, 0)
    for version in VERSIONS:
        file = planfile.composed(f, settings, version)
        for field in BREAKERS:
            for changes in ({13: 1}, {13: 2}, {13: 1, 15: 1}, {13: 0, 15: 1}):
                # the letters QPL3 too, which take the old sum
                out.read(with_bytes(file, {**broken([field])[0], **changes}), draw.choice([0, 2]))


def other_refusals(out, draw):
    """A bad block before a wrong mark, that before a short buffer and bad entries; a mark that is right stands before none of these."""
    f, settings = small_plan(draw, 1)
    for version, mark in itertools.product(VERSIONS, (0, 1, 2)):
        file = with_bytes(planfile.composed(f, settings, version), {13: mark})
        for lent in (0, 2, 3):
            out.read(file, lent)
            out.read(with_entry(file, 1, 15), lent)
        out.read(with_entry(file, 3, 1), 3)
        for at in (509, 1021):
            out.read(with_bytes(file, {at: file[at] ^ 1}, False), 3)


def damaged(out, draw):
    """Byte 13 changed, and exchanged with the bytes beside it, and the checks left: of QPL1 the rules behind the check find it, or nothing
    does."""
    for version, kind, mark in itertools.product(VERSIONS, KINDS, (0, 1)):
        f, settings = small_plan(draw, kind)
        file = planfile.composed(dict(f, weighted=mark), settings, version)
        for byte in (1 - mark, mark ^ 128, 255):
            out.read(with_bytes(file, {13: byte}, False), f["scans"])
        for at in (11, 12, 14, 16):
            out.read(with_bytes(file, {13: file[at], at: file[13]}, False), f["scans"])


# Peak and distortion


def peaks_beside(distortion):
    """Around the distortion, and at the end of a peak's range."""
    return sorted({max(distortion - 1, 0), distortion, distortion + 1, PEAK, PEAK + 1})


def peaks(out, draw):
    """The peak under, at and over the distortion, with each mark: read as QPL2 and written, and with no mark read as QPL1. What is said of the
    floor is the same for all."""
    for kind, mark in itertools.product(KINDS, (0, 1)):
        f, settings = small_plan(draw, kind)
        for distortion in (0, 80, PEAK - 1, PEAK, TOTAL):
            for peak in peaks_beside(distortion):
                g = dict(f, distortion=distortion, peak=peak, floor=0, weighted=mark)
                out.both(g, settings, f["scans"], 2)
                if mark == 0:
                    out.read(planfile.composed(g, settings, 1), f["scans"])
        for peak, floor in ((81, 80), (80, 81), (81, 81), (PEAK + 1, 81), (2 ** 32 - 1, 80)):
            g = dict(f, distortion=80, peak=peak, floor=floor, weighted=mark)
            out.both(g, settings, f["scans"], 2)
    # no mark lets a peak that is cut to 32 bits by
    for mark, peak in itertools.product((0, 1), (2 ** 32, 2 ** 32 + 7, TOP)):
        out.write(dict(small_plan(draw, 1)[0], peak=peak, weighted=mark), settings)


# The writer's number


def written_marks(out, draw):
    """Every number that is no mark, alone, with a peak over the distortion, beside other broken fields, short buffers and bad settings."""
    for kind in KINDS:
        f, settings = small_plan(draw, kind)
        for mark in (0, 1) + NO_MARKS:
            out.write(dict(f, weighted=mark), settings)
            out.write(dict(f, weighted=mark, peak=81), settings)
        for mark in (1, 2, 2 ** 32, TOP):
            for field in BREAKERS:
                if broken([field])[1]:
                    out.write(dict(f, weighted=mark, **broken([field])[1]), settings, 1024)
            out.write(dict(f, weighted=mark), settings[:-1])
            out.write(dict(f, weighted=mark), settings, 1023)
            out.write(dict(f, weighted=mark), settings[:-1] + [3])


# Good plans


def weighted_plans(out, draw):
    """Small plans with both marks, at the ends of their fields, and long ones whose settings are all 0."""
    for k in range(32):
        f = planfile.random_fields(draw, 1 + k % 3, draw.choice([1, 2, 16]), LAWS[k % 3], k % 2, 2)
        out.both(f, planfile.random_settings(draw, f), f["scans"], 2)
    for k, scans in enumerate((1007, 1008, 1009, 1024)):
        f = dict(small_plan(draw, k % 2)[0], scans=scans, peak=90, weighted=1)
        out.both(f, [0] * scans, scans, 2)
        out.read(with_field(planfile.composed(f, [0] * scans), "weighted", 2), scans)
