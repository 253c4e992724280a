"""What tells the step laws apart in a plan file: steps between 0 and 3 under each law and under numbers that are no law, good and bad kinds
beside them, and steps of every size, between any two settings and at any place."""

import itertools

import planfile
from file_changes import sample
from laws import LAWS, NO_LAWS

# bytes that are a law and bytes that are none
BYTES = LAWS + (3, 4, 128, 255)


def small_plans():
    """The fields of table V's average plan and of its minmax plan for 7 under law 2, which is 3 and then 0."""
    for kind, terms, floor in ((planfile.AVERAGE, [0, 1], 4), (planfile.MINMAX, [0, 0], 0)):
        yield dict(zip(planfile.NAMES, [2, 4, 2, kind, 7] + terms + [7, 4, 3, floor, 0]))


def laws_and_kinds(out, draw):
    for f in small_plans():
        for law in BYTES:
            for settings in ((3, 0), (0, 3), (2, 0), (0, 2)):
                out.both(dict(f, law=law), settings)
            for kind in (2, 3, 255):
                out.both(dict(f, law=law, kind=kind), (0, 0))
        for law in NO_LAWS:
            out.write(dict(f, law=law), (0, 0))
            out.write(dict(f, law=law, kind=2), (0, 3))
        for kind in (2 ** 8, 2 ** 32, 2 ** 32 + 1, 2 ** 32 + 2):
            out.write(dict(f, kind=kind), (3, 0))


def steps_between(out, draw):
    """Under law 2, the steps of two, of three and of 15 between any two settings."""
    f, _ = sample(draw, 2, 16, 2, 1)
    for before, after in itertools.product(range(16), repeat=2):
        if abs(before - after) in (2, 3, 15):
            out.both(f, [before, after], 2)


def places(scans):
    """The first entry that has one before it, two in the middle, those about the end of block 1, and the last."""
    return sorted(k for k in {1, scans // 2, scans // 2 + 1, 1007, 1008, 1009, scans - 1} if 1 <= k < scans)


def steps_at(out, draw):
    """One step at each place, to or from a run of zeros: coarser by two, by three and by 15, finer by three and by 15, and two bad ones."""
    for scans in (2, 9, 1009, 1024):
        f, _ = sample(draw, scans, 16, 2, scans % 2)
        for k in places(scans):
            # up to 3 and to 15 as fast as the law allows; the first entry has no law to keep
            climbs = [([0] * k + climb)[-k:] for climb in ([2, 3], [2, 4, 6, 8, 10, 12, 14, 15])]
            ways = [[0] * k + [setting] for setting in (2, 3, 15)] + [climb + [0] for climb in climbs] + [climbs[0] + [6]]
            for way in ways:
                out.both(f, way + [0] * (scans - len(way)), scans)
            out.both(dict(f, law=0), climbs[1] + [0] * (scans - k), scans)
            out.both(dict(f, law=1), climbs[1] + [0] * (scans - k), scans)
            out.both(f, [0] * k + [3] + [0] * (scans - k - 2) + [15] * (k < scans - 1), scans)
