"""Plans that keep every rule, through the reader and the writer: every N, and the ends of all fields."""

import planfile
from file_changes import qpl1
from laws import LAWS


def every_size(out, draw):
    """Every N, with each Q, law and kind in turn. The settings grow by one from file to file and are drawn anew after eight."""
    for scans in range(1, 1025):
        turn = scans // 8
        whole = planfile.random_fields(draw, min(scans | 7, 1024), 1 + turn % 16, turn // 16 % 3, scans % 2)
        if scans % 8 == 0 or scans == 1:
            settings = planfile.random_settings(draw, whole)
        f = dict(whole, scans=scans)
        extra = draw.choice([0, 0, 1, 9])
        out.read(qpl1(f, settings[:scans]), scans + extra)
        # what stands in the writer's slice past the first N is no concern of it
        given = settings[:scans] + [255] * draw.choice([0, 0, 1])
        out.write(f, given, planfile.length_for(scans) + draw.choice([0, 0, 1, 600]))


def all_ends(out, draw):
    """The ends of N, Q, law and kind with each other, fields at the ends of theirs."""
    for scans in (1, 2, 3, 1007, 1008, 1009, 1010, 1023, 1024):
        for settings in (1, 2, 15, 16):
            # under law 2 the short ones, which take less to show
            for law in LAWS if scans <= 3 else (0, 1):
                f = planfile.random_fields(draw, scans, settings, law, 0)
                chosen = planfile.random_settings(draw, f)
                for kind in (0, 1):
                    out.both(planfile.random_fields(draw, scans, settings, law, kind), chosen, scans)
        # all entries the highest, and the law kept by steps of exactly 2
        f = planfile.random_fields(draw, scans, 16, 0, 1)
        out.both(f, [15] * scans)
        out.both(dict(f, law=1), [(0, 2, 4, 2)[k % 4] for k in range(scans)])
        out.both(dict(f, law=1), [(15, 13, 11, 13)[k % 4] for k in range(scans)])
