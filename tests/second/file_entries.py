"""The entries of a plan file: settings too high or against the law, steps of every size, and what stands from entry N on."""

from file_changes import qpl1, sample, with_entry, with_field

# Settings too high or against the law


def read_entry(out, draw, file, f, chosen, places, k):
    scans, settings = f["scans"], f["settings"]
    around_it = {chosen[k] + step for step in (-3, -2, 2, 3)}
    for value in sorted(around_it | {settings, 15}):
        if 0 <= value < 16:
            out.read(with_entry(file, k, value), scans)
    if draw.random() < 0.4:
        other = draw.choice(places)
        out.read(with_entry(with_entry(file, k, 15), other, 15), draw.choice([scans, scans, 0]))


def write_entry(out, draw, f, chosen, places, k):
    settings = f["settings"]
    for value in sorted({settings, 16, 16 + chosen[k], chosen[k] + 3, max(chosen[k] - 3, 0), draw.choice([128, 240, 255])}):
        out.write(f, chosen[:k] + [value] + chosen[k + 1 :])
    if draw.random() < 0.4:
        again = draw.choice(places)
        given = list(chosen)
        given[k], given[again] = 16, 255
        out.write(f, given, draw.choice([None, 1023]))


def chosen_places(scans):
    """The first, the last, even and odd places, and those about the end of block 1."""
    places = {0, 1, 2, 3, scans // 2, scans // 2 + 1, scans - 2, scans - 1, 1005, 1006, 1007, 1008, 1009, 1010}
    return sorted(k for k in places if 0 <= k < scans)


def entries(out, draw):
    """Settings too high or against the law, one and two, at chosen places."""
    for scans in (1, 2, 3, 8, 503, 1007, 1008, 1009, 1010, 1023, 1024):
        places = chosen_places(scans)
        for settings, law in ((1, 0), (6, 0), (7, 1), (16, 1)):
            f, chosen = sample(draw, scans, settings, law, draw.randrange(2))
            if law == 1:
                # all the same, so that both neighbours hold any step
                chosen = [draw.randrange(settings)] * scans
            file = qpl1(f, chosen)
            out.read(file, scans)
            for k in places:
                read_entry(out, draw, file, f, chosen, places, k)
                write_entry(out, draw, f, chosen, places, k)


def high_halves(out, draw):
    """Every entry of a file, too high for the writer by its high half alone."""
    f, chosen = sample(draw, 1024, 16, 0, 0)
    for k in range(1024):
        out.write(f, chosen[:k] + [chosen[k] + 16] + chosen[k + 1 :])


# Steps


def steps(out, draw):
    """Law 1 and law 0 on every pair of settings, in one byte, over two, and over two blocks. The steps of law 2 stand in file_laws.py."""
    for scans, k in ((2, 0), (3, 1), (1010, 1007), (1009, 1007)):
        f, _ = sample(draw, scans, 16, 1, 1)
        for before in range(16):
            for after in range(16):
                if scans == 2 or abs(abs(before - after) - 2) <= 1:
                    out.both(f, [before] * (k + 1) + [after] * (scans - k - 1), scans)
        out.read(qpl1(dict(f, law=0), [15, 0] * (scans // 2) + [15] * (scans % 2)), scans)


# From entry N on


def filler_places(scans, end):
    """In the last used byte, in the next, in the middle and at both ends of a block."""
    middle = (scans + end) // 2
    places = {scans, scans + 1, scans + 2, scans + 3, middle, middle + 1, end - 2, end - 1, 1007, 1008}
    return sorted(k for k in places if scans <= k < end)


def filler(out, draw):
    """What stands from entry N on, at one place, at two, and behind a bad entry."""
    for scans in (1, 2, 3, 4, 501, 502, 1005, 1006, 1007, 1008, 1009, 1010, 1011, 1023, 1024):
        f, chosen = sample(draw, scans, 16, scans % 2, scans % 3 % 2)
        file = qpl1(f, chosen)
        places = filler_places(scans, len(file) // 512 * 1008 - 1008)
        for k in places:
            for value in (1, 2, 8, 15):
                out.read(with_entry(file, k, value), scans)
            for other in places:
                if k < other:
                    out.read(with_entry(with_entry(file, k, 4), other, 1), scans)
            out.read(with_entry(file, k, 1), scans - 1)
        # a bad entry before bad filler
        if places:
            out.read(with_field(with_entry(with_entry(file, places[0], 1), scans - 1, 15), "settings", 2), scans)
