"""The header's fields, in a file and as the writer's numbers: each alone at its limits, those that are held against each other, and two or
three broken at once."""

import itertools

import planfile
from edges import TOP, around
from file_changes import BREAKERS, broken, qpl1, sample, with_bytes, with_field

TERM, TOTAL, PEAK = planfile.MOST_TERM, planfile.MOST_TOTAL, planfile.MOST_PEAK
# of the fields that both versions have
ENDS = {
    "scans": [0, 1, 2, 255, 256, 1007, 1008, 1009, 1023, 1024, 1025, 1280, 2048, 65535],
    "settings": [0, 1, 2, 15, 16, 17, 128, 255],
    "law": [0, 1, 2, 3, 4, 128, 255],
    "kind": [0, 1, 2, 3, 128, 255],
    "budget": [0, 1, TOTAL - 1, TOTAL, TOTAL + 1, 2 ** 32 - 1, 2 ** 32, 2 ** 63, TOP],
    "n": [0, 1, 2, 3, TERM - 1, TERM, TERM + 1, 2 ** 31, 2 ** 32 - 1],
    "d": [0, 1, 2, 3, TERM - 1, TERM, TERM + 1, 2 ** 31, 2 ** 32 - 1],
    "rate": [0, 1, TOTAL - 1, TOTAL, TOTAL + 1, 2 ** 31, 2 ** 32 - 1],
    "distortion": [0, 1, PEAK, TOTAL - 1, TOTAL, TOTAL + 1, 2 ** 31, 2 ** 32 - 1],
    "peak": [0, 1, PEAK - 1, PEAK, PEAK + 1, 2 ** 31, 2 ** 32 - 1],
    "floor": [0, 1, PEAK, TOTAL - 1, TOTAL, TOTAL + 1, 2 ** 31, 2 ** 32 - 1],
}
# what no field but the budget holds, and what a field would hold of it were it cut
BEYOND = [2 ** 8, 2 ** 16, 2 ** 32, 2 ** 63, TOP - 1, TOP]


# Each field alone


def small_plans(draw):
    """Plans of both kinds, in the middle and at both ends of their sums, and whether to try every bit of theirs. Their settings buffers are
    short enough to be written out."""
    out = []
    for kind in (0, 1):
        f, settings = sample(draw, 2 + kind, 3, 0, kind)
        zero = dict(f, budget=0, n=0, rate=0, distortion=0, peak=0, floor=0)
        full = dict(f, budget=TOTAL, n=0, rate=TOTAL, distortion=TOTAL, peak=PEAK, floor=0)
        if kind == 0:
            zero.update(d=1)
            full.update(n=TERM, d=TERM - 1, floor=TOTAL)
        out += [(f, settings, True), (zero, settings, False), (full, settings, True)]
    return out


def at_limits(out, f, settings, file):
    for name, ends in ENDS.items():
        for value in sorted(set(ends + around([f[name]], 2 ** 8 - 1))):
            out.read(with_field(file, name, value), f["scans"])
            out.write(dict(f, **{name: value}), settings, 1536)
        for value in BEYOND + [f[name] + 2 ** 8, f[name] + 2 ** 16, f[name] + 2 ** 32]:
            out.write(dict(f, **{name: min(value, TOP)}), settings, 1536)


def every_bit(out, f, settings, file):
    for name in ENDS:
        for bit in range(64):
            out.write(dict(f, **{name: f[name] ^ 1 << bit}), settings, 1536)
    for at in range(4, 48):
        for bit in range(8):
            out.read(with_bytes(file, {at: file[at] ^ 1 << bit}), f["scans"])


def letters_and_zeros(out, file, scans):
    """Each letter, in the other case and in another order; each run of zeros at its first, middle and last byte, and just outside."""
    for letters in (b"qPL1", b"QpL1", b"QPl1", b"QPL3", b"QPL\0", b"1LPQ", b"PQ1L", b"\0\0\0\0"):
        out.read(with_bytes(file, dict(enumerate(letters, 4))), scans)
    for at in (13, 14, 15, 48, 49, 50, 100, 255, 256, 277, 278, 500, 506, 507):
        for byte in (1, 128, 255):
            out.read(with_bytes(file, {at: byte}), scans)
    # bytes of a run that cancel in a wrapping sum
    out.read(with_bytes(file, {13: 128, 14: 128}), scans)
    out.read(with_bytes(file, {48: 255, 49: 1}), scans)


def each_field(out, draw):
    """Every field alone at both sides of each of its limits, in a file and as the writer's number."""
    for f, settings, bits in small_plans(draw):
        file = qpl1(f, settings)
        at_limits(out, f, settings, file)
        if bits:
            every_bit(out, f, settings, file)
        letters_and_zeros(out, file, f["scans"])


# Fields that are held against each other


def pairs_of_terms(draw):
    """n and d at their limits, beyond, and with a common divisor."""
    ends = [0, 1, 2, 3, TERM - 1, TERM, TERM + 1, 2 ** 32 - 1]
    pairs = [(n, d) for n in ends for d in ends]
    # 3, 11, 31, 151 and 331 divide the limit; 12/9 and others that halving does not reduce; the longest walk of remainders
    pairs += [(TERM, k) for k in (3, 7, 9, 11, 31, 151, 331, 5, 13)] + [(k, TERM) for k in (3, 7, 9, 11, 31, 151, 331, 5, 13)]
    pairs += [(12, 9), (4, 3), (9, 12), (15, 35), (35, 15), (49, 7), (7, 49), (0, 2), (0, 3), (0, TERM), (6, 6), (1, 6), (6, 1)]
    pairs += [(701408733, 433494437), (433494437, 701408733), (2 * 267914296, 2 * 165580141), (1073741789, 1073741783), (2 ** 29, 3 ** 18)]
    pairs += [(2 ** 29, 2 ** 28), (3 * 357913940, 3 * 357913941), (1073741822, 536870911)]
    for _ in range(60):
        k = draw.choice([1, 1, 2, 3, 5, 7, 97, 1009])
        pairs.append((k * draw.randint(0, TERM // k), k * draw.randint(1, TERM // k)))
    return pairs


def terms(out, draw):
    """n and d beside each other, for both kinds; those that no file holds, through the writer alone."""
    pairs = pairs_of_terms(draw)
    for kind in (0, 1):
        f, settings = sample(draw, 3, 4, 1, kind)
        file = qpl1(f, settings)
        for n, d in pairs:
            out.read(with_field(with_field(file, "n", n), "d", d), 3)
            out.write(dict(f, n=n, d=d), settings)
        for n, d in [(2 ** 32, 1), (1, 2 ** 32), (2 ** 32, 2 ** 32), (TOP, TOP), (2 ** 32 + 2, 2 ** 32 + 4), (0, 2 ** 32 + 1), (TOP, 0)]:
            out.write(dict(f, n=n, d=d), settings)


def compared(out, draw):
    """Rate beside budget, peak and floor beside distortion: one less, the same, one more, at every size."""
    for kind in (0, 1):
        f, settings = sample(draw, 3, 4, 1, kind)
        for most in (0, 1, 255, 256, 65535, 65536, PEAK - 1, PEAK, PEAK + 1, 16777215, 16777216, TOTAL - 1, TOTAL):
            for step in (-1, 0, 1):
                value = max(most + step, 0)
                for change in (
                    dict(rate=value, budget=most),
                    dict(rate=min(value, TOTAL), budget=2 ** 32 + most),
                    dict(peak=value, distortion=most, floor=0),
                    dict(floor=value, distortion=most, peak=0),
                    dict(floor=value, distortion=most, peak=value),
                ):
                    g = dict(f, **change)
                    out.read(qpl1(g, settings), 3)
                    out.write(g, settings)


# Several broken fields


def several_fields(out, draw):
    """Every pair of broken fields, and some threes of them."""
    for kind in (0, 1):
        f, settings = sample(draw, 5, 4, 0, kind)
        file = qpl1(f, settings)
        for pair in itertools.combinations(BREAKERS, 2):
            in_file, in_fields = broken(pair)
            out.read(with_bytes(file, in_file), 5)
            if in_fields:
                out.write(dict(f, **in_fields), settings)
        for _ in range(150):
            in_file, in_fields = broken(draw.sample(sorted(BREAKERS), 3))
            out.read(with_bytes(file, in_file), draw.choice([0, 5]))
            out.write(dict(f, **in_fields), settings, draw.choice([0, 1024, 1536]))
