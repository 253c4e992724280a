"""The two versions of a plan file: good files of QPL2, read and written; the letters, which choose the check of all blocks; checks that are
nearly that of QPL2; and the header's rules and the order of refusals under QPL2."""

import itertools

import planfile
from file_blocks import other_orders, several_bad, wrong_checks, wrong_numbers
from file_changes import BREAKERS, broken, four_bytes, mended, qpl1, sample, sealed_by, third_block, with_bytes, with_entry, with_field
from file_fields import ENDS, PEAK, TERM, TOTAL
from file_laws import small_plans
from laws import LAWS

OLD, NEW = planfile.old_check, planfile.new_check

# Good files


def largest_fields(scans, kind):
    """Every number as high as its rule lets it be."""
    f = dict(zip(planfile.NAMES, [scans, 16, 0, kind, 2 ** 64 - 1, 0, 0, TOTAL, TOTAL, PEAK, 0, 0]))
    if kind == 0:
        f.update(n=TERM, d=TERM - 1, floor=TOTAL)
    return f


def good_files(out, draw):
    """The ends of N, Q, law and kind; long ones, which take more to show, with each of them at least once."""
    ends = list(itertools.product((1, 2), (1, 2, 15, 16), LAWS, (0, 1)))
    ends += [(1007, 2, 2, 1), (1008, 1, 1, 0), (1008, 16, 2, 1), (1009, 15, 1, 1), (1009, 16, 0, 0), (1024, 16, 1, 0), (1024, 1, 2, 1)]
    for one in ends:
        f = planfile.random_fields(draw, *one)
        settings = planfile.random_settings(draw, f)
        out.both(f, settings, f["scans"], 2)
        # the same plan as QPL1, where it is short: the answers differ by the version alone
        if f["scans"] <= 2:
            out.read(qpl1(f, settings), f["scans"])


def large_and_small_checks(out, draw):
    """Checks from a few bits to over three bytes: every entry 15, or only the last, and none."""
    for scans in (1, 2, 1007, 1008, 1009, 1024):
        f = largest_fields(scans, scans % 2)
        for settings in ([15] * scans, [0] * (scans - 1) + [15], [0] * scans):
            out.both(f, settings, scans, 2)
    least = dict(zip(planfile.NAMES, [1, 1, 0, 1] + [0] * 8))
    out.both(least, [0], 1, 2)


# Letters and checks


def letters_tried():
    """QPL1 and QPL2, each of their letters changed in several ways, and in other orders."""
    out = [b"QPL1", b"QPL2", b"QPL3", b"QPL0", b"QPL\0", b"2LPQ", b"PQL2", b"QLP2", b"QP2L", b"PQ2L", bytes(4), b"QQQQ", b"2222"]
    for right, at in itertools.product((b"QPL2", b"QPL1"), range(4)):
        for byte in (right[at] + 1, right[at] ^ 32, right[at] ^ 128, 255)[: 4 if right == b"QPL2" else 2]:
            out.append(right[:at] + bytes([byte]) + right[at + 1 :])
    return list(dict.fromkeys(out))


def letters(out, draw):
    """All these letters with every choice of old sum and new check for the blocks, and with the checks that went with QPL1 and with QPL2."""
    for scans, tried in ((2, letters_tried()), (1010, letters_tried()[:7])):
        f, settings = sample(draw, scans, 4, 1, scans % 3 % 2)
        old, new = qpl1(f, settings), planfile.composed(f, settings)
        for four in tried:
            changes = dict(enumerate(four, 4))
            out.read(with_bytes(old, changes, False), scans)
            out.read(with_bytes(new, changes, False), scans)
            for checks in itertools.product((OLD, NEW), repeat=len(new) // 512):
                out.read(sealed_by(with_bytes(new, changes, False), checks), scans)


# the settings whose bytes are QPL1 and QPL2
IN_DATA = {1: [1, 5, 0, 5, 12, 4, 1, 3], 2: [1, 5, 0, 5, 12, 4, 2, 3]}


def letters_in_data(out, draw):
    """Settings that make a data block begin with letters: those of block 0 count, for all blocks."""
    for version, said, block in itertools.product((1, 2), (1, 2), (1, 2)):
        scans = 9 if block == 1 else 1016
        f, _ = sample(draw, scans, 13, 0, version % 2)
        settings = ([0] * 1008 * (block - 1) + IN_DATA[said] + [0])[:scans]
        file = planfile.composed(f, settings, version)
        out.read(file, scans)
        for checks in itertools.product((OLD, NEW), repeat=len(file) // 512):
            out.read(sealed_by(file, checks), 0)


def alike(block, places):
    """The block with these three bytes changed so that its old sum and its new check have the same two low bytes."""
    out, steps = bytearray(block), [508 - at - 1 for at in places]
    for at in places:
        out[at] = 0
    missing = (OLD(out[:508]) - NEW(out[:508])) % 2 ** 16
    for first, second in itertools.product(range(256), repeat=2):
        rest = (missing - first * steps[0] - second * steps[1]) % 2 ** 16
        third, over = divmod(rest, steps[2])
        if over == 0 and third < 256:
            for at, byte in zip(places, (first, second, third)):
                out[at] = byte
            return out
    raise ValueError("no such bytes")


def nearly_the_same(out, draw):
    """Old sums and new checks with the same two low bytes, so that only the high ones tell them apart."""
    for version in (1, 2, 3):
        f, settings = sample(draw, 1008, 16, 0, 0)
        file = with_bytes(planfile.composed(f, settings), {7: 48 + version}, False)
        # the budget's highest bytes may have any value
        file = alike(file[:512], (21, 22, 23)) + alike(file[512:], (7, 300, 506))
        for checks in itertools.product((OLD, NEW), repeat=2):
            # room for the settings only where they are read once more
            out.read(sealed_by(file, checks), 1008 if checks == (NEW, NEW) else 0)


# Checks that are nearly right


def weighed(first, step):
    """1, and each byte as often as is said: byte 0 `first` times, and each next one `step` times more."""
    return lambda content: 1 + sum((first + step * k) * byte for k, byte in enumerate(content))


def with_own_bytes(content):
    """The check that goes on over its own four bytes, which then weigh 0, -1, -2 and -3; the right one where there is none."""
    right = NEW(content)
    for check in range(max(right - 1530, 0), right):
        if check + sum(k * byte for k, byte in enumerate(check.to_bytes(4, "little"))) == right:
            return check
    return right


def signed(content):
    """Bytes from 128 on taken as negative."""
    return (1 + sum((508 - k) * (byte - 256 * (byte > 127)) for k, byte in enumerate(content))) % 2 ** 32


WRONG_CHECKS = [
    OLD,
    lambda content: OLD(content) + 1,
    # 507 - k, 509 - k and 512 - k; from the other end
    weighed(507, -1), weighed(509, -1), weighed(512, -1), weighed(0, 1), weighed(1, 1),
    # 1 left out and 2 added
    lambda content: NEW(content) - 1,
    lambda content: NEW(content) + 1,
    # without the number, and without the last byte
    lambda content: NEW(bytes(4) + content[4:]),
    lambda content: NEW(content[:507]),
    with_own_bytes,
    signed,
    # cut to two bytes and to three; the highest byte first
    lambda content: NEW(content) % 2 ** 16,
    lambda content: NEW(content) % 2 ** 24,
    lambda content: int.from_bytes(NEW(content).to_bytes(4, "little"), "big"),
]


def nearly_right_checks(out, draw):
    """Each wrong way to check in all blocks, in one, and in all but block 0, where it gives another check than the right way."""
    table_t = dict(zip(planfile.NAMES, [2, 2, 1, 0, 17, 3, 5, 13, 8, 6, 6, 0])), [0, 1]
    for f, settings in (table_t, (largest_fields(1024, 1), [15] * 1024), sample(draw, 1012, 16, 2, 0)):
        file = planfile.composed(f, settings)
        blocks = range(len(file) // 512)
        sets = dict.fromkeys([tuple(blocks)] + [(block,) for block in blocks] + [tuple(blocks[1:])])
        for wrong, which in itertools.product(WRONG_CHECKS, sets):
            made = sealed_by(file, [wrong if block in which else NEW for block in blocks])
            if made != file:
                out.read(made, f["scans"])


def every_bit_of_checks(out, draw):
    f, settings = sample(draw, 1010, 16, 1, 0)
    file = planfile.composed(f, settings)
    for start, bit in itertools.product(range(0, 1536, 512), range(32)):
        check = NEW(file[start : start + 508])
        out.read(with_bytes(file, four_bytes(check ^ 1 << bit, start + 508), False), 0)


def bad_blocks_of_qpl2(out, draw):
    """Numbers, checks and orders of blocks as for QPL1, the checks mended by QPL2's."""
    for one in ((70, 6, 0, 0), (1012, 6, 2, 1)):
        f, settings = sample(draw, *one)
        file = planfile.composed(f, settings)
        for block in range(len(file) // 512):
            wrong_numbers(out, file, 0, block)
            wrong_checks(out, file, 0, block)
        several_bad(out, file, 0)
        other_orders(out, file, 0)


# The rules behind the checks


def header_of_qpl2(out, draw):
    """Each field at both sides of its limits, each run of zeros, each field broken, and two at once. A 1 in byte 13 makes the plan weighted;
    more of that stands in file_weights.py."""
    for kind in (0, 1):
        f, settings = sample(draw, 2 + kind, 3, 0, kind)
        file = planfile.composed(f, settings)
        for name, ends in ENDS.items():
            for value in ends:
                out.read(with_field(file, name, value), f["scans"])
        for at in (13, 14, 15, 48, 49, 278, 506, 507):
            out.read(with_bytes(file, {at: 1}), f["scans"])
        singles, pairs = [(field,) for field in BREAKERS], list(itertools.combinations(BREAKERS, 2))
        for fields in singles + (pairs if kind == 0 else []):
            out.read(with_bytes(file, broken(fields)[0]), draw.choice([0, f["scans"]]))


def laws_of_qpl2(out, draw):
    """What tells the laws apart, read alone: the writer's files are of QPL2 in all parts."""
    for f, law in itertools.product(small_plans(), LAWS + (3,)):
        for settings in ((3, 0), (0, 3), (2, 0), (0, 2)):
            out.read(planfile.composed(dict(f, law=law), settings), 2)


def orders_of_refusals(out, draw):
    """A bad block before any bad field, a bad field before a short buffer, that before bad entries."""
    f, settings = sample(draw, 1010, 6, 1, 0)
    file = planfile.composed(f, settings)
    for field in BREAKERS:
        broken_there = with_bytes(file, broken([field])[0])
        for block in range(3):
            at = 512 * block + 508
            out.read(with_bytes(broken_there, {at: broken_there[at] ^ 1}, False), 1010)
        out.read(with_entry(broken_there, 3, 15), 0)
    for k in (0, 1, 2, 1006, 1007, 1008, 1009, 1010, 1011, 2015):
        bad = with_entry(file, k, 15)
        for lent in (1010, 1009):
            out.read(bad, lent)
        out.read(with_bytes(bad, {1532: bad[1532] ^ 1}, False), 1010)
    for lent in (0, 1, 1009):
        out.read(file, lent)


def lengths_of_qpl2(out, draw):
    """Lengths beside the two that there are, letters or none, and N that goes with the other one."""
    short, long = (planfile.composed(*sample(draw, scans, 4, 2, 0)) for scans in (3, 1009))
    for file in (short, long):
        for length in (0, 4, 7, 8, 511, 512, 513, 1023, 1024, 1025, 1535, 1536, 1537, 2048, 4096):
            if length != len(file):
                out.read((file + bytes(4096))[:length], 1009)
    out.read(third_block(short), 3)
    out.read(mended(long[:1024]), 1009)
    out.read(with_field(third_block(short), "scans", 1009), 1009)
