#!/usr/bin/env python3
"""What the plan-file reader and writer must answer, written from document 01, "Plan file" and "Numbers a caller can get back", and requests
[2], [4] and [5] of document 02, and sharing nothing with the library.

`read` and `write` are whole calls: the number that comes back (0: no refusal), the values beside it, and what the lent buffer holds
afterwards. The reader's values are the eleven fields from N to floor, then the version, 1 for QPL1 and 2 for QPL2, and then whether the plan
is weighted, 0 or 1; the writer's the file's length; a refusal's what it carries.
Run as a program, this file writes and reads random files, holds files that are put together in another way against both, and damages files
of QPL2 in the ways that request [4] names."""

import itertools
import math
import operator
import random
import sys
from collections import Counter

from laws import LAWS, NO_LAWS, keeps

# A field's name, where it starts in block 0, and its bytes, in the order in which the writer takes them. A file of QPL1 has no field
# `weighted`: there byte 13 belongs to a run of zeros.
FIELDS = [
    ("scans", 8, 2),
    ("settings", 10, 1),
    ("law", 11, 1),
    ("kind", 12, 1),
    ("budget", 16, 8),
    ("n", 24, 4),
    ("d", 28, 4),
    ("rate", 32, 4),
    ("distortion", 36, 4),
    ("peak", 40, 4),
    ("floor", 44, 4),
    ("weighted", 13, 1),
]
NAMES = [name for name, _, _ in FIELDS]

# by version, which is no field of a plan: the writer is told none
LETTERS = {1: b"QPL1", 2: b"QPL2"}
AVERAGE, MINMAX = 0, 1

BLOCK = 512
# the bytes of a block between its number and its check
FIRST, END = 4, 508
# what each of a block's first 508 bytes weighs in the check of QPL2
WEIGHTS = range(END, 0, -1)
# the runs of zeros in block 0, by version
ZEROS = {1: [(13, 16), (48, 508)], 2: [(14, 16), (48, 508)]}
ENTRIES_TO_A_BLOCK = 2 * (END - FIRST)

MOST_SCANS = 1024
MOST_SETTINGS = 16
MOST_TERM = 1073741823
MOST_TOTAL = 1073740800
MOST_PEAK = 1048575


class Refusal(Exception):
    """The number and what it carries."""


# Rules


def length_for(scans):
    """The length of a file of this many scans."""
    return 1536 if scans > ENTRIES_TO_A_BLOCK else 1024


def broken_fields(f):
    """The lowest byte of each field that breaks its rule, of the twelve that both a file of QPL2 and the writer's caller give. What is said
    of n, d and the floor takes a kind: of another kind only the kind itself counts, which stands before them. So it is with the peak beside
    the distortion, which takes a plan that is not weighted: what is neither 0 nor 1 stands before the peak."""
    out = []
    if not 1 <= f["scans"] <= MOST_SCANS:
        out.append(8)
    if not 1 <= f["settings"] <= MOST_SETTINGS:
        out.append(10)
    if f["law"] not in LAWS:
        out.append(11)
    if f["kind"] == AVERAGE:
        n_in, d_in = f["n"] <= MOST_TERM, 1 <= f["d"] <= MOST_TERM
        if not n_in:
            out.append(24)
        if not d_in:
            out.append(28)
        if n_in and d_in and math.gcd(f["n"], f["d"]) != 1:
            out.append(24)
        if f["floor"] > f["distortion"]:
            out.append(44)
    elif f["kind"] == MINMAX:
        for name, byte in (("n", 24), ("d", 28), ("floor", 44)):
            if f[name] != 0:
                out.append(byte)
    else:
        out.append(12)
    if f["rate"] > f["budget"] or f["rate"] > MOST_TOTAL:
        out.append(32)
    if f["distortion"] > MOST_TOTAL:
        out.append(36)
    if f["peak"] > MOST_PEAK or f["weighted"] == 0 and f["peak"] > f["distortion"]:
        out.append(40)
    if f["weighted"] not in (0, 1):
        out.append(13)
    return out


def check_header(broken):
    if broken:
        raise Refusal(13, min(broken))


def check_entries(f, entries):
    """The first N entries against Q and the law, the others against zero."""
    for k, entry in enumerate(entries):
        if k >= f["scans"]:
            good = entry == 0
        else:
            good = entry < f["settings"] and (k == 0 or keeps(f["law"], entries[k - 1], entry))
        if not good:
            raise Refusal(14, k)


# Blocks


def number(content):
    return sum(byte << 8 * k for k, byte in enumerate(content))


def blocks_of(file):
    return [file[start : start + BLOCK] for start in range(0, len(file), BLOCK)]


def old_check(content):
    return sum(content)


def new_check(content):
    return 1 + sum(map(operator.mul, WEIGHTS, content))


def check_for(letters):
    """What checks all blocks of a file with these letters: unknown ones take the old sum."""
    return new_check if letters == LETTERS[2] else old_check


def check_blocks(blocks, check):
    for k, block in enumerate(blocks):
        if number(block[:FIRST]) != k or number(block[END:]) != check(block[:END]):
            raise Refusal(12, k)


def fields_of(block):
    return {name: number(block[at : at + width]) for name, at, width in FIELDS}


def entries_of(blocks):
    out = []
    for block in blocks[1:]:
        for byte in block[FIRST:END]:
            out += [byte % 16, byte // 16]
    return out


def sealed(k, inner, check):
    """A block from its number and what stands between number and check."""
    block = k.to_bytes(4, "little") + bytes(inner)
    return block + check(block).to_bytes(4, "little")


def composed(f, settings, version=2):
    """The file, rules or no rules, of numbers that fit their fields."""
    head = bytearray(END - FIRST)
    head[:4] = LETTERS[version]
    for name, at, width in FIELDS:
        head[at - FIRST : at - FIRST + width] = f[name].to_bytes(width, "little")
    size = length_for(f["scans"]) // BLOCK - 1
    entries = list(settings) + [0] * (size * ENTRIES_TO_A_BLOCK - len(settings))
    packed = [low + 16 * high for low, high in zip(entries[::2], entries[1::2])]
    inners = [packed[k * (END - FIRST) : (k + 1) * (END - FIRST)] for k in range(size)]
    return b"".join(sealed(k, inner, check_for(LETTERS[version])) for k, inner in enumerate([head] + inners))


# Whole calls


def reading(file, room):
    if len(file) not in (1024, 1536):
        raise Refusal(11, 0)
    blocks = blocks_of(file)
    letters = blocks[0][4:8]
    check_blocks(blocks, check_for(letters))
    f = fields_of(blocks[0])
    version = next((version for version in LETTERS if LETTERS[version] == letters), None)
    if version is None:
        # no field stands before the letters
        raise Refusal(13, 4)
    broken = broken_fields(f)
    if length_for(f["scans"]) != len(file):
        broken.append(8)
    for start, end in ZEROS[version]:
        if any(blocks[0][start:end]):
            broken.append(start)
    check_header(broken)
    if room < f["scans"]:
        raise Refusal(6, 0)
    entries = entries_of(blocks)
    check_entries(f, entries)
    return f, entries[: f["scans"]], version


def values_of(f, version):
    """The reader's values: the mark of a weighted plan came to be after the version, and stands behind it."""
    return [f[name] for name in NAMES if name != "weighted"] + [version, f["weighted"]]


def read(file, buffer):
    try:
        f, settings, version = reading(file, len(buffer))
    except Refusal as refusal:
        return refusal.args[0], [refusal.args[1]], bytes(buffer)
    return 0, values_of(f, version), bytes(settings) + bytes(buffer[len(settings) :])


def writing(f, settings, room):
    check_header(broken_fields(f))
    if len(settings) < f["scans"] or room < length_for(f["scans"]):
        raise Refusal(6, 0)
    used = list(settings[: f["scans"]])
    check_entries(f, used)
    return composed(f, used)


def write(f, settings, buffer):
    try:
        file = writing(f, settings, len(buffer))
    except Refusal as refusal:
        return refusal.args[0], [refusal.args[1]], bytes(buffer)
    return 0, [len(file)], file + bytes(buffer[len(file) :])


# Files that keep every rule


def random_terms(draw):
    n, d = draw.choice(
        [
            (0, 1),
            (1, 1),
            (1, MOST_TERM),
            (MOST_TERM, 1),
            (MOST_TERM, MOST_TERM - 1),
            (MOST_TERM - 1, MOST_TERM),
            (draw.randint(0, 50), draw.randint(1, 50)),
            (draw.randint(0, MOST_TERM), draw.randint(1, MOST_TERM)),
        ]
    )
    k = math.gcd(n, d)
    return n // k, d // k


def random_fields(draw, scans, settings, law, kind, version=1):
    """Fields that keep every rule, often at the end of their range. Those for QPL1 are for QPL2 too; for QPL2 the plan may be weighted, and
    then its peak has no distortion to keep to."""
    rate = draw.choice([0, 1, MOST_TOTAL - 1, MOST_TOTAL, draw.randint(0, MOST_TOTAL)])
    budget = draw.choice([rate, rate + 1, MOST_TOTAL, 2 ** 32 - 1, 2 ** 32, 2 ** 64 - 1, draw.randint(rate, 2 ** 64 - 1)])
    distortion = draw.choice([0, 1, MOST_PEAK, MOST_TOTAL - 1, MOST_TOTAL, draw.randint(0, MOST_TOTAL)])
    peak = draw.choice([0, min(distortion, MOST_PEAK), draw.randint(0, min(distortion, MOST_PEAK))])
    n, d, floor = 0, 0, 0
    if kind == AVERAGE:
        n, d = random_terms(draw)
        floor = draw.choice([0, distortion, draw.randint(0, distortion)])
    weighted = 0
    if version == 2 and draw.random() < 0.5:
        weighted, peak = 1, draw.choice([peak, min(distortion + 1, MOST_PEAK), MOST_PEAK, draw.randint(0, MOST_PEAK)])
    return dict(zip(NAMES, [scans, settings, law, kind, max(budget, rate), n, d, rate, distortion, peak, floor, weighted]))


def random_settings(draw, f):
    """Settings that keep every rule; the largest steps that the law allows are common."""
    out, top = [], f["settings"] - 1
    for _ in range(f["scans"]):
        low, high = 0, top
        if out and f["law"] == 1:
            low = max(out[-1] - 2, 0)
        if out and f["law"] in (1, 2):
            high = min(out[-1] + 2, top)
        out.append(draw.choice([low, high, draw.randint(low, high)]))
    return out


# The self check


def check_by_running_sums(content, version):
    """The check of one version with no products: added up anew after each byte, the sums so far hold byte 0 508 times and byte 507 once."""
    so_far, sums = 0, 1
    for byte in content:
        so_far += byte
        sums += so_far
    return {1: so_far, 2: sums}[version]


def four_bytes(value):
    return bytes([value & 255, value >> 8 & 255, value >> 16 & 255, value >> 24])


def another_way(f, settings, version):
    """The same file as one number for each block, in which every field and entry is a summand."""
    packed = sum(setting << 4 * k for k, setting in enumerate(settings))
    bits = 504 * 8
    parts = [0x304C5051 + (version << 24), packed % 2 ** bits, packed >> bits]
    for byte, name in zip((8, 10, 11, 12, 16, 24, 28, 32, 36, 40, 44, 13), NAMES):
        parts[0] += f[name] << 8 * (byte - 4)
    file = b""
    for k, part in enumerate(parts[: 3 if f["scans"] > 1008 else 2]):
        content = ((part << 32) + k).to_bytes(508, "little")
        file += content + four_bytes(check_by_running_sums(content, version))
    return file


def with_checks(file, versions):
    """The file with the check of block k made that of versions[k]."""
    out = bytearray(file)
    for start, version in zip(range(0, len(file) - 511, 512), versions):
        out[start + 508 : start + 512] = four_bytes(check_by_running_sums(out[start : start + 508], version))
    return bytes(out)


def with_changes(file, changes):
    out = bytearray(file)
    for at, byte in changes.items():
        out[at] = byte
    return bytes(out)


def exchanged(file, j, k):
    return with_changes(file, {j: file[k], k: file[j]})


# Table T, average 17: settings 0 1, multiplier 3/5, rate 13, distortion 8, peak 6, floor 6. Every byte that is not zero is written out, but
# for the law's and the checks'.
AVERAGE_17 = {4: 81, 5: 80, 6: 76, 8: 2, 10: 2, 16: 17, 24: 3, 28: 5, 32: 13, 36: 8, 40: 6, 44: 6, 512: 1, 516: 16}
# By version, the last letter, the check of block 0 under law 0 and under law 1, and that of block 1; low byte first.
# QPL1: 286 for the letters, 4 for N and Q, 17, 3, 5, 13, 8, 6 and 6 make 348, and law 1 makes 349. Block 1: 1 and 16.
# QPL2: 81 * 504 + 80 * 503 + 76 * 502 + 50 * 501 for the letters, 2 * 500, 2 * 498, 17 * 492, 3 * 484, 5 * 480, 13 * 476, 8 * 472, 6 * 468,
# 6 * 464 and 1 make 174,035, and law 1 adds 497: 174,532. Block 1: 1 * 508, 16 * 504 and 1 make 8,573.
WRITTEN_OUT = {
    1: (49, {0: (92, 1, 0, 0), 1: (93, 1, 0, 0)}, (17, 0, 0, 0)),
    2: (50, {0: (211, 167, 2, 0), 1: (196, 169, 2, 0)}, (125, 33, 0, 0)),
}


def average_17(version, law):
    letter, checks, check = WRITTEN_OUT[version]
    file = bytearray(1024)
    for at, byte in AVERAGE_17.items():
        file[at] = byte
    file[7], file[11] = letter, law
    file[508:512], file[1020:1024] = checks[law], check
    return bytes(file)


def by_hand():
    """Table T's average plan for 17 under both laws, and its minmax plan, as files of both versions."""
    for version, law in itertools.product((1, 2), (0, 1)):
        average, told = average_17(version, law), [2, 2, law, 0, 17, 3, 5, 13, 8, 6, 6]
        assert read(average, b"\7\7\7") == (0, told + [version, 0], b"\0\1\7")
        assert composed(dict(zip(NAMES, told + [0])), [0, 1], version) == average
        # what is written is QPL2
        assert write(dict(zip(NAMES, told + [0])), b"\0\1\7", b"\6" * 1026) == (0, [1024], average_17(2, law) + b"\6\6")
    told = [2, 2, 0, 1, 17, 0, 0, 13, 8, 6, 0]
    for version, check in ((1, 335), (2, 167895)):
        # n, d and floor are zero, and the kind is 1: less 14 and 1 more, less 3 * 484 + 5 * 480 + 6 * 464 and 496 more
        minmax = with_changes(average_17(version, 0), {12: 1, 24: 0, 28: 0, 44: 0, **dict(enumerate(four_bytes(check), 508))})
        assert read(minmax, b"\7\7") == (0, told + [version, 0], b"\0\1")
    assert write(dict(zip(NAMES, told + [0])), b"\0\1", bytes(1024)) == (0, [1024], minmax)


def refusals_by_hand():
    """Refusals of table T's average plan for 17: the same for both versions."""

    def refused(changes, number, carried, length=1024, room=2, mend=True):
        for version in (1, 2):
            file = with_changes((average_17(version, 0) + bytes(1024))[:length], changes)
            if mend:
                file = with_checks(file, [2 if file[4:8] == b"QPL2" else 1] * 3)
            assert read(file, b"\7" * room) == (number, [carried], b"\7" * room), (version, changes, number, carried)

    refused({}, 11, 0, length=1023)
    refused({4: 80}, 12, 0, mend=False)
    refused({0: 1}, 12, 0)
    refused({515: 1, 519: 3}, 12, 1)
    refused({1024: 2}, 13, 8, length=1536)
    refused({}, 12, 2, length=1536)
    refused({4: 113}, 13, 4)
    refused({7: 51}, 13, 4)
    refused({7: 51, 9: 4}, 13, 4)
    refused({9: 4}, 13, 8)
    refused({10: 17, 11: 3}, 13, 10)
    refused({11: 3}, 13, 11)
    refused({11: 255, 12: 2}, 13, 11)
    refused({11: 2, 12: 2}, 13, 12)
    refused({12: 2, 24: 4, 28: 6}, 13, 12)
    refused({13: 2}, 13, 13)
    refused({13: 2, 14: 1}, 13, 13)
    refused({13: 255, 40: 9}, 13, 13)
    refused({24: 5}, 13, 24)
    refused({24: 0, 28: 0}, 13, 28)
    refused({24: 0, 28: 2}, 13, 24)
    refused({16: 12}, 13, 32)
    refused({36: 5}, 13, 40)
    refused({36: 7, 44: 8}, 13, 44)
    refused({507: 1, 40: 9}, 13, 40)
    refused({507: 1}, 13, 48)
    refused({516: 32}, 6, 0, room=1)
    refused({516: 2}, 14, 0)
    refused({516: 32}, 14, 1)
    refused({517: 1}, 14, 2)
    refused({1019: 16}, 14, 1007)


def letters_by_hand():
    """The letters of block 0 choose the check of all blocks. Checks that no letters choose together, and letters changed with the checks
    left: 12; of unknown letters the old sums alone lead to 13."""

    def refused(file, number, carried):
        assert read(bytes(file), b"\7\7") == (number, [carried], b"\7\7")

    for law in (0, 1):
        old, new = average_17(1, law), average_17(2, law)
        for file in (old, new):
            for letter in range(256):
                if letter != file[7]:
                    refused(with_changes(file, {7: letter}), 12, 0)
        refused(with_checks(old, (2, 1)), 12, 0)
        refused(with_checks(old, (2, 2)), 12, 0)
        refused(with_checks(old, (1, 2)), 12, 1)
        refused(with_checks(new, (1, 2)), 12, 0)
        refused(with_checks(new, (1, 1)), 12, 0)
        refused(with_checks(new, (2, 1)), 12, 1)
        # a 49 or a 50 elsewhere exchanged with the last letter makes the other letters, and leaves the old sum
        for letter, version in ((49, 2), (50, 1)):
            file = with_checks(with_changes(average_17(version, law), {16: letter}), (version, version))
            assert read(file, b"\7\7")[0] == 0
            refused(exchanged(file, 7, 16), 12, 0)
        for letters in (b"QPL3", b"QPL0", b"QPL\0", b"qPL2", b"QPl1", b"2LPQ", bytes(4)):
            unknown = with_changes(new, dict(enumerate(letters, 4)))
            refused(with_checks(unknown, (1, 1)), 13, 4)
            refused(with_checks(unknown, (2, 1)), 12, 0)
            refused(with_checks(unknown, (2, 2)), 12, 0)
            refused(with_checks(unknown, (1, 2)), 12, 1)


def bridge_chip():
    """Request [4]'s bridge chip: of a plan of 4 scans, settings 0 1 1 1, bytes 4 and 5 of block 1 are exchanged."""
    f, settings = dict(zip(NAMES, [4, 2, 1, 0, 17, 3, 5, 13, 8, 6, 6, 0])), bytes([0, 1, 1, 1])
    old, new = another_way(f, settings, 1), another_way(f, settings, 2)
    assert (old[516], old[517], number(old[508:512]), number(old[1020:])) == (16, 17, 351, 34)
    assert (new[516], new[517], number(new[1020:])) == (16, 17, 17124)
    assert read(exchanged(old, 516, 517), b"\7" * 4) == (0, [4, 2, 1, 0, 17, 3, 5, 13, 8, 6, 6, 1, 0], bytes([1, 1, 0, 1]))
    assert check_by_running_sums(exchanged(new, 516, 517)[512:1020], 2) == 17125
    assert read(exchanged(new, 516, 517), b"\7" * 4) == (12, [1], b"\7" * 4)


# Table T under law 1 with the weights 0 and 1, average 13: settings 1 0, multiplier 1/5, rate 13, distortion 4, peak 7, floor 4. Every byte
# that is not zero is written out, and the checks. 81 * 504 + 80 * 503 + 76 * 502 + 50 * 501 for the letters, 2 * 500, 2 * 498, 497 for the
# law, 495 for the mark, 13 * 492, 484, 5 * 480, 13 * 476, 4 * 472, 7 * 468, 4 * 464 and 1 make 169,743. Block 1: 508, 504 and 1 make 1,013.
WEIGHTED_13 = {4: 81, 5: 80, 6: 76, 7: 50, 8: 2, 10: 2, 11: 1, 13: 1, 16: 13, 24: 1, 28: 5, 32: 13, 36: 4, 40: 7, 44: 4, 512: 1, 516: 1}
WEIGHTED_CHECKS = {508: 15, 509: 151, 510: 2, 1020: 245, 1021: 3}

# What the reader gives for changes of this file, for QPL1 and for QPL2: 0, or the byte that 13 carries. In QPL1 the bytes 13 to 15 are one
# run of zeros, and the peak has the distortion to keep to.
WEIGHTED_CHANGES = [
    ({}, 13, 0),
    ({13: 0}, 40, 40),
    ({13: 0, 40: 4}, 0, 0),
    ({13: 0, 40: 5}, 40, 40),
    ({40: 5}, 13, 0),
    ({13: 2}, 13, 13),
    ({13: 128}, 13, 13),
    ({13: 255, 12: 2}, 12, 12),
    ({13: 0, 14: 1}, 13, 14),
    ({13: 0, 15: 255}, 13, 14),
    ({14: 1}, 13, 14),
    ({13: 2, 15: 1}, 13, 13),
    ({15: 1, 24: 5}, 13, 14),
    ({15: 1, 11: 3}, 11, 11),
    ({24: 5}, 13, 24),
    ({40: 255, 41: 255, 42: 15}, 13, 0),
    ({40: 0, 41: 0, 42: 16}, 13, 40),
    ({40: 0, 43: 1}, 13, 40),
    ({44: 5}, 13, 44),
    ({36: 3}, 13, 44),
    ({36: 0, 44: 0}, 13, 0),
    ({12: 1, 24: 0, 28: 0, 44: 0}, 13, 0),
    ({12: 1, 24: 0, 28: 0, 44: 0, 13: 0}, 40, 40),
    ({12: 1, 24: 0, 28: 0}, 13, 44),
    ({507: 1}, 13, 48),
]


def weighted_by_hand():
    """A weighted plan's file, changes of it, and the writer's mark."""
    file = with_changes(bytes(1024), {**WEIGHTED_13, **WEIGHTED_CHECKS})
    assert number(file[508:512]) == 169743 and number(file[1020:]) == 1013
    right = [2, 2, 1, 0, 13, 1, 5, 13, 4, 7, 4]
    f = dict(zip(NAMES, right + [1]))
    assert read(file, b"\7\7\7") == (0, right + [2, 1], b"\1\0\7")
    assert write(f, b"\1\0", b"\6" * 1025) == (0, [1024], file + b"\6")
    assert write(dict(f, weighted=0), b"\1\0", b"\6" * 1025) == (13, [40], b"\6" * 1025)
    for changes, *carried in WEIGHTED_CHANGES:
        for version, at in zip((1, 2), carried):
            changed = with_checks(with_changes(file, {7: 48 + version, **changes}), (version, version))
            number_back, values, plan = read(changed, b"\7\7")
            if at:
                assert (number_back, values, plan) == (13, [at], b"\7\7"), (changes, version, at)
            else:
                assert (number_back, values[-2:], plan) == (0, [version, changed[13]], b"\1\0"), (changes, version)
                # what was read is written back as QPL2
                back = dict(zip(NAMES, values[:-2] + values[-1:]))
                assert write(back, plan, bytes(1024))[2] == with_checks(with_changes(changed, {7: 50}), (2, 2))
    for weighted in (2, 3, 255, 256, 257, 2 ** 32, 2 ** 32 + 1, 2 ** 64 - 1):
        # after the kind, before n, and whatever the peak is
        for changes, at in (({}, 13), ({"kind": 2}, 12), ({"n": 5}, 13), ({"peak": 2 ** 20}, 13), ({"law": 3}, 11), ({"floor": 9}, 13)):
            assert write(dict(f, weighted=weighted, **changes), b"\1\0", bytes(1024)) == (13, [at], bytes(1024))
    for changes, at in (({"n": 5}, 24), ({"peak": 2 ** 20}, 40), ({"floor": 5}, 44)):
        assert write(dict(f, **changes), b"\1\0", bytes(1024)) == (13, [at], bytes(1024))


def damaged(draw):
    """Files of QPL2, as they were sealed: every change of one byte among a block's 508 in a file of two blocks, exchanges in one of three.
    Gives how many of each there were."""
    file, changes, exchanges = average_17(2, 1), 0, 0
    for block, at in itertools.product(range(2), range(508)):
        changed, place = bytearray(file), 512 * block + at
        for byte in range(256):
            if byte != file[place]:
                changed[place] = byte
                assert read(changed, b"\7\7") == (12, [block], b"\7\7")
                changes += 1
    f = random_fields(draw, 1024, 16, 0, 0, 2)
    plan = another_way(f, random_settings(draw, f), 2)
    # any bytes between the letters and the checks: the blocks are right, and rules come behind them
    filled = [bytes(draw.randrange(256) for _ in range(size)) for size in (504, 508)]
    other = with_checks(plan[:8] + filled[0] + plan[512:1028] + filled[1], (2, 2, 2))
    assert read(plan, bytes(1024))[0] == 0 and read(other, bytes(1024))[0] == 13
    while exchanges < 5000:
        file, block = draw.choice([plan, other]), draw.randrange(3)
        # the letters' last byte with any other, neighbours, and any two
        j = 7 if block == 0 and draw.random() < 0.2 else draw.randrange(508)
        k = draw.choice([(j + 1) % 508, draw.randrange(508)])
        if file[512 * block + j] != file[512 * block + k]:
            assert read(exchanged(file, 512 * block + j, 512 * block + k), b"") == (12, [block], b"")
            exchanges += 1
    return changes, exchanges


def lawful():
    """Files of 2 scans and 4 settings under each law, and under numbers that are none: what comes back for 3 0, for 0 3 and for 0 2."""
    refusals, carried = {0: (0, 0, 0), 1: (14, 14, 0), 2: (0, 14, 0), 3: (13, 13, 13), 255: (13, 13, 13)}, {13: [11], 14: [1]}
    for version, kind in itertools.product((1, 2), (AVERAGE, MINMAX)):
        told = [7, 0, 1, 7, 4, 3, 4] if kind == AVERAGE else [7, 0, 0, 7, 4, 3, 0]
        for law, numbers in refusals.items():
            f = dict(zip(NAMES, [2, 4, law, kind] + told + [0]))
            for settings, refusal in zip(((3, 0), (0, 3), (0, 2)), numbers):
                read_so, written_so = (0, values_of(f, version), bytes(settings)), (0, [1024], another_way(f, settings, 2))
                if refusal:
                    read_so, written_so = (refusal, carried[refusal], b"\7\7"), (refusal, carried[refusal], bytes(1024))
                assert read(another_way(f, settings, version), b"\7\7") == read_so
                assert write(f, bytes(settings), bytes(1024)) == written_so
            # a kind has a rule of its own, behind the law's
            for other in (2, 3, 255):
                refused_at = 12 if law in (0, 1, 2) else 11
                assert read(another_way(dict(f, kind=other), (0, 0), version), b"\7\7") == (13, [refused_at], b"\7\7")
        for law in NO_LAWS:
            f = dict(zip(NAMES, [2, 4, law, kind] + told + [0]))
            assert write(f, bytes(2), bytes(1024)) == (13, [11], bytes(1024))


def at_random(draw):
    """Random files of both versions; a weighted plan's file of QPL1 is refused. Gives how many plans there were."""
    marks = Counter()
    for k in range(1500):
        scans = draw.choice([1, 2, 3, 1007, 1008, 1009, 1010, 1023, 1024, draw.randint(1, 1024)])
        f = random_fields(draw, scans, 1 + k % 16, k // 16 % 3, k // 48 % 2, 1 + k % 5 % 2)
        settings = random_settings(draw, f)
        old, new = another_way(f, settings, 1), another_way(f, settings, 2)
        assert (composed(f, settings, 1), composed(f, settings)) == (old, new)
        lent = bytes([draw.randrange(256)]) * draw.choice([scans, scans + 1, 1100])
        *fields, mark = f.values()
        assert read(new, lent) == (0, fields + [2, mark], bytes(settings) + lent[scans:])
        assert read(old, lent) == ((13, [13], lent) if mark else (0, fields + [1, 0], bytes(settings) + lent[scans:]))
        target = bytes([draw.randrange(256)]) * (len(new) + draw.choice([0, 1, 700]))
        given = bytes(settings) + bytes(draw.randrange(256) for _ in range(draw.choice([0, 3])))
        number_back, values, after = write(f, given, target)
        assert (number_back, values, after) == (0, [len(new)], new + target[len(new) :])
        # what was written reads back as QPL2, and what was read, of either version, writes back
        for file in (after[: len(new)],) if mark else (old, after[: len(new)]):
            number_back, values, plan = read(file, bytes(scans))
            assert write(dict(zip(NAMES, values[:11] + values[12:])), plan, bytes(len(new)))[2] == new
        marks[mark, f["peak"] > f["distortion"]] += 1
    assert marks[0, True] == 0 and min(marks[0, False], marks[1, False], marks[1, True]) >= 50, marks
    return 1500


def main():
    by_hand()
    refusals_by_hand()
    letters_by_hand()
    weighted_by_hand()
    bridge_chip()
    lawful()
    draw = random.Random(30)
    count = at_random(draw)
    print("planfile.py: the files made by hand hold, and %d random plans are read and written alike" % count)
    print("planfile.py: %d changes of one byte and %d exchanges of two in files of QPL2 are refused" % damaged(draw))


if __name__ == "__main__":
    sys.exit(main())
