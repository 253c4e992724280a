#!/usr/bin/env python3
"""Texts for bench, and for each the size of the pieces in which bench_cases feeds it. The same texts come out at each run."""

import random

from planner import FORBIDDEN, cells

T = [2, 2, 0, 17, 10, 4, 8, 3, 9, 5, 2, 7, 3, 6, 4, 10]
U = [1, 3, 0, 7, 9, 6, 2, 0, 8, 10]
BLOCKED = [2, 2, 0, 17, 10, 4] + [FORBIDDEN] * 4 + [2, 7, 3, 6, 4, 10]
SINGLE = [1, 1, 0, 0, 0, 0]
# tells the laws apart
V = [2, 4, 2, 7] + [5] * 4 + [9, 9, 4, 1] + [9] * 4 + [6, 9, 9, 9] + [2, 9, 9, 9] + [1] * 4 + [3] * 16

# what is no number
OTHER = [b"x", b"17x", b"x17", b"1x7", b"+1", b"-0", b"-1", b"1.0", b"0x10", b"1e3", b"1,2", b"1_000", b"\x001", b"1\x00", b"\x0b", b"1\x0c2"]
OTHER += [b"\xef\xbb\xbf1", b"\xa0", b"\x1a", b"/", b":", b"'", b"\xff", b"4294967296", b"4294967305", b"18446744073709551617", b"9" * 40]
OTHER += [b"0004294967296", b"42949672950", b"10000000000"]

# numbers that are written otherwise
SAME = [b"0%d", b"00000000000000000000%d"]

# law 2 as often as the two others together
DRAWN_LAWS = (0, 1, 2, 2)

GAPS = [b" ", b"\t", b"\r", b"\n", b"\r\n", b"   ", b" \t\r\n ", b"\n\n"]


def joined(words, gap=b" "):
    return gap.join(word if isinstance(word, bytes) else b"%d" % word for word in words)


def with_word(words, k, word):
    return words[:k] + [word] + words[k + 1 :]


def parted(out):
    """Every gap between words, before the first and after the last."""
    for gap in GAPS:
        for before in (b"", gap):
            for after in (b"", gap):
                out.append(before + joined(T, gap) + after)
    out.append(b" " * 5000 + joined(T, b"\n" * 600) + b"\t" * 5000)
    out.append(joined(with_word(T, 3, b"0" * 5000 + b"17")))
    out.append(joined(with_word(T, 15, b"0" * 9000 + b"10")))
    for text in (b"", b" ", b"\n", b" " * 9000, b"0", b"\r\n\t "):
        out.append(text)


def worked(out):
    for budget in (0, 8, 9, 12, 13, 17, 18, 4294967295):
        out.append(joined(with_word(T, 3, budget)))
        out.append(joined(with_word(BLOCKED, 3, budget)))
        out.append(joined(with_word(U, 3, budget)))
        out.append(joined(with_word(SINGLE, 3, budget)))
    for rate in (1048575, 1048576, FORBIDDEN - 1, FORBIDDEN):
        for k in (4, 5, 9, 10, 12, 15):
            out.append(joined(with_word(T, k, rate)))
    out.append(joined(with_word(with_word(T, 9, 1048576), 10, 1048576)))


def bad_words(out):
    """Every kind of other text at every place, and every number written otherwise."""
    for k in range(len(T)):
        for word in OTHER:
            out.append(joined(with_word(T, k, word)))
        for form in SAME:
            out.append(joined(with_word(T, k, form % T[k])))
        out.append(joined(T[:k] + T[k + 1 :]))
        out.append(joined(T[:k]))
        out.append(joined(T[:k]) + b" ")
    for word in OTHER + [b"0", b"17"]:
        out.append(joined(T + [word]))
        out.append(joined(T) + word)


def out_of_range(out):
    """The first four alone are judged where N, Q or law is out of range, and all four of them."""
    for head in ([0, 2, 0], [1025, 2, 0], [4294967295, 2, 0], [2, 0, 0], [2, 17, 0], [2, 2, 3], [2, 2, 4294967295], [0, 0, 2], [2, 0, 3], [0, 2, 3]):
        for budget in [17, 0, 4294967295] + OTHER:
            for rest in ([], T[4:], [b"x"], [1, b"-"], [b"4294967296"], [1] * 40):
                out.append(joined(head + [budget] + rest))
        out.append(joined(head))
        out.append(joined(head[:2]))
        out.append(joined(head + [17]) + b"\n")
        out.append(joined(head + [17]) + b"\0")
        for k, word in ((0, b"x"), (1, b"4294967296"), (2, b"+0")):
            out.append(joined(with_word(head, k, word) + [17]))


def laws(out):
    """Table V under each law, and what is none; under law 2 the rest is read and judged, and the sizes count."""
    for law in (0, 1, 2):
        for budget in (5, 6, 7, 8, 9, 14, 4294967295):
            out.append(joined(with_word(with_word(V, 2, law), 3, budget)))
    for law in (3, 4, 256, 258, 65538, 2147483650, 4294967295, b"03", b"02", b"00000000000000000002"):
        out.append(joined(with_word(V, 2, law)))
    # over the limit of a number, whatever fewer bits of it say
    for law in (b"4294967296", b"4294967298", b"18446744073709551618", b"2x", b"-2", b"2.0"):
        out.append(joined(with_word(V, 2, law)))
    for rest in ([], [b"x"], V[4:-1], V[4:] + [1], V[4:-1] + [b"4294967296"], V[4:-1] + [1048576]):
        for law in (2, 3):
            out.append(joined([2, 4, law, 7] + rest))
    for law in (2, 3):
        out.append(joined([17, 16, law, 7]))
        out.append(joined([17, 17, law, 7]))


def sizes(out, draw):
    """Both sides of "too large", with cells, without, and with other text behind."""
    for settings, most in ((2, 1024), (3, 455), (4, 256), (8, 64), (15, 19), (16, 16)):
        for scans in (most, most + 1):
            size = cells(scans, settings)
            out.append(joined([scans, settings, 0, 5000]))
            out.append(joined([scans, settings, 1, 5000, b"x"]))
            numbers = [draw.randrange(0, 40) for _ in range(2 * size)]
            for extra in (0, 1, -1, 20):
                taken = (numbers + [1] * 20)[: 2 * size + extra]
                out.append(joined([scans, settings, draw.choice(DRAWN_LAWS), 20 * scans] + taken))
            out.append(joined([scans, settings, 0, 20 * scans] + with_word(numbers, 2 * size - 1, b"y")))
    for settings in (1, 16):
        out.append(joined([1024, settings, 0, 9] + [3] * 2048))


def random_tables(out, draw):
    """Small and middling tables, some with a word changed."""
    for k in range(400):
        scans, settings = draw.choice([(1, 3), (2, 2), (3, 2), (2, 4), (3, 3), (4, 2), (5, 2), (1, 16), (2, 5), (20, 3), (60, 8), (16, 16)])
        if k % 8 and scans > 5:
            scans, settings = 3, 3
        size, top = cells(scans, settings), draw.choice([3, 10, 1000, 1048575])
        rates = [FORBIDDEN if draw.random() < 0.08 else draw.randint(0, top) for _ in range(size)]
        distortions = [draw.randint(0, draw.choice([top, 5])) for _ in range(size)]
        budget = min(4294967295, draw.choice([0, top, scans * top, scans * top // 2, scans * top // 3, 4294967295]))
        words = [scans, settings, draw.choice(DRAWN_LAWS), budget] + rates + distortions
        if draw.random() < 0.3:
            words = with_word(words, draw.randrange(len(words)), draw.choice(OTHER + [0, 1048576, 17]))
        out.append(joined(words, draw.choice(GAPS)) + draw.choice([b"", b"\n"]))


def every_text():
    out, draw = [], random.Random(3)
    out.append(b"2 2 0 17\n10 4 8 3 9 5\n2 7 3 6 4 10\n")
    parted(out)
    worked(out)
    bad_words(out)
    out_of_range(out)
    sizes(out, draw)
    random_tables(out, draw)
    laws(out)
    return [(text, draw.choice([1, 2, 3, 5, 7, 16, 64, 255, 4095, 4096])) for text in out]
