#!/usr/bin/env python3
"""What bench must write for a text, written from document 01, "Bench tables", and request [2] of document 02, and sharing nothing with the
library. It has no weights: each is 1. Run as a program it does what bench does: a text on standard input, its lines on standard output."""

import re
import sys

sys.dont_write_bytecode = True

import planner
from laws import LAWS
from planner import AVERAGE, MINMAX

MOST_NUMBER = 4294967295
MOST_CELLS = 4096

# a table with more sequences than this is planned by dynamic programming
MOST_TRIED = 256


class BadInput(Exception):
    pass


def number(word):
    """A word of digits alone, not over the limit."""
    if not re.fullmatch(rb"[0-9]+", word):
        raise BadInput
    # leading zeros do not count, and the value of very many digits is not asked for
    digits = word.lstrip(b"0") or b"0"
    if len(digits) > 10 or int(digits) > MOST_NUMBER:
        raise BadInput
    return int(digits)


def words_of(text):
    return [word for word in re.split(rb"[ \t\r\n]+", text) if word]


def refused(word, number, carried):
    return "%s refused %d%s\n" % (word, number, " at %d" % carried if number == 7 else "")


def lines(scans, settings, law, budget, rates, distortions):
    maker = planner.ByTryingAll if settings ** min(scans, 20) <= MOST_TRIED else planner.ByDynamicProgram
    out = ""
    for word, call in (("ave", AVERAGE), ("minmax", MINMAX)):
        number, values, plan, _ = planner.answer(
            maker, call, scans, settings, law, (budget,), rates, distortions, planner.ones(scans), bytes(scans), bytes(scans * settings)
        )
        if number:
            out += refused(word, number, values[0])
            continue
        if call == AVERAGE:
            out += "ave %d/%d rate %d dist %d peak %d floor %d plan" % tuple(values)
        else:
            out += "minmax %d rate %d dist %d plan" % tuple(values[:3])
        out += "".join(" %d" % setting for setting in plan) + "\n"
    return out


def told(text):
    words = words_of(text)
    if len(words) < 4:
        raise BadInput
    scans, settings, law, budget = [number(word) for word in words[:4]]
    for refusal, outside in ((1, not 1 <= scans <= 1024), (2, not 1 <= settings <= 16), (3, law not in LAWS)):
        if outside:
            return refused("ave", refusal, 0) + refused("minmax", refusal, 0)
    cells = planner.cells(scans, settings)
    if cells > MOST_CELLS:
        return "too large\n"
    numbers = [number(word) for word in words[4:]]
    if len(numbers) != 2 * cells:
        raise BadInput
    return lines(scans, settings, law, budget, numbers[:cells], numbers[cells:])


def written(text):
    """The bytes that bench writes for this text."""
    try:
        return told(text).encode()
    except BadInput:
        return b"bad input\n"


if __name__ == "__main__":
    sys.stdout.buffer.write(written(sys.stdin.buffer.read()))
