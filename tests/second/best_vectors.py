"""The vectors of best: all calls of the true best, in their order, for crates/best_cases.

What best_cases reads and writes. A number has eight bytes, low byte first; past the end of the input it is 0.

The input is groups of calls. A group is
    the source of its cells             1 those of the group before; 2 codes; 3 generators; 5, 6 and 7 the same, in a group with weights of
                                        its own; 0 ends the run
    N, Q, law
    the lengths of rates and distortions (cells), of plan and choices (bytes) and of totals (cells) as they are lent
    how many calls it has
    with weights of its own: how many are lent
    from 2 (and 6): a byte for each rate, and then for each distortion; from 3 (and 7): seed, base, span and forbid of the rates, and the same
        of the distortions; all as in plan_cases (plan_cells.py)
    with weights of its own: the weights, a byte each; a group that has none is lent a 1 for each scan, at most 2,048
    the calls: of each its budget B
There is room for tables of 262,144 cells, 2,048 weights, 2,048 bytes of plan, 1,049,600 bytes of choices and 262,400 cells of totals.

Before each call plan has the pattern of crates/shown from 13, choices that from 100, and cell i of totals is 2,000,000,000 + i.

The output is a line for each call: the number that comes back (0: no refusal); on 0 rate, distortion and peak, of a refusal what it carries;
"p" and plan, "s" and choices, "t" and totals, each in its whole lent length. Each number and each buffer has a space after it. Bytes are
shown as put_buffer of crates/shown does it (buffers.py), cells as list_cases shows a table (list_calls.py)."""

import random
import struct

from best_calls import BestCalls
from best_random import random_tables
from best_refusals import refusals
from best_worked import worked_tables
from crate_files import store
from lines import counted

# the program that takes the calls runs in an emulator
MOST_STEPS = 150000000


def all_calls(out):
    draw = random.Random(6)
    worked_tables(out)
    refusals(out, draw)
    random_tables(out, draw)
    assert out.steps < MOST_STEPS


def make(into):
    out = BestCalls()
    all_calls(out)
    # the source 0 ends the run
    stdin, stdout = b"".join(out.stdin) + struct.pack("<Q", 0), "".join(out.lines).encode()
    store(into, "best_cases", stdin, stdout)
    print("groups %d, calls %d, stdin %d bytes, stdout %d bytes" % (out.groups, len(out.lines), len(stdin), len(stdout)))
    print("answers by number: %s; about %d steps" % (counted(out.counts), out.steps))
