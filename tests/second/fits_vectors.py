"""The vectors of fits: all calls of the question whether something fits, in their order, for crates/fits_cases.

What fits_cases reads and writes. A number has eight bytes, low byte first; past the end of the input it is 0.

The input is groups of calls. A group is
    the source of its cells             1 those of the group before; 2 codes; 3 generators; 0 ends the run
    N, Q, law
    the lengths of rates and distortions (cells) as they are lent
    how many calls it has
    from 2: a byte for each rate, and then for each distortion; from 3: seed, base, span and forbid of the rates, and the same of the
        distortions; all as in plan_cases (plan_cells.py)
    the calls: of each its budget B
There is room for tables of 262,144 cells.

The output is a line for each call: the number that comes back (0: no refusal); on 0 the answer, 1 for yes or 0 for no, of a refusal what it
carries. Each number has a space after it."""

import random
import struct

from crate_files import store
from fits_calls import FitsCalls
from fits_random import random_tables
from fits_reading import what_is_read
from fits_refusals import refusals
from fits_worked import worked_tables
from lines import counted


def all_calls(out):
    draw = random.Random(7)
    worked_tables(out)
    what_is_read(out)
    refusals(out, draw)
    random_tables(out, draw)


def make(into):
    out = FitsCalls()
    all_calls(out)
    # the source 0 ends the run
    stdin, stdout = b"".join(out.stdin) + struct.pack("<Q", 0), "".join(out.lines).encode()
    store(into, "fits_cases", stdin, stdout)
    print("groups %d, calls %d, stdin %d bytes, stdout %d bytes" % (out.groups, len(out.lines), len(stdin), len(stdout)))
    print("answers: %s" % counted(out.counts))
