"""The vectors of plan: all groups of planning calls, in their order, for crates/plan_cases."""

import random
import struct

from crate_files import store
from lines import counted
from plan_calls import PlanCalls
from plan_illegal import illegal_places
from plan_large import large_tables
from plan_laws import laws_apart
from plan_random import small_tables
from plan_refusals import refusals
from plan_weights import unequal_weights
from plan_worked import worked_tables


def make(into):
    out, draw = PlanCalls(), random.Random(1)
    worked_tables(out)
    small_tables(out, draw)
    refusals(out, draw)
    large_tables(out)
    laws_apart(out, draw)
    illegal_places(out)
    unequal_weights(out, draw)
    # the source 0 ends the run
    stdin, stdout = b"".join(out.stdin) + struct.pack("<Q", 0), "".join(out.lines).encode()
    store(into, "plan_cases", stdin, stdout)
    print("groups %d, calls %d, stdin %d bytes, stdout %d bytes" % (out.groups, len(out.lines), len(stdin), len(stdout)))
    print("answers by number: " + counted(out.counts))
