#!/usr/bin/env python3
"""`vectors.py plan` writes what crates/plan_cases reads and what it must write: calls of the four planning functions, with the answers that
planner.py gives. `vectors.py file` does the same for crates/file_cases: calls of the plan-file reader and writer, with the answers that
planfile.py gives. `vectors.py list` is for crates/list_cases: calls of import and export, with the answers that lists.py gives. `vectors.py
best` is for crates/best_cases: calls of the true best, with the answers that planner.py gives. `vectors.py fits` is for crates/fits_cases:
calls of the question whether something fits, with the answers that fits.py gives. `vectors.py room` is for crates/room_cases with room.py,
`vectors.py filing` for crates/filing_cases with planner.py and planfile.py, and `vectors.py bench` for crates/bench and crates/bench_cases
with the texts of texts.py and the lines that bench.py gives. A folder named after that takes the place of crates/. The same bytes come out
at each run.

The form of the input stands in each crate's src/main.rt, that of the output in plan_calls.py, file_calls.py and buffers.py; of lists, of the
true best and of what fits both stand in list_vectors.py, best_vectors.py and fits_vectors.py. Groups of planning calls that say nothing of
weights are told as they were before there were any, and are lent a 1 for each scan (plan_calls.py). The cases stand in the modules plan_*.py,
file_*.py, list_*.py, best_*.py and fits_*.py, which plan_vectors.py, file_vectors.py, list_vectors.py, best_vectors.py and fits_vectors.py
put in their order."""

import os
import sys

# the imports below are to leave no files beside the sources
sys.dont_write_bytecode = True

import bench_vectors
import best_vectors
import file_vectors
import filing_vectors
import fits_vectors
import list_vectors
import plan_vectors
import room_vectors

CRATES = os.path.join(os.path.dirname(os.path.abspath(__file__)), "..", "..", "crates")
VECTORS = {
    "room": room_vectors,
    "plan": plan_vectors,
    "file": file_vectors,
    "list": list_vectors,
    "best": best_vectors,
    "fits": fits_vectors,
    "filing": filing_vectors,
    "bench": bench_vectors,
}

if __name__ == "__main__":
    if len(sys.argv) not in (2, 3) or sys.argv[1] not in VECTORS:
        sys.exit(__doc__)
    VECTORS[sys.argv[1]].make(sys.argv[2] if len(sys.argv) == 3 else CRATES)
