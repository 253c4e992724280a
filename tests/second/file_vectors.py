"""The vectors of file: all calls of the plan-file reader and writer, in their order, for crates/file_cases."""

import random

from crate_files import store
from file_blocks import a_block_less, a_block_more, bad_blocks, lengths
from file_calls import FileCalls
from file_damage import bridge_chip, changed_bytes, exchanged_neighbours, exchanged_pairs
from file_entries import entries, filler, high_halves, steps
from file_faults import several_faults
from file_fields import compared, each_field, several_fields, terms
from file_good import all_ends, every_size
from file_laws import laws_and_kinds, steps_at, steps_between
from file_lengths import buffer_lengths
from file_sweeps import sweeps
from file_versions import (
    bad_blocks_of_qpl2, every_bit_of_checks, good_files, header_of_qpl2, large_and_small_checks, laws_of_qpl2, lengths_of_qpl2, letters,
    letters_in_data, nearly_right_checks, nearly_the_same, orders_of_refusals,
)
from file_weights import beside_others, damaged, mark_bytes, other_refusals, peaks, weighted_plans, worked, written_marks
from lines import counted

PARTS = [
    every_size, all_ends,
    each_field, terms, compared,
    lengths, a_block_more, a_block_less, bad_blocks,
    several_fields,
    entries, high_halves, steps, filler,
    buffer_lengths, several_faults, sweeps,
    laws_and_kinds, steps_between, steps_at,
    good_files, large_and_small_checks,
    letters, letters_in_data, nearly_the_same,
    nearly_right_checks, every_bit_of_checks, bad_blocks_of_qpl2,
    header_of_qpl2, laws_of_qpl2, orders_of_refusals, lengths_of_qpl2,
    bridge_chip, changed_bytes, exchanged_neighbours, exchanged_pairs,
    worked, mark_bytes, beside_others, other_refusals, damaged, peaks, written_marks, weighted_plans,
]


def make(into):
    out, draw = FileCalls(), random.Random(2)
    for part in PARTS:
        part(out, draw)
    # a byte that is neither 1 nor 2 ends the run
    stdin, stdout = b"".join(out.stdin) + b"\0", "".join(out.lines).encode()
    store(into, "file_cases", stdin, stdout)
    print("calls %d, stdin %d bytes, stdout %d bytes" % (len(out.lines), len(stdin), len(stdout)))
    for call, counts in out.counts.items():
        print(call + " by number: " + counted(counts))
    print("good reads by version and mark: " + counted(out.good))
