"""The vectors of list: all calls of import and export, in their order, for crates/list_cases.

What list_cases reads and writes. A number is low byte first, of as many bytes as stand in brackets; past the end of the input it is 0.

list_cases keeps two tables of 262,144 cells (rates, distortions), a text of 2,097,152 bytes and scratch of 262,144 bytes, all zero at
first. A call is lent their front parts, as long as it says, and what it leaves is kept for the next one: an import can read what an export
wrote, and an export can take the tables that an import left.

The input is calls. A call is
    which (1)                           1 is an import, 2 an export; any other number ends the run
    show (1)                            0 or 1, see the output
    N (8), Q (8)
    the length of the rates (4), of the distortions (4)
and then, an import,
    the length of scratch (4), where the pattern of scratch starts (1)
    the length of the text (4)
    at (4), count (4), and so many bytes, which take the place of the kept text's bytes from `at` on
or, an export,
    the length of the text (4)
    the source of the cells (1)         1 the tables as they are kept; 2 cells; 3 generators
    from 2: every rate (4), and then every distortion (4), as many as the lengths say
    from 3: seed (8), base (8), span (8), forbid (8) of the rates, and the same of the distortions; the cells are those that
            crates/shown/src/stream.rt draws (x starts at seed modulo 2^31 - 1; for each cell x becomes 48,271 x modulo 2^31 - 1, and
            the cell is 4,294,967,295 where forbid is not 0 and divides x, else base and the rest of x modulo span)

Before an import, after its piece has been put into the text, cell i of the lent rates is 2,000,000,000 + i, cell i of the lent distortions
3,000,000,000 + i (so that no list has such a cell), and the lent scratch has the pattern of crates/shown from its start. Before an export
the tables get their cells, and the lent text has the pattern of crates/shown from 13.

The output is a line for each call. Each number, table and buffer has a space after it.
    an import   the number that comes back (0: no refusal); of a refusal what it carries, on 0 nothing; "r" and the rates; "d" and the
                distortions; "s" and scratch
    an export   the number that comes back; on 0 the length, of a refusal what it carries; "t" and the text
Tables and buffers are shown for their whole lent length; of one that has no length the letter and the space are left. A buffer is shown as
put_buffer of crates/shown does it.
Of a table a run of cells that are as they were filled is "k", how many, and a full stop; a run of 4,294,967,295 is "f", how many, and a
full stop; a run of zeros is "z", how many, and a full stop; any other cell is its decimal digits and a full stop. Where show is 1, each table
of an import and the text of an export is "c", its digest and a full stop instead, and scratch is shown as ever. A digest x starts at 1, and
for each cell or byte y in turn x becomes (48,271 x + y) modulo 4,294,967,311."""

import random

from crate_files import store
from lines import counted
from list_calls import ListCalls
from list_exports import exports
from list_faults import faults
from list_imports import imports
from list_large import large_lists


def make(into):
    out, draw = ListCalls(), random.Random(4)
    imports(out, draw)
    faults(out)
    exports(out, draw)
    large_lists(out)
    # a number that is neither 1 nor 2 ends the run
    stdin, stdout = b"".join(out.stdin) + b"\0", "".join(out.lines).encode()
    store(into, "list_cases", stdin, stdout)
    print("calls %d, stdin %d bytes, stdout %d bytes" % (len(out.lines), len(stdin), len(stdout)))
    for call, counts in out.counts.items():
        print(call + " by number: " + counted(counts))
