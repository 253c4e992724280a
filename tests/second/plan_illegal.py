"""Illegal cells wherever a walk over both tables could lose one: the last cell of tables of every small length, two cells not far from each
other, one in either table, and cells far into large tables, beside the ends of scans and of stretches of 1,024 cells, 2,048 and so on."""

import planner
from plan_cells import PRIME, coded, generated, illegal_at, legal_at, seed_of
from plan_limits import one_of_each
from plan_refusals import one_call
from plan_worked import T
from planner import FORBIDDEN, MOST_CELL

OVER = MOST_CELL + 1


def worked(out):
    """Table T, of which a rate and a distortion are illegal in turn; a distortion beside a forbidden rate never is."""
    for rates, distortions in (
        ({3: OVER}, {2: OVER}),
        ({2: FORBIDDEN, 5: FORBIDDEN - 1}, {2: FORBIDDEN}),
        ({4: OVER}, {4: OVER}),
        ({}, {5: OVER}),
        ({0: OVER}, {0: OVER}),
        ({0: FORBIDDEN}, {0: OVER}),
    ):
        tables = [[changes.get(k, cell) for k, cell in enumerate(table)] for changes, table in ((rates, T[3]), (distortions, T[4]))]
        out.group(*T[:3], coded(*tables), one_of_each())


def last_cells(out):
    """Of N scans and one setting a table has N cells."""
    for size in range(1, 41):
        tables = [1] * size, [2] * size
        tables[size % 2][-1] = OVER
        out.group(size, 1, 0, coded(*tables), one_call(size % 4))


def two_cells(out):
    """A rate and a distortion of 64 cells, either one the lower, next to each other and up to 16 cells apart."""
    for first in (0, 3, 7, 14, 29, 47):
        for apart in (1, 2, 4, 9, 16):
            tables = [1] * 64, [2] * 64
            tables[first % 2][first] = tables[1 - first % 2][first + apart] = OVER
            out.group(64, 1, 1, coded(*tables), one_call((first + apart) % 4))


# the most scans and settings, and the cells before which a scan or a stretch ends
LARGEST = 1024, 16
ENDS = (16, 272, 528, 1024, 2048, 4096, 8192, 16384, 32768, 65536, 131072)
# every fifth rate or so is forbidden
SOME = 5


def far_tables(end, size):
    """One illegal cell beside the end, in one table and then the other; then one in each, the lower in one table and then the other. A cell
    whose distortion is to be illegal is open. Of the distortions none is forbidden."""
    before, behind = end - 1, end
    yield legal_at(before, SOME), illegal_at(before)
    if end == size:
        yield illegal_at(before, SOME), legal_at(before, 0)
        return
    yield illegal_at(behind, SOME), legal_at(behind, 0)
    yield illegal_at(before, SOME, (behind,)), illegal_at(behind)
    yield illegal_at(behind, SOME, (before,)), illegal_at(before)


def far_cells(out):
    size = planner.cells(*LARGEST)
    for turn, end in enumerate(ENDS + (size,)):
        for rates, distortions in far_tables(end, size):
            out.group(*LARGEST, turn % 3, generated((size, size), rates, distortions), one_call(turn % 4))


def hidden_cells(out):
    """A distortion over the range beside a forbidden rate, which no other rate is: planning goes on. The number that the rate is drawn from
    is over half of all, so that it divides no other."""
    scans, settings = 20, 16
    size = planner.cells(scans, settings)
    for k in (4095, 4096, size - 1):
        x = PRIME - 1 - k
        made = generated((size, size), (seed_of(k, x), 0, 1000, x), illegal_at(k))
        assert [j for j in range(size) if made.rates[j] == FORBIDDEN or made.distortions[j] > MOST_CELL] == [k]
        assert made.rates[k] == FORBIDDEN and made.distortions[k] == OVER
        out.group(scans, settings, 2, made, one_of_each(1, 2, 300 * scans, 900000))


def illegal_places(out):
    worked(out)
    last_cells(out)
    two_cells(out)
    far_cells(out)
    hidden_cells(out)
