"""Long lists. They are exported from tables that a generator makes, and imported from what was exported, so that none is stored; tables and
texts are shown by their digests, but for the texts of exports that are refused for a cell."""

from list_calls import DIGEST
from plan_cells import illegal_at
from planner import cells

# of each table seed, base, span and forbid: every second cell forbidden; every one open; cells at the top of their range
HALF = (51, 0, 100, 2), (52, 0, 10, 0)
FULL = (53, 0, 1048576, 0), (54, 0, 1048576, 0)
TOP_CELLS = (1, 1048575, 1, 0), (1, 1048575, 1, 0)


def exported(out, scans, settings, tables, text=None):
    """How long the export is."""
    out.give_generated(scans, settings, *tables, text, DIGEST)
    return int(out.lines[-1].split(" ")[1])


def there_and_back(out, scans, settings, tables):
    """An export, its import, and the export of that."""
    length = exported(out, scans, settings, tables)
    out.take_kept(scans, settings, length, show=DIGEST)
    out.give_kept(scans, settings, length, DIGEST)
    return length


def largest(out):
    """The most scans and settings: there and back; with no room for the last byte; with a line more, its cell the last, at line numbers that
    take more than 16 bits; without the last line end; with a faulty byte half way."""
    scans, settings, half = 1024, 16, HALF
    length = there_and_back(out, scans, settings, half)
    exported(out, scans, settings, half, length - 1)
    exported(out, scans, settings, half, length)
    size = cells(scans, settings)
    last = bytes(out.text[:length]).split(b"\r\n")[-2]
    out.take_kept(scans, settings, length + len(last), length, last, (size, size, size), show=DIGEST)
    out.take_kept(scans, settings, length + 1, length, b"x", (size, size, size), show=DIGEST)
    out.take_kept(scans, settings, length - 2, show=DIGEST)
    out.take_kept(scans, settings, length, length // 2, b"\n", (size, size, size), show=DIGEST)


def others(out):
    for scans, settings, tables in ((1024, 1, FULL), (2, 16, FULL), (100, 12, HALF), (40, 16, TOP_CELLS), (1024, 2, TOP_CELLS)):
        there_and_back(out, scans, settings, tables)


def illegal(out):
    """The largest tables, of which a cell behind 4,096 others is illegal, or the last one, or one in each table: no byte of text is written."""
    scans, settings = 1024, 16
    size = cells(scans, settings)
    for rates, distortions in ((FULL[0], illegal_at(4096)), (illegal_at(size - 1), FULL[1]), (illegal_at(4096), illegal_at(4095))):
        out.give_generated(scans, settings, rates, distortions, 40)


def large_lists(out):
    others(out)
    largest(out)
    illegal(out)
