"""Files damaged after they were sealed: one byte changed, and two exchanged; of QPL2, and beside them the bridge chip's of QPL1."""

import planfile
from file_changes import mended, sample, with_bytes


def exchanged(file, j, k):
    """The file with two bytes exchanged and the checks as they were."""
    return with_bytes(file, {j: file[k], k: file[j]}, False)


def bridge_chip(out, draw):
    """Neighbouring bytes of block 1 exchanged: as QPL1 the file is read as good with other settings, as QPL2 it is refused. So it is
    elsewhere, where settings 0 end and settings 1 begin."""
    f = dict(zip(planfile.NAMES, [4, 2, 1, 0, 17, 3, 5, 13, 8, 6, 6, 0]))
    for version in (1, 2):
        file = planfile.composed(f, [0, 1, 1, 1], version)
        out.read(file, 4)
        out.read(exchanged(file, 516, 517), 4)
        out.read(mended(exchanged(file, 516, 517)), 4)
    for scans, k in ((18, 2), (18, 8), (1024, 1010)):
        f, settings = dict(f, scans=scans), [0] * k + [1] * (scans - k)
        for version in (1, 2):
            file, at = planfile.composed(f, settings, version), 512 * (k // 1008 + 1) + 4 + k % 1008 // 2
            out.read(exchanged(file, at - 1, at), scans)


def long_plan(draw):
    """A file of three blocks, with entries in every byte of block 1 and few equal neighbours."""
    f, settings = sample(draw, 1024, 16, 0, 0)
    f = dict(f, budget=0x3132333435363738)
    return planfile.composed(f, settings)


def any_bytes(draw):
    """A file of three blocks with the letters QPL2 and right checks, and any bytes elsewhere: also the other letters, which an exchange
    can put in the place of the last one."""
    file = bytearray(draw.randrange(256) for _ in range(1536))
    for block in range(3):
        file[512 * block : 512 * block + 4] = bytes([block, 0, 0, 0])
    file[4:8], file[20:23] = b"QPL2", b"130"
    return mended(file)


def changed(at, byte):
    """One more, one less, the top bit the other way, or all bits. At even places, whose weights are even, the top bit leaves the low byte
    of the check as it was."""
    return ((byte + 1) % 256, (byte - 1) % 256, byte ^ 128, byte ^ 255)[at % 4]


def changed_bytes(out, draw):
    """Each byte of a file changed in turn, those of the checks too."""
    file = long_plan(draw)
    out.read(file, 1024)
    for at in range(len(file)):
        out.read(with_bytes(file, {at: changed(at, file[at])}, False), 0)


def exchanged_neighbours(out, draw):
    """All neighbours of a plan's file that differ, and in a file of any bytes every seventh pair."""
    plan, other = long_plan(draw), any_bytes(draw)
    for file, step in ((plan, 1), (other, 7)):
        for start in range(0, 1536, 512):
            for at in range(start, start + 507, step):
                if file[at] != file[at + 1]:
                    out.read(exchanged(file, at, at + 1), 0)


def exchanged_pairs(out, draw):
    """The last letter with a 1, a 3 and a 0 of its block, with the other letters and with bytes further off; and pairs of any distance. Of
    those 128 or 256 apart the low byte of the check often cannot tell."""
    file = any_bytes(draw)
    for at in (20, 21, 22, 4, 5, 6, 3, 8, 507):
        out.read(exchanged(file, 7, at), 0)
    for start in range(0, 1536, 512):
        for _ in range(80):
            j = draw.randrange(508)
            k = (j + draw.choice([2, 3, 4, 128, 256, 257, draw.randrange(1, 508)])) % 508
            if file[start + j] != file[start + k]:
                out.read(exchanged(file, start + j, start + k), 0)
