"""Every byte of a file changed in turn."""

from file_changes import qpl1, sample, with_bytes

# one of each length and kind: entries to the last, filler from the middle of a byte on, a few entries in block 2, and any setting allowed
SAMPLES = [(1008, 8, 0, 0), (501, 5, 1, 1), (1024, 8, 1, 0), (1011, 16, 0, 1)]


def changed(f, at, byte):
    """What a sweep puts in a byte's place: one more, its top bit the other way, or the bit that is the top of its low half. One more in the
    last letter makes QPL2, and with the checks made right for that a good file."""
    plus, top, middle = (byte + 1) % 256, byte ^ 0x80, byte ^ 0x08
    if at < 48 or at % 512 < 4:
        return [plus, top]
    if at < 512:
        return [plus if at % 3 else top]
    if f["settings"] > 8:
        # whatever stands in an entry is a setting
        return [plus]
    # the one breaks the odd entry and the other the even
    return [top, middle] if at % 9 else [top, middle, plus]


def sweeps(out, draw):
    """The check left as it was, where only the length matters, and made right again."""
    for k, one in enumerate(SAMPLES):
        f, settings = sample(draw, *one)
        file = qpl1(f, settings)
        lent = f["scans"] + 2
        out.read(file, lent)
        for at in range(len(file)):
            if k % 2 == 0:
                out.read(with_bytes(file, {at: file[at] ^ 0x80 if at % 3 else (file[at] + 1) % 256}, False), lent)
            if at % 512 < 508:
                for byte in changed(f, at, file[at]):
                    out.read(with_bytes(file, {at: byte}), lent)
