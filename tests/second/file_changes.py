"""A sample plan, and changes to a plan's file: bytes, fields, entries and blocks, with the checks of the blocks made right again: right by
the letters that the file has after the change."""

import planfile

# a way to break each header field alone, whatever the kind: by the first byte of the field, the bytes of a file, and the writer's fields
BREAKERS = {
    # QPL3
    4: ({7: 51}, {}),
    8: ({8: 0, 9: 0}, {"scans": 0}),
    10: ({10: 17}, {"settings": 17}),
    11: ({11: 3}, {"law": 3}),
    12: ({12: 2}, {"kind": 2}),
    # the zeros behind the kind: of QPL1 the field is 13 to 15, of QPL2 it is 14 to 15. What breaks byte 13 itself stands in file_weights.py
    13: ({14: 1}, {}),
    24: ({27: 64}, {"n": 2 ** 30 + 355}),
    28: ({31: 64}, {"d": 2 ** 30 + 113}),
    32: ({35: 255}, {"rate": 2 ** 32 - 1}),
    36: ({39: 255}, {"distortion": 2 ** 32 - 1}),
    40: ({43: 255}, {"peak": 2 ** 32 - 1}),
    44: ({47: 255}, {"floor": 2 ** 32 - 1}),
    48: ({300: 9}, {}),
}


def broken(fields):
    """The changes that break all of these fields: of a file's bytes, and of what the writer gets."""
    in_file = {at: byte for field in fields for at, byte in BREAKERS[field][0].items()}
    in_fields = {name: value for field in fields for name, value in BREAKERS[field][1].items()}
    return in_file, in_fields


def sample(draw, scans, settings, law, kind):
    """A plan in the middle of every range, with all weights 1."""
    f = dict(zip(planfile.NAMES, [scans, settings, law, kind, 5000000000, 0, 0, 70000000, 300000000, 600000, 0, 0]))
    if kind == 0:
        f.update(n=355, d=113, floor=250000000)
    return f, planfile.random_settings(draw, f)


def qpl1(f, settings):
    """The plan's file as it was written before there was QPL2. Such files are still read, and all parts of the vectors but those of
    file_versions.py, file_damage.py and file_weights.py are about them."""
    return planfile.composed(f, settings, 1)


def sealed_by(file, checks):
    """The file with the check of each whole block made what the next of `checks` says of the bytes before it."""
    out = bytearray(file)
    for start, check in zip(range(0, len(out) - 511, 512), checks):
        out[start + 508 : start + 512] = check(out[start : start + 508]).to_bytes(4, "little")
    return out


def mended(file):
    """The file with the check of each whole block made right: that which its own letters choose."""
    return sealed_by(file, [planfile.check_for(file[4:8])] * (len(file) // 512))


def with_bytes(file, changes, mend=True):
    """The file with each byte of `changes` put in its place."""
    out = bytearray(file)
    for at, byte in changes.items():
        out[at] = byte
    return mended(out) if mend else out


def four_bytes(value, at):
    """The changes that put a number of four bytes in its place."""
    return dict(enumerate(value.to_bytes(4, "little"), at))


def with_field(file, name, value):
    """The file with one field changed, where the value fits it."""
    at, width = next((at, width) for n, at, width in planfile.FIELDS if n == name)
    return with_bytes(file, dict(enumerate(value.to_bytes(width, "little"), at)))


def with_entry(file, k, value):
    """The file with one entry changed."""
    block, rest = divmod(k, 1008)
    at = 512 * (block + 1) + 4 + rest // 2
    kept = file[at] & (0x0F if rest % 2 else 0xF0)
    return with_bytes(file, {at: kept | value << 4 * (rest % 2)})


def third_block(file):
    """A file of two blocks with an empty third one, its number and check right."""
    return mended(file + bytes([2]) + bytes(511))
