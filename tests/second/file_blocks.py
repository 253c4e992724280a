"""Files of a wrong length, of a length that does not go with N, and with bad blocks: a wrong number, a wrong check, another order."""

from file_changes import four_bytes, mended, qpl1, sample, third_block, with_bytes, with_entry, with_field

# Lengths


def lengths(out, draw):
    """Lengths beside the two that there are, of files that are good as far as they go."""
    for one in ((1008, 4, 0, 0), (1009, 4, 0, 1), (3, 4, 1, 0)):
        f, settings = sample(draw, *one)
        file = bytearray(qpl1(f, settings))
        long = third_block(file) if len(file) == 1024 else file
        for more in (0, 165):
            longer = long + bytes([more]) * 3072
            for length in (0, 1, 511, 512, 513, 1023, 1024, 1025, 1535, 1536, 1537, 2047, 2048, 2049, 2560, 4095, 4096, 4097, 4608):
                for lent in (0, 2000):
                    out.read(longer[:length], lent)


def a_block_more(out, draw):
    """N that goes with two blocks in a file of three, alone and beside other faults."""
    for scans in (1, 2, 1007, 1008):
        f, settings = sample(draw, scans, 4, 0, scans % 2)
        file = third_block(qpl1(f, settings))
        out.read(file, scans)
        out.read(file, 0)
        for changes in ({4: 0}, {10: 0}, {513: 1}, {1025: 1}, {1028: 1}, {1535: 1}):
            out.read(with_bytes(file, changes), scans)
        out.read(with_bytes(file, {1032: 1}, False), scans)
        for other in (1009, 1024, 1025, 0):
            out.read(with_field(file, "scans", other), 1024)


def a_block_less(out, draw):
    """N that goes with three blocks in a file of two, alone and beside other faults."""
    for scans in (1009, 1010, 1023, 1024):
        f, settings = sample(draw, scans, 4, 0, scans % 2)
        file = mended(qpl1(f, settings)[:1024])
        out.read(file, scans)
        out.read(file, 0)
        for changes in ({4: 0}, {10: 0}, {513: 1}, {516: 255}):
            out.read(with_bytes(file, changes), scans)
        for other in (1008, 1007, 1, 1025, 0):
            out.read(with_field(file, "scans", other), 1024)


# Bad blocks


def wrong_numbers(out, file, lent, block):
    """Another block's number, and one in its higher bytes, with the check right and not."""
    for number in (0, 1, 2, 3, 256 + block, 65536 + block, 2 ** 24 + block, 2 ** 32 - 1):
        changes = four_bytes(number, 512 * block)
        out.read(with_bytes(file, changes), lent)
        out.read(with_bytes(file, changes, False), lent)


def wrong_checks(out, file, lent, block):
    """Checks near the right one, counted with its own bytes, and of one byte fewer."""
    start = 512 * block
    check = int.from_bytes(file[start + 508 : start + 512], "little")
    near = [0, check - 1, check + 1, check ^ 256, check ^ 65536, check + 2 ** 24, check + 2 ** 31, check % 256, 2 ** 32 - check]
    counted = [sum(file[start : start + 512]), sum(file[start : start + 507]) + 1, sum(file[start + 4 : start + 508]) + 7]
    for other in near + counted:
        out.read(with_bytes(file, four_bytes(other, start + 508), False), lent)


def several_bad(out, file, lent):
    """Every set of bad blocks: the lowest counts, whether by its number or its check."""
    size = len(file) // 512
    for bad in range(1, 1 << size):
        for kinds in range(1 << size):
            blocks = [block for block in range(size) if bad >> block & 1]
            number = {512 * block + 1: 1 for block in blocks if kinds >> block & 1}
            check = {512 * block + 509: file[512 * block + 509] ^ 3 for block in blocks if not kinds >> block & 1}
            out.read(with_bytes(with_bytes(file, number), check, False), lent)


def other_orders(out, file, lent):
    """Blocks in another order, with their own numbers and with those of their places."""
    blocks = [file[start : start + 512] for start in range(0, len(file), 512)]
    orders = [blocks[::-1], blocks[:1] + blocks[:0:-1]]
    for order in orders:
        out.read(b"".join(order), lent)
    for order in orders:
        out.read(mended(b"".join(bytes([k, 0, 0, 0]) + block[4:] for k, block in enumerate(order))), lent)


def bad_blocks(out, draw):
    """Numbers and checks, of one block and of several."""
    for one in ((70, 6, 0, 0), (1008, 6, 1, 1), (1012, 6, 0, 0), (1024, 6, 1, 1)):
        f, settings = sample(draw, *one)
        file, lent = qpl1(f, settings), f["scans"]
        for block in range(len(file) // 512):
            wrong_numbers(out, file, lent, block)
            wrong_checks(out, file, lent, block)
        # bytes moved within a block keep its check
        out.read(with_bytes(file, {520: file[521], 521: file[520]}, False), lent)
        several_bad(out, file, lent)
        other_orders(out, file, lent)
        # a bad block hides whatever is wrong in the blocks
        out.read(with_bytes(with_bytes(file, {4: 0, 8: 0, 9: 0}), {512: 7}, False), lent)
        out.read(with_bytes(with_entry(file, 3, 9), {508: file[508] ^ 1}, False), 0)
