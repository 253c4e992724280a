"""The step laws: which setting may follow which from one scan to the next, from documents 01 and 02. At scan 0 no law is asked."""

LAWS = (0, 1, 2)

# numbers that are no law: the next ones, and those of which fewer bits would be one
NO_LAWS = (3, 4, 2 ** 8, 2 ** 8 + 2, 2 ** 16 + 2, 2 ** 32, 2 ** 32 + 1, 2 ** 32 + 2, 2 ** 63, 2 ** 63 + 1, 2 ** 63 + 2, 2 ** 64 - 1)


def keeps(law, before, setting):
    """Whether the law lets a setting follow the one before; what is no law lets none."""
    if law == 1:
        return abs(before - setting) <= 2
    if law == 2:
        # finer is lower, by any amount; coarser by at most two
        return setting <= before + 2
    return law == 0
