"""Numbers at the edge of a range, for the vectors of plan and of file."""

# the largest number that a call takes
TOP = 2 ** 64 - 1


def around(values, top):
    """Each value, one less and one more, where there is such a number."""
    return sorted({v + k for v in values for k in (-1, 0, 1) if 0 <= v + k <= top})
