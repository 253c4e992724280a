"""The lines of output of plan_cases, file_cases and fits_cases, one for each call, and the text that says how many there are of each kind."""

from buffers import shown


def line(number, values, *lent):
    """The number that comes back (0: no refusal), the values, and for each lent buffer a letter and every byte of it after the call. A
    buffer is given as its letter, its bytes, and where its pattern started."""
    text = "".join("%d " % x for x in [number] + values)
    return text + "".join(letter + shown(content, start) for letter, content, start in lent) + "\n"


def counted(counts):
    return ", ".join("%s: %d" % item for item in sorted(counts.items()))
