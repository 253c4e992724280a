"""Lent buffers: what stands in one before a call, and how a line of output shows what stands in it afterwards."""


def pattern(size, start):
    """A buffer before a call: no byte is zero."""
    return bytes((7 * i + start) % 251 + 1 for i in range(size))


def shown(content, start):
    """Every byte of a buffer that was filled with the pattern from `start`: a run of bytes that are as they were as "k", how many, and a
    full stop; a run of zeros as "z", how many, and a full stop; any other byte by its two digits."""
    text, i, before = [], 0, pattern(len(content), start)
    while i < len(content):
        for letter, same in (("k", before), ("z", bytes(len(content)))):
            end = i
            while end < len(content) and content[end] == same[end]:
                end += 1
            if i < end:
                text.append("%s%d." % (letter, end - i))
                i = end
                break
        else:
            text.append("%02x" % content[i])
            i += 1
    return "".join(text) + " "
