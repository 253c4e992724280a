#!/usr/bin/env python3
"""What the room question must answer, written from document 01, "Room" and "Numbers a caller can get back", and sharing nothing with the
library. `vectors.py room` writes the lines that crates/room_cases must write: C, N and Q, the number that comes back (0: no refusal) and the
values."""


def room(channels, scans, settings):
    if not 1 <= channels <= 1048576:
        return [10, 0]
    if not 1 <= scans <= 1024:
        return [1, 0]
    if not 1 <= settings <= 16:
        return [2, 0]
    # the cells of scan 0, then a square for each later scan, counted one by one
    cells = settings
    for _ in range(1, scans):
        cells += settings ** 2
    return [0, cells, 4 * cells * channels, scans * settings]


def room_cases():
    """Both sides of every limit."""
    top, lines = 2 ** 64 - 1, []
    for channels in (0, 1, 4099, 4100, 1048576, 1048577, 2 ** 32, top):
        for scans in (0, 1, 1024, 1025, 2 ** 32, top):
            for settings in (0, 1, 16, 17, 2 ** 32, top):
                told = [channels, scans, settings] + room(channels, scans, settings)
                lines.append("".join("%d " % x for x in told) + "\n")
    return "".join(lines).encode()
