#!/usr/bin/env python3
"""speed/lists.py FILE: the time that Python's csv module takes over a list of 1,024 scans and 16 settings, a row of interest beside those of
speed/lists.c. It walks over the text once and tests less than an import does: the reader parts the fields and takes the quotes off, and int
takes a number. "Into tables" also puts each number into its cell."""

import csv
import io
import statistics
import sys
import time
from array import array

SETTINGS = 16
CELLS = 16 + 1023 * 256
FORBIDDEN = 4294967295
TURNS = 5


def fields(text):
    return sum(len(row) for row in csv.reader(io.StringIO(text, newline=""), strict=True))


def tables(text):
    rates, distortions = array("I", [FORBIDDEN]) * CELLS, array("I", [0]) * CELLS
    for scan, before, setting, rate, distortion in csv.reader(io.StringIO(text, newline=""), strict=True):
        i, q = int(scan), int(setting)
        cell = SETTINGS + (i - 1) * SETTINGS * SETTINGS + int(before) * SETTINGS + q if i else q
        rates[cell] = int(rate)
        distortions[cell] = int(distortion)
    return FORBIDDEN not in rates


def main():
    if len(sys.argv) != 2:
        sys.exit(__doc__)
    with open(sys.argv[1], newline="", encoding="ascii") as file:
        text = file.read()
    for what, read, right in (("fields alone", fields, 5 * CELLS), ("into tables", tables, True)):
        took = []
        for _ in range(TURNS):
            start = time.perf_counter()
            given = read(text)
            took.append(time.perf_counter() - start)
            if given != right:
                sys.exit("csv: the list is not what it should be")
        middle = statistics.median(took)
        print("csv     %-12s %7d bytes  %8.2f ms  %6.1f MB/s" % (what, len(text), middle * 1e3, len(text) / middle / 1e6))


main()
