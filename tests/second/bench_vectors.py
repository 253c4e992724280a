"""The vectors of bench: the texts of texts.py and the lines that bench.py gives for them, for crates/bench_cases, and the first of these
texts alone for crates/bench."""

import struct
from collections import Counter

import bench
import texts
from crate_files import store
from lines import counted


def kind(answer):
    """The first line of an answer, without its own numbers."""
    first = answer.split(b"\n")[0] if b"/" not in answer else b"ave n/d"
    return first.split(b" at ")[0].decode()


def make(into):
    cases = texts.every_text()
    answers = [bench.written(text) for text, _ in cases]
    # a byte that is not 1 ends the run
    stdin = b"".join(b"\1" + struct.pack("<IH", len(text), size) + text for text, size in cases) + b"\0"
    stdout = b"".join(answer + b"-\n" for answer in answers)
    store(into, "bench_cases", stdin, stdout)
    store(into, "bench", cases[0][0], answers[0])
    print("texts %d, stdin %d bytes, stdout %d bytes" % (len(cases), len(stdin), len(stdout)))
    print("first lines: " + counted(Counter(kind(answer) for answer in answers)))
