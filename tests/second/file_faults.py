"""Several faults at once, in a file and in what the writer gets: the first in the document's order has to come."""

import planfile
from file_changes import BREAKERS, broken, qpl1, with_bytes, with_entry
from laws import LAWS


class Faulty:
    """A plan as its file with the settings buffer lent to the reader, and as the fields and settings for the writer with the file buffer
    lent to it. Each method but the first makes a fault."""

    def __init__(self, draw, f, chosen):
        self.draw, self.scans, self.f, self.given = draw, f["scans"], f, list(chosen)
        self.file, self.lent = bytearray(qpl1(f, chosen)), self.scans + draw.choice([0, 3])
        self.target = planfile.length_for(self.scans) + draw.choice([0, 1])

    def entry(self):
        draw = self.draw
        at, value = draw.randrange(self.scans), draw.choice([15, self.f["settings"] % 16, draw.randrange(16)])
        self.file = with_entry(self.file, at, value)
        self.given[at] = draw.choice([value, 16, 255])

    def last_entry_or_any(self):
        draw, end = self.draw, (len(self.file) - 512) // 512 * 1008
        self.file = with_entry(self.file, draw.choice([self.scans - 1, draw.randrange(end)]), draw.randrange(16))

    def short_buffers(self):
        draw = self.draw
        self.lent = draw.choice([0, self.scans - 1])
        if draw.random() < 0.5:
            self.given = self.given[:-1]
        else:
            self.target = draw.choice([0, 1023, self.target - 2])

    def field(self):
        in_file, in_fields = broken([self.draw.choice(sorted(BREAKERS))])
        self.file = with_bytes(self.file, in_file)
        self.f = dict(self.f, **in_fields)

    def bit(self):
        """A bit of the file, its check as it was."""
        at = self.draw.randrange(len(self.file))
        self.file[at] ^= 1 << self.draw.randrange(8)

    def length(self):
        """Not often, since nothing else counts then."""
        if self.draw.random() < 0.3:
            self.file = self.file[: self.draw.choice([len(self.file) - 1, 512, 1024])]


FAULTS = [Faulty.entry, Faulty.last_entry_or_any, Faulty.short_buffers, Faulty.field, Faulty.bit, Faulty.length]


def several_faults(out, draw):
    for k in range(1500):
        # a plan serves ten times: what the input has to tell is then mostly the faults
        if k % 10 == 0:
            scans = draw.choice([1, 2, 9, 40]) if k % 50 else draw.choice([70, 1000, 1007, 1008, 1009, 1010, 1024])
            f = planfile.random_fields(draw, scans, draw.randint(1, 16), draw.choice(LAWS), draw.randrange(2))
            chosen = planfile.random_settings(draw, f)
        made = [fault for fault in FAULTS if draw.random() < 0.3]
        faulty = Faulty(draw, f, chosen)
        for fault in made:
            fault(faulty)
        out.read(faulty.file, faulty.lent)
        out.write(faulty.f, faulty.given, faulty.target)
