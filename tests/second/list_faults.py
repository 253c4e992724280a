"""Imports that a line refuses, and their nearest neighbours that none does: every kind of malformed line, every field out of range, cells
that have two lines, and several of these at once."""

import itertools

from lists import LINE_END, T_LIST
from planner import MOST_CELL

# Two lines of table T, of scan 0 and of scan 1
FIRST, LATER = b"0,,1,4,7", b"1,0,1,3,6"


def with_field(line, k, field):
    fields = line.split(b",")
    return b",".join(fields[:k] + [field] + fields[k + 1 :])


# Lines and their ends


def line_ends(out):
    """A CR or LF by itself, in front of a line end, behind it, alone, at the end of the text; empty lines; other bytes that end a line
    elsewhere."""
    for end in (b"", b"\r\n", b"\n", b"\r", b"\n\r", b"\r\r\n", b"\n\r\n", b"\r\n\n", b"\r\n\r", b"\r\n\r\n", b"\r\n\r\n\r\n", b"\r\n \r\n",
                b"\x0b", b"\x0c", b"\x1a", b"\r\n\x1a", b"\r\n\0", b"\x85", b"\xe2\x80\xa8", b"\\r\\n", b"\\n", b";", b"\r\n#"):
        out.take(2, 2, FIRST + end)
        if end:
            out.take(2, 2, end + FIRST + LINE_END)
            out.take(2, 2, FIRST + end + LATER + LINE_END)
            out.take(2, 2, end)
    # in the middle of a field, and where a field would be
    for piece in (b"\r\n", b"\r", b"\n"):
        for text in (b"0,,1,1%s2,7\r\n", b"0,,1,%s4,7\r\n", b"0,,1,4%s,7\r\n", b"0,%s,1,4,7\r\n", b"0,,1,%s,7\r\n", b"0,,1,4,%s\r\n"):
            out.take(2, 2, text % piece)


def field_counts(out):
    """Every count of fields but five; fields that are empty."""
    fields = [b"0", b"", b"1", b"4", b"7", b"2", b"2", b"2", b"2", b"2"]
    for count in (1, 2, 3, 4, 6, 7, 10):
        out.take(2, 2, b",".join(fields[:count]) + LINE_END)
        out.take(2, 2, T_LIST[:11] + b",".join(fields[:count]))
    for text in (b",", b",,,,", b",0,,1,4,7", b"0,,1,4,7,", b"0,,1,4,7,,", b"0,1,4,7", b"1,0,1,3", b"1,0,1,3,6,", b"0;;1;4;7",
                 b"0\t\t1\t4\t7", b"0,,1,4 7", b"scan,previous,setting,rate,distortion", b'"",,1,4,7'):
        out.take(2, 2, text + LINE_END)
    for k in range(5):
        for empty in (b"", b'""'):
            out.take(2, 2, with_field(LATER, k, empty) + LINE_END)
            out.take(2, 2, with_field(FIRST, k, empty))


# Quotes


def quotes(out):
    """Every field with quotes in every wrong way, and the right one; %s is what the field held."""
    ways = [b'"%s"', b'"%s', b'%s"', b'""%s', b'%s""', b'""%s""', b'"%s""', b'""%s"', b'"%s"%s', b'%s"%s"', b'"%s""%s"', b'"%s" ', b' "%s"',
            b'" %s"', b'"""%s"""', b"'%s'", b'"%s,"', b'",%s"', b'"%s\r\n"', b'"\r\n%s"', b'"%s\n"', b'"%s\r"', b'\\"%s\\"']
    for k in range(5):
        for way in ways:
            held = LATER.split(b",")[k]
            out.take(2, 2, with_field(LATER, k, way.replace(b"%s", held)) + LINE_END)
    for way in ways:
        out.take(2, 2, with_field(FIRST, 1, way.replace(b"%s", b"")) + LINE_END)
    # quotes over several fields and lines, open to the end of the text, and alone
    for text in (b'"0,,1,4,7"', b'0,,"1,4",7', b'0,,1,"4,7"', b'"0,",1,4,7', b'0,",",1,4,7', b'0,,1,4,"7', b'0,,1,4,7"', b'"', b'""', b'"""',
                 b'""""', b'"",""', b'"\r\n"', b'0,,1,4,"7\r\n1,0,1,3,6"', b'0,,1,4,"7\r\n"', b'0,,1,"4\r\n",7', b'"0","","1","4","7"\r\n"',
                 b'0,,1,4,7\r\n""'):
        out.take(2, 2, text + LINE_END)
        out.take(2, 2, T_LIST[:11] + text)


# Bytes


def every_byte(out):
    """Every byte behind a digit."""
    for byte in range(256):
        out.take(1, 1, b"0,,0,1" + bytes([byte]) + b",2\r\n", (1, 1, 1))


def every_edit(out):
    """A byte put in, in place of another, or left out, at each place of a line and its end, with a good line behind."""
    line = LATER + LINE_END
    for at in range(len(line)):
        out.take(2, 2, line[:at] + line[at + 1 :] + FIRST)
        for piece in (b",", b'"', b"\r", b"\n", b" ", b"0", b"2", b"\0", b"-"):
            out.take(2, 2, line[:at] + piece + line[at + 1 :] + FIRST)
            out.take(2, 2, line[:at] + piece + line[at:] + FIRST)


# Numbers


def digits(out):
    """Each field with one to seven digits, with more, with none, and with what is no number here; of more digits also those that a narrow
    product would make small again."""
    for k in range(5):
        for field in (b"1", b"01", b"0000001", b"00000001", b"1000000", b"9999999", b"10000000", b"00000000", b"4294967295", b"4294967296",
                      b"4294967297", b"18446744073709551617", b"1" * 24, b"0" * 24 + b"1", b'"0000001"', b'"00000001"', b"-1", b"+1", b" 1",
                      b"1 ", b"1.0", b"1e0", b"0x1", b"1_0", b"\xd9\xa1", b"\xef\xbc\x91", b"/", b":"):
            out.take(2, 2, with_field(LATER, k, field) + LINE_END)
    # a mark of byte order before the first line, and before the second
    for text in (b"\xef\xbb\xbf0,,1,4,7\r\n", b"0,,1,4,7\r\n\xef\xbb\xbf1,0,1,3,6\r\n", b"\xff\xfe0,,1,4,7\r\n", b"\xef\xbb\xbf"):
        out.take(2, 2, text)


def previous_fields(out):
    """Empty for scan 0 and only there, however the scan is written, also where it is out of range; and that before any range."""
    for scan in (b"0", b"00", b"0000000", b'"0"', b'"0000000"', b"1", b"0000001", b'"1"', b"2", b"9999999", b"00000000"):
        for before in (b"", b'""', b"0", b'"0"', b"1", b"2", b"9999999"):
            out.take(2, 2, scan + b"," + before + b",0,1,1\r\n")
    for text in (b"0,,0,1,1", b"0,0,0,1,1", b"1,,0,1,1", b"1,0,0,1,1", b"0,9,9,1,1", b"9,,9,9999999,1", b"0,,0,1,1048576", b"0,0,0,1,1048576"):
        out.take(1, 1, text + LINE_END)


def ranges(out):
    """All fields at their limits, each one over and far over, for several sizes; two fields over at once."""
    for scans, settings in ((1, 1), (2, 2), (1, 16), (3, 5), (1024, 1), (1024, 16)):
        top = [scans - 1, settings - 1, settings - 1, MOST_CELL, MOST_CELL]
        over = [list(top)] + [top[:k] + [value] + top[k + 1 :] for k in range(5) for value in (top[k] + 1, 9999999)]
        for scan, before, *others in over:
            # at scan 0 there is no previous setting to be out of range
            if scan or before < settings:
                out.take(scans, settings, b"%d,%s,%d,%d,%d\r\n" % (scan, b"%d" % before if scan else b"", *others))
        out.take(scans, settings, b"0,,%d,0,0\r\n" % settings)
        out.take(scans, settings, b"%d,0,%d,0,0\r\n" % (scans, settings))
        out.take(scans, settings, b"%d,%d,0,0,1048576\r\n" % (scans, settings))


def quoted_ranges(out):
    """Each field in quotes, at its limit and one over, beside plain fields, and all in quotes with their zeros; at scan 0 too; and 16 before
    17 before 18 in a quoted line."""
    for scans, settings in ((3, 16), (1024, 1)):
        top = [scans - 1, settings - 1, settings - 1, MOST_CELL, MOST_CELL]
        for k in range(5):
            for value in (top[k], top[k] + 1):
                fields = [b"%d" % number for number in top[:k] + [value] + top[k + 1 :]]
                out.take(scans, settings, with_field(b",".join(fields), k, b'"%d"' % value) + LINE_END)
                out.take(scans, settings, b",".join(b'"%s"' % field.zfill(7) for field in fields))
    for line in (b'0,,"1",4,7', b'0,,"2",4,7', b'0,"",1,"1048575",7', b'0,"",1,"1048576",7', b'"0",,1,4,"1048575"', b'"0",,1,4,"1048576"'):
        out.take(2, 2, line)
    for line in (b'"0","","0","1048575","2"', b'"0","","0","1048576","2"', b'"0","","0","01048576","2"', b'"0","","2","1048576","2'):
        out.take(2, 2, b"0,,0,10,2\r\n" + line + LINE_END)


def twice(out):
    """A second line for a cell: with the same values or others, written otherwise, next to the first or far behind, in the last line; and
    lines that differ in one field alone, which is no second one."""
    for text in (
        b"0,,0,10,2\r\n0,,0,10,2\r\n",
        b"0,,0,10,2\r\n0,,0,11,2\r\n",
        b"0,,0,10,2\r\n0,,0,10,3",
        b"0,,0,10,2\r\n0,,00,10,2\r\n",
        b'0,,0,10,2\r\n"0","","0","10","2"\r\n',
        b"0,,0,10,2\r\n0000000,,0000000,0,0\r\n",
        b"0,,0,0,0\r\n0,,0,0,0\r\n",
        b"1,0,1,3,6\r\n1,0,1,3,6\r\n",
        b"1,0,1,3,6\r\n01,00,01,3,6\r\n",
        b"1,1,1,5,10\r\n1,1,1,5,10",
        b"0,,0,10,2\r\n0,,1,4,7\r\n0,,0,10,2\r\n",
        b"0,,0,10,2\r\n0,,1,4,7\r\n0,,1,4,7\r\n0,,0,10,2\r\n",
        b"0,,0,10,2\r\n0,,0,10,2\r\n0,,0,10,2\r\n",
        b"0,,0,1048575,1048575\r\n0,,0,1048575,1048575\r\n",
        T_LIST + b"0,,0,10,2\r\n",
        T_LIST + b"1,1,1,5,10\r\n",
        T_LIST + T_LIST,
        b"0,,0,1,1\r\n1,0,0,1,1\r\n",
        b"1,0,1,1,1\r\n1,1,0,1,1\r\n",
        b"0,,1,1,1\r\n1,0,1,1,1\r\n1,1,1,1,1\r\n",
    ):
        out.take(2, 2, text)
    out.take(1, 1, b"0,,0,0,0\r\n0,,0,0,0\r\n")
    out.take(3, 1, b"0,,0,0,0\r\n2,0,0,0,0\r\n1,0,0,0,0\r\n2,0,0,0,0")


# Several faults


def in_one_line(out):
    """16 before 17 before 18 in a line: a second line for a cell, with and without a number that is out of range or something malformed."""
    for line in (b"0,,0,1,1", b"0,,0,1048576,1", b"0,,0,1,1048576", b"0,,0,1,x", b"0,,0,1048576,x", b"0,,0,1048576,", b"0,,0,1,1,",
                 b"0,0,0,1,1", b"0,2,0,1,1", b"2,,0,1,1", b"0,,2,1,x", b"2,2,2,1048576,", b"9999999,,9999999,9999999,9999999",
                 b"0,,0,9999999,9999999\n", b'0,,0,"1048576",1"', b"0,,9999999,10000000,1"):
        out.take(2, 2, b"0,,0,10,2\r\n" + line + LINE_END)
        out.take(2, 2, b"0,,0,10,2\r\n" + line)


def in_several_lines(out):
    """The first line with any fault decides, whatever stands behind it."""
    faulty = [b"x", b"0,,2,1,1", b"0,,0,1,1"]
    for pair in itertools.product(faulty, repeat=2):
        out.take(2, 2, LINE_END.join((b"0,,0,10,2",) + pair))
        out.take(2, 2, LINE_END.join((b"0,,0,10,2", pair[0], b"0,,1,4,7", pair[1])) + LINE_END)
    for three in itertools.permutations(faulty):
        out.take(2, 2, LINE_END.join((b"0,,0,10,2", b"1,0,0,8,3") + three) + LINE_END)
    for line in (b"x", b"0,,2,1,1", b"0,,0,1,1", b""):
        out.take(2, 2, T_LIST + line + LINE_END)
        out.take(2, 2, T_LIST + line)


def faults(out):
    line_ends(out)
    field_counts(out)
    quotes(out)
    every_byte(out)
    every_edit(out)
    digits(out)
    previous_fields(out)
    ranges(out)
    quoted_ranges(out)
    twice(out)
    in_one_line(out)
    in_several_lines(out)
