#!/usr/bin/env python3
"""Writes the inputs of the programs recovery_page and page_cases and their expected outputs, which are the model's (page.py).

usage: page_cases.py CRATES    (writes stdin and stdout of CRATES/recovery_page and CRATES/page_cases)
"""
import struct
import sys
import zlib

from page import input_page, recovery_page
from records import byte_string, commit, log, other, own, payload, reference, starts, state, u64
from recovery import MAX
from wal import append

TEXT = 309301  # as long as the program's: the text of 4,095 rows
LENT = [8 * 128] * 4
BAD = (2, bytes(7))
SMALLEST = payload()


class Input:
    """A call of input_page."""

    def __init__(self, name, data, shown=True, room=TEXT):
        self.name, self.data, self.shown, self.room = name, data, shown, room

    def packed(self):
        return packed_case([0, self.shown, self.room] + [0] * 8, self.name, self.data)

    def output(self):
        text = input_page(self.data)
        return shown_case(self, "%d %08x" % (len(text), left_in(self.room, text)), text)


class Call:
    """A call of recovery_page."""

    def __init__(self, name, image, k=10, used=None, size=4, own=0, lent=LENT, shown=True, room=TEXT):
        self.name, self.image, self.k, self.size, self.own, self.lent = name, image, k, size, own, lent
        self.used = len(image) if used is None else used
        self.shown, self.room = shown, room

    def packed(self):
        numbers = [1, self.shown, self.room, self.k, self.used, self.size, self.own] + self.lent
        return packed_case(numbers, self.name, self.image)

    def output(self):
        number, text, tables = recovery_page(self.k, self.image, self.used, self.size, self.own, self.lent)
        register = 0
        for filled, words in zip(tables, self.lent):
            register = zlib.crc32(b"".join(u64(w) for row in filled for w in row).ljust(8 * words, b"\0"), register)
        return shown_case(self, "%d %d %08x %08x" % (number, len(text), left_in(self.room, text), register), text)


def packed_case(numbers, name, data):
    return b"".join(map(u64, numbers)) + byte_string(name.encode()) + byte_string(data)


def left_in(room, text):
    """The checksum of a buffer that was lent full of sevens."""
    return zlib.crc32(text[:room].ljust(room, b"\7"))


def shown_case(case, answer, text):
    """A line feed ends what is shown of a text, which may be cut within a line."""
    line = ("%s: %s\n" % (case.name, answer)).encode()
    return line + text[: case.room] + b"\n" if case.shown else line


# ---- The sample: the log of authority 7 in a committee of 128, in regions of 4,096 bytes


def card(player):
    return payload(b"card player=%d gross=%d" % (player, 68 + player % 30))


def played():
    """Two pages of blocks and cards, in rounds of every number of digits. The own block drops the first four entries."""
    early = [other(a, 0) for a in (0, 12, 127)] + [card(1), card(2), card(3)]
    yield from early
    yield own(starts(12, early)[1][4], 7, 1)
    for i in range(65):
        if i == 20:
            yield state(b"state after twenty blocks")
        if i == 40:
            yield commit([(reference(12, 0), [reference(a, 0) for a in (0, 12, 127)])], b"committed")
        yield other(37 * i % 128, min(2**i, MAX))
        if i % 2 == 1:
            yield card(100 + i)


def sample():
    """A power cut has left the last card torn."""
    return office(log(12, [*played(), card(4)])[:-11], k=12, size=128, own=7)


# ---- Inputs


def header(crc, length, tag=2):
    return struct.pack("<QII", crc, length, tag)


def office(image, k=10, size=4, own=0):
    return bytes([k, size, own]) + image


def waiting(n):
    """A log with n entries pending, each third one a block."""
    return log(10, [other(1 + i // 3 % 3, 1 + i) if i % 3 == 2 else SMALLEST for i in range(n)])


def pages():
    for n in (0, 1, 57, 58, 59, 116, 117):
        yield Input("%d pending" % n, office(waiting(n)))
    entries = [SMALLEST, other(1, 1), SMALLEST]
    at = starts(10, entries)[1]
    for name, next_entry in [("drops the first", at[1]), ("drops the first two", at[1] + 1), ("drops all", MAX)]:
        yield Input("an own block " + name, office(log(10, entries + [own(next_entry, 0, 1)])))
    yield Input("one block twice, and one of the own authority", office(log(10, [other(1, 1), other(1, 1), other(0, 1)])))
    yield Input("a payload with trailing bytes", office(log(10, [(2, u64(0) + b"more")])))
    refs = [reference(a, 1) for a in (1, 2, 3)]
    entries = [other(1, 1), state(b""), other(2, 1), own(0, 0, 1), commit([(refs[0], refs), (refs[1], refs[1:])], b"")]
    yield Input("three counts", office(log(10, [SMALLEST, SMALLEST] + entries)))


def widths():
    """Rounds of 1 to 20 digits, the lowest and the highest of each, and authors of 1 to 3."""
    rounds = [r for d in range(20) for r in (10**d if d else 0, min(10 ** (d + 1) - 1, MAX))]
    authors = [0, 9, 10, 99, 100, 127]
    yield Input("rounds of all widths", office(log(10, [other(5, r) for r in rounds]), size=128))
    yield Input("authors of all widths", office(log(10, [other(a, 1) for a in authors]), size=128, own=64))
    yield Input("the widest row", office(log(10, [other(127, MAX)]), size=128, own=127))


def stops():
    one = log(10, [SMALLEST])
    yield Input("3 bytes, an empty log", office(b""))
    yield Input("a log of zeros", office(bytes(100)))
    yield Input("zeros behind an entry", office(one + bytes(1000)))
    yield Input("a torn header", office(one + b"\1" * 15))
    yield Input("a torn payload", office(log(10, [SMALLEST, other(1, 1)])[:-1]))
    yield Input("an entry alone, torn", office(one[:-1]))
    yield Input("a second region", office(log(6, [SMALLEST, SMALLEST, SMALLEST]), k=6))


def limits():
    yield Input("1, no bytes", b"")
    yield Input("1, one byte", b"\x0a")
    yield Input("1, two bytes", b"\x0a\4")
    full, used = bytearray(65533), 0
    while used + 24 <= len(full):
        used = append(16, full, used, *SMALLEST)[1]
    most = office(bytes(full), k=16)
    yield Input("65,536 bytes, as many rows as fit", most, shown=False)
    yield Input("2, 65,537 bytes", most + b"\0")
    yield Input("2 comes before 1, 65,537 bytes and k = 0", bytes(65537))


def refusals():
    yield Input("1, k = 5", office(b"", k=5))
    yield Input("1, k = 29", office(b"", k=29))
    yield Input("1 comes before 18", office(b"", k=0, size=0))
    yield Input("18, size 0", office(b"", size=0))
    yield Input("18, size 129", office(b"", size=129))
    yield Input("18, own = size", office(b"", own=4))
    yield Input("18 not given, size 1, own 0", office(b"", size=1))
    yield Input("18 comes before 5", office(header(1, 0), size=0))
    one = log(10, [SMALLEST])
    yield Input("5, behind an entry", office(one + header(1, 0)))
    yield Input("6, behind an entry", office(one + header(0, 15)))
    yield Input("7, behind an entry", office(one + header(1, 16)))
    for number, entry in [
        (8, (6, b"")),
        (9, other(1, 1, marker=b"\2")),
        (10, (3, bytes(7))),
        (12, (5, b"")),
        (13, other(4, 1)),
    ]:
        yield Input("%d, behind an entry" % number, office(log(10, [SMALLEST, entry])))
    yield Input("11, behind an entry", office(log(10, [SMALLEST, BAD])))
    yield Input("11 not given, an own block drops it", office(log(10, [BAD, own(MAX, 0, 1)])))
    yield Input("14, own round 3 twice", office(log(10, [own(0, 0, 3), other(0, 3, salt=b"x")])))
    yield Input("11 comes last, 8 in a later entry", office(log(10, [BAD, (6, b"")])))


# ---- Calls with a buffer and tables of every length


def rows(*counts):
    return [8 * n for n in counts]


def three():
    """Three rows in each table."""
    refs = [reference(a, 1) for a in (1, 2, 3)]
    return log(10, [other(a, 1) for a in (1, 2, 3)] + [commit([(refs[0], refs)], b"")])


def tables():
    yield Call("as many rows as are needed", three(), lent=rows(3, 3, 3, 3))
    for i, name in enumerate(("pending", "unprocessed", "committed", "index")):
        lent = rows(3, 3, 3, 3)
        lent[i] -= 8
        yield Call("15, too few %s rows" % name, three(), lent=lent)
    yield Call("15, 23 words are two rows", three(), lent=[23, 24, 24, 24])
    yield Call("words behind the last whole row", three(), lent=[25, 27, 29, 31])
    yield Call("no rows for no entries", b"", lent=rows(0, 0, 0, 0))
    yield Call("one word in each table", b"", lent=[1, 1, 1, 1])
    yield Call("59 pending, as many rows", waiting(59), lent=rows(59, 19, 0, 19))
    yield Call("15, 59 pending, one row less", waiting(59), lent=rows(58, 19, 0, 19))


def arguments():
    one = log(10, [SMALLEST])
    yield Call("1, k = 0", one, k=0)
    yield Call("1, k = 2^64 - 1", one, k=MAX)
    yield Call("2, used past the image", one, used=len(one) + 1)
    yield Call("2, used 2^40 + 1", one, used=2**40 + 1)
    yield Call("2, used 2^64 - 1", one, used=MAX)
    yield Call("18, size 2^64 - 1", one, size=MAX)
    yield Call("18, own = 2^64 - 1", one, own=MAX)
    yield Call("used below the image's length", one + b"\xff" * 50, used=len(one))
    yield Call("used below the image's length, in an entry", one + one, used=len(one) + 20)
    yield Call("used 0", one, used=0)


def buffers():
    """The accepted text has 5 lines of 73 bytes, the refused one 1."""
    for room in (0, 72, 73, 74, 5 * 73 - 1, 5 * 73, 5 * 73 + 1):
        yield Call("a buffer of %d bytes" % room, three(), room=room)
    for room in (0, 72, 73, 74):
        yield Call("1, a buffer of %d bytes" % room, three(), k=5, room=room)
    two_pages = office(waiting(59))
    whole = len(input_page(two_pages))
    for room in (0, 72, 73, 60 * 73 - 1, 60 * 73, 60 * 73 + 1, whole - 1, whole):
        yield Input("two pages, a buffer of %d bytes" % room, two_pages, room=room, shown=room <= 73)
    yield Input("1, no bytes, a buffer of 0 bytes", b"", room=0)
    yield Input("1, no bytes, a buffer of 72 bytes", b"", room=72)


def write(folder, data, text):
    with open(folder + "/stdin", "wb") as f:
        f.write(data)
    with open(folder + "/stdout", "wb") as f:
        f.write(text)


def main():
    crates = sys.argv[1]
    write(crates + "/recovery_page", sample(), input_page(sample()))
    parts = (pages, widths, stops, limits, refusals, tables, arguments, buffers)
    cases = [c for part in parts for c in part()]
    assert len({c.name for c in cases}) == len(cases)
    stdin = u64(len(cases)) + b"".join(c.packed() for c in cases)
    stdout = b"".join(b"%d " % (i + 1) + c.output() for i, c in enumerate(cases))
    write(crates + "/page_cases", stdin, stdout)


main()
