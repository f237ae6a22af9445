#!/usr/bin/env python3
"""Writes the input of the program recovery_cases and its expected output.

Refusals, stop words, E and unread counts are the model's (recovery.py): the Rust has none. What is recovered is the Rust's:
tools/oracle writes logs of its own and says what BlockStore::open recovers from each, and it answers those cases of this file
that lie in its domain (k = 16, no refusal, END). Where there is no answer of the Rust's, the model's stands: k = 6 and 8, and
torn ends. The model recovers every case, and must agree with the Rust.

In tools/oracle, once build.sh has run:

    python3 ../model/recovery_cases.py ask ASKED
    target/release/recovery REGIONS28
    cargo test --offline --release --test regions16 -- REGIONS16 ASKED
    python3 ../model/recovery_cases.py write ../../crates/recovery_cases REGIONS28 REGIONS16
"""
import struct
import sys
import zlib

from records import block, byte_string, commit, listed, log, other, own, payload, reference, starts, state, u32, u64
from recovery import MAX, recover
from wal import Refused

FULL, CUTS, LINE = 0, 1, 2
ROOM = [8 * 16, 8 * 16, 8 * 16, 8 * 16]
BAD = (2, bytes(7))


class Case:
    def __init__(self, name, image, k=16, used=None, size=4, own=0, lent=ROOM, form=FULL):
        self.name, self.image, self.k, self.size, self.own, self.lent, self.form = name, image, k, size, own, lent, form
        self.used = len(image) if used is None else used

    def packed(self):
        numbers = [self.form, self.k, self.used, self.size, self.own] + self.lent
        return b"".join(map(u64, numbers)) + byte_string(self.name.encode()) + byte_string(self.image)


# ---- What the program writes


def crc_of(words, register=0):
    return zlib.crc32(struct.pack("<%dQ" % len(words), *words), register)


def table_words(rows, words):
    filled = [w for row in rows for w in row]
    return filled + [0] * (words - len(filled))


def reference_words(r):
    """Whether it is there, round, authority and digest."""
    return (0, 0, 0, bytes(32)) if r is None else (1,) + r


def shown_reference(name, r):
    there, round_, authority, digest = reference_words(r)
    return "%s %d %d %d %s" % (name, there, round_, authority, digest[:8].hex())


def state_lines(r, case):
    lines = []
    for name, rows, words in zip(("pending", "unprocessed", "committed", "index"), r.tables, case.lent):
        lines.append("%s %d %08x" % (name, len(rows), crc_of(table_words(rows, words))))
        for row in rows:
            if name == "pending":
                lines.append("%d %d %d %d %016x" % tuple(row[:5]))
            else:
                lines.append("%d %d %016x %d" % (row[0], row[1], row[2], row[6]))
    for name, (there, at, n) in zip(("own block", "state", "committed state"), r.places):
        lines.append("%s %d %d %d %08x" % (name, there, at, n, zlib.crc32(case.image[at : at + n])))
    lines.append(shown_reference("leader", r.leader))
    lines.append("highest %d seen %d %d %d %d %08x" % (r.highest, *r.seen[:4], crc_of(r.seen)))
    lines.append(shown_reference("own reference", r.own))
    return lines


def state_sum(r, case):
    register = 0
    for rows, words in zip(r.tables, case.lent):
        register = crc_of(table_words(rows, words), register)
    register = crc_of([len(rows) for rows in r.tables] + [n for place in r.places for n in place], register)

    def fed(found, register):
        there, round_, authority, digest = reference_words(found)
        return zlib.crc32(digest, crc_of([there, authority, round_], register))

    register = fed(r.leader, register)
    return "%08x" % fed(r.own, crc_of([r.highest] + r.seen, register))


def answer(case, used):
    """The refusal's line, or the stop and what the form shows of the state."""
    try:
        r = recover(case.k, case.image, used, case.size, case.own, case.lent)
    except Refused as x:
        return "REFUSED %d %d 0" % (x.number, x.start), None
    return r.stop, state_lines(r, case) if case.form == FULL else [state_sum(r, case)]


def output(case, rust=None):
    """The lines of a case; the state is the Rust's where it is given."""
    cuts = range(case.used + 1) if case.form == CUTS else [case.used]
    for i, c in enumerate(cuts):
        stop, lines = answer(case, c)
        if rust is not None:
            expected = rust if case.form != CUTS else rust[i : i + 1]
            if lines != expected:
                sys.exit("%s, used %d: the model and the Rust differ\n%s\n%s" % (case.name, c, lines, expected))
            lines = expected
        begun = "%d " % c if case.form == CUTS else ""
        if lines is None:
            yield begun + stop
        elif case.form == FULL:
            yield stop
            yield from lines
        else:
            yield begun + stop + " " + lines[0]


# ---- The refusal table


def header(crc, length, tag=2):
    return struct.pack("<QII", crc, length, tag)


def refusals():
    empty = bytes(64)
    yield Case("1: k = 5", empty, k=5, used=0)
    yield Case("1: k = 29", empty, k=29, used=0)
    yield Case("1 comes before 2 and 18", empty, k=5, used=65, size=0)
    yield Case("2: used 65, image 64", empty, k=6, used=65)
    yield Case("2: used 2^40 + 1", empty, k=6, used=(1 << 40) + 1)
    yield Case("2 comes before 18", empty, k=6, used=65, size=0)
    yield Case("18: size 0", empty, k=6, size=0)
    yield Case("18: size 129", empty, k=6, size=129)
    yield Case("18: own = size", empty, k=6, own=4)
    yield Case("18 comes before 5", b"\1" + bytes(15), k=6, size=0)
    yield Case("18 not given: size 128, own 127", empty, k=6, size=128, own=127)
    yield Case("18 not given: size 1, own 0", empty, k=6, size=1, own=0)

    yield Case("5: byte 01, then fifteen 00", b"\1" + bytes(15), k=6)
    yield Case("6: length 15", header(0, 15), k=6)
    yield Case("6: length 1", header(0, 1), k=6)
    yield Case("6: past its region's end", header(0, 65) + bytes(64), k=6)
    first = log(6, [payload()])
    yield Case("6: the second entry, past its region's end", first + header(0, 41) + bytes(40), k=6)
    yield Case("7: empty payload, checksum 1", header(1, 16), k=6)
    yield Case("7: the checksum's upper half", header(1 << 32, 16), k=6)
    yield Case("7: a changed byte", first[:20] + b"\1" + first[21:], k=6)
    second = log(6, [(4, bytes(34)), (4, b"state")])
    yield Case("7: in the second region", second[:-1] + b"E", k=6)
    for tag in (6, 0, 2**32 - 1):
        yield Case("8: tag %d" % tag, log(6, [payload(), (tag, b"")]), k=6)
    yield Case("8: in the second region", log(6, [(4, bytes(34)), (6, b"")]), k=6)

    yield Case("9: epoch marker byte 2", log(16, [other(1, 1, marker=b"\2")]))
    yield Case("9: epoch marker byte 2, of the second block", log(16, [other(1, 1), other(2, 1, marker=b"\2")]))
    yield Case("9: no bytes", log(6, [payload(), (1, b"")]), k=6)
    whole = block(1, 1)
    yield Case("9: one byte short", log(16, [(1, whole[:-1])]))
    yield Case("9 not given: trailing bytes", log(16, [(1, whole + b"more")]))
    yield Case("9: a digest of 31 bytes", log(16, [(1, whole[:16] + b"\x1f" + whole[17:])]))
    yield Case("10: 7 bytes", log(6, [payload(), (3, bytes(7))]), k=6)
    yield Case("10: 8 bytes", log(6, [(3, bytes(8))]), k=6)
    yield Case("10: its block's epoch marker byte 2", log(16, [own(0, 0, 1, marker=b"\2")]))
    yield Case("12: empty payload", log(6, [payload(), (5, b"")]), k=6)
    yield Case("12: no state", log(6, [(5, u64(0))]), k=6)
    yield Case("12: 2^64 - 1 commits", log(6, [(5, u64(MAX))]), k=6)
    yield Case("12 not given: trailing bytes", log(6, [(5, u64(0) + byte_string(b"state") + b"more")]), k=6)

    yield Case("13: authority 4 of 4", log(16, [other(3, 1), other(4, 1)]))
    yield Case("13: authority 4 of 4, own block", log(16, [own(0, 4, 1)]))
    yield Case("13: authority 2^64 - 1", log(16, [other(MAX, 1)]))
    stranger = reference(9, 1)
    entries = [other(1, 2, [stranger], [u32(1) + stranger + u64(0) + u32(0)]), commit([(stranger, [stranger])], b"")]
    yield Case("13 not given: in includes, statements and commits", log(16, entries))
    yield Case("14: own round 3 twice", log(16, [own(0, 0, 3), own(0, 0, 3, salt=b"x")]))
    yield Case("14: own round 3 twice, tag 1 and 3", log(16, [other(0, 3), own(0, 0, 3, salt=b"x")]))
    yield Case("14: own round 3 twice, tag 3 and 1", log(16, [own(0, 0, 3), other(0, 3, salt=b"x")]))
    yield Case("14: the same own block twice", log(16, [other(0, 3), other(0, 3)]))
    yield Case("14: own round 0 twice", log(16, [other(0, 0), other(0, 0, salt=b"x")]))
    entries = [own(0, 0, 3), other(1, 4), other(2, 3), own(0, 0, 5), other(0, 4), own(0, 0, 3, salt=b"x")]
    yield Case("14: own round 3 twice, blocks between", log(16, entries))
    yield Case("14 not given: another's round 3 twice", log(16, [other(1, 3), other(1, 3, salt=b"x"), own(0, 1, 3, salt=b"y")]))


def rows(*counts):
    return [8 * n for n in counts]


def full_tables():
    three = [other(a, 1) for a in (1, 2, 3)]
    refs = [reference(a, 1) for a in (1, 2, 3)]
    commits = [commit([(refs[0], [r])], b"") for r in refs]
    yield Case("15: 3 unprocessed, 2 rows", log(16, three), lent=rows(3, 2, 3, 3))
    yield Case("15: 3 pending, 2 rows", log(16, three), lent=rows(2, 3, 3, 3))
    yield Case("15: 3 index rows, 2 lent", log(16, three), lent=rows(3, 3, 3, 2))
    yield Case("15: 3 pending payloads, 2 rows", log(16, [payload()] * 3), lent=rows(2, 0, 0, 0))
    yield Case("15: 3 committed, 2 rows", log(16, commits), lent=rows(0, 0, 2, 0))
    yield Case("15: 3 committed in one entry, 2 rows", log(16, [payload(), commit([(refs[0], refs)], b"")]), lent=rows(1, 0, 2, 0))
    yield Case("15: an own block, no unprocessed row", log(16, [own(0, 0, 1)]), lent=rows(0, 0, 0, 1))
    yield Case("15: an own block, no index row", log(16, [own(0, 0, 1)]), lent=rows(0, 1, 0, 0))
    yield Case("15: 23 words are 2 rows", log(16, three), lent=[23, 24, 24, 24])
    yield Case("15 not given: as many rows as are needed", log(16, three + commits), lent=rows(3, 3, 3, 3))
    yield Case("15 not given: 7 words more, which end zero", log(16, three + commits), lent=[31, 31, 31, 31])
    yield Case("15 not given: no rows for no entries", b"", lent=rows(0, 0, 0, 0))
    yield Case("15 not given: no pending row for own blocks", log(16, [own(0, 0, 1)]), lent=rows(0, 1, 0, 1))

    entries = [payload(), payload(), own(MAX, 0, 1), payload(), payload()]
    yield Case("15 not given: an own block freed pending rows", log(16, entries), lent=rows(2, 1, 0, 1))
    yield Case("15: an own block freed pending rows, but too few", log(16, entries + [payload()]), lent=rows(2, 1, 0, 1))
    image, at = starts(16, [payload(), payload(), payload()])
    entries = [payload()] * 3 + [own(at[1], 0, 1), payload()]
    yield Case("15 not given: an own block freed one pending row", log(16, entries), lent=rows(3, 1, 0, 1))
    yield Case("15: an own block freed one pending row, two wanted", log(16, entries + [payload()]), lent=rows(3, 1, 0, 1))
    entries = [other(1, 1), other(2, 1), state(b"s"), other(1, 2), other(2, 2)]
    yield Case("15 not given: a state freed unprocessed rows", log(16, entries), lent=rows(4, 2, 0, 4))
    yield Case("15: a state freed unprocessed rows, but too few", log(16, entries + [other(3, 2)]), lent=rows(5, 2, 0, 5))
    again = [other(1, 1), other(1, 1), other(2, 1)]
    yield Case("15 not given: a reference twice in the index", log(16, again), lent=rows(3, 3, 0, 2))
    yield Case("15 not given: a reference twice in commits", log(16, commits[:2] + commits[:2]), lent=rows(0, 0, 2, 0))

    yield Case("9 comes before 15", log(16, [(1, b"")]), lent=rows(0, 0, 0, 0))
    yield Case("10 comes before 15", log(16, [(3, b"")]), lent=rows(0, 0, 0, 0))
    yield Case("12 comes before 15", log(16, [(5, listed([refs[0] + listed(refs)]))]), lent=rows(0, 0, 0, 0))
    yield Case("13 comes before 15", log(16, [other(4, 1)]), lent=rows(0, 0, 0, 0))
    yield Case("14 comes before 15", log(16, [other(0, 1), other(0, 1)]), lent=rows(1, 1, 0, 1))


def pending():
    yield Case("11: 7 bytes, no own block after", log(6, [BAD]), k=6)
    yield Case("11: a statement of variant 3", log(6, [(2, u64(1) + u32(3) + bytes(20))]), k=6)
    yield Case("11: 2^64 - 1 statements", log(6, [(2, u64(MAX))]), k=6)
    yield Case("11 not given: trailing bytes", log(6, [(2, u64(0) + b"more")]), k=6)
    yield Case("11: two bad payloads, the lowest position", log(6, [payload(), BAD, state(b""), BAD]), k=6)
    yield Case("11: in the second region", log(6, [(4, bytes(34)), BAD]), k=6)
    yield Case("11 comes last: 8 in a later entry", log(6, [BAD, (6, b"")]), k=6)
    yield Case("11 comes last: 7 in a later entry", log(6, [BAD]) + header(1, 16), k=6)
    yield Case("11 comes last: 15 in a later entry", log(6, [BAD, payload()]), k=6, lent=rows(1, 0, 0, 0))
    yield Case("11 at a torn end", log(6, [BAD]) + header(1, 16)[:9], k=6)
    yield Case("11 not given: an own block drops it later", log(16, [BAD, own(MAX, 0, 1)]))
    yield Case("11: a bad payload behind the own block", log(16, [own(MAX, 0, 1), BAD]))

    three = [payload(b"a"), BAD, payload(b"bc")]
    image, at = starts(16, three)
    yield Case("next entry behind the bad payload drops it", log(16, three + [own(at[2], 0, 1)]))
    yield Case("11: next entry at the bad payload keeps it", log(16, three + [own(at[1], 0, 1)]))
    three = [payload(b"a"), other(1, 1), payload(b"bc")]
    image, at = starts(16, three)
    for name, next_entry in [
        ("0 keeps all", 0),
        ("MAX keeps none", MAX),
        ("equal to a block's position keeps it", at[1]),
        ("one more drops it", at[1] + 1),
        ("equal to the last position keeps it", at[2]),
        ("past the log", at[2] + 10_000),
    ]:
        yield Case("next entry " + name, log(16, three + [own(next_entry, 0, 1)]))
    entries = three + [own(at[2], 0, 1), payload(b"d"), own(0, 0, 2)]
    yield Case("a later next entry of 0 brings nothing back", log(16, entries))
    entries = three + [own(0, 0, 2), payload(b"d"), own(at[1], 0, 1), payload(b"e")]
    yield Case("two own blocks, rounds descending", log(16, entries))
    yield Case("MAX, and entries behind it", log(16, three + [own(MAX, 0, 1), other(2, 1), payload(b"d")]))


def mixed():
    """Regions of 256 bytes: 10 bytes are left over in the first, where no entry can start, and 31 in the second."""
    entries = [payload(b"cards"), other(1, 1), state(b"first state.")]
    image, at = starts(8, entries)
    return log(8, entries + [own(at[1], 0, 1), payload(b"more"), commit([], b"committed")])


def walks():
    yield Case("no log", b"", k=6)
    yield Case("zeros", bytes(64), k=6)
    one = log(6, [payload()])
    yield Case("used before the image's end", one + b"\1" * 40, k=6, used=len(one))
    yield Case("a torn header", one + b"\1" * 15, k=6)
    yield Case("a torn payload", log(16, [other(1, 1), other(2, 1)])[:-1])
    yield Case("a mixed log, regions of 256 bytes, cut at every byte", mixed(), k=8, form=CUTS)


def parsed(data):
    """The cases of a file."""
    at = 8
    for _ in range(struct.unpack_from("<Q", data)[0]):
        form, k, used, size, own_authority, *lent = struct.unpack_from("<9Q", data, at)
        at += 72
        parts = []
        for _ in range(2):
            n = struct.unpack_from("<Q", data, at)[0]
            parts.append(data[at + 8 : at + 8 + n])
            at += 8 + n
        yield Case(parts[0].decode(), parts[1], k, used, size, own_authority, lent, form)
    assert at == len(data)


def packed(cases):
    return u64(len(cases)) + b"".join(c.packed() for c in cases)


def texts(path):
    """The Rust's lines of each case."""
    with open(path) as f:
        return [text.splitlines() for text in f.read().split("case\n")[1:]]


def in_domain(case):
    """Whether the Rust's test build recovers the log."""
    return case.k == 16 and case.form == FULL and answer(case, case.used)[0] == "END %d 0" % len(case.image)


def main():
    cases = [c for part in (refusals, full_tables, pending, walks) for c in part()]
    asked = [c for c in cases if in_domain(c)]
    if sys.argv[1] == "ask":
        with open(sys.argv[2], "wb") as f:
            f.write(packed(asked))
        return
    _, _, folder, regions28, regions16 = sys.argv
    answers = texts(regions16 + "/answers")
    assert len(answers) == len(asked)
    rust = {c.name: lines for c, lines in zip(asked, answers)}
    for oracle in (regions28, regions16):
        with open(oracle + "/cases", "rb") as f:
            found = list(parsed(f.read()))
        states = texts(oracle + "/states")
        assert len(found) == len(states)
        cases += found
        rust.update({c.name: lines for c, lines in zip(found, states)})
    assert len({c.name for c in cases}) == len(cases)
    with open(folder + "/stdin", "wb") as f:
        f.write(packed(cases))
    with open(folder + "/stdout", "w") as f:
        for i, case in enumerate(cases):
            f.write("%d %s\n" % (i + 1, case.name))
            for line in output(case, rust.get(case.name)):
                f.write(line + "\n")


main()
