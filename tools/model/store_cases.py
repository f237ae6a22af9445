#!/usr/bin/env python3
"""Writes the input of the program store_cases and its expected output.

Refusals are the model's (store.py): the Rust has none. What is served is the Rust's wherever it has an answer: tools/oracle is given
the cases of regions of 2^28 bytes whose calls are all served, runs them on the unedited BlockStore and says what it finds in the same
lines. The model answers every case, and must agree with the Rust to the byte.

tools/differential/run.sh does all of this and compares the result with what is stored. By hand, in tools/oracle, once build.sh has run:

    python3 ../model/store_cases.py ask ASKED
    target/release/store ASKED > ANSWERS
    python3 ../model/store_cases.py write ../../crates/store_cases ANSWERS
"""
import random
import struct
import sys
import zlib

from recovery import Bytes, key, recover
from records import block, byte_string, log, other, payload, reference, share, starts, u32, u64
from store import MAX, Store
from wal import Refused

OPEN, INSERT, CLEANUP, BLOCK, ROUND, AT, OWN, OTHERS, TRANSACTION, LINKED, EXISTS, EXISTS_AT, ALL = range(1, 14)
NAMES = {
    BLOCK: "get_block",
    ROUND: "get_blocks_by_round",
    AT: "get_blocks_at_authority_round",
    OWN: "get_own_blocks",
    OTHERS: "get_others_blocks",
}


def crc(data):
    return " %08x" % zlib.crc32(bytes(data))


def words(ws):
    return struct.pack("<%dQ" % len(ws), *ws)


def packed_call(call):
    kind, *arguments = call
    return u64(kind) + b"".join(a if isinstance(a, bytes) else u64(a) for a in arguments)


class Case:
    """`rust`: whether the Rust is asked. The image is as long as `room` says, or as the log is."""

    def __init__(self, name, calls, image=b"", k=28, used=None, size=4, own=0, rows=0, loads=0, lent=(256, 256, 256), index=(), room=1024, rust=False):
        self.name, self.calls, self.k, self.size, self.own, self.rows, self.loads = name, calls, k, size, own, rows, loads
        self.used = len(image) if used is None else used
        self.image = image + bytes(max(0, room - len(image)))
        self.lent, self.index, self.rust = lent, list(index), rust

    def packed(self):
        numbers = [self.k, self.used, self.size, self.own, self.rows, self.loads, *self.lent]
        return (
            byte_string(self.name.encode())
            + b"".join(map(u64, numbers))
            + byte_string(self.image)
            + u64(len(self.index))
            + words(self.index)
            + u64(len(self.calls))
            + b"".join(map(packed_call, self.calls))
        )

    # ---- What the program writes

    def lines(self):
        self.out, self.work = [7] * self.lent[1], [7] * self.lent[2]
        filled = (self.index + [7] * 512)[: self.lent[0]]
        self.store = Store(self.k, self.image, self.used, self.size, self.own, self.rows, self.loads, filled)
        return [line for call in self.calls for line in self.answer(*call)]

    def setting(self):
        s = self.store
        there, round_, authority, digest = (0, 0, 0, bytes(32)) if s.last_own is None else (1, *s.last_own)
        summary = words([s.highest] + s.seen + [there, authority, round_]) + digest
        return " %d %d %d" % (s.used, s.rows, s.loads) + crc(s.image) + crc(words(s.index)) + crc(summary)

    def answer(self, kind, *a):
        s = self.store
        if kind == OPEN:
            return ["open %d" % self.opened() + self.setting()]
        if kind == INSERT:
            number, start = refusable(lambda: s.insert(a[0], a[1][8:]), 0)
            return ["insert %d %d" % (number, start) + self.setting()]
        if kind == CLEANUP:
            number, n = refusable(lambda: s.cleanup(a[0]), 0)
            return ["cleanup " + ("%d" % number if number else "UNLOADED %d" % n) + self.setting()]
        if kind == TRANSACTION:
            number, place = refusable(lambda: s.transaction(Bytes(a[0]).reference(), a[1]), None)
            at, n = place or (0, 0)
            text = "get_transaction %d %d %d %d" % (number, place is not None, at, n)
            return [text + crc(s.image[at : at + n]) + " %d" % s.loads]
        if kind == LINKED:
            number, yes = refusable(lambda: s.linked(a[0][8:], Bytes(a[1]).reference(), self.lent[2]), False)
            return ["linked %d %d %d" % (number, yes, s.loads) + crc(bytes(8 * self.lent[2]))]
        if kind == EXISTS:
            return ["block_exists" + answered(lambda: s.block_exists(Bytes(a[0]).reference()))]
        if kind == EXISTS_AT:
            return ["block_exists_at_authority_round" + answered(lambda: s.exists_at(*a))]
        if kind == ALL:
            authors = list(struct.unpack("<%dQ" % (len(a[1]) // 8 - 1), a[1][8:]))
            return ["all_blocks_exists_at_authority_round" + answered(lambda: s.all_exist(authors, a[0]))]
        return self.looked(kind, *a)

    def opened(self):
        s = self.store
        try:
            r = recover(s.k, bytes(s.image), s.used, s.size, s.own, [512, 512, 512, len(s.index)])
            rows, s.highest, s.seen, s.last_own, number = r.tables[3], r.highest, r.seen, r.own, 0
        except Refused as refused:
            rows, s.highest, s.seen, s.last_own, number = [], 0, [0] * 128, None, refused.number
        flat = [w for row in rows for w in row]
        s.index = flat + [0] * (len(s.index) - len(flat))
        s.rows, s.loads = len(rows), 0
        return number

    def looked(self, kind, *a):
        s, lent = self.store, self.lent[1]
        calls = {
            BLOCK: lambda: s.get_block(Bytes(a[0]).reference(), lent),
            ROUND: lambda: s.by_round(a[0], lent),
            AT: lambda: s.at_authority_round(a[0], a[1], lent),
            OWN: lambda: s.own_blocks(a[0], a[1], lent),
            OTHERS: lambda: s.others_blocks(a[0], a[1], a[2], lent),
        }
        number, rows = refusable(calls[kind], [])
        flat = [w for row in rows for w in row]
        table = flat + [0] * (lent - len(flat))
        head = "%s %d %d %d" % (NAMES[kind], number, len(rows), s.loads) + crc(words(table))
        return [head] + ["%d %d %016x %d %d" % (r[0], r[1], r[2], r[6], r[7]) for r in rows]


def refusable(call, nothing):
    try:
        return 0, call()
    except Refused as refused:
        return refused.number, nothing


def answered(call):
    number, yes = refusable(call, False)
    return " %d" % number if number else (" YES" if yes else " NO")


# ---- Logs

REFERENCE = reference(1, 1)


def authors(*which):
    return u64(len(which)) + words(list(which))


def row(authority, round_, position, loaded=0, salt=b""):
    r = Bytes(reference(authority, round_, salt)).reference()
    return key(r) + [position, loaded]


def queries(reference_=REFERENCE):
    """One of each call that checks 1, 2 and 18."""
    return [
        (BLOCK, reference_),
        (ROUND, 1),
        (AT, 1, 1),
        (OWN, 0, 9),
        (OTHERS, 0, 1, 9),
        (TRANSACTION, reference_, 0),
        (LINKED, byte_string(block(1, 2)), reference_),
        (EXISTS, reference_),
        (EXISTS_AT, 1, 1),
        (ALL, 1, authors(1)),
        (CLEANUP, 1),
        (INSERT, 1, byte_string(block(2, 1))),
    ]


def checked():
    """1, 2 and 18, of every call."""
    one, at = starts(28, [other(1, 1)])
    good = dict(image=one, rows=1, index=row(1, 1, 0))
    yield Case("none of 1, 2 and 18", queries(), **good)
    yield Case("1: k = 5", queries(), **{**good, "k": 5})
    yield Case("1: k = 29", queries(), **{**good, "k": 29})
    yield Case("2: used past the image", queries(), **{**good, "used": len(one) + 1, "room": 0})
    yield Case("2: used 2^40 + 1", queries(), **{**good, "used": 2**40 + 1})
    yield Case("1 comes before 2 and 18", queries(), **{**good, "k": 5, "used": 2**40 + 1, "size": 0})
    yield Case("2 comes before 18", queries(), **{**good, "used": 2**40 + 1, "size": 0})
    yield Case("18: size 0", queries(), **{**good, "size": 0})
    yield Case("18: size 129", queries(), **{**good, "size": 129})
    yield Case("18: own = size", queries(), **{**good, "own": 4})
    yield Case("18: more rows counted than lent", queries(), **{**good, "rows": 2, "lent": (15, 256, 256)})
    yield Case("18: rows 2^64 - 1", queries(), **{**good, "rows": MAX})
    equal = row(1, 1, 0) + row(1, 1, 0)
    yield Case("18: two equal rows", queries(), **{**good, "rows": 2, "index": equal})
    yield Case("18: rounds that fall", queries(), **{**good, "rows": 2, "index": row(1, 2, 0) + row(1, 1, 0)})
    yield Case("18: authorities that fall", queries(), **{**good, "rows": 2, "index": row(2, 1, 0) + row(1, 1, 0)})
    digests = sorted([row(1, 1, 0, salt=b"a"), row(1, 1, 0, salt=b"b")])
    yield Case("18: digests that fall", queries(), **{**good, "rows": 2, "index": digests[1] + digests[0]})
    yield Case("18 not given: digests that rise", queries()[7:10], **{**good, "rows": 2, "index": digests[0] + digests[1]})
    yield Case("18: authority 4 of 4", queries(), **{**good, "index": row(4, 1, 0)})
    yield Case("18 not given: that row is not counted", queries()[7:10], **{**good, "rows": 0, "index": row(4, 1, 0)})


def inserted():
    """3, 4, 9 or 10, 13, 14, 15."""
    one, at = starts(28, [other(1, 1)])
    good = dict(image=one, rows=1, index=row(1, 1, 0))
    b = block(2, 1)
    put = (INSERT, 1, byte_string(b))
    fits, exceeds = ((INSERT, 1, byte_string(block(2, 1, statements=[share(bytes(n))]))) for n in (67, 68))
    yield Case("3: payload + 16 exceeds the region", [exceeds, fits, put], k=8)
    yield Case("4: the image ends", [put, put], **{**good, "room": len(one) + 16 + len(b) - 1})
    yield Case("4 not given: room to the byte", [put], **{**good, "room": len(one) + 16 + len(b)})
    yield Case("9: epoch marker byte 2", [(INSERT, 1, byte_string(block(2, 1, marker=b"\2")))], **good)
    yield Case("9: no byte", [(INSERT, 1, byte_string(b""))], **good)
    yield Case("10: 7 bytes", [(INSERT, 3, byte_string(bytes(7)))], **good)
    yield Case("10: no block behind the next entry", [(INSERT, 3, byte_string(u64(0) + b[:-1]))], **good)
    yield Case("13: authority 4 of 4", [(INSERT, 1, byte_string(block(4, 1)))], **good)
    yield Case("13 comes before 14 and 15", [(INSERT, 1, byte_string(block(4, 1)))], **{**good, "own": 1, "lent": (8, 256, 256)})
    twice = (INSERT, 1, byte_string(block(1, 1, salt=b"another")))
    yield Case("14: own round 1 twice, tag 1", [twice], **{**good, "own": 1})
    yield Case("14: own round 1 twice, tag 3", [(INSERT, 3, byte_string(u64(0) + block(1, 1)))], **{**good, "own": 1})
    yield Case("14 comes before 15", [twice], **{**good, "own": 1, "lent": (8, 256, 256)})
    yield Case("14 not given: another's round", [twice, (ROUND, 1)], **good)
    yield Case("15: one row lent", [put], **{**good, "lent": (15, 256, 256)})
    yield Case("15 not given: the same reference again", [(INSERT, 1, byte_string(block(1, 1))), (BLOCK, REFERENCE)], **{**good, "lent": (15, 256, 256)})
    yield Case("rows past the count are kept", [put, (CLEANUP, 9), (ROUND, 1)], **{**good, "lent": (100, 256, 256)})


def looked_up():
    """19, the numbers of a read, 8, 9 or 10, 15."""
    image, at = starts(28, [other(1, 1), payload(b"x"), other(2, 1), (1, b"no block"), (3, bytes(9)), other(3, 2)])
    yield Case("19", [(OWN, MAX, 1), (OTHERS, MAX, 1, 1), (OWN, MAX - 1, 1), (OTHERS, MAX - 1, 1, 1)], image, rows=1, index=row(1, 1, 0))
    yield Case("19 comes before 17", [(OWN, MAX, 1), (OTHERS, MAX, 0, 1)], image, rows=1, index=row(0, 1, len(image)))
    for name, position in [
        ("17: at used", len(image)),
        ("17: MAX", MAX),
        ("5: inside an entry", 17),
        ("8: a payload", at[1]),
        ("9: no block", at[3]),
        ("10: no own block", at[4]),
        ("another block than the row says", at[2]),
    ]:
        calls = [(BLOCK, REFERENCE), (ROUND, 1), (AT, 1, 1), (OTHERS, 0, 1, 9), (TRANSACTION, REFERENCE, 0)]
        calls += [(LINKED, byte_string(block(1, 2, [REFERENCE])), REFERENCE), (OWN, 0, 9)]
        yield Case(name, calls, image, own=1, rows=1, index=row(1, 1, position))
    short = log(28, [other(1, 1)]) + u64(0) + u32(15) + u32(1)
    yield Case("6: length 15", [(BLOCK, REFERENCE)], short, rows=1, index=row(1, 1, len(short) - 16))
    zeros = log(28, [other(1, 1)]) + bytes(32)
    yield Case("16: zeros", [(BLOCK, REFERENCE)], zeros, rows=1, index=row(1, 1, len(zeros) - 32))
    damaged = bytearray(image)
    damaged[at[2] + 40] ^= 1
    two = row(1, 1, at[0]) + row(2, 1, at[2])
    yield Case("7, and no load is counted", [(ROUND, 1), (AT, 1, 1), (ROUND, 1)], bytes(damaged), rows=2, index=two)
    yield Case("the first row's number", [(ROUND, 1)], image, rows=2, index=row(1, 1, at[1]) + row(2, 1, len(image)))
    yield Case("15: one row lent for two", [(ROUND, 1), (AT, 1, 1), (ROUND, 1)], image, rows=2, index=two, lent=(256, 15, 256))
    yield Case("a read's number comes before 15", [(ROUND, 1)], bytes(damaged), rows=2, index=two, lent=(256, 8, 256))
    yield Case("15 not given: no row for none", [(ROUND, 3), (OWN, 0, 9), (OTHERS, 0, 1, 0)], image, rows=2, index=two, lent=(256, 0, 256))
    for loads in (MAX - 1, MAX):
        yield Case("the counter at 2^64 - %d" % (MAX + 1 - loads), [(ROUND, 1), (BLOCK, REFERENCE)], image, rows=2, index=two, loads=loads)


def ancestors():
    """9 for the later block, 15 for the working rows, then the reads, the highest round first."""
    image, at = starts(28, [other(1, 1), payload(b"x"), other(2, 2, [REFERENCE]), other(3, 3, [reference(2, 2)])])
    index = row(1, 1, at[0]) + row(2, 2, at[2]) + row(3, 3, at[3])
    good = dict(image=image, rows=3, index=index)
    four = byte_string(block(1, 4, [reference(3, 3)]))
    ask = (LINKED, four, REFERENCE)
    yield Case("linked: three steps", [ask], **good)
    yield Case("linked: 9", [(LINKED, byte_string(block(1, 4)[:-1]), REFERENCE)], **{**good, "lent": (256, 256, 0)})
    yield Case("linked: 15", [ask], **{**good, "lent": (256, 256, 23)})
    yield Case("linked: 15 not given", [ask], **{**good, "lent": (256, 256, 24)})
    yield Case("linked: 15 for equal references too", [(LINKED, byte_string(block(1, 1)), REFERENCE)], **{**good, "lent": (256, 256, 23)})
    yield Case("linked: the number of the highest round", [ask], **{**good, "index": row(1, 1, at[1]) + row(2, 2, MAX) + row(3, 3, at[3])})
    yield Case("linked: read although the chain broke", [(LINKED, byte_string(block(1, 4)), REFERENCE)], **{**good, "index": row(1, 1, at[1]) + index[8:]})
    yield Case("linked: rounds under the earlier are not read", [(LINKED, four, reference(2, 2))], **{**good, "index": row(1, 1, at[1]) + index[8:]})
    yield Case("linked: by the reference in the block read", [ask, (LINKED, four, reference(1, 1, b"x"))], **{**good, "index": row(1, 1, at[0], salt=b"x") + index[8:]})
    far = byte_string(block(1, MAX, [reference(3, 3)]))
    yield Case("linked: a gap of 2^64 rounds", [(LINKED, far, REFERENCE), (LINKED, far, reference(0, 0))], **good)


# ---- Scenarios for the Rust


def everything(references, rounds, size):
    """Each lookup, of all that is there and of some that is not."""
    calls = []
    for r in references:
        calls += [(BLOCK, r), (EXISTS, r), (TRANSACTION, r, 0), (TRANSACTION, r, 1), (TRANSACTION, r, 7)]
    for round_ in rounds:
        calls += [(ROUND, round_), (ALL, round_, authors()), (ALL, round_, authors(0, 1)), (ALL, round_, authors(3))]
        for a in range(size):
            calls += [(AT, a, round_), (EXISTS_AT, a, round_)]
    for after in (0, 1, 3, 2**63):
        calls += [(OWN, after, limit) for limit in (0, 1, 2, 99)]
        calls += [(OTHERS, after, a, limit) for a in range(size) for limit in (0, 1, 2, 99)]
    return calls


def vote(r):
    return u32(1) + r + u64(0) + u32(0)


def chosen(rng, items, most):
    return rng.sample(items, min(len(items), rng.randint(0, most)))


def dag(seed, rounds, size, gap=None):
    """Blocks of some authorities in each round, that include some of the round before."""
    rng, before, made = random.Random(seed), [], []
    for round_ in rounds:
        row_ = []
        for a in range(size):
            if rng.random() < 0.8:
                statements = [share(b"card %d" % rng.randrange(99)), vote(REFERENCE)][: rng.randint(0, 2)]
                row_.append((a, round_, block(a, round_, chosen(rng, before, 3), statements)))
        made += row_
        before = [b[:56] for _, _, b in row_]
    return made


def scenario(name, seed, rounds, size=4, lent=(256, 256, 256)):
    rng, made = random.Random(seed), dag(seed, rounds, size)
    half = len(made) // 2
    entries, pending = [], payload(b"x")
    for a, _, b in made[:half]:
        entries += [(3, u64(0) + b) if a == 0 else (1, b)]
    image = log(28, entries + [pending])
    references = [b[:56] for _, _, b in made] + [reference(1, 77)]
    asked = everything(references[::3], sorted({r for _, r, _ in made})[:4] + [88], size)
    calls = [(OPEN,)] + asked[::5]
    for a, _, b in made[half:]:
        calls.append((INSERT, 3, byte_string(u64(0) + b)) if a == 0 else (INSERT, 1, byte_string(b)))
    calls += asked[::3]
    middle = rounds[len(rounds) // 2]
    calls += [(CLEANUP, 0), (CLEANUP, middle)] + asked[1::4] + [(CLEANUP, middle), (CLEANUP, rounds[-1]), (CLEANUP, MAX)]
    for _, round_, b in made:
        for other_ in rng.sample(made, 3):
            calls.append((LINKED, byte_string(b), other_[2][:56]))
    return Case(name, calls, image, size=size, lent=lent, room=12288, rust=True)


def scenarios():
    yield scenario("four authorities, five rounds", 1, [1, 2, 3, 4, 5])
    yield scenario("rounds with gaps", 2, [1, 2, 4, 5, 6, 9])
    yield scenario("two authorities, from round 0", 3, [0, 1, 2, 3, 4, 5, 6], size=2)
    yield scenario("the fourth", 4, [1, 2, 3, 4])
    yield Case("an empty store", [(OPEN,)] + queries()[:-1] + [(INSERT, 1, byte_string(block(2, 1)))] + queries()[:-1], rust=True)


def packed(cases):
    return u64(len(cases)) + b"".join(c.packed() for c in cases)


def main():
    cases = [c for part in (checked, inserted, looked_up, ancestors, scenarios) for c in part()]
    assert len({c.name for c in cases}) == len(cases)
    asked = [c for c in cases if c.rust]
    if sys.argv[1] == "ask":
        with open(sys.argv[2], "wb") as f:
            f.write(packed(asked))
        return
    _, _, folder, answers = sys.argv
    with open(answers) as f:
        rust = dict(zip((c.name for c in asked), (text.splitlines() for text in f.read().split("case\n")[1:])))
    with open(folder + "/stdin", "wb") as f:
        f.write(packed(cases))
    with open(folder + "/stdout", "w") as f:
        for i, case in enumerate(cases):
            lines = case.lines()
            if case.rust and lines != rust[case.name]:
                for a, b in zip(lines, rust[case.name]):
                    if a != b:
                        sys.exit("%s\nmodel %s\nRust  %s" % (case.name, a, b))
                sys.exit("%s: not as many lines" % case.name)
            f.write("%d %s\n" % (i + 1, case.name) + "".join(line + "\n" for line in lines))


main()
