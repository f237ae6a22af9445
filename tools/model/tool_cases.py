"""The logs on which the tool `kadzhomir` is tried, and the transcript of what it must write: rust/tests/tool.

Run: python3 tool_cases.py FOLDER. Nothing here asks the tool or the library: the logs are laid out as docs/LAYOUTS.md has them, walk and
recovery are the model's, and the lines are those of docs/OPERATING.md.

A case is a run of commands on fresh copies of the logs; a blank line ends it. `$` begins a command, `exit` is its status, and TIME stands
for the moment in a file's name.
"""
import hashlib
import os
import struct
import sys
import zlib

import page
from records import byte_string, listed, reference, share, starts, u32, u64
from recovery import MAX, recover
from wal import Refused, walk

K, SIZE, OWN = 10, 4, 0
LENT = [1 << 20] * 4


def digest(authority, round_):
    return hashlib.sha256(b"%d %d " % (authority, round_)).digest().hex()


def ref(authority, round_):
    return "%d %d %s" % (authority, round_, digest(authority, round_))


def locator(authority, round_, offset):
    return reference(authority, round_) + u64(offset)


def block(authority, round_, includes=(), statements=(), time=0, marker=0):
    signature = hashlib.sha512(b"signature").digest()
    lists = listed([reference(*i) for i in includes]) + listed(list(statements))
    return reference(authority, round_) + lists + struct.pack("<QQ", time % 2**64, time >> 64) + bytes([marker]) + byte_string(signature)


TIME = 1_790_000_000_123_456_789
FAR = 3 * 2**64 + 5

STATEMENTS = [
    share(b"a card"),
    u32(1) + locator(2, 0, 7) + u32(0),
    u32(1) + locator(2, 0, 8) + u32(1) + b"\0",
    u32(1) + locator(2, 0, 9) + u32(1) + b"\1" + locator(3, 0, MAX),
    u32(2) + reference(3, 0) + u64(1) + u64(5),
]

ENTRIES = [
    (1, block(1, 1, [(0, 0), (2, 0)], STATEMENTS, TIME, 1)),
    (2, listed([share(b"first"), share(b"")])),
    (3, u64(0) + block(0, 1, [(1, 1)], [], FAR)),
    (4, b"the state"),
    (5, listed([reference(1, 1) + listed([reference(0, 0), reference(1, 1)])]) + byte_string(b"committed")),
    (4, b""),
    (2, listed([share(b"waits")]) + b"trailing"),
    (1, block(2, 2)),
]

SIGNATURE = "signature " + hashlib.sha512(b"signature").digest().hex()

# What a dump of each entry has behind the entry's own fields.
DUMPED = [
    [
        "block " + ref(1, 1),
        "include " + ref(0, 0),
        "include " + ref(2, 0),
        "share " + b"a card".hex(),
        "accept " + ref(2, 0) + " 7",
        "reject " + ref(2, 0) + " 8",
        "reject " + ref(2, 0) + " 9 for " + ref(3, 0) + " %d" % MAX,
        "vote-range " + ref(3, 0) + " 1 5",
        "created %d" % TIME,
        "epoch-marker 1",
        SIGNATURE,
    ],
    ["share " + b"first".hex(), "share "],
    ["next-entry 0", "block " + ref(0, 1), "include " + ref(1, 1), "created %d" % FAR, "epoch-marker 0", SIGNATURE],
    ["state " + b"the state".hex()],
    ["leader " + ref(1, 1), "committed " + ref(0, 0), "committed " + ref(1, 1), "state " + b"committed".hex()],
    ["state "],
    ["share " + b"waits".hex()],
    ["block " + ref(2, 2), "created 0", "epoch-marker 0", SIGNATURE],
]

NAMES = {1: "block", 2: "payload", 3: "own-block", 4: "state", 5: "commit"}


def node_file(known):
    """Two slots, each at the start of a page: an older one of even sequence number, and the newer one."""

    def slot(known, sequence):
        words = b"KADZNODE" + b"".join(map(u64, [1, sequence, K, SIZE, OWN, known]))
        return words + u64(zlib.crc32(words))

    return slot(known // 2, 4).ljust(4096, b"\0") + slot(known, 5).ljust(4096, b"\0")


class NotOpened(Exception):
    """A log that no node opens: where it is damaged before its known length, and the refusal's number where there is one."""

    def __init__(self, position, number=None):
        self.position, self.number = position, number


class LogFile:
    """A log's bytes, and how many are known to be on disk: none where it has no node file."""

    def __init__(self, data, known=None):
        self.data, self.known = data, known

    def ending(self):
        """The entries, and the walk's ending: a stop with E and unread, or a refusal."""
        entries, steps = [], walk(K, self.data, len(self.data))
        try:
            while True:
                entries.append(next(steps))
        except StopIteration as stop:
            return entries, stop.value
        except Refused as r:
            return entries, r

    def status(self, end):
        if end < (self.known or 0):
            return 2
        return 0 if end == len(self.data) else 1

    def list(self):
        entries, ending = self.ending()
        lines = ["%d %d %d %08x" % (p, tag, len(payload), zlib.crc32(payload)) for p, tag, payload in entries]
        if isinstance(ending, Refused):
            return lines + ["REFUSED %d" % ending.number], 2
        return lines + ["%s %d %d" % ending], self.status(ending[1])

    def verify(self):
        _, ending = self.ending()
        refused = isinstance(ending, Refused)
        lines = ["REFUSED %d %d" % (ending.number, ending.start) if refused else "%s %d %d" % ending]
        reached = ending.start if refused else ending[1]
        if self.known is not None:
            lines.append("known %d" % self.known)
            if reached < self.known:
                lines.append("DAMAGED %d %d" % (reached, self.known))
        return lines, 2 if refused else self.status(reached)

    def plan(self):
        """What a node that opens the log would recover, where its last whole entry ends, and the cuts before."""
        known, used, cuts = self.known or 0, len(self.data), []
        if used < known:
            raise NotOpened(used)
        while True:
            try:
                found = recover(K, self.data, used, SIZE, OWN, LENT)
                break
            except Refused as r:
                if r.start < known:
                    raise NotOpened(r.start, r.number)
                cuts.append("cut %d %d" % (r.number, r.start))
                used = r.start
        end = int(found.stop.split()[1])
        if end < known:
            raise NotOpened(end)
        return found, end, cuts

    def recover(self):
        try:
            found, end, cuts = self.plan()
        except NotOpened as x:
            refused = [] if x.number is None else ["REFUSED %d %d" % (x.number, x.position)]
            return refused + ["DAMAGED %d %d" % (x.position, self.known)], 2
        counts = ["%s %d" % (name, len(rows)) for name, rows in zip(["pending", "unprocessed", "committed", "indexed"], found.tables)]
        stop = "%s %d %d" % (found.stop.split()[0], end, len(self.data) - end)
        lines = cuts + [stop] + counts + ["highest-round %d" % found.highest]
        return lines + [pending(row) for row in found.tables[0]], self.status(end)

    def page(self):
        """The lines of the page of what such a node would recover; the cuts are told on standard error."""
        try:
            found, end, _ = self.plan()
        except NotOpened as x:
            return [] if x.number is None else page.number_line(x.number).decode().splitlines(), 2
        return page.page(found).decode().splitlines(), self.status(end)

    def dump(self, i):
        p, tag, payload = self.ending()[0][i]
        head = ["position %d" % p, "tag %d %s" % (tag, NAMES[tag]), "length %d" % len(payload)]
        return head + ["checksum %08x" % zlib.crc32(payload), "end %d" % (p + 16 + len(payload))] + DUMPED[i], 0


def pending(row):
    if row[1] == 2:
        return "payload %d %d" % (row[0], row[2])
    return "block %d %d %d %s" % (row[0], row[3], row[2], struct.pack(">4Q", *row[4:8]).hex())


def changed(data, at, bit=1):
    return data[:at] + bytes([data[at] ^ bit]) + data[at + 1 :]


DATA, AT = starts(K, ENTRIES)
KNOWN = len(DATA)
# Behind the known length: a payload that does not decode, the own block that drops it, and a state.
MORE, MORE_AT = starts(K, ENTRIES + [(2, b"bad"), (3, u64(MAX) + block(0, 2)), (4, b"last")])

# Payloads and blocks that wait, up to the last round that a block can have: with the four of the log above 72 pending entries, two pages.
CARDS = [(2, listed([share(b"card %d" % i)])) for i in range(34)]
BLOCKS = [(1, block(1 + i % 3, MAX - 33 + i)) for i in range(34)]
PAGES, _ = starts(K, ENTRIES + [entry for pair in zip(CARDS, BLOCKS) for entry in pair])
ONE, _ = starts(K, [ENTRIES[1]])

LOGS = {
    "sound": LogFile(DATA, KNOWN),
    "empty": LogFile(b"", 0),
    "one": LogFile(ONE, len(ONE)),
    "pages": LogFile(PAGES, KNOWN),
    "more": LogFile(MORE, KNOWN),
    "torn": LogFile(MORE[: MORE_AT[9] + 40], KNOWN),
    "zeros": LogFile(DATA + bytes(2000), KNOWN),
    "cut-twice": LogFile(changed(MORE, MORE_AT[9] + 100), KNOWN),
    "damaged": LogFile(changed(DATA, AT[2] + 30), KNOWN),
    "hidden": LogFile(DATA[: AT[6]] + bytes(KNOWN - AT[6]), KNOWN),
    "short": LogFile(DATA[:-9], KNOWN),
    "bare": LogFile(DATA),
    "bare-torn": LogFile(MORE[: MORE_AT[9] + 40]),
    "bare-damaged": LogFile(changed(DATA, AT[2] + 30)),
}

GIVEN = "--exponent %d" % K
COMMITTEE = " --committee %d --own %d" % (SIZE, OWN)


def looked_at():
    for name, log in LOGS.items():
        bare = "" if log.known is not None else " " + GIVEN
        yield [("list %s%s" % (name, bare), log.list())]
        yield [("verify %s%s" % (name, bare), log.verify())]
        if log.known is not None:
            yield [("recover %s" % name, log.recover())]
            yield [("recover %s --page" % name, log.page())]
        else:
            given = "recover %s %s%s" % (name, GIVEN, COMMITTEE)
            yield [(given, log.recover())]
            yield [(given + " --page", log.page())]
    yield [("recover --page sound", LOGS["sound"].page())]
    refused = page.number_line(18).decode().splitlines()
    yield [("recover bare %s --committee 129 --own 0 --page" % GIVEN, (refused, 2))]
    refused = page.number_line(1).decode().splitlines()
    yield [("recover bare --exponent 29%s --page" % COMMITTEE, (refused, 2))]
    for i, p in enumerate(AT):
        yield [("dump sound %d" % p, LOGS["sound"].dump(i))]
    yield [("dump damaged %d" % AT[2], (["REFUSED 7 %d" % AT[2]], 2))]
    yield [("dump sound %d" % KNOWN, (["REFUSED 17 %d" % KNOWN], 2))]
    yield [("dump sound %d" % (AT[1] + 1), (["REFUSED 6 %d" % (AT[1] + 1)], 2))]
    bad = ["position %d" % MORE_AT[8], "tag 2 payload", "length 3", "checksum %08x" % zlib.crc32(b"bad"), "end %d" % (MORE_AT[8] + 19)]
    yield [("dump more %d" % MORE_AT[8], (bad + ["undecoded " + b"bad".hex()], 2))]
    lines, status = LOGS["sound"].list()
    yield [("list sound --from %d" % AT[5], (lines[5:], status))]


def cut():
    """Each cut, and what there is to see of the log then."""
    end = MORE_AT[8] + 19
    torn = ["end %d" % end, "aside %d torn.aside-TIME-%d" % (len(LOGS["torn"].data) - end, end)]
    yield [("cut torn", (torn, 0)), ("verify torn", LogFile(MORE[:end], KNOWN).verify())]
    yield [("cut sound", (["end %d" % KNOWN], 0)), ("verify sound", LOGS["sound"].verify())]
    yield [("cut zeros", (["end %d" % KNOWN], 0)), ("verify zeros", LOGS["sound"].verify())]
    for name in ["damaged", "hidden", "short"]:
        yield [("cut " + name, ([], 2)), ("verify " + name, LOGS[name].verify())]
    at = AT[2]
    given_up = ["end %d" % at, "aside %d damaged.aside-TIME-%d" % (KNOWN - at, at), "acknowledged %d" % (KNOWN - at)]
    yield [("cut damaged --at %d" % at, (given_up, 0)), ("recover damaged", LogFile(DATA[:at], at).recover())]
    bare = ["end %d" % end, "aside %d bare-torn.aside-TIME-%d" % (len(LOGS["bare-torn"].data) - end, end)]
    yield [("cut bare-torn " + GIVEN, (bare, 0)), ("verify bare-torn " + GIVEN, LogFile(MORE[:end]).verify())]


def adopted():
    adopt = GIVEN + COMMITTEE
    yield [("adopt bare " + adopt, (["end %d" % KNOWN], 0)), ("verify bare", LOGS["sound"].verify())]
    yield [("adopt bare-torn " + adopt, (["REFUSED 11 %d" % MORE_AT[8]], 2)), ("verify bare-torn " + GIVEN, LOGS["bare-torn"].verify())]
    refused = ["REFUSED 7 %d" % AT[2]]
    yield [("adopt bare-damaged " + adopt, (refused, 2)), ("list bare-damaged " + GIVEN, LOGS["bare-damaged"].list())]
    yield [("adopt sound " + adopt, ([], 74))]
    yield [("adopt bare" + COMMITTEE, ([], 64))]
    yield [("adopt bare " + GIVEN, ([], 64))]


def wrong():
    for words, status in [
        ("", 64), ("look sound", 64), ("list", 64), ("list sound torn", 64), ("list sound --own 1", 64), ("dump sound", 64),
        ("dump sound x", 64), ("list sound --exponent", 64), ("list sound --from -1", 64), ("list none", 74),
        ("list bare", 64), ("list sound --exponent 11", 2), ("recover sound --own 1", 2), ("recover bare " + GIVEN, 64),
        ("recover sound --page --page", 64), ("list sound --page", 64), ("verify sound --page", 64), ("dump sound 0 --page", 64),
        ("cut sound --page", 64), ("adopt bare --page", 64), ("recover --page", 64), ("recover sound --page --own 1", 2),
        ("recover bare --page " + GIVEN, 64), ("recover none --page", 74),
        ("list sound --from %d" % (KNOWN + 1), 64), ("cut sound --at %d" % (KNOWN + 1), 2), ("cut sound --at %d" % (AT[2] + 1), 2),
    ]:  # fmt: skip
        yield [(words, ([], status))]
    yield [("list bare --exponent 5", (["REFUSED 1"], 2))]
    yield [("verify bare --exponent 29", (["REFUSED 1 0"], 2))]


def main():
    folder = sys.argv[1]
    for name, log in LOGS.items():
        with open(os.path.join(folder, name + ".log"), "wb") as f:
            f.write(log.data)
        if log.known is not None:
            with open(os.path.join(folder, name + ".node"), "wb") as f:
                f.write(node_file(log.known))
    cases = [*looked_at(), *cut(), *adopted(), *wrong()]
    with open(os.path.join(folder, "transcript"), "w") as f:
        for case in cases:
            for words, (lines, status) in case:
                f.write("".join(line + "\n" for line in ["$ " + words] + lines + ["exit %d" % status]))
            f.write("\n")


main()
