"""A model of the block store, written from document 01 alone: its checks, insert, cleanup and the lookups.

The index is a list of rows of 8 words, as the store lends it; lookups are filters of that list.
"""
import struct

from recovery import Bad, Bytes, key
from wal import Refused, append, check, read

MAX = 2**64 - 1


class Store:
    """What a call is lent: the log, the committee, the index rows, and the count of loads."""

    def __init__(self, k, image, used, size, own, rows, loads, index):
        self.k, self.image, self.used, self.size, self.own = k, bytearray(image), used, size, own
        self.rows, self.loads, self.index = rows, loads, list(index)
        self.highest, self.seen, self.last_own = 0, [0] * 128, None

    def row(self, i):
        return self.index[8 * i : 8 * i + 8]

    def indexed(self):
        return [self.row(i) for i in range(self.rows)]

    def check(self):
        """1, 2, 18."""
        check(self.k, len(self.image), self.used)
        if not 1 <= self.size <= 128 or self.own >= self.size or self.rows > len(self.index) // 8:
            raise Refused(18)
        keys = [r[:6] for r in self.indexed()]
        if any(a >= b for a, b in zip(keys, keys[1:])) or any(k[1] >= self.size for k in keys):
            raise Refused(18)

    # ---- Insert

    def insert(self, tag, payload):
        """1, 2, 18, 3, 4, 9 or 10, 13, 14, 15, then log, index and summary together. Answers the entry's start."""
        self.check()
        image = bytearray(self.image)
        start, used = append(self.k, image, self.used, tag, payload)
        round_, authority, digest = reference = block_of(tag, payload)
        if authority >= self.size:
            raise Refused(13)
        if authority == self.own and any(r[:2] == [round_, authority] for r in self.indexed()):
            raise Refused(14)
        rows = {tuple(r[:6]): r for r in self.indexed()}
        rows[tuple(key(reference))] = key(reference) + [start, 1]
        if len(rows) > len(self.index) // 8:
            raise Refused(15)
        flat = [w for k in sorted(rows) for w in rows[k]]
        self.index[: len(flat)] = flat
        self.image, self.used, self.rows = image, used, len(rows)
        self.joined(reference)
        return start

    def joined(self, reference):
        round_, authority, _ = reference
        if authority == self.own and round_ > self.seen[authority]:
            self.last_own = reference
        self.highest = max(self.highest, round_)
        self.seen[authority] = max(self.seen[authority], round_)

    # ---- Cleanup, and questions that read no block

    def cleanup(self, t):
        self.check()
        found = [i for i in range(self.rows) if self.row(i)[0] <= t and self.row(i)[7] != 0 and t > 0]
        for i in found:
            self.index[8 * i + 7] = 0
        return len(found)

    def block_exists(self, reference):
        self.check()
        return any(r[:6] == key(reference) for r in self.indexed())

    def exists_at(self, authority, round_):
        self.check()
        return any(r[:2] == [round_, authority] for r in self.indexed())

    def all_exist(self, authorities, round_):
        self.check()
        there = [r[1] for r in self.indexed() if r[0] == round_]
        return bool(there) and all(a in there for a in authorities)

    # ---- Lookups that read blocks

    def block_at(self, position):
        """A read's numbers, 8, and 9 or 10: the block's reference, and the place and the number of its bytes."""
        _, tag, payload = read(self.k, self.image, self.used, position)
        if tag not in (1, 3):
            raise Refused(8)
        at = 8 if tag == 3 else 0
        return block_of(tag, payload), position + 16 + at, len(payload) - at

    def looked_up(self, rows, lent):
        """The answer's rows, and the loads counted if the call is served."""
        found = [self.block_at(r[6]) for r in rows]
        if len(found) > lent // 8:
            raise Refused(15)
        self.count(rows)
        return [key(reference) + [at, n] for reference, at, n in found]

    def count(self, rows):
        self.loads = min(self.loads + sum(r[7] == 0 for r in rows), MAX)

    def get_block(self, reference, lent):
        self.check()
        return self.looked_up([r for r in self.indexed() if r[:6] == key(reference)], lent)

    def by_round(self, round_, lent):
        self.check()
        return self.looked_up([r for r in self.indexed() if r[0] == round_], lent)

    def at_authority_round(self, authority, round_, lent):
        self.check()
        return self.looked_up([r for r in self.indexed() if r[:2] == [round_, authority]], lent)

    def own_blocks(self, after, limit, lent):
        """The limit counts blocks."""
        self.check()
        after_check(after)
        return self.looked_up([r for r in self.indexed() if r[1] == self.own and r[0] > after][:limit], lent)

    def others_blocks(self, after, authority, limit, lent):
        """The limit counts indexed rounds, with or without that author."""
        self.check()
        after_check(after)
        rounds = sorted({r[0] for r in self.indexed() if r[0] > after})[:limit]
        return self.looked_up([r for r in self.indexed() if r[1] == authority and r[0] in rounds], lent)

    def transaction(self, reference, offset):
        """The place and the number of a Share's bytes, or none."""
        self.check()
        rows = [r for r in self.indexed() if r[:6] == key(reference)]
        if not rows:
            return None
        _, at, n = self.block_at(rows[0][6])
        self.count(rows)
        place = share_at(bytes(self.image[at : at + n]), offset)
        return None if place is None else (at + place[0], place[1])

    def linked(self, later, earlier, lent):
        """A chain of includes down exactly one round a step, all below the later block indexed, each by the reference in
        the block read."""
        self.check()
        reference, includes = includes_of(later, 9)
        if self.rows > lent // 8:
            raise Refused(15)
        low, high = earlier[0], reference[0]
        rows = sorted((r for r in self.indexed() if low <= r[0] < high), key=lambda r: -r[0])
        blocks = [(r[0], self.block_at(r[6])) for r in rows]
        self.count(rows)
        below = [(round_, found[0], includes_of(self.image[found[1] : found[1] + found[2]], 9)[1]) for round_, found in blocks]
        return reference == earlier or reaches(below, earlier, high, includes)


def reaches(blocks, earlier, round_, includes):
    return any(
        r == round_ - 1 and reference in includes and (r == earlier[0] and reference == earlier or reaches(blocks, earlier, r, more))
        for r, reference, more in blocks
    )


def after_check(after):
    if after == MAX:
        raise Refused(19)


def block_of(tag, payload):
    number = 9 if tag == 1 else 10
    try:
        if tag == 3:
            Bytes(payload).u64()
            return Bytes(payload[8:]).block()
        return Bytes(payload).block()
    except Bad:
        raise Refused(number)


def includes_of(block, number):
    try:
        Bytes(block).block()
    except Bad:
        raise Refused(number)
    b = Bytes(block)
    return b.reference(), b.listed(b.reference)


def share_at(block, offset):
    """Where the bytes of the statement with this offset stand, if it is a Share."""
    b = Bytes(block)
    b.reference(), b.listed(b.reference)
    for i in range(b.u64()):
        kind = struct.unpack_from("<I", block, b.at)[0]
        begin = b.at
        b.statement()
        if i == offset:
            return (begin + 12, b.at - begin - 12) if kind == 0 else None
    return None
