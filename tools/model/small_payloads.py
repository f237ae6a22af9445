#!/usr/bin/env python3
"""The expected output of the program small_payloads, by a search of the byte strings of at most 21 bytes.

The search goes from each string to those that have one byte more, and gives a string up where no payload of at most 21 bytes can begin
with it. That is told by decoding it as if zeros followed: a count of which some bytes are missing is then the lowest that it can be, and
a statement that is not there yet is the shortest. (A digest's count must be 32, but no digest ends within 21 bytes.)"""
from recovery import Bad, Bytes

LIMIT = 21


class Beginning(Bytes):
    """Bytes behind which zeros follow, LIMIT in all."""

    def take(self, n):
        if n > LIMIT - self.at:
            raise Bad
        self.at += n
        return self.data[self.at - n : self.at].ljust(n, b"\0")


def payloads(begin=b""):
    decoded = Beginning(begin)
    try:
        decoded.payload()
    except Bad:
        return
    if decoded.at == len(begin):
        yield begin
    if decoded.at > len(begin):
        for b in range(256):
            yield from payloads(begin + bytes([b]))


for found in sorted(payloads(), key=lambda p: (len(p), p)):
    print(found.hex())
