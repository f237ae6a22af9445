#!/usr/bin/env python3
"""Writes the sample log, the input of the program wal_list, and its listing.

A small log of one office: payloads with the cards of a medal, the blocks of the other offices, own blocks, a commit and
the handler's state, in regions of 1,024 bytes. A power cut has left the last entry torn. The records are packed as
document 01's section "Records" lays them out.

usage: sample_log.py FOLDER    (writes FOLDER/stdin and FOLDER/stdout)
"""
import hashlib
import struct
import sys

from wal import append, listing

K = 10


def u64(n):
    return struct.pack("<Q", n)


def byte_string(b):
    return u64(len(b)) + b


def reference(authority, round_):
    digest = hashlib.sha256(b"block %d %d" % (authority, round_)).digest()
    return u64(authority) + u64(round_) + byte_string(digest)


def share(text):
    return struct.pack("<I", 0) + byte_string(text)


def vote(block, offset):
    return struct.pack("<I", 1) + block + u64(offset) + struct.pack("<I", 0)


def listed(items):
    return u64(len(items)) + b"".join(items)


def block(authority, round_, includes, statements):
    time = struct.pack("<QQ", 1_790_000_000_000_000_000 + round_, 0)
    signature = hashlib.sha512(b"%d %d" % (authority, round_)).digest()
    return reference(authority, round_) + listed(includes) + listed(statements) + time + b"\0" + byte_string(signature)


def card(player, gross):
    return share(b"card player=%d gross=%d" % (player, gross))


def entries():
    for authority in range(4):
        yield 1, block(authority, 0, [], [])
    position = 0
    for round_ in range(1, 4):
        yield 2, listed([card(100 * round_ + i, 70 + i) for i in range(3)])
        for authority in range(1, 4):
            includes = [reference(a, round_ - 1) for a in range(4)]
            yield 1, block(authority, round_, includes, [vote(reference(0, round_ - 1), authority)])
        includes = [reference(a, round_ - 1) for a in range(4)]
        yield 3, u64(position) + block(0, round_, includes, [card(100 * round_ + i, 70 + i) for i in range(3)])
        yield 4, b"state after round %d" % round_
        position = 0xFFFF_FFFF_FFFF_FFFF
    leader = reference(1, 1)
    commit = leader + listed([reference(a, 0) for a in range(4)] + [leader])
    yield 5, listed([commit]) + byte_string(b"committed to round 1")
    yield 2, listed([card(401, 68), card(402, 75)])
    yield 2, listed([card(403, 81)])


def main():
    image, used = bytearray(65535), 0
    for tag, payload in entries():
        used = append(K, image, used, tag, payload)[1]
    data = bytes([K]) + bytes(image[: used - 11])
    with open(sys.argv[1] + "/stdin", "wb") as f:
        f.write(data)
    with open(sys.argv[1] + "/stdout", "w") as f:
        f.write(listing(data))


main()
