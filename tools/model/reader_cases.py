#!/usr/bin/env python3
"""The expected output of the program reader_cases."""
import zlib

from records import byte_string, listed, payload as payload_of, u64
from recovery import Bad, Bytes
from wal import Refused, append, walk


def block(authority, round_, digest, marker, signature):
    return u64(authority) + u64(round_) + byte_string(digest) + listed([]) + listed([]) + bytes(16) + marker + byte_string(signature)


def put(k, image, used, tag, payload):
    try:
        start, used = append(k, image, used, tag, payload)
        print("append %d used %d" % (start, used))
    except Refused as r:
        print("append REFUSED %d used %d" % (r.number, used))
    return used


def meta(tag, payload):
    """Of a block its reference, of a list of statements their number; the first statement stands behind the 8 bytes of the count."""
    data = Bytes(payload)
    try:
        if tag == 1:
            round_, authority, digest = data.block()
            return "include %d %d %08x" % (authority, round_, zlib.crc32(digest))
        if tag == 2:
            data.payload()
            return "payload %d 8" % Bytes(payload).u64()
    except Bad:
        pass
    return "nothing"


def show_log(k, image, used):
    print("log %d %d" % (k, used))
    e = 0
    try:
        steps = walk(k, image, used)
        while True:
            try:
                start, tag, payload = next(steps)
            except StopIteration as stop:
                last = "next %s E %d" % stop.value[:2]
                break
            e = start + 16 + len(payload)
            print("next %d %d %d %08x E %d" % (start, tag, len(payload), zlib.crc32(payload), e))
            print(meta(tag, payload))
    except Refused as r:
        last = "next REFUSED %d %d E %d" % (r.number, r.start, e)
    # one step more, from the same place
    print(last)
    print(last)


digest, signature = b"\xab" + bytes(30) + b"\xcd", b"\x01" + bytes(63)
good = block(2, 3, digest, b"\0", signature)
appends = [
    payload_of(b"abc"),
    (1, good),
    (2, b"1234567"),
    (1, block(2, 3, digest, b"\2", signature)),
    (4, b""),
    (2, b"x" * 241),
    (3, u64(5) + block(1, 4, bytes(32), b"\0", bytes(64))),
    (6, b"123456789"),
    (2, listed([])),
    (1, good),
]
image, used = bytearray(800), 0
for tag, payload in appends:
    used = put(8, image, used, tag, payload)
put(5, image, 0, 2, b"")
put(8, image, 801, 2, b"")
for k, cut in [(8, used), (8, 700), (8, 600), (8, 500), (8, 440), (8, 0), (5, used), (8, 801)]:
    show_log(k, image, cut)
image[70] = 1
show_log(8, image, used)
image[47] = 15
show_log(8, image, used)
image[47] = 0
show_log(8, image, used)
