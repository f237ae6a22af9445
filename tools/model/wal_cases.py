#!/usr/bin/env python3
"""The expected output of the program wal_cases."""
import sys
import zlib

from wal import Refused, append, listing, read, walk


def show_read(k, image, used, p):
    try:
        p, tag, payload = read(k, image, used, p)
        print("read %d %d %d %d" % (p, tag, len(payload), zlib.crc32(payload)))
    except Refused as r:
        print("read REFUSED %d" % r.number)


def show_walk(k, image, used):
    try:
        steps = walk(k, image, used)
        while True:
            try:
                next(steps)
            except StopIteration as stop:
                print("walk %s %d %d" % stop.value)
                break
    except Refused as r:
        print("walk REFUSED %d %d" % (r.number, r.start))


def show_calls(k, image, used, payload, position):
    show_read(k, image, used, position)
    show_walk(k, image, used)
    try:
        print("append %d %d" % append(k, image, used, 2, payload))
    except Refused as r:
        print("append REFUSED %d" % r.number)


def log(image, appends):
    used = 0
    for tag, payload in appends:
        try:
            used = append(6, image, used, tag, payload)[1]
        except Refused:
            pass
    return used


FIRST = [(2, b"123456789"), (4, b""), (2, b"123456789")]
SECOND = [(1, b"x" * 34), (3, b"")]

# rows 1 to 4
small = bytearray(64)
show_calls(5, small, 0, b"", 0)
show_calls(29, small, 0, b"", 0)
show_calls(6, small, 65, b"", 0)
show_calls(6, small, 0, b"x" * 49, 0)
short = bytearray(88)
print(" %d" % log(short, FIRST))
show_calls(6, short, 41, b"123456789", 0)
show_calls(6, bytearray(89), 41, b"123456789", 0)

# rows 5 to 7
image = bytearray(64)
for place, value in [(0, 1), (8, 15), (8, 16), (8, 65)]:
    image[place] = value
    show_calls(6, image, 16, b"", 0)
image[0], image[8] = 0, 16
show_calls(6, image, 16, b"", 0)
image[4] = 1
show_calls(6, image, 16, b"", 0)

# rows 16 and 17
image = bytearray(128)
used = log(image, FIRST)
for p in [0, 25, 41, 49, 64, 80, 88, 89, 2**64 - 1]:
    show_read(6, image, used, p)

# damaged payloads, then damaged headers
for rows in (
    [(0, {20: 0x34}), (0, dict(zip(range(16, 20), b"\x70\x34\x42\xef"))), (0, {20: ord("5")})],
    [(0, {12: 3}), (25, {33: 0}), (64, {72: 26}), (64, {72: 0}), (64, dict.fromkeys(range(64, 68), 0))],
):
    image = bytearray(128)
    used = log(image, FIRST)
    for p, changes in rows:
        for place, value in changes.items():
            image[place] = value
        show_read(6, image, used, p)
        show_walk(6, image, used)

# both logs at every cut
for appends in (FIRST, SECOND):
    image = bytearray(128)
    used = log(image, appends)
    for c in range(used + 1):
        print("cut %d" % c)
        sys.stdout.write(listing(bytes([6]) + bytes(image[:c])))

sys.stdout.write(listing(b""))
sys.stdout.write(listing(bytes(65537)))
