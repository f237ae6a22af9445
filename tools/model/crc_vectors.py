#!/usr/bin/env python3
"""The expected output of the program crc_vectors, by zlib's CRC-32."""
import zlib


def fill(n, start, step):
    return bytes((start + i * step) % 256 for i in range(n))


def apart(n):
    return bytes((i % 256 * 167 + i // 256 % 256 * 59) % 256 for i in range(n))


VECTORS = [
    b"123456789",
    b"",
    b"a",
    b"abc",
    b"message digest",
    b"abcdefghijklmnopqrstuvwxyz",
    b"ABCDEFGHIJKLMNOPQRSTUVWXYZabcdefghijklmnopqrstuvwxyz0123456789",
    b"1234567890" * 8,
    b"The quick brown fox jumps over the lazy dog",
    bytes(1),
    b"\xff",
    bytes(4),
    b"\xff" * 4,
    bytes(32),
    b"\xff" * 32,
    fill(32, 0, 1),
    fill(32, 31, 255),
    fill(256, 0, 1),
    bytes(65536),
    fill(65536, 7, 13),
    fill(65536, 7, 13)[:65521],
] + [apart(n) for n in (63, 64, 65, 127, 128, 129, 255, 256, 257, 1023, 1024, 1025, 1535, 8191, 8192)]

# published values: the CRC catalogue's check value and those listed with common CRC-32 libraries
PUBLISHED = {
    b"123456789": 0xCBF43926,
    b"": 0,
    b"a": 0xE8B7BE43,
    b"abc": 0x352441C2,
    b"message digest": 0x20159D7F,
    b"abcdefghijklmnopqrstuvwxyz": 0x4C2750BD,
    b"ABCDEFGHIJKLMNOPQRSTUVWXYZabcdefghijklmnopqrstuvwxyz0123456789": 0x1FC2E6D2,
    b"1234567890" * 8: 0x7CA94A72,
    b"The quick brown fox jumps over the lazy dog": 0x414FA339,
    bytes(32): 0x190A55AD,
    b"\xff" * 32: 0xFF6CAB0B,
    fill(32, 0, 1): 0x91267E8A,
}

for v in VECTORS:
    crc = zlib.crc32(v)
    assert PUBLISHED.get(v, crc) == crc
    print("%08x" % crc)
