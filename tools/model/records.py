"""Records and logs in bytes, as document 01 lays them out."""
import hashlib
import struct

from wal import append


def u64(n):
    return struct.pack("<Q", n)


def u32(n):
    return struct.pack("<I", n)


def byte_string(b):
    return u64(len(b)) + b


def listed(items):
    return u64(len(items)) + b"".join(items)


def reference(authority, round_, salt=b""):
    return u64(authority) + u64(round_) + byte_string(hashlib.sha256(b"%d %d " % (authority, round_) + salt).digest())


def share(text):
    return u32(0) + byte_string(text)


def block(authority, round_, includes=(), statements=(), salt=b"", marker=b"\0"):
    time = struct.pack("<QQ", (1_790_000_000 + round_) % 2**64, 0)
    signature = hashlib.sha512(b"signature").digest()
    return reference(authority, round_, salt) + listed(includes) + listed(statements) + time + marker + byte_string(signature)


def own(next_entry, *block_fields, **more):
    return 3, u64(next_entry) + block(*block_fields, **more)


def other(*block_fields, **more):
    return 1, block(*block_fields, **more)


def payload(*texts):
    return 2, listed([share(t) for t in texts])


def state(text):
    return 4, text


def commit(commits, text):
    return 5, listed([leader + listed(sub_dag) for leader, sub_dag in commits]) + byte_string(text)


def starts(k, entries):
    """The image of a log, and where each entry starts."""
    image, used, found = bytearray(1 << 20), 0, []
    for tag, data in entries:
        start, used = append(k, image, used, tag, data)
        found.append(start)
    return bytes(image[:used]), found


def log(k, entries):
    return starts(k, entries)[0]
