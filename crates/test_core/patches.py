#!/usr/bin/env python3
"""Prints the worked outline and patch of docs/FORMATS.md, which src/patches.rt expects, by Python's hashlib alone.

Both replicas hold `a` and `c218` in leaf 12 of format 1, each put at node 1 with the value `x`. The partner also holds
`b871` there, put at node 2.
"""

import hashlib

LEAF = 12


def leaf(key):
    """The leaf of a key at 0 bits: the first byte of its MD5 (RFC 1321)."""
    return hashlib.md5(key).digest()[0]


def row(key, node, value):
    """The text of a row with one version of the counter 1, in format 1."""
    pair = node.to_bytes(2, "big") + (1).to_bytes(8, "big")
    version = b"\x01" + pair + len(value).to_bytes(4, "big") + value
    return len(key).to_bytes(2, "big") + key + b"\x00\x01" + version


def number(value, size=4):
    return value.to_bytes(size, "big")


def keys_of_leaf(prefix):
    """The first key of a prefix and a number that is in the leaf."""
    return next(key for n in range(1000) if leaf(key := prefix + str(n).encode()) == LEAF)


A, B, C = b"a", keys_of_leaf(b"b"), keys_of_leaf(b"c")
assert leaf(A) == LEAF and (B, C) == (b"b871", b"c218"), (B, C)
asker = [row(A, 1, b"x"), row(C, 1, b"x")]
partner = [row(A, 1, b"x"), row(B, 2, b"x"), row(C, 1, b"x")]
expected = hashlib.sha256(b"\x00" + b"".join(partner)).digest()
head = number(1) + b"\x02" + number(LEAF, 2)
marks = [hashlib.sha256(expected + part).digest()[:3] for part in asker]
outline = b"\x04" + head + b"\x03" + number(2) + b"".join(marks)
steps = [
    b"\x00" + number(0) + number(1),
    b"\x01" + number(len(partner[1])) + partner[1],
    b"\x00" + number(1) + number(1),
]
patch = b"\x05" + head + number(sum(map(len, steps)), 8) + b"".join(steps)
print("digest ", expected.hex())
print("outline", outline.hex())
print("patch  ", patch.hex())
