#!/usr/bin/env python3
"""Writes two scripts that differ in their rehash lines, or in their syncs. usage: rehash_scripts.py KIND N WITHOUT WITH

Both put N new keys at node 1. The rest depends on KIND:

- `full`: ten rounds follow, each a put of one more key for each of the 256 leaves. WITH has a rehash before the first
  round and after each round.
- `one`: a rehash follows, and then 2000 puts of further keys. WITH has a rehash after each of these.
- `sync1`, `sync10`, `sync1000`: the puts are copied to node 2, and both nodes are rehashed. Rounds follow, 500 of one
  put, 200 of 10 or 20 of 1000, of further keys. After each round both nodes are rehashed. In WITH node 2 gets no copies
  of these puts, and takes those of each round in a sync before its rehash.

N is made smaller if a journal, of 1000000 entries, has no room for all of this.

Prints N, the number of rehashes or syncs that WITHOUT lacks, the number of nodes of the last one, the sum of the bytes
of all their texts, and the number of lines that both scripts begin with, before the first of these or before the
further puts.
"""
import hashlib, itertools, random, sys

LEAVES, ROUNDS, SINGLE_PUTS, JOURNAL = 256, 10, 2000, 1_000_000
SYNCS = {1: 500, 10: 200, 1000: 20}
kind, wanted, without, with_them = sys.argv[1], int(sys.argv[2]), open(sys.argv[3], "w"), open(sys.argv[4], "w")
rnd = random.Random(1)
row_bytes, dirty = [0] * LEAVES, set(range(LEAVES))
rehashes = nodes = hashed = 0
stock = [[] for _ in range(LEAVES)]


def key(i):
    return b"key-%d" % i


def leaf_of(i):
    return hashlib.md5(key(i)).digest()[0]


def put(i, lose=""):
    line = '{"put":{"node":1,"key":"%s","context":[],"value":"%s"%s}}\n'
    value = rnd.randbytes(32).hex()
    without.write(line % (key(i).hex(), value, ""))
    with_them.write(line % (key(i).hex(), value, lose))
    leaf = leaf_of(i)
    dirty.add(leaf)
    row_bytes[leaf] += 2 + len(key(i)) + 2 + 1 + 10 + 4 + 32


def rehash(*scripts, node=1):
    global rehashes, nodes, hashed
    for script in scripts:
        script.write('{"rehash":{"node":%d,"range":0}}\n' % node)
    if without not in scripts:
        inner = 1 + len({leaf // 16 for leaf in dirty})
        rehashes += 1
        nodes = len(dirty) + inner
        hashed += sum(1 + row_bytes[leaf] for leaf in dirty) + 513 * inner
    dirty.clear()


def sync(leaves):
    global rehashes, nodes, hashed
    with_them.write('{"sync":{"from":1,"node":2,"range":0}}\n')
    inner = 1 + len({leaf // 16 for leaf in leaves})
    rehashes += 1
    nodes = inner + len(leaves)
    hashed += 513 * inner + sum(1 + row_bytes[leaf] for leaf in leaves)


missed = int(kind[4:]) if kind.startswith("sync") else 0
if missed:
    taken = missed * SYNCS[missed]
else:
    taken = {"full": ROUNDS * LEAVES, "one": SINGLE_PUTS}[kind]
n = min(wanted, JOURNAL - taken)
further = itertools.count(n)
if missed:
    for script in (without, with_them):
        script.write('{"ring":{"bits":0,"copies":2,"nodes":[1,2]}}\n')
for i in range(n):
    put(i)
head = n + (1 if missed else 0)
if kind == "full":
    rehash(with_them)
    for _ in range(ROUNDS):
        for leaf in range(LEAVES):
            while not stock[leaf]:
                i = next(further)
                stock[leaf_of(i)].append(i)
            put(stock[leaf].pop(0))
        rehash(with_them)
elif missed:
    rehash(without, with_them)
    rehash(without, with_them, node=2)
    head += 2
    for _ in range(SYNCS[missed]):
        keys = [next(further) for _ in range(missed)]
        for i in keys:
            put(i, ',"lose":[2]')
        rehash(without, with_them)
        sync({leaf_of(i) for i in keys})
        rehash(without, with_them, node=2)
else:
    rehash(without, with_them)
    head += 1
    for _ in range(SINGLE_PUTS):
        put(next(further))
        rehash(with_them)
without.close()
with_them.close()
print(n, rehashes, nodes, hashed, head)
