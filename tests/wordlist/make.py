#!/usr/bin/env python3
"""Writes the stored cases of `wordlist` beside this file: NAME.kwg, an input, and NAME.out, the output that document 01 asks for it.

The outputs come from what is written here, by 01's own words and with none of the engine's code. `run` holds the built program to them;
this script is needed only to change the cases.
"""
import os
import struct


def node(tile, accepts, end, arc):
    return tile << 24 | accepts << 23 | end << 22 | arc


def file_of(nodes):
    return b"".join(struct.pack("<I", v) for v in nodes)


ROOT_ONLY = node(0, 0, 1, 0)


def words(nodes, p):
    """Words from p: for each node of the run its tile alone if it accepts; then its tile before each word from the arc."""
    while True:
        v = nodes[p]
        tile, arc = v >> 24, v & 0x3FFFFF
        if v >> 23 & 1:
            yield [tile]
        if arc:
            for w in words(nodes, arc):
                yield [tile] + w
        if v >> 22 & 1:
            return
        p += 1


def listed(nodes):
    start = nodes[0] & 0x3FFFFF
    out = b""
    for number, word in enumerate(words(nodes, start) if start else []):
        if len(word) > 256:
            return out + refused(16)
        out += b"%d\t%s\n" % (number, b" ".join(b"%d" % t for t in word))
    return out


def refused(number):
    return b"refused\t%d\n" % number


def chain(accepting):
    """One run after the other, each of one node with tile 1; those after so many tiles accept, the last of them ends it."""
    last = max(accepting)
    return [node(0, 0, 1, 2), ROOT_ONLY] + [node(1, int(k in accepting), 1, 0 if k == last else k + 2) for k in range(1, last + 1)]


def grid(*sizes):
    """Every word of one tile from each column; a column has so many tiles, from 1 up."""
    nodes = [node(0, 0, 1, 2), ROOT_ONLY]
    for i, size in enumerate(sizes):
        last = i == len(sizes) - 1
        below = 0 if last else len(nodes) + size
        nodes += [node(t + 1, int(last), int(t == size - 1), below) for t in range(size)]
    return nodes


def long_after(rows, columns):
    """So many rows times columns of words of three tiles, then a word of 257 tiles."""
    first, second, third = 2, 4, 4 + rows
    chain_at = third + columns
    nodes = [node(0, 0, 1, first), ROOT_ONLY, node(1, 0, 0, second), node(2, 0, 1, chain_at)]
    nodes += [node(t + 1, 0, int(t == rows - 1), third) for t in range(rows)]
    nodes += [node(t + 1, 1, int(t == columns - 1), 0) for t in range(columns)]
    return nodes + [node(1, int(k == 255), 1, 0 if k == 255 else chain_at + k + 1) for k in range(256)]


def full(size):
    """So many nodes: a run of 64 tiles, and below each of the first 62 a run of 64, whose last node accepts; then runs of one node."""
    first = [node(t, int(t >= 62), int(t == 63), 0 if t >= 62 else 128 + 64 * t) for t in range(64)]
    below = [node(t, int(t == 63), int(t == 63), 0) for t in range(64)]
    nodes = [node(0, 0, 1, 64)] + [ROOT_ONLY] * 63 + first + below * 62
    return nodes + [ROOT_ONLY] * (size - len(nodes))


G = [0x00400002, 0x00400000, 0x01800004, 0x02400004, 0x02C00000]
# a block of the output has room for 84 of the longest lines, and so holds 84 words
LISTS = [
    ("five-nodes", G),
    ("start-arc-0", [ROOT_ONLY, ROOT_ONLY]),
    ("start-arc-0-and-words", [ROOT_ONLY, node(1, 1, 1, 0)]),
    ("one-node", [ROOT_ONLY]),
    ("no-words", [node(0, 0, 1, 1), ROOT_ONLY]),
    ("tiles-0-and-63", [node(0, 0, 1, 1), node(0, 1, 0, 2), node(63, 1, 1, 0)]),
    ("runs-not-ascending", [node(0, 0, 1, 1), node(2, 1, 0, 0), node(1, 1, 0, 3), node(1, 1, 1, 0)]),
    ("largest-arc", [node(0, 0, 1, 1), node(1, 0, 1, 2), node(2, 1, 1, 0)]),
    ("word-of-256-tiles", chain({256})),
    ("word-of-257-tiles", chain({257})),
    ("word-of-257-tiles-after-two", chain({1, 2, 257})),
    ("word-of-257-tiles-first-of-a-block", long_after(7, 12)),
    ("word-of-257-tiles-in-a-later-block", long_after(20, 10)),
    ("84-words", grid(7, 12)),
    ("85-words", grid(5, 17)),
    ("1728-words", grid(12, 12, 12)),
    ("16384-bytes", full(4096)),
]

REFUSALS = [
    ("no-bytes", b"", 1),
    ("1-byte", b"\x40", 1),
    ("7-bytes", file_of(G)[:7], 1),
    ("16383-bytes", file_of(full(4096))[:-1], 1),
    ("16385-bytes", file_of(full(4096)) + b"\0", 2),
    ("16388-bytes", file_of(full(4097)), 2),
    ("20004-bytes", file_of(full(5001)), 2),
    ("65540-bytes", file_of(full(16385)), 2),
    ("tile-64", file_of([node(0, 0, 1, 1), node(64, 1, 1, 0)]), 6),
    ("tile-64-before-an-arc-past-the-end", file_of([node(0, 0, 1, 9), node(64, 1, 1, 0)]), 6),
    ("arc-5-of-5-nodes", file_of(G[:4] + [G[4] + 5]), 8),
    ("no-end", file_of(G[:4] + [0x02800000]), 9),
    ("loop", file_of([node(0, 0, 1, 1), node(1, 1, 1, 1)]), 12),
    ("loop-out-of-reach", file_of([ROOT_ONLY, node(1, 1, 0, 2), node(2, 1, 1, 1)]), 12),
    ("4294967296-words", file_of(grid(*[2] * 32)), 13),
]

CASES = [(name, file_of(nodes), listed(nodes)) for name, nodes in LISTS] + [(name, data, refused(n)) for name, data, n in REFUSALS]


def main():
    here = os.path.dirname(os.path.abspath(__file__))
    for name, data, out in CASES:
        for end, content in ((".kwg", data), (".out", out)):
            with open(os.path.join(here, name + end), "wb") as f:
                f.write(content)


main()
