#!/usr/bin/env python3
"""Writes the scripts of this example for a graph, into the folder where it is called.

    make.py EDGES TRANSACTIONS ANALYSES

EDGES is the graph's edge file. The scripts updates1 and updates2 have so many transactions each: every one of them takes
an edge away and adds another at its first end, so that no commit changes how many edges there are. The first script
has the edges whose ends have an even sum and the second one the others, so the two never want the same edge. The script
analysis has so many transactions, each with a count and a breadth-first search. The same words give the same scripts.
"""

import pathlib
import random
import sys

SEED = 7
ROOT = 1


class Edges:
    """The edges that one script changes, those whose ends have a sum of one parity."""

    def __init__(self, pairs, parity, vertices):
        self.listed = [pair for pair in pairs if sum(pair) % 2 == parity]
        self.there = set(map(frozenset, self.listed))
        self.parity, self.vertices = parity, vertices

    def change(self, draw):
        """Takes an edge for another one with the same first end. Answers both."""
        place = draw.randrange(len(self.listed))
        old = self.listed[place]
        new = old
        while new[1] == new[0] or frozenset(new) in self.there:
            new = old[0], draw.randrange(2 - (old[0] + self.parity) % 2, self.vertices + 1, 2)
        self.there.remove(frozenset(old))
        self.there.add(frozenset(new))
        self.listed[place] = new
        return old, new


def updates(edges, transactions):
    """The lines of a script of updates."""
    draw = random.Random(SEED + edges.parity)
    for _ in range(transactions):
        (source, target), (_, other) = edges.change(draw)
        yield f"begin\ndrop {source} {target}\nedge {source} {other}\ncommit\n"


def analyses(times):
    """The lines of the script that looks on."""
    for number in range(1, times + 1):
        yield f"begin\ncount\nbfs {ROOT} hops.{number}\ncommit\n"


def main():
    lines = pathlib.Path(sys.argv[1]).read_text(encoding="ascii").splitlines()
    pairs = [tuple(map(int, line.split()[:2])) for line in lines]
    vertices = max(map(max, pairs))
    for name, parity in (("updates1", 0), ("updates2", 1)):
        text = "".join(updates(Edges(pairs, parity, vertices), int(sys.argv[2])))
        pathlib.Path(name).write_text(text, encoding="ascii")
    pathlib.Path("analysis").write_text("".join(analyses(int(sys.argv[3]))), encoding="ascii")


if __name__ == "__main__":
    if len(sys.argv) != 4:
        sys.exit(__doc__)
    main()
