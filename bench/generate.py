#!/usr/bin/env python3
"""Makes a graph from a seed, in the two files of LDBC Graphalytics.

PREFIX.v has one vertex a line, the numbers 1 to N. PREFIX.e has one edge a
line, `a b`. The edges are undirected: none joins a vertex to itself, and none
stands twice, in this direction or the other. They stand in the order in which
they were drawn, so nothing about the file helps a reader. The same arguments
make the same files.

Two kinds:

random      Each edge is drawn with the same chance from all pairs.

power-law   A Chung-Lu graph: both ends of an edge are drawn, each on its own,
            with a chance in proportion to a weight. The vertex of rank r has
            the weight r to the power -1 / (EXPONENT - 1), so the number of
            vertices of degree d falls as d to the power -EXPONENT, with the
            exponent 2.5. Ranks are given to the numbers 1 to N at random, but
            for the heaviest vertex, which is vertex 1: a search from vertex 1
            then reaches most of the graph. A pair that was drawn before is
            drawn again, so the heaviest vertices have somewhat fewer edges
            than their weights say.
"""

import argparse
import random
import sys

EXPONENT = 2.5
KINDS = ("random", "power-law")
# How many lines are written at once.
LINES_AT_ONCE = 100_000
# With more draws for each edge than this, too few pairs are left to draw.
MOST_DRAWS_FOR_AN_EDGE = 100


class TooManyEdges(Exception):
    """More edges are wanted than the graph has room for."""


def evenly_drawn_ends(vertices, source):
    """Yields numbers from 1 to `vertices` without end, each with the same chance."""
    draw = source.random
    while True:
        yield 1 + int(vertices * draw())


def ranked_vertices(vertices, source):
    """The vertices by rank, heaviest first: vertex 1, then the others shuffled."""
    others = list(range(2, vertices + 1))
    source.shuffle(others)
    return [1, *others]


def heavily_drawn_ends(vertices, source):
    """Yields vertices without end, each with the chance that its weight gives.

    The weights' sum up to rank r is close to r to the power 1 - 1 / (EXPONENT - 1),
    so a rank is an even draw to the inverse of that power.
    """
    by_rank = ranked_vertices(vertices, source)
    power = 1 / (1 - 1 / (EXPONENT - 1))
    draw = source.random
    while True:
        yield by_rank[int(vertices * draw() ** power)]


def drawn_edges(ends, vertices, edges):
    """Yields `edges` pairs of `ends`: no loops, and no pair twice in either direction."""
    seen = set()
    draws_left = edges * MOST_DRAWS_FOR_AN_EDGE
    while len(seen) < edges:
        if draws_left == 0:
            raise TooManyEdges
        draws_left -= 1
        first, second = next(ends), next(ends)
        if first == second:
            continue
        low, high = (first, second) if first < second else (second, first)
        packed = low * (vertices + 1) + high
        if packed not in seen:
            seen.add(packed)
            yield first, second


def write_lines(path, lines):
    """Writes the lines to a new file, many at once."""
    with open(path, "w", encoding="ascii", newline="\n") as file:
        waiting = []
        for line in lines:
            waiting.append(line)
            if len(waiting) == LINES_AT_ONCE:
                file.writelines(waiting)
                waiting.clear()
        file.writelines(waiting)


def write_graph(kind, vertices, edges, seed, prefix):
    """Writes the graph's two files."""
    source = random.Random(seed)
    ends_of = evenly_drawn_ends if kind == "random" else heavily_drawn_ends
    pairs = drawn_edges(ends_of(vertices, source), vertices, edges)
    write_lines(f"{prefix}.v", (f"{vertex}\n" for vertex in range(1, vertices + 1)))
    write_lines(f"{prefix}.e", (f"{first} {second}\n" for first, second in pairs))


def read_arguments():
    """The command line's arguments; ends the program where they make no graph."""
    about, _, kinds = __doc__.partition("\n\n")
    parser = argparse.ArgumentParser(
        description=about,
        epilog=kinds,
        formatter_class=argparse.RawDescriptionHelpFormatter,
    )
    parser.add_argument("--kind", choices=KINDS, required=True)
    parser.add_argument("--vertices", type=int, required=True, metavar="N")
    parser.add_argument("--edges", type=int, required=True, metavar="M")
    parser.add_argument("--seed", type=int, required=True, metavar="S")
    parser.add_argument("--out", required=True, metavar="PREFIX")
    given = parser.parse_args()
    if given.vertices < 1 or given.edges < 0:
        parser.error("a graph has at least one vertex, and no fewer than 0 edges")
    if given.edges > given.vertices * (given.vertices - 1) // 2:
        parser.error("there are not so many pairs of vertices")
    return given


def main():
    given = read_arguments()
    try:
        write_graph(given.kind, given.vertices, given.edges, given.seed, given.out)
    except TooManyEdges:
        sys.exit("generate.py: too few pairs are left to draw: take fewer edges")


if __name__ == "__main__":
    main()
