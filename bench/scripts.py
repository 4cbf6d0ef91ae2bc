#!/usr/bin/env python3
"""Makes scripts of short transactions from a seed: each adds one edge.

    scripts.py --scripts K --transactions T --vertices N --seed S --out PREFIX

Writes PREFIX.1 to PREFIX.K. Each has T transactions of the three lines `begin`,
`edge A B` and `commit`. No edge stands twice in all scripts, in either
direction, and none joins a vertex to itself, so each line `edge` is answered
`ok`, unless it meets an open transaction that touches one of its ends. The same
arguments make the same files.
"""

import argparse
import random


def distinct_pairs(count, vertices, source):
    """As many pairs of numbers from 1 to `vertices`, no two of them the same either way round."""
    kept = set()
    while len(kept) < count:
        a, b = source.randint(1, vertices), source.randint(1, vertices)
        pair = (min(a, b), max(a, b))
        if a != b and pair not in kept:
            kept.add(pair)
            yield a, b


def read_arguments():
    """The command line's arguments."""
    parser = argparse.ArgumentParser(
        description=__doc__, formatter_class=argparse.RawDescriptionHelpFormatter
    )
    parser.add_argument("--scripts", type=int, required=True)
    parser.add_argument("--transactions", type=int, required=True)
    parser.add_argument("--vertices", type=int, required=True)
    parser.add_argument("--seed", type=int, required=True)
    parser.add_argument("--out", required=True, metavar="PREFIX")
    return parser.parse_args()


def main():
    """Writes the scripts."""
    wanted = read_arguments()
    source = random.Random(wanted.seed)
    pairs = distinct_pairs(
        wanted.scripts * wanted.transactions, wanted.vertices, source
    )
    for number in range(1, wanted.scripts + 1):
        with open(f"{wanted.out}.{number}", "w", encoding="ascii") as script:
            for _ in range(wanted.transactions):
                a, b = next(pairs)
                script.write(f"begin\nedge {a} {b}\ncommit\n")


if __name__ == "__main__":
    main()
