#!/usr/bin/env python3
"""Writes a small random graph and scripts that clash on it, for check_run.py to check a run of them.

    random_scripts.py SEED FOLDER

Writes v, e, s1 to s4, and `options` with the options of the run. The same seed gives the same files. The graph has
few vertices and the scripts have many short transactions, so that those of different scripts want the same edges. Of
five seeds one has scripts that fill the single leaf of their store, so that some lines may be answered `full`.
"""

import pathlib
import random
import sys

SCRIPTS, TRANSACTIONS, MOST_LINES = 4, 120, 10
FIRST_VERTICES, VERTICES = 6, 8  # vertices 7 and 8 aren't there at first
EDGES = 8
KERNELS = ("bfs", "fastbfs", "wcc", "cdlp", "sssp", "fastsssp")
# how often each line comes, of 100
LINES = {"edge": 18, "set": 20, "drop": 18, "vertex": 8, "unvertex": 10, "weight": 9, "neighbours": 9, "count": 6,
         "kernel": 2}


class Script:
    """The lines of one script, as they are drawn."""

    def __init__(self, job, draw):
        self.job, self.draw, self.lines, self.results = job, draw, [], 0

    def vertex(self):
        return self.draw.randint(1, VERTICES)

    def add_line(self):
        word = self.draw.choices(list(LINES), list(LINES.values()))[0]
        if word == "kernel":
            self.lines.append(self.kernel(self.draw.choice(KERNELS)))
        elif word == "count":
            self.lines.append(word)
        elif word in ("vertex", "unvertex", "neighbours"):
            self.lines.append(f"{word} {self.vertex()}")
        elif word in ("set", "edge"):
            self.lines.append(f"{word} {self.vertex()} {self.vertex()} {self.draw.randint(0, 30)}")
        else:
            self.lines.append(f"{word} {self.vertex()} {self.vertex()}")

    def kernel(self, word):
        """A kernel's line, with a result of its own."""
        self.results += 1
        numbers = {"wcc": [], "cdlp": [self.draw.randint(0, 5)], "fastsssp": [self.vertex(), self.draw.randint(1, 9)]}
        return " ".join(map(str, [word, *numbers.get(word, [self.vertex()]), f"result.{self.job}.{self.results}"]))

    def add_transaction(self):
        self.lines.append("begin")
        for _ in range(self.draw.randint(1, MOST_LINES)):
            self.add_line()
        self.lines.append("abort" if self.draw.random() < 0.15 else "commit")

    def add_growth(self):
        """A transaction that adds vertices which no other script adds."""
        first = 1000 * self.job + len(self.lines)
        self.lines += ["begin", *(f"vertex {first + place}" for place in range(12)), "commit"]


def options_of(seed, draw):
    options = [*draw.choice([[], ["--directed"]]), *draw.choice([[], ["--weights", "1"]])]
    return options + (["--leaves", "1"] if is_crowded(seed) else [])


def is_crowded(seed):
    return seed % 5 == 0


def edges_of(draw):
    pairs = [(source, target) for target in range(1, FIRST_VERTICES + 1) for source in range(1, target)]
    return [f"{source} {target} {draw.randint(0, 9)}.{draw.randint(0, 9)}" for source, target in draw.sample(pairs, EDGES)]


def script_of(seed, job, draw):
    script = Script(job, draw)
    for place in range(TRANSACTIONS):
        if is_crowded(seed) and place % 15 == 0:
            script.add_growth()
        script.add_transaction()
    return script.lines


def main():
    seed, folder = int(sys.argv[1]), pathlib.Path(sys.argv[2])
    draw = random.Random(seed)
    texts = {"options": [" ".join(options_of(seed, draw))], "v": map(str, range(1, FIRST_VERTICES + 1)), "e": edges_of(draw)}
    for job in range(1, SCRIPTS + 1):
        texts[f"s{job}"] = script_of(seed, job, draw)
    for name, lines in texts.items():
        (folder / name).write_text("".join(f"{line}\n" for line in lines), encoding="ascii")


if __name__ == "__main__":
    if len(sys.argv) != 3:
        sys.exit(__doc__)
    main()
