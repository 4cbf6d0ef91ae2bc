#!/usr/bin/env python3
"""Looks whether a fault of a large graph file is told by its line, wherever threads cut the file.

    faults.py PROGRAM

Makes edge files of 100,000 lines in a temporary folder, each with one line that has a fault, or with two of which the
first counts, and runs PROGRAM on them. The faulty line stands at the begin, at the end, and on both sides of each place
at which threads cut the file. A comment in front, which grows by a byte from file to file, moves all lines by up to ten
bytes, so the places lie at each byte of a line. Prints how many files were refused as they must be, and ends with status
1 at the first that wasn't.
"""

import pathlib
import subprocess
import sys
import tempfile

LINES = 100_000
VERTICES = 1_000
# a text is cut so often, by four processors
CUTS = 3
SHIFTS = 10

# the faulty line, and what is said of it, without and with weights
FAULTS = [
    ("1", "missing field", []),
    ("1 2 3 4", "extra field", []),
    ("1 x", "not a number", []),
    ("9223372036854775807 1", "id too large", []),
    ("1 1", "self loop", []),
    ("1 1001", "unknown vertex", []),
    ("1 2", "duplicate edge", []),
    ("1 2", "missing field", ["--weights", "0"]),
    ("1 3 x", "not a number", ["--weights", "0"]),
    ("1 3 .1", "weight too fine", ["--weights", "0"]),
    ("1 3 4294967296", "weight too large", ["--weights", "0"]),
]


def edges(weighted):
    """LINES edges that differ, the first of which is 1 2; without the edge 1 3."""
    pairs = [(u, u + step) for step in range(1, 200) for u in range(1, VERTICES - step)]
    pairs.remove((1, 3))
    weight = " 7" if weighted else ""
    return [f"{u} {v}{weight}" for u, v in pairs[:LINES]]


def cut_lines(text, cuts):
    """The numbers of the lines behind each place at which the text is cut."""
    places = []

    def cut(start, end, left):
        if left == 0:
            return
        feed = text.find(b"\n", start + (end - start) // 2, end)
        if feed >= 0:
            places.append(feed + 1)
            cut(start, feed + 1, left - 1)
            cut(feed + 1, end, left - 1)

    cut(0, len(text), cuts)
    return [text.count(b"\n", 0, place) for place in sorted(places)]


def refusal(program, folder, words):
    """What a run on the graph in the folder says."""
    run = subprocess.run(
        [program, "run", "--vertices", "graph.v", "--edges", "graph.e", "--journal", "journal", *words, "none"],
        cwd=folder,
        capture_output=True,
        text=True,
    )
    return (run.stdout + run.stderr).strip()


def check(program, folder):
    """Counts the files that are refused as they must be, and ends at another."""
    count = 0
    (folder / "none").write_text("begin\ncommit\n")
    (folder / "graph.v").write_text("".join(f"{v}\n" for v in range(1, VERTICES + 1)))
    for line, text, words in FAULTS:
        right = edges(bool(words))
        for shift in range(SHIFTS):
            lines = ["#" + "x" * shift, *right]
            cuts = cut_lines("".join(f"{each}\n" for each in lines).encode(), CUTS)
            places = sorted({2, LINES, *cuts, *(place - 1 for place in cuts)} - {0, 1})
            for place, later in [(place, None) for place in places] + [(cuts[0], cuts[-1])]:
                faulty = list(lines)
                for at in (place, later):
                    if at is not None:
                        faulty[at] = line
                (folder / "graph.e").write_text("".join(f"{each}\n" for each in faulty))
                said = refusal(program, folder, words)
                if not said.endswith(f"graph.e line {place + 1}: {text}"):
                    sys.exit(f"faults.py: {line!r} on line {place + 1} behind {shift} bytes was told as {said!r}")
                count += 1
    return count


if __name__ == "__main__":
    if len(sys.argv) != 2:
        sys.exit(__doc__)
    with tempfile.TemporaryDirectory() as made:
        print(check(str(pathlib.Path(sys.argv[1]).resolve()), pathlib.Path(made)), "files refused at their first fault")
