#!/usr/bin/env python3
"""Draws docs/kernels.svg from the table of docs/BENCHMARKS.md, "Which kernel for which graph": the search and the shortest
paths on a power-law graph and on a path. A bar is the best run, and its lighter end reaches to the worst.

    bench/plot.py

It is Python with its standard library alone, is run by hand, and not by the gate."""

import pathlib
import re
import sys

TOP = pathlib.Path(__file__).resolve().parent.parent
sys.dont_write_bytecode = True
sys.path.insert(0, str(TOP / "examples" / "live"))
from picture import BLUE, GREY, LEFT, LINE, RED, WIDTH, Picture  # noqa: E402

SECTION = "## Which kernel for which graph"
GRAPHS = (("On a power-law graph", 1, BLUE), ("On a path", 2, RED))
TITLE = "Milliseconds of the kernels on a power-law graph and on a path"
DESCRIPTION = ("Best and worst runs of bfs, of sssp, which chooses the width of its buckets by the graph, and of fastsssp with "
               "buckets of several widths. On the power-law graph narrow buckets are the best ones, on the path wide ones.")


def runs_of(text):
    """The best and the worst milliseconds of a cell."""
    numbers = [float(number) for number in re.findall(r"[\d.]+", text.replace(",", ""))]
    return numbers[0], numbers[-1]


def name_of(part):
    """What a row of the picture is called: the kernel, and the width of its buckets if the table has it."""
    width = re.search(r"([\d,]+) wide", part)
    return f"{width[1]} wide" if width else re.search(r"`(\w+)`", part)[1]


def rows_of_table():
    """Of each part its name, and the best and the worst run on either graph."""
    section = (TOP / "docs" / "BENCHMARKS.md").read_text(encoding="utf-8").partition(SECTION)[2]
    for line in section.partition("\n## ")[0].splitlines():
        cells = [cell.strip() for cell in line.strip("|").split("|")]
        if len(cells) == 3 and re.match(r"\d", cells[1]):
            yield name_of(cells[0]), runs_of(cells[1]), runs_of(cells[2])


def main():
    rows = list(rows_of_table())
    most = max(worst for _, *runs in rows for _, worst in runs)
    picture = Picture()
    for title, place, colour in GRAPHS:
        picture.title(title)
        for row in rows:
            best, worst = row[place]
            picture.row(row[0], [(WIDTH * best / most, colour), (WIDTH * (worst - best) / most, GREY)], f"{best:.0f}")
        picture.y += LINE // 2
    picture.text(LEFT, "milliseconds: the best run, and in grey to the worst", colour=GREY)
    picture.y += LINE
    (TOP / "docs" / "kernels.svg").write_text(picture.written(TITLE, DESCRIPTION), encoding="utf-8")


if __name__ == "__main__":
    main()
