#!/usr/bin/env python3
"""Draws docs/reads.svg from the first table of docs/BENCHMARKS.md, "Reads beside writers": point reads a second by one,
two and three readers, with and without a writer beside them, and those of an ordered map under a lock.

    bench/plot_reads.py

It is Python with its standard library alone, is run by hand, and not by the gate."""

import pathlib
import re
import sys

TOP = pathlib.Path(__file__).resolve().parent.parent
sys.dont_write_bytecode = True
sys.path.insert(0, str(TOP / "examples" / "live"))
from picture import BLUE, GREY, LEFT, LINE, RED, WIDTH, Picture  # noqa: E402

SECTION = "## Reads beside writers"
COLOURS = {"nobody": BLUE, "a writer": RED}
TITLE = "Millions of point reads a second, alone and beside a writer"
DESCRIPTION = ("Reads by one, two and three threads, of a settled store of 8,000,000 rows and of an ordered map under a "
               "lock. Those of the store lose a twentieth at most beside a writer, which makes more than 230,000 transactions "
               "a second meanwhile; that of the map makes 10,500 at most.")


def rows_of_table():
    """Of each row: how many read, who is beside them, and the reads of the store and of the map, in millions a second."""
    section = (TOP / "docs" / "BENCHMARKS.md").read_text(encoding="utf-8").partition(SECTION)[2]
    for line in section.partition("\nMillions of rows")[0].splitlines():
        cells = [cell.strip() for cell in line.strip("|").split("|")]
        if re.fullmatch(r"[123]", cells[0]):
            yield int(cells[0]), cells[1], float(cells[2]), float(cells[-1])


def main():
    rows = list(rows_of_table())
    most = max(max(store, other) for _, _, store, other in rows)
    picture = Picture()
    for title, place in (("This store", 2), ("An ordered map under a lock", 3)):
        picture.title(title)
        for row in rows:
            name = f"{row[0]} reader{'s' * (row[0] > 1)}" if row[1] == "nobody" else "and a writer"
            picture.row(name, [(WIDTH * row[place] / most, COLOURS[row[1]])], f"{row[place]:.2f}")
        picture.y += LINE // 2
    picture.text(LEFT, "millions of reads a second", colour=GREY)
    picture.y += LINE
    (TOP / "docs" / "reads.svg").write_text(picture.written(TITLE, DESCRIPTION), encoding="utf-8")


if __name__ == "__main__":
    main()
