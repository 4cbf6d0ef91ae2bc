#!/usr/bin/env python3
"""Makes roads.v and roads.e of this folder from junctions.csv and roads.csv.

A road is as long as the way between its two junctions, times what the road bends, to a tenth of a metre."""

import csv
import math
import pathlib

HERE = pathlib.Path(__file__).resolve().parent


def rows_of(name):
    with open(HERE / name, encoding="utf-8", newline="") as file:
        yield from csv.DictReader(file)


def main():
    at = {row["id"]: (float(row["x"]), float(row["y"])) for row in rows_of("junctions.csv")}
    (HERE / "roads.v").write_text("".join(f"{junction}\n" for junction in at))
    lines = ["# junction, junction, metres\n"]
    for row in rows_of("roads.csv"):
        metres = math.dist(at[row["a"]], at[row["b"]]) * float(row["bend"])
        lines.append(f"{row['a']} {row['b']} {metres:.1f}\n")
    (HERE / "roads.e").write_text("".join(lines))


if __name__ == "__main__":
    main()
