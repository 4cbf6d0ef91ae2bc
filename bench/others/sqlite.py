#!/usr/bin/env python3
"""Measures SQLite on a graph in teseo's files: load, search, and transactions of one edge, in memory, asked from Python.

    sqlite.py GRAPH ROOT [FOLDER]

The graph has no directions. It stands in one table of arcs, both ways round, that is ordered by source and target. The search goes
level by level, a statement each. A transaction makes a change of GRAPH.changes, where there is one, which stores.h tells: it looks up
both ends, and then adds, sets or drops both arcs. Prints a line for each step: microseconds of the search, and of the others how many a second; `sum` is
that of stores.h. With FOLDER the search's table is written there."""

import itertools
import os
import pathlib
import sqlite3
import sys
import time

NO_WALK = 9223372036854775807
ADD, SET, DROP = range(3)


def numbers_of(name):
    with open(name, encoding="ascii") as file:
        for line in file:
            yield tuple(map(int, line.split()))


def load(base, vertices, arcs):
    base.execute("CREATE TABLE vertices (id INTEGER PRIMARY KEY)")
    base.execute("CREATE TABLE arcs (source INTEGER, target INTEGER, weight INTEGER, PRIMARY KEY (source, target)) WITHOUT ROWID")
    with base:
        base.execute("BEGIN")
        base.executemany("INSERT INTO vertices VALUES (?)", vertices)
        base.executemany("INSERT INTO arcs VALUES (?, ?, ?)", arcs)
    return len(vertices) + len(arcs)


def search(base, root):
    """The levels of the vertices that the search from the root reaches."""
    base.execute("CREATE TEMP TABLE reached (id INTEGER PRIMARY KEY, level INTEGER)")
    base.execute("INSERT INTO reached VALUES (?, 0)", (root,))
    for level in itertools.count():
        found = base.execute(
            "INSERT OR IGNORE INTO reached SELECT target, ? FROM reached JOIN arcs ON source = id WHERE level = ?",
            (level + 1, level))
        if found.rowcount <= 0:
            return dict(base.execute("SELECT id, level FROM reached"))


def make(base, act, source, target):
    """Makes a change in a transaction of its own. Whether it was made."""
    base.execute("BEGIN")
    ends = base.execute("SELECT count(*) FROM vertices WHERE id IN (?, ?)", (source, target)).fetchone()[0]
    is_there = base.execute("SELECT count(*) FROM arcs WHERE source = ? AND target = ?", (source, target)).fetchone()[0]
    if ends == 2 and is_there == (act != ADD):
        for arc in ((source, target), (target, source)):
            if act == ADD:
                base.execute("INSERT INTO arcs VALUES (?, ?, 1)", arc)
            elif act == SET:
                base.execute("UPDATE arcs SET weight = 2 WHERE source = ? AND target = ?", arc)
            else:
                base.execute("DELETE FROM arcs WHERE source = ? AND target = ?", arc)
    base.execute("COMMIT")
    return ends == 2 and is_there == (act != ADD)


def scan(base):
    """How many rows there are, and their sum."""
    count = total = 0
    rows = itertools.chain(((vertex, 0, 0) for vertex, in base.execute("SELECT id FROM vertices")),
                           base.execute("SELECT source, target, weight FROM arcs"))
    for source, target, weight in rows:
        count += 1
        total += source * (target + 7) * (weight + 13)
    return count, total % 2**64


def timed(call, *arguments):
    """The answer of a call, and the seconds that it took."""
    begun = time.perf_counter()
    answer = call(*arguments)
    return answer, time.perf_counter() - begun


def main():
    graph, root, *folder = sys.argv[1:]
    vertices = list(numbers_of(f"{graph}.v"))
    arcs = sorted(itertools.chain.from_iterable(
        ((source, target, weight), (target, source, weight)) for source, target, weight in numbers_of(f"{graph}.e")))
    changes = list(numbers_of(f"{graph}.changes")) if os.path.exists(f"{graph}.changes") else []
    base = sqlite3.connect(":memory:", isolation_level=None)
    rows, seconds = timed(load, base, vertices, arcs)
    print("load", round(rows / seconds))
    levels, seconds = timed(search, base, int(root))
    print("bfs", round(seconds * 1e6))
    made, seconds = timed(lambda: sum(make(base, *change) for change in changes))
    print("transactions", round(made / seconds))
    (rows, total), seconds = timed(scan, base)
    print("scan", round(rows / seconds))
    print("rows", rows)
    print("sum", total)
    if folder:
        with open(pathlib.Path(*folder, "bfs"), "w", encoding="ascii") as file:
            file.writelines(f"{vertex} {levels.get(vertex, NO_WALK)}\n" for vertex, in vertices)


if __name__ == "__main__":
    main()
