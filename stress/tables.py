#!/usr/bin/env python3
"""Compares the tables of the kernels on 1, 2, 3 and 4 cores, to the byte.

    tables.py [--most N] [--seed S]

On graphs of 10, 1,000 and 1,000,000 vertices (those up to N, all), each with three and a
half times as many weighted edges, once without directions and once with, a run makes the
table of each kernel. On any number of cores that the system has, and each time on more
than before, all tables must be those of one core; and those of the fast kernels must be
the ones of the kernels that they stand for.
"""

import argparse
import os
import pathlib
import random
import subprocess
import sys
import tempfile

from trial import PROGRAM, TOP, Trials, bytes_of

MAKER = TOP / "bench/generate.py"
SIZES = [10, 1_000, 1_000_000]
CORES = [1, 2, 3, 4]
MOST_SECONDS = 600
SCRIPT = """begin
bfs 1 t-bfs
fastbfs 1 t-fastbfs
wcc t-wcc
cdlp 10 t-cdlp
sssp 1 t-sssp
fastsssp 1 50000 t-fastsssp
fastsssp 1 4294967295 t-one-bucket
commit
"""
TABLES = [line.split()[-1] for line in SCRIPT.splitlines() if " t-" in line]
SAME = [("t-fastbfs", "t-bfs"), ("t-fastsssp", "t-sssp"), ("t-one-bucket", "t-sssp")]


def make(vertices, seed):
    """Makes the vertex file v and the edge file e, with weights from 1 to 1,000,000, in this folder."""
    edges = min(vertices * 7 // 2, vertices * (vertices - 1) // 2)
    words = ["--kind", "power-law", "--vertices", str(vertices), "--edges", str(edges), "--seed", str(seed)]
    subprocess.run([sys.executable, MAKER, *words, "--out", "g"], check=True)
    os.rename("g.v", "v")
    weight = random.Random(seed)
    with open("g.e", encoding="ascii") as plain, open("e", "w", encoding="ascii") as weighted:
        for line in plain:
            weighted.write(f"{line.rstrip()} {weight.randint(1, 1_000_000)}\n")
    pathlib.Path("s").write_text(SCRIPT, encoding="ascii")


def tables_on(cores, options):
    """The tables of a run on so many cores, by their names, or what is wrong with it."""
    for name in TABLES:
        pathlib.Path(name).unlink(missing_ok=True)
    words = [PROGRAM, "run", "--vertices", "v", "--edges", "e", "--journal", "j", "--weights", "0", *options, "s"]
    some = sorted(os.sched_getaffinity(0))[:cores]
    ended = subprocess.run(words, stdout=subprocess.DEVNULL, timeout=MOST_SECONDS, check=False,
                           preexec_fn=lambda: os.sched_setaffinity(0, some))
    if ended.returncode != 0:
        return None, f"status {ended.returncode}"
    return {name: bytes_of(name) for name in TABLES}, None


def fault_of(first, tables, fault):
    """What is wrong with tables, beside those of one core, or None."""
    if fault is not None:
        return fault
    for name, text in tables.items():
        if not text:
            return f"{name} is empty or isn't there"
        if text != first[name]:
            return f"{name} differs from that of one core"
    for fast, plain in SAME:
        if tables[fast] != tables[plain]:
            return f"{fast} differs from {plain}"
    return None


def main():
    """Runs all of them, and says how many and how many were wrong."""
    parser = argparse.ArgumentParser(description=__doc__, formatter_class=argparse.RawDescriptionHelpFormatter)
    parser.add_argument("--most", type=int, default=SIZES[-1])
    parser.add_argument("--seed", type=int, default=1)
    wanted = parser.parse_args()
    trials = Trials("runs of all kernels")
    offered = len(os.sched_getaffinity(0))
    for vertices in (size for size in SIZES if size <= wanted.most):
        with tempfile.TemporaryDirectory() as folder:
            os.chdir(folder)
            make(vertices, wanted.seed)
            for options in ([], ["--directed"]):
                first = None
                for cores in (cores for cores in CORES if cores <= offered):
                    tables, fault = tables_on(cores, options)
                    first = first or tables
                    trials.count(f"{vertices} vertices, {' '.join([*options, str(cores)])} cores", fault_of(first, tables, fault))
            os.chdir("/")
    trials.end()


if __name__ == "__main__":
    main()
