#!/usr/bin/env python3
"""Builds the programs beside this file, runs them by turns, and prints the tables of docs/COMPARISON.md.

    run.py [--rounds N] [--only NAME,..] [--vertices N] [--edges N] [--changes N] [--seed N] [--folder FOLDER]

Kernels run on a power-law graph, and transactions on one by R-MAT. A program whose package isn't there is left out, and said so.
Before anything is timed, all write their tables once: they are to be the same bytes as those of the built teseo. The stores are to
hold the same rows in the end, and those of teseo too. Times are the least of all rounds, and rates the greatest; networkx and
SQLite run once, before the rounds. The graphs and what the stores write are in FOLDER, which is to be in memory, and are removed
at the end.
"""

import argparse
import collections
import contextlib
import filecmp
import os
import pathlib
import shutil
import subprocess
import sys
import tempfile
import time

HERE = pathlib.Path(__file__).resolve().parent
TOP = HERE.parent.parent
CPP = ["g++", "-O2", "-std=c++20", "-pthread"]
BUILDS = {
    "graphs": [*CPP, "graphs.cpp"],
    "arrays": [*CPP, "-fopenmp", "arrays.cpp"],
    "boost": [*CPP, "boost.cpp"],
    "igraph": [*CPP, "igraph.cpp", "-I/usr/include/igraph", "-ligraph"],
    "graphblas": [*CPP, "graphblas.cpp", "-I/usr/include/suitesparse", "-lgraphblas"],
    "lmdb": [*CPP, "lmdb.cpp", "-llmdb"],
    "wiredtiger": [*CPP, "wiredtiger.cpp", "-lwiredtiger"],
    "ordered_map": ["rustc", "--edition=2021", "-Copt-level=2", "ordered_map.rs"],
}
KERNELS = ("bfs", "wcc", "cdlp", "sssp")
LIBRARIES = ("arrays", "graphblas", "boost", "igraph")
STORES = ("wiredtiger", "lmdb", "ordered_map")
STORE_RUNS = {"1": ["1"], "2": ["2"], "4": ["4"], "scan": ["1", "scan"]}
# beside a scan its writer hardly gets on, so that a run would take minutes
STOPPED_BY_SCANS = "ordered_map"


class Run:
    """A run of a command: its lines as numbers by their names, its seconds, and its greatest memory in MiB."""

    def __init__(self, words, folder):
        begun = time.monotonic()
        process = subprocess.Popen(list(map(str, words)), stdout=subprocess.PIPE, text=True, cwd=folder)
        text = process.stdout.read()
        _, status, usage = os.wait4(process.pid, 0)
        process.returncode = status
        if status != 0:
            sys.exit(f"{' '.join(map(str, words))} ended with {status}")
        self.seconds, self.memory = time.monotonic() - begun, usage.ru_maxrss // 1024
        self.figures = {}
        for line in text.splitlines():
            name, *values = line.split()
            self.figures[name] = int(values[-1]) if values and values[-1].isdecimal() else line


class Best:
    """The best figures of several runs of each program: the least times, and the greatest rates."""

    def __init__(self):
        self.figures = collections.defaultdict(dict)

    def add(self, program, name, value, choose):
        known = self.figures[program]
        known[name] = choose(known.get(name, value), value)

    def add_times(self, program, run):
        for name, value in run.figures.items():
            self.add(program, name, value / 1000, min)
        self.add(program, "memory", run.memory, max)

    def shown(self, program, name, form="{:,.0f}"):
        value = self.figures[program].get(name)
        return "" if value is None else form.format(value)


def load():
    return os.getloadavg()[0]


def build(work, wanted):
    """Builds the programs that are wanted, and answers which there are."""
    built = []
    for name, words in BUILDS.items():
        if name in wanted or name == "graphs":
            ended = subprocess.run([*words, "-o", work / name], cwd=HERE, stderr=subprocess.PIPE, text=True, check=False)
            if ended.returncode == 0:
                built.append(name)
            else:
                print(f"{name} is left out: {ended.stderr.strip().splitlines()[0]}")
    return built


def words_of(name, work):
    return ["python3", HERE / name] if name.endswith(".py") else [work / name]


class Teseo:
    """The built program, and what it says of the graph."""

    def __init__(self, work):
        self.program, self.work = TOP / "crates" / "teseo" / "out" / "teseo", work
        self.tables = work / "teseo.tables"

    def run(self, graph, script, *lines):
        """Runs a script on a graph with weights."""
        (self.work / script).write_text("\n".join([*lines, ""]), encoding="ascii")
        sources = ["--weights", "0", "--vertices", f"{graph}.v", "--edges", f"{graph}.e"]
        return Run([self.program, "run", *sources, "--journal", "journal", script], self.work)

    def write_tables(self):
        self.tables.mkdir()
        lines = ["bfs 1 teseo.tables/bfs", "wcc teseo.tables/wcc", "cdlp 10 teseo.tables/cdlp", "sssp 1 teseo.tables/sssp"]
        self.run("k", "kernels", "begin", *lines, "commit")

    def sum_of_changes(self):
        """The sum of all rows behind the changes, by a script and by fold."""
        lines = {"0": "edge {} {} 1", "1": "set {} {} 2", "2": "drop {} {}"}
        with open(self.work / "s.changes", encoding="ascii") as changes:
            writes = [lines[act].format(source, target) for act, source, target in map(str.split, changes)]
        self.run("s", "changing", *(f"begin\n{write}\ncommit" for write in writes))
        fold = TOP / "examples" / "handoff" / "fold"
        subprocess.run(["make", "-s", "-C", fold], check=True)
        Run([fold / "out" / "fold", "journal", "now.v", "now.e", "--weights", "0"], self.work)
        total = sum(int(line) * 7 * 13 for line in open(self.work / "now.v", encoding="ascii"))
        for line in open(self.work / "now.e", encoding="ascii"):
            source, target, weight = map(int, line.split())
            total += (source * (target + 7) + target * (source + 7)) * (weight + 13)
        return total % 2**64


def compare_tables(teseo, work, programs):
    """Has the programs write their tables, and looks whether they are those of teseo."""
    for name in programs:
        folder = work / f"{name}.tables"
        folder.mkdir()
        kernels = ["bfs"] if name == "sqlite.py" else KERNELS
        run = Run([*words_of(name, work), "k", 1, *([] if name == "sqlite.py" else [",".join(kernels)]), folder], work)
        differing = [kernel for kernel in kernels if not filecmp.cmp(folder / kernel, teseo.tables / kernel, shallow=False)]
        print(f"{name}: {len(kernels)} tables, {', '.join(differing) or 'none'} differ")
        shutil.rmtree(folder)
        if differing:
            sys.exit(1)
        yield name, run


def run_store(name, work, words):
    folder = work / "store"
    folder.mkdir()
    try:
        return Run([work / name, "s", folder, *words], work)
    finally:
        shutil.rmtree(folder)


def measure_round(best, sums, work, programs, words):
    """Runs each program once, by turns."""
    for name in programs:
        if name in LIBRARIES:
            best.add_times(name, Run([work / name, "k", 1, ",".join(KERNELS)], work))
            folder = work / "whole"
            folder.mkdir()
            best.add(name, "whole", Run([work / name, "k", 1, "bfs", folder], work).seconds, min)
            shutil.rmtree(folder)
        if name in STORES:
            for column, run_words in STORE_RUNS.items():
                if column == "scan" and name == STOPPED_BY_SCANS:
                    continue
                run = run_store(name, work, run_words)
                best.add(name, column, run.figures["transactions"] / 1000, max)
                best.add(name, f"{column} load", run.figures["load"] / 1e6, max)
                if column == "scan":
                    best.add(name, "scanned", run.figures["scanned"] / 1e6, max)
                    best.add(name, "torn", run.figures["torn"], max)
                sums[name] = run.figures["sum"]
    if "teseo" in programs:
        measure_teseo(best, work, words)


def measure_teseo(best, work, words):
    """Times teseo's kernels, its transactions, and a whole run of one search."""
    kernels, engine = (TOP / "crates" / name / "out" / name for name in ("bench_kernels", "bench_engine"))
    run = Run([kernels, words.vertices, words.edges, words.seed, 1], work)
    for name, value in run.figures.items():
        best.add("teseo", name, value / 1000, min)
    run = Run([engine, words.vertices, words.edges, words.changes, words.seed, 0, 0, 1], work)
    best.add("teseo", "1", run.figures["transactions"] / 1000, max)
    run = Teseo(work).run("k", "search", "begin", "bfs 1 hops", "commit")
    best.add("teseo", "whole", run.seconds, min)
    best.add("teseo", "memory", run.memory, max)


def print_tables(best, programs):
    print("\n| | Build | Search | Components | Labels, 10 rounds | Shortest paths | Peak MiB | From file to result, s |")
    print("|---|---:|---:|---:|---:|---:|---:|---:|")
    for name in ("teseo", *LIBRARIES, "networkx_kernels.py"):
        if name in programs:
            build_name, paths = ("image", "sssp") if name == "teseo" else ("build", "sssp")
            columns = [best.shown(name, column) for column in (build_name, *KERNELS[:3], paths, "memory")]
            print(f"| {' | '.join([name, *columns, best.shown(name, 'whole', '{:.2f}')])} |")
    print("\n| | One thread | Two | Four | Beside a scan | Rows scanned beside it, M/s |")
    print("|---|---:|---:|---:|---:|---:|")
    for name in ("teseo", *STORES, "sqlite.py"):
        if name in programs:
            columns = [best.shown(name, column) for column in STORE_RUNS] + [best.shown(name, "scanned", "{:.1f}")]
            print(f"| {' | '.join([name, *columns])} |")
    print()
    for name in programs:
        print(name, {key: round(value, 3) for key, value in best.figures[name].items()})


def read_words():
    parser = argparse.ArgumentParser(description=__doc__, formatter_class=argparse.RawDescriptionHelpFormatter)
    for name, number in (("rounds", 3), ("vertices", 1000000), ("edges", 3500000), ("changes", 262144), ("seed", 1)):
        parser.add_argument(f"--{name}", type=int, default=number, metavar="N")
    parser.add_argument("--only", metavar="NAME,..")
    parser.add_argument("--folder", default="/dev/shm" if os.path.isdir("/dev/shm") else None)
    return parser.parse_args()


def main():
    words = read_words()
    wanted = words.only.split(",") if words.only else ["teseo", *LIBRARIES, *STORES, "sqlite.py", "networkx_kernels.py"]
    work = pathlib.Path(tempfile.mkdtemp(dir=words.folder))
    with contextlib.ExitStack() as at_end:
        at_end.callback(shutil.rmtree, work)
        built = build(work, wanted)
        programs = [name for name in wanted if name in built or name == "teseo" or name.endswith(".py")]
        for name, changes in (("k", []), ("s", [words.changes])):
            Run([work / "graphs", name, words.vertices, words.edges, words.seed, *changes], work)
        print(f"{os.cpu_count()} cores, load {load():.1f}; {words.rounds} rounds, seed {words.seed}", flush=True)
        best, sums, teseo = Best(), {}, Teseo(work)
        teseo.write_tables()
        sums["teseo"] = teseo.sum_of_changes()
        others = [name for name in programs if name in LIBRARIES or name.endswith(".py")]
        for name, run in compare_tables(teseo, work, others):
            if name == "sqlite.py":
                best.add(name, "bfs", run.figures["bfs"] / 1000, min)
                run = Run([*words_of(name, work), "s", 1], work)
                sums[name] = run.figures["sum"]
                best.add(name, "1", run.figures["transactions"] / 1000, max)
                best.add(name, "1 load", run.figures["load"] / 1e6, max)
            elif name.endswith(".py"):
                best.add_times(name, run)
        for number in range(words.rounds):
            measure_round(best, sums, work, programs, words)
            print(f"round {number + 1} of {words.rounds}, load {load():.1f}", flush=True)
        print_tables(best, programs)
        print(f"sums of all rows: {sums}")
        return 0 if len(set(sums.values())) == 1 else 1


if __name__ == "__main__":
    sys.exit(main())
