#!/usr/bin/env python3
"""Fails the calls of the built program one at a time, and looks how each run ends.

    calls.py [--most N]

A library in C (fail.c) is put before the C library. It fails call 1, call 2 and so on
of one kind: opens, reads, writes, closes, syncs, allocations and starts of threads;
or all allocations from one on; or has a call interrupted, or move one byte alone. A
run must then end as if nothing had failed, or with the status of that failure and just
the files that docs/FORMATS.md says. Of more than N calls of a kind (400) so many are
failed, evenly spread. Of a large graph only opens, reads and writes fail.
"""

import argparse
import os
import pathlib
import re
import subprocess
import tempfile
import typing

from recover import opened
from trial import Trials, bytes_of, remove, run_program, write_texts

SOURCES = {
    "v": "1\n2\n3\n4\n",
    "e": "1 2\n2 3\n",
    "search": "begin\nbfs 1 hops\ncommit\n",
    "north": "begin\nset 1 2 9\ncommit\nbegin\nvertex 5\nedge 5 4 7\ncommit\n",
    "south": "begin\nset 1 2 8\ncommit\n",
    "none.v": "",
    "none.e": "",
    "fill": "".join(["begin\n", *(f"vertex {vertex}\n" for vertex in range(1, 221)), "commit\n"]),
    # no turn of the service, which may make room or not where memory is refused
    "turns": "1\n" * 222,
}
KERNELS = {
    "one": "begin\nbfs 1 one.bfs\nwcc one.wcc\ncommit\n",
    "two": "begin\ncdlp 3 two.cdlp\nfastbfs 2 two.fastbfs\ncommit\n",
    "three": "begin\nsssp 4 three.sssp\ncount\ncommit\n",
    "four": "begin\nfastsssp 4 2 four.fastsssp\nneighbours 7\ncommit\n",
}
FOUR = {
    "components": "begin\nwcc o\ncommit\n",
    **{f"late{n}": f"begin\nvertex {20000 + n}\nedge {20000 + n} 1\ncommit\n" for n in (1, 2, 3)},
}
GRAPH = ["run", "--vertices", "v", "--edges", "e", "--journal", "j"]
LARGE = ["run", "--vertices", "lv", "--edges", "le", "--journal", "j"]
VERTICES = 10_000
HUGE_MADE = ["make", "--seed", "7", "--vertices", str(VERTICES), "--edges", "100000"]
HUGE = ["run", "--vertices", "hv", "--edges", "he", "--journal", "j"]
SMALL = ["run", "--vertices", "none.v", "--edges", "none.e", "--journal", "j", "--leaves", "1", "--schedule", "turns"]
TABLES = ["one.bfs", "one.wcc", "two.cdlp", "two.fastbfs", "three.sssp", "four.fastsssp"]
REPORTS = [f"{name}.report" for name in KERNELS]
FOUR_REPORTS = [f"{name}.report" for name in FOUR]


class Case(typing.NamedTuple):
    """A call: its words, its outputs in the order in which they are written, its journal file, if it has one, its status
    where nothing fails, and whether its scripts may commit in any order, so that texts differ from run to run."""

    name: str
    words: list
    outputs: list
    keep: str = ""
    status: int = 0
    is_loose: bool = False


MAKE = ["make", "--seed", "1", "--vertices", "9", "--edges", "9", "--out", "mv", "--edges-out", "me"]
CASES = [
    Case("one search", [*GRAPH, "search"], ["j", "search.report", "hops"]),
    Case("one search on threads", [*GRAPH, "--threads", "2", "search"], ["j", "search.report", "hops"]),
    Case("two scripts", [*GRAPH, "north", "south"], ["j", "north.report", "south.report"]),
    Case("two scripts, kept", [*GRAPH, "--keep", "k", "north", "south"], ["j", "north.report", "south.report"], "k"),
    Case("a store that is full", [*SMALL, "fill"], ["j", "fill.report"], status=6),
    Case("kernels", [*LARGE, *KERNELS], ["j", *REPORTS, *TABLES]),
    Case("kernels on threads", [*LARGE, "--threads", "4", *KERNELS], ["j", *REPORTS, *TABLES]),
    Case("four scripts on threads", [*HUGE, "--threads", "4", *FOUR], ["j", *FOUR_REPORTS, "o"], is_loose=True),
    Case("make", MAKE, ["mv", "me"]),
    Case("recover", ["recover", "--keep", "kept", "--journal", "back"], ["back"]),
]


class Failure(typing.NamedTuple):
    """What fails: a kind of call, how, whether all later ones fail too, and which statuses may come of it beside that
    of a run of which nothing fails."""

    kind: str
    by: str
    goes_on: bool
    statuses: tuple


FAILURES = [
    Failure("open", "error", False, (4, 5)),
    Failure("open", "signal", False, ()),
    Failure("read", "error", False, (4, 5)),
    Failure("read", "signal", False, ()),
    Failure("read", "short", True, ()),
    Failure("write", "error", False, (5,)),
    Failure("write", "error", True, (5,)),
    Failure("write", "signal", False, ()),
    Failure("write", "short", True, ()),
    Failure("close", "error", False, ()),
    Failure("sync", "error", False, (5,)),
    Failure("memory", "error", False, (3,)),
    Failure("memory", "error", True, (3,)),
    Failure("thread", "error", False, (3,)),
]


class Whole(typing.NamedTuple):
    """What a run says and writes of which no call fails."""

    said: bytes
    texts: dict


def whole_of(case):
    """A run of which no call fails."""
    status, said = run_program(case.words)
    if status != case.status:
        raise SystemExit(f"calls.py: {case.name} ends with status {status}")
    return Whole(said, {name: bytes_of(name) for name in case.outputs})


def failures_of(case):
    """What fails in a case: of a large graph only opens, reads and writes, one at a time."""
    if not case.is_loose:
        return FAILURES
    return [it for it in FAILURES if it.kind in ("open", "read", "write") and it.by == "error" and not it.goes_on]


def shape_of(case, name, text):
    """What a whole text has in each run: all of it, or what doesn't depend on who commits first."""
    if text is None or not case.is_loose:
        return text
    lines = text.splitlines(keepends=True)
    if name == case.outputs[0]:
        return sorted(line for line in lines if not line.startswith(b"commit "))
    if name == "o":
        return lines[:VERTICES]
    return re.sub(rb"[0-9]+", b"0", text)


def is_front(case, name, found, text):
    """Whether what was found of an output may be the front of its text, as far as that is the same in each run."""
    if case.is_loose and name == case.outputs[0]:
        same = text.index(b"\ncommit 2 ")
        return text[:same].startswith(found[:same])
    if case.is_loose:
        return re.sub(rb"[0-9]+", b"0", text).startswith(re.sub(rb"[0-9]+", b"0", found))
    return text.startswith(found)


def fault_of_outputs(case, whole, name):
    """What is wrong with the outputs behind a failure of the one of this name, or of none of them."""
    place = case.outputs.index(name) if name in case.outputs else 0
    for number, output in enumerate(case.outputs):
        found = bytes_of(output)
        text = whole.texts[output]
        if name in case.outputs and number < place and shape_of(case, output, found) != shape_of(case, output, text):
            return f"{output} isn't whole"
        if output == name and found is not None and not is_front(case, output, found, text):
            return f"{output} has no front of its text"
        if (name not in case.outputs or number > place) and found is not None:
            return f"{output} was made"
    return None


def fault_of_kept(case, whole):
    """What is wrong with the journal file behind a failure: what it stands for is a front of the whole journal."""
    text = opened(bytes_of(case.keep) or b"") if case.keep else b""
    return None if whole.texts[case.outputs[0]].startswith(text or b"") else f"{case.keep} has no front of the journal"


def fault_of_end(case, whole, failure, ended):
    """What is wrong with how a call ended of which something failed, or None."""
    status, said = ended
    if status == case.status:
        same = [shape_of(case, it, bytes_of(it)) == shape_of(case, it, text) for it, text in whole.texts.items()]
        right = said == whole.said and all(same)
        return None if right else f"status {status}, said {said!r}, and another end than the whole one"
    if status not in failure.statuses:
        return f"status {status}, said {said!r}"
    if status == 3:
        fault = None if said == b"no memory\n" else f"said {said!r}"
        return fault or fault_of_outputs(case, whole, "") or fault_of_kept(case, whole)
    verb, name = said.decode("ascii", "replace").rstrip("\n").rsplit(" ", 1)
    names = [*case.outputs, case.keep] if status == 5 else [word for word in case.words if not word.startswith("-")]
    if verb != {4: "read failed", 5: "write failed"}[status] or name not in names:
        return f"status {status}, said {said!r}"
    return fault_of_outputs(case, whole, name if status == 5 else "") or fault_of_kept(case, whole)


def settings_of(library, failure, call):
    """The environment in which this call fails."""
    last = 10**9 if failure.goes_on else call
    numbers = {"FAIL_FROM": str(call), "FAIL_TO": str(last)}
    return {"LD_PRELOAD": library, "FAIL_CALL": failure.kind, "FAIL_BY": failure.by, "FAIL_TOLD": "told", **numbers}


def try_call(case, library, failure, call):
    """How the case ends where this call fails, and whether there was such a call."""
    remove([*case.outputs, "told", *([case.keep] if case.keep else [])])
    ended = run_program(case.words, settings_of(library, failure, call))
    return ended, bytes_of("told") is not None


def calls_of(case, library, failure):
    """How many calls of this kind the case makes, as one that fails late tells."""
    few, many = 0, 1
    while try_call(case, library, failure, many)[1]:
        few, many = many, 2 * many
    while few + 1 < many:
        middle = (few + many) // 2
        if try_call(case, library, failure, middle)[1]:
            few = middle
        else:
            many = middle
    return few


def chosen(count, most):
    """The numbers from 1 to the count, or so many of them, evenly spread."""
    if count <= most:
        return range(1, count + 1)
    return sorted({1 + place * (count - 1) // (most - 1) for place in range(most)})


def main():
    """Tries all of them, and says how many and how many went wrong."""
    parser = argparse.ArgumentParser(description=__doc__, formatter_class=argparse.RawDescriptionHelpFormatter)
    parser.add_argument("--most", type=int, default=400)
    most = parser.parse_args().most
    trials = Trials("failing calls")
    source = pathlib.Path(__file__).resolve().parent / "fail.c"
    with tempfile.TemporaryDirectory() as folder:
        library = f"{folder}/fail.so"
        subprocess.run(["cc", "-O1", "-shared", "-fPIC", "-o", library, source, "-ldl"], check=True)
        os.chdir(folder)
        write_texts({**SOURCES, **KERNELS, **FOUR})
        run_program(["make", "--seed", "7", "--vertices", "60", "--edges", "200", "--out", "lv", "--edges-out", "le"])
        run_program([*HUGE_MADE, "--out", "hv", "--edges-out", "he"])
        run_program([*GRAPH, "--keep", "kept", "north", "south"])
        for case in CASES:
            remove([case.keep] if case.keep else [])
            whole = whole_of(case)
            for failure in failures_of(case):
                for call in chosen(calls_of(case, library, failure), most):
                    ended, _ = try_call(case, library, failure, call)
                    name = f"{case.name}, {failure.kind} {call}{' on' if failure.goes_on else ''} by {failure.by}"
                    trials.count(name, fault_of_end(case, whole, failure, ended))
        os.chdir("/")
    trials.end()


if __name__ == "__main__":
    main()
