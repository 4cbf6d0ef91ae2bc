#!/usr/bin/env python3
"""Cuts and changes the files that the built program reads, and looks how each run ends.

    inputs.py [--seed S]

Each source of a small run, a graph with weights, two scripts and a schedule, is cut at
each byte, and each of its bytes is replaced by 16 others. Such a run must end with status
0 or 6, and then examples/check_run must find nothing wrong with it; or with status 1, a
line that names a source and a fault, and nothing created. A name of a result that can't be
created gives status 5. No run may take more than a second or 100 MiB.
"""

import argparse
import os
import random
import re
import resource
import tempfile
import time

from trial import Trials, fault_of_run, run_program, write_texts

SOURCES = {
    "v": b"1\n2\n3\n14\n",
    "e": b"1 2 0.5\n2 3 7\n1 14 12.25\n",
    "north": b"begin\nset 1 2 9\nbfs 1 hops\ncommit\nbegin\nvertex 5\nedge 5 3 7\nfastsssp 1 2 ways\nabort\n",
    "south": b"begin\nweight 1 2\ndrop 2 3\ncount\ncommit\nbegin\nunvertex 3\nneighbours 2\ncdlp 3 groups\ncommit\n",
    "turns": b"1\n2\n0\n2\n1\n",
}
GRAPH = ["--vertices", "v", "--edges", "e", "--weights", "2"]
WORDS = ["run", *GRAPH, "--journal", "j", "--schedule", "turns", "north", "south"]
OTHERS = bytes([0, 9, 10, 13, 32, 35, 43, 45, 46, 48, 49, 57, 101, 115, 128, 255])
SAID = re.compile(r"(\S+) line (\d+): [a-z ]+\n|(\S+): too long\n")
MOST_SECONDS = 1.0
MOST_MIB = 100


def damaged(source):
    """The sources with one of them damaged, each with what was done and how often it says the same."""
    for name, text in SOURCES.items():
        for size in range(len(text)):
            yield f"{name} cut to {size} bytes", {**SOURCES, name: text[:size]}
        for place, byte in enumerate(text):
            extra = source.randrange(256)
            for other in [*OTHERS, *([extra] if byte in OTHERS else [])]:
                if other != byte and other != 47:
                    changed = text[:place] + bytes([other]) + text[place + 1 :]
                    yield f"{name}, byte {place} is {other}", {**SOURCES, name: changed}


def fault_of_end(texts, ended, created):
    """What is wrong with how a run of these sources ended."""
    status, said = ended
    if status in (0, 6):
        is_full = any(b"\nfull\n" in open(name, "rb").read() for name in created if name.endswith(".report"))
        return fault_of_run(WORDS, said) if is_full == (status == 6) else f"status {status}"
    if status == 5 and said in (b"write failed .\n", b"write failed ..\n"):
        return None
    found = SAID.fullmatch(said.decode("ascii", "replace"))
    if status != 1 or found is None or created:
        return f"status {status}, said {said!r}, created {sorted(created)}"
    name = found[1] or found[3]
    if name not in texts or (found[2] and not 1 <= int(found[2]) <= texts[name].count(b"\n") + 1):
        return f"said {said!r}"
    return None


def main():
    """Tries all of them, and says how many and how many went wrong."""
    parser = argparse.ArgumentParser(description=__doc__, formatter_class=argparse.RawDescriptionHelpFormatter)
    parser.add_argument("--seed", type=int, default=1)
    wanted = parser.parse_args()
    trials = Trials("damaged sources")
    for what, texts in damaged(random.Random(wanted.seed)):
        with tempfile.TemporaryDirectory() as folder:
            os.chdir(folder)
            write_texts(texts)
            started = time.monotonic()
            ended = run_program(WORDS)
            seconds = time.monotonic() - started
            fault = fault_of_end(texts, ended, set(os.listdir()) - set(texts))
            trials.count(what, fault or (f"{seconds:.2f} s" if seconds > MOST_SECONDS else None))
            os.chdir("/")
    peak = resource.getrusage(resource.RUSAGE_CHILDREN).ru_maxrss // 1024
    trials.count("memory", f"{peak} MiB" if peak > MOST_MIB else None)
    trials.end(f"; {peak} MiB at most")


if __name__ == "__main__":
    main()
