#!/usr/bin/env python3
"""Runs random scripts of all commands on 1, 2, 4 and 8 threads, and looks at each run from outside.

    threads.py [--runs N] [--first S]

Four scripts that clash, on a small graph, are made from each of N seeds (30) from S on
(1001), and run by turns, by turns with --serial, and on so many threads. Of each run
examples/check_run must find all answers right and the journal legal.
"""

import argparse
import os
import pathlib
import subprocess
import sys
import tempfile

from trial import TOP, Trials, fault_of_run, run_program

MAKER = TOP / "examples/check_run/random_scripts.py"
SCRIPTS = ["s1", "s2", "s3", "s4"]
SETTINGS = [[], ["--serial"], *(["--threads", str(threads)] for threads in (1, 2, 4, 8))]


def fault_of_end(words):
    """What is wrong with a run of these words, or None."""
    status, said = run_program(words)
    if status not in (0, 6):
        return f"status {status}, said {said!r}"
    is_full = any("\nfull\n" in pathlib.Path(f"{script}.report").read_text(encoding="ascii") for script in SCRIPTS)
    return f"status {status}" if is_full != (status == 6) else fault_of_run(words, said)


def main():
    """Runs all of them, and says how many and how many were wrong."""
    parser = argparse.ArgumentParser(description=__doc__, formatter_class=argparse.RawDescriptionHelpFormatter)
    parser.add_argument("--runs", type=int, default=30)
    parser.add_argument("--first", type=int, default=1001)
    wanted = parser.parse_args()
    trials = Trials("random runs")
    for seed in range(wanted.first, wanted.first + wanted.runs):
        for settings in SETTINGS:
            with tempfile.TemporaryDirectory() as folder:
                os.chdir(folder)
                subprocess.run([sys.executable, MAKER, str(seed), "."], check=True)
                options = pathlib.Path("options").read_text(encoding="ascii").split()
                words = ["run", "--vertices", "v", "--edges", "e", "--journal", "j", *options, *settings, *SCRIPTS]
                trials.count(f"seed {seed}, {' '.join([*options, *settings])}", fault_of_end(words))
                os.chdir("/")
    trials.end()


if __name__ == "__main__":
    main()
