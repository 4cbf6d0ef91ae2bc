#!/usr/bin/env python3
"""Kills runs with `--keep` at moments by chance, and has `teseo recover` read back what they leave.

    kills.py [--runs N] [--seed S]

Each run makes 40,000 small transactions on a graph of 1,000 vertices and 2,000
edges. Just before it is killed its journal file is read: the commits that it
stands for then must be in what is read back, and what is read back must be a front
of the journal that the whole run writes. TESEO names the program.
"""

import argparse
import os
import random
import signal
import subprocess
import sys
import tempfile
import time

from recover import opened

TRANSACTIONS = 40000
LONGEST = 3.0


def bytes_of(name):
    """The bytes of a file, or none where there is no such file."""
    try:
        with open(name, "rb") as file:
            return file.read()
    except FileNotFoundError:
        return b""


def run_words(*more):
    """The words of the run."""
    return ["run", "--vertices", "v", "--edges", "e", "--journal", "j", *more, "growth"]


def make_inputs(program):
    """The graph, the script, and the journal of the whole run."""
    words = ["make", "--seed", "7", "--vertices", "1000", "--edges", "2000", "--out", "v", "--edges-out", "e"]
    subprocess.run([program, *words], stdout=subprocess.DEVNULL, check=True)
    with open("growth", "w", encoding="ascii") as script:
        for number in range(1, TRANSACTIONS + 1):
            script.write(f"begin\nvertex {1000 + number}\ncommit\n")
    subprocess.run([program, *run_words()], stdout=subprocess.DEVNULL, check=True)
    return bytes_of("j")


def killed_after(program, seconds):
    """The journal that the file stood for just before the run was killed."""
    with subprocess.Popen([program, *run_words("--keep", "kept")], stdout=subprocess.DEVNULL) as run:
        time.sleep(seconds)
        seen = opened(bytes_of("kept"))
        run.send_signal(signal.SIGKILL)
    return seen


def fault_in(program, whole, seen):
    """What is wrong with what is read back, and how many commits it has."""
    ended = subprocess.run(
        [program, "recover", "--keep", "kept", "--journal", "back"], stdout=subprocess.DEVNULL, check=False
    )
    if seen is None and ended.returncode == 1:
        return None, 0
    back = bytes_of("back")
    if ended.returncode != 0:
        return f"status {ended.returncode}", 0
    if not whole.startswith(back):
        return "no front of the whole journal", 0
    if not back.startswith(seen or b""):
        return "a commit is lost that was on the disk", 0
    return None, back.count(b"commit ")


def main():
    """Kills the runs, and says how many and what was read back."""
    parser = argparse.ArgumentParser(description=__doc__, formatter_class=argparse.RawDescriptionHelpFormatter)
    parser.add_argument("--runs", type=int, default=20)
    parser.add_argument("--seed", type=int, default=1)
    wanted = parser.parse_args()
    source = random.Random(wanted.seed)
    top = os.path.dirname(os.path.dirname(os.path.abspath(__file__)))
    program = os.path.realpath(os.environ.get("TESEO", f"{top}/crates/teseo/out/teseo"))
    wrong = 0
    counts = []
    with tempfile.TemporaryDirectory() as folder:
        os.chdir(folder)
        whole = make_inputs(program)
        for number in range(1, wanted.runs + 1):
            for name in ("kept", "back"):
                if os.path.exists(name):
                    os.remove(name)
            fault, commits = fault_in(program, whole, killed_after(program, source.uniform(0, LONGEST)))
            counts.append(commits)
            if fault is not None:
                wrong += 1
                print(f"run {number}: {fault}")
        os.chdir("/")
    print(f"{wanted.runs} runs were killed, {wrong} wrong; {min(counts)} to {max(counts)} commits were read back")
    sys.exit(wrong != 0)


if __name__ == "__main__":
    main()
