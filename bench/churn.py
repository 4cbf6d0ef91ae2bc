#!/usr/bin/env python3
"""Runs bench_engine with a sixth number, or bench_workers with the word churn, and prints a row of a table for each line of it.

    churn.py [--kept BYTES] -- COMMAND...

A row has how many transactions were made so far, how many a second in the
tenth of the run that ended, what the store holds then (undo records, retired
leaves, leaves in use), the memory of the whole process in MiB, as Linux
counts its resident set when the line arrives, and what of it is left without
what a run keeps of each transaction to its end, so many bytes: in bench_engine
152, the journal and the list of what the pass did.
"""

import argparse
import re
import subprocess
import sys

KIBIBYTES_IN_A_MEBIBYTE = 1024
BYTES_IN_A_MEBIBYTE = 1024 * 1024

# What a transaction of one write leaves in the journal (its commit and the
# list of its write), in the lists of its pass (its write and the number of
# its writes), and of its stamp.
KEPT_BYTES = (48 + 48) + (32 + 8) + 16

LINE = re.compile(
    r"churn (?P<made>\d+) (?P<rate>\d+) undo (?P<undo>\d+)"
    r" retired (?P<retired>\d+) leaves (?P<leaves>\d+)"
)


def resident_mebibytes(process):
    """The resident set of a process that runs."""
    with open(f"/proc/{process}/status", encoding="ascii") as status:
        for line in status:
            if line.startswith("VmRSS:"):
                return int(line.split()[1]) // KIBIBYTES_IN_A_MEBIBYTE
    return 0


def print_rows(command, kept):
    """Runs the command, and prints a row for each of its lines."""
    made = 0
    with subprocess.Popen(command, stdout=subprocess.PIPE, text=True) as process:
        for line in process.stdout:
            found = LINE.match(line)
            if not found:
                sys.exit(f"churn.py: not a line that tells of a store: {line!r}")
            made += int(found["made"])
            memory = resident_mebibytes(process.pid)
            rest = memory - made * kept // BYTES_IN_A_MEBIBYTE
            print(
                f"| {made:8d} | {found['rate']:>8} | {found['undo']:>8}"
                f" | {found['retired']:>7} | {found['leaves']:>6}"
                f" | {memory:6d} | {rest:6d} |",
                flush=True,
            )
    if process.returncode != 0:
        sys.exit(f"churn.py: {command[0]} ended with status {process.returncode}")


def main():
    """Reads the command line, and prints the rows."""
    parser = argparse.ArgumentParser(
        description=__doc__, formatter_class=argparse.RawDescriptionHelpFormatter
    )
    parser.add_argument("--kept", type=int, default=KEPT_BYTES, metavar="BYTES")
    parser.add_argument("command", nargs="+", metavar="COMMAND")
    words = parser.parse_args()
    print_rows(words.command, words.kept)


if __name__ == "__main__":
    main()
