#!/usr/bin/env python3
"""Runs a command several times, and prints its times and its memory.

    measure.py [--runs N] [--remove FILE]... -- COMMAND...

Prints one line of four figures: the seconds of the fastest run, those of the
slowest, the least processor seconds of a run, and the most memory in MiB that
a run held at once, as the operating system counts it (the largest resident
set). Each FILE, where there is one, is removed before each run, so that each
begins with no outputs. What the command prints is passed to the standard error
stream.

The count of memory begins with what this script itself holds when it starts
the command, some 10 to 15 MiB, so a smaller figure cannot come.
"""

import argparse
import contextlib
import os
import sys
import time
import typing

KIBIBYTES_IN_A_MEBIBYTE = 1024


class Run(typing.NamedTuple):
    """What one run took: seconds by the clock and of the processor, and its largest resident set."""

    seconds: float
    processor_seconds: float
    resident_kibibytes: int


def remove(files):
    """Removes those of the files that there are."""
    for file in files:
        with contextlib.suppress(FileNotFoundError):
            os.remove(file)


def run_once(command):
    """Runs the command once, and measures it."""
    to_standard_error = [(os.POSIX_SPAWN_DUP2, 2, 1)]
    begun = time.monotonic()
    process = os.posix_spawnp(
        command[0], command, os.environ, file_actions=to_standard_error
    )
    _, status, usage = os.wait4(process, 0)
    seconds = time.monotonic() - begun
    if status != 0:
        ended = os.waitstatus_to_exitcode(status)
        sys.exit(f"measure.py: {command[0]} ended with status {ended}")
    return Run(seconds, usage.ru_utime + usage.ru_stime, usage.ru_maxrss)


def read_arguments():
    """The command line's arguments."""
    parser = argparse.ArgumentParser(
        description=__doc__, formatter_class=argparse.RawDescriptionHelpFormatter
    )
    parser.add_argument("--runs", type=int, default=3, metavar="N")
    parser.add_argument("--remove", action="append", default=[], metavar="FILE")
    parser.add_argument("command", nargs="+", metavar="COMMAND")
    given = parser.parse_args()
    if given.runs < 1:
        parser.error("at least one run is needed")
    return given


def main():
    given = read_arguments()
    runs = []
    for _ in range(given.runs):
        remove(given.remove)
        runs.append(run_once(given.command))
    seconds = [run.seconds for run in runs]
    processor = min(run.processor_seconds for run in runs)
    memory = max(run.resident_kibibytes for run in runs) / KIBIBYTES_IN_A_MEBIBYTE
    print(f"{min(seconds):.3f} {max(seconds):.3f} {processor:.3f} {memory:.0f}")


if __name__ == "__main__":
    main()
