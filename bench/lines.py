#!/usr/bin/env python3
"""Times the lines of runs with --threads that take long, as those of kernels do: each from its begin to its text.

    lines.py PROGRAM TIMES -- run --vertices V --edges E --journal J --threads N SCRIPT..

Runs the program so often and prints a line for each run: the seconds of each line of its scripts that took three
milliseconds or more, in the order of their ends. What it takes stands in `traces.py`. Reports and the journal of a run
are removed before the next, and its tables are written over.
"""

from traces import run_often

LEAST = 0.003


def lengths_of(events):
    """How long each long line took."""
    begun, lengths = {}, []
    for time, name, thread in events:
        if name == "enter":
            begun[thread] = time
        elif time - begun[thread] >= LEAST:
            lengths.append(time - begun[thread])
    return lengths


if __name__ == "__main__":
    run_often("Job::take_in_parts", lengths_of)
