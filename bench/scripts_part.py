#!/usr/bin/env python3
"""Times the scripts' part of runs with --threads: from the first thread's begin to the end of each one.

    scripts_part.py PROGRAM TIMES -- run --vertices V --edges E --journal J --threads N SCRIPT..

Runs the program so often and prints a line for each run: after how many seconds of its part after the load the first
thread had no script any more, the second, and so on to the last. What it takes stands in `traces.py`. Reports and the
journal of a run are removed before the next.
"""

from traces import run_often


def ends_of(events):
    """After how long each thread of the scripts' part has none any more."""
    begun = min(time for time, _, _ in events)
    last, ends = {}, []
    for time, name, thread in events:
        # A thread that leaves what it has just entered has run its scripts; the others wait for two of these.
        if name == "leave" and last[thread] == "enter":
            ends.append(time - begun)
        last[thread] = name
    return sorted(ends)


if __name__ == "__main__":
    run_often("thread_runner::driver::run_blocks", ends_of)
