"""When a function of a program is entered and left, as the kernel tells it.

That takes Linux with uprobes, its tracing file system at /sys/kernel/tracing, `nm` and `readelf`, and root. The whole
system is traced: events of one process are handed on to each thread that it makes, which makes the threads of kernels
several times as dear.
"""

import contextlib
import os
import pathlib
import re
import subprocess
import sys

TRACING = pathlib.Path("/sys/kernel/tracing")
EVENTS = {"p": "enter", "r": "leave"}
GROUP = "bench"


def words_of(*command):
    """What a command prints."""
    return subprocess.run(command, capture_output=True, text=True, check=True).stdout


def file_place(program, function):
    """Where in the program's file the function begins."""
    lines = [line for line in words_of("nm", program).splitlines() if function in line]
    if not lines:
        sys.exit(f"{program}: it has no {function}")
    address = int(lines[0].split()[0], 16)
    loaded = re.findall(r"LOAD\s+(0x\w+)\s+(0x\w+)\s+0x\w+\s+(0x\w+)", words_of("readelf", "-lW", program))
    for place, start, size in ((int(number, 16) for number in numbers) for numbers in loaded):
        if start <= address < start + size:
            return address - start + place
    sys.exit(f"{program}: {function} is in no part that is loaded")


@contextlib.contextmanager
def probes(program, function):
    """Has the kernel tell when the function is entered and left."""
    place = file_place(program, function)
    for kind, name in EVENTS.items():
        # Not by `open`, which looks for the end of the file: this one has none.
        told = os.open(TRACING / "uprobe_events", os.O_WRONLY | os.O_APPEND)
        os.write(told, f"{kind}:{GROUP}/{name} {program}:{place:#x}\n".encode())
        os.close(told)
    try:
        yield
    finally:
        (TRACING / "events" / GROUP / "enable").write_text("0", encoding="ascii")
        (TRACING / "uprobe_events").write_text("\n", encoding="ascii")


def run_traced(program, words):
    """Runs a program whose probes are set. Gives its events in the order of time: the second, the name, the thread."""
    (TRACING / "trace").write_text("\n", encoding="ascii")
    (TRACING / "events" / GROUP / "enable").write_text("1", encoding="ascii")
    subprocess.run([program, *words], stdout=subprocess.DEVNULL, check=True)
    (TRACING / "events" / GROUP / "enable").write_text("0", encoding="ascii")
    told = (TRACING / "trace").read_text(encoding="utf-8", errors="replace")
    found = re.findall(r"-(\d+)\s+\[\d+\]\s+\S+\s+([\d.]+):\s+(enter|leave):", told)
    return sorted((float(time), name, thread) for thread, time, name in found)


def run_often(function, seconds_of):
    """Runs the program of the command line as often as it says, and prints what is reckoned of each run's events."""
    program, times = str(pathlib.Path(sys.argv[1]).resolve()), int(sys.argv[2])
    words = sys.argv[sys.argv.index("--") + 1:]
    journal = pathlib.Path(words[words.index("--journal") + 1])
    with probes(program, function):
        for _ in range(times):
            for file in [journal, *pathlib.Path(".").glob("*.report")]:
                file.unlink(missing_ok=True)
            print(*(f"{seconds:.3f}" for seconds in seconds_of(run_traced(program, words))), flush=True)
