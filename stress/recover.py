#!/usr/bin/env python3
"""Damages a journal file in many ways, and has `teseo recover` read each of them back.

    recover.py [--seed S]

Makes a run of two scripts that meet, with `--keep`, in a temporary folder, and
then reads back the file cut at each byte, the file with each byte changed to
eight other values, and 500 files of which a run of bytes is noise. What must come
back is reckoned here, by the rules of docs/FORMATS.md and by no code of the
program's: the commits that the file stands for, as a journal's text, with status
0; or with status 1 where the file is no journal file, and then no output. No call
may take more than a second or 100 MiB. TESEO names the program.
"""

import argparse
import os
import random
import resource
import struct
import subprocess
import sys
import tempfile
import time

MAX_ID = 9223372036854775806
MAX_WEIGHT = 4294967295
MOST_SECONDS = 1.0
MOST_MIB = 100
NAMES = ("vertex", "edge", "set", "drop", "unvertex")
# which of u, v and the weight a write has, by its tag
HAS = ((True, False, False), (True, True, True), (True, True, True), (True, True, False), (True, False, False))

INPUTS = {
    "v": "1\n2\n3\n4\n",
    "e": "1 2\n2 3\n",
    "north": "begin\nset 1 2 9\ncommit\nbegin\nvertex 5\nedge 5 4 7\ncommit\nbegin\nunvertex 5\nabort\n",
    "south": "begin\nset 1 2 8\ncommit\nbegin\ndrop 2 3\ncommit\nbegin\nunvertex 3\ncommit\n",
}


def write_of(data, at):
    """The write at this place, as a line of a journal, or None where it breaks a rule."""
    tag, u, v, weight = struct.unpack_from("<BQQQ", data, at)
    if tag > 4:
        return None
    numbers = []
    for has, number, most in zip(HAS[tag], (u, v, weight), (MAX_ID, MAX_ID, MAX_WEIGHT)):
        if number > (most if has else 0):
            return None
        if has:
            numbers.append(str(number))
    return " ".join([NAMES[tag], *numbers])


def commit_of(data, at, stamp):
    """The lines of the commit whose body begins here, and where it ends, or None where it is cut short or breaks a rule."""
    if at + 32 > len(data):
        return None
    found, start, job, number, count = struct.unpack_from("<QQIIQ", data, at)
    if found != stamp or start >= stamp or count == 0 or count > (len(data) - at - 32) // 25:
        return None
    lines = [f"commit {stamp} start {start} by {job}.{number}"]
    for k in range(count):
        line = write_of(data, at + 32 + 25 * k)
        if line is None:
            return None
        lines.append(line)
    return lines, at + 32 + 25 * count


def opened(data):
    """The text of the journal that the bytes stand for, or None where they are no journal file."""
    if len(data) < 9 or data[:8] != b"TESEOJ1\n" or data[8] > 1:
        return None
    lines = []
    stamp = 1
    at = 9
    while at < len(data) and data[at] == 1:
        commit = commit_of(data, at + 1, stamp)
        if commit is None:
            break
        lines += commit[0]
        at = commit[1]
        stamp += 1
    return "".join(line + "\n" for line in lines).encode()


def damaged(whole, source):
    """The damaged files, each with what was done."""
    for size in range(len(whole) + 1):
        yield f"cut to {size} bytes", whole[:size]
    for place, byte in enumerate(whole):
        for other in sorted({0, 1, 2, 127, 128, 255, byte ^ 1, byte ^ 64} - {byte}):
            yield f"byte {place} is {other}", whole[:place] + bytes([other]) + whole[place + 1 :]
    for number in range(500):
        place = source.randrange(len(whole))
        size = source.randint(1, 40)
        noise = bytes(source.randrange(256) for _ in range(size))
        yield f"noise {number}", whole[:place] + noise + whole[place + size :]


def read_back(program, data):
    """What `recover` makes of the bytes: status, what it said, and its output, or None where there is none."""
    with open("damaged", "wb") as file:
        file.write(data)
    if os.path.exists("back"):
        os.remove("back")
    started = time.monotonic()
    ended = subprocess.run(
        [program, "recover", "--keep", "damaged", "--journal", "back"], stdout=subprocess.PIPE, check=False
    )
    seconds = time.monotonic() - started
    text = None
    if os.path.exists("back"):
        with open("back", "rb") as file:
            text = file.read()
    return ended.returncode, ended.stdout, text, seconds


def is_right(found, data):
    """Whether this is what these bytes must give."""
    status, said, text, seconds = found
    wanted = opened(data)
    if seconds > MOST_SECONDS:
        return False
    if wanted is None:
        return (status, said, text) == (1, b"damaged: not a journal file\n", None)
    return status == 0 and said.startswith(b"commits %d " % wanted.count(b"commit ")) and text == wanted


def make_whole(program):
    """A whole journal file, of a run that is read back as it wrote its journal."""
    for name, text in INPUTS.items():
        with open(name, "w", encoding="ascii") as file:
            file.write(text)
    words = ["run", "--vertices", "v", "--edges", "e", "--journal", "j", "--keep", "kept", "north", "south"]
    subprocess.run([program, *words], stdout=subprocess.DEVNULL, check=True)
    with open("kept", "rb") as kept, open("j", "rb") as journal:
        whole = kept.read()
        if opened(whole) != journal.read():
            sys.exit("recover.py: the whole file doesn't stand for the run's journal")
    return whole


def main():
    """Tries all of them, and says how many and how many went wrong."""
    parser = argparse.ArgumentParser(description=__doc__, formatter_class=argparse.RawDescriptionHelpFormatter)
    parser.add_argument("--seed", type=int, default=1)
    wanted = parser.parse_args()
    top = os.path.dirname(os.path.dirname(os.path.abspath(__file__)))
    program = os.path.realpath(os.environ.get("TESEO", f"{top}/crates/teseo/out/teseo"))
    tried = wrong = 0
    with tempfile.TemporaryDirectory() as folder:
        os.chdir(folder)
        whole = make_whole(program)
        for what, data in damaged(whole, random.Random(wanted.seed)):
            found = read_back(program, data)
            tried += 1
            if not is_right(found, data):
                wrong += 1
                print(f"{what}: status {found[0]}, said {found[1]!r}, {found[3]:.2f} s")
        os.chdir("/")
    peak = resource.getrusage(resource.RUSAGE_CHILDREN).ru_maxrss // 1024
    if peak > MOST_MIB:
        wrong += 1
        print(f"a call took {peak} MiB")
    print(f"{len(whole)} bytes: {tried} damaged journal files, {wrong} wrong; {peak} MiB at most")
    sys.exit(wrong != 0)


if __name__ == "__main__":
    main()
