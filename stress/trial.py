"""What the scripts of stress/ share: the built program, a run of it, and whether a run is right from outside."""

import os
import pathlib
import subprocess
import sys

TOP = pathlib.Path(__file__).resolve().parent.parent
PROGRAM = os.path.realpath(os.environ.get("TESEO", TOP / "crates/teseo/out/teseo"))
MOST_SECONDS = 60

sys.path.insert(0, str(TOP / "examples/check_run"))
import check_run  # noqa: E402


class Trials:
    """Counts what was tried and what went wrong, and prints the first of these."""

    MOST_SHOWN = 20

    def __init__(self, what):
        self.what, self.tried, self.wrong = what, 0, 0

    def count(self, name, fault):
        """A trial of this name, with what is wrong with it, or None."""
        self.tried += 1
        if fault is None:
            return
        self.wrong += 1
        if self.wrong <= self.MOST_SHOWN:
            print(f"{name}: {fault}", flush=True)

    def end(self, more=""):
        """Says how many there were, and ends the script."""
        print(f"{self.tried} {self.what}, {self.wrong} wrong{more}")
        sys.exit(self.wrong != 0 or self.tried == 0)


def run_program(words, settings=None):
    """The status of a call in this folder and what it said. The status is None where the call takes too long."""
    try:
        ended = subprocess.run(
            [PROGRAM, *words],
            stdout=subprocess.PIPE,
            stderr=subprocess.DEVNULL,
            env={**os.environ, **(settings or {})},
            timeout=MOST_SECONDS,
            check=False,
        )
    except subprocess.TimeoutExpired:
        return None, b""
    return ended.returncode, ended.stdout


def bytes_of(name):
    """The bytes of a file, or None where there is no such file."""
    try:
        return pathlib.Path(name).read_bytes()
    except FileNotFoundError:
        return None


def write_texts(texts):
    """Writes files, by their names."""
    for name, text in texts.items():
        pathlib.Path(name).write_bytes(text if isinstance(text, bytes) else text.encode())


def remove(names):
    """Removes these files, where they are."""
    for name in names:
        pathlib.Path(name).unlink(missing_ok=True)


def fault_of_run(words, said):
    """What examples/check_run finds wrong with a run of these words, or None."""
    pathlib.Path("said").write_bytes(said)
    faults = check_run.Faults()
    try:
        check_run.Run(check_run.words_of(["--said", "said", *words[1:]]), faults).check()
    except check_run.Unreadable as fault:
        return str(fault)
    return faults.found[0] if faults.found else None
