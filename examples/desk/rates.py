#!/usr/bin/env python3
"""Has a built desk book many transfers without the analysis and with it, draws picture.svg, and prints its figures.

    rates.py FOLDER DESK [TRANSFERS [SCALE [ROUNDS]]]

FOLDER is there and empty; what each run says is left in it. The runs come by turns, in so many rounds, and the middle
one of each kind counts. Above: how many transfers a second both clerks book together, each by its own clock. Below:
what each look of such a run saw, with a look each second, and what came meanwhile."""

import collections
import pathlib
import re
import statistics
import subprocess
import sys

HERE = pathlib.Path(__file__).resolve().parent
sys.dont_write_bytecode = True
sys.path.insert(0, str(HERE.parent / "live"))
from picture import BLUE, LEFT, LINE, RED, WIDTH, Picture  # noqa: E402

# how many milliseconds the watcher waits after a look: without the analysis it looks at the beginning and the end alone
PAUSES = {"without": 10**9, "each second": 1000, "again and again": 0}
CLERK = re.compile(r"^a clerk: (\d+) booked in (\d+) ms$", re.M)
LOOK = re.compile(r"^look (\d+): (\d+) transfers, (\d+) more in (\d+) ms since;", re.M)

Look = collections.namedtuple("Look", "number transfers newer milliseconds")


def run(folder, desk, name, number):
    """Runs the desk, and leaves what it said of its clerks and looks. How many transfers a second it booked."""
    words = [desk, folder / "transfers", "0", str(PAUSES[name])]
    ended = subprocess.run(words, stdout=subprocess.PIPE, stderr=subprocess.PIPE, text=True, check=True)
    (folder / f"{name} {number}").write_text(ended.stdout + ended.stderr, encoding="utf-8")
    return sum(int(booked) * 1000 / max(int(taken), 1) for booked, taken in CLERK.findall(ended.stderr))


def looks_of(folder, name, number):
    text = (folder / f"{name} {number}").read_text(encoding="utf-8")
    return [Look(*map(int, found)) for found in LOOK.findall(text)]


def middle(rates):
    """The middle rate, and the number of its run."""
    rate = statistics.median_low(rates)
    return rate, rates.index(rate)


def drawn(rates, looks, count):
    picture = Picture()
    picture.title("Transfers a second, by two clerks")
    for name, rate in rates.items():
        picture.row(name, [(WIDTH * rate / max(rates.values()), BLUE)], f"{rate:,.0f}")
    picture.y += LINE // 2
    picture.title(f"What each look saw of the {count:,} transfers, with a look each second")
    for it in looks:
        bars = [(WIDTH * it.transfers / count, BLUE), (WIDTH * it.newer / count, RED)]
        picture.row(f"look {it.number}", bars, f"{it.transfers:,}, and {it.newer:,} in {it.milliseconds:,} ms")
    picture.y += LINE // 2
    before, meanwhile = "booked before it began: it saw these", "booked while it looked: it saw none of these"
    for colour, text in ((BLUE, before), (RED, meanwhile)):
        picture.bar(LEFT, LINE - 6, colour)
        picture.text(LEFT + 24, text)
        picture.y += LINE
    return picture.written(
        "A desk with and without its watcher",
        "Above, how many transfers a second two clerks book, without looks, with one each second, and with one after the "
        "other. Below, how many transfers each look saw, and how many came while it looked.")


def main():
    folder, desk = pathlib.Path(sys.argv[1]), pathlib.Path(sys.argv[2]).resolve()
    words = [int(word) for word in sys.argv[3:]]
    count, scale, rounds = words + [1_000_000, 20, 5][len(words):]
    with open(folder / "transfers", "w", encoding="utf-8") as file:
        subprocess.run([sys.executable, HERE / "make.py", str(count), str(scale)], stdout=file, check=True)
    rates = {name: [] for name in PAUSES}
    for number in range(rounds):
        for name, known in rates.items():
            known.append(run(folder, desk, name, number))
    middles = {name: middle(known) for name, known in rates.items()}
    looks = looks_of(folder, "each second", middles["each second"][1])
    (folder / "picture.svg").write_text(
        drawn({name: rate for name, (rate, _) in middles.items()}, looks, count), encoding="utf-8")
    print("| Looks | transfers a second | of all rounds |\n|---|---:|---|")
    for name, known in rates.items():
        print(f"| {name} | {middles[name][0]:,.0f} | {', '.join(f'{rate:,.0f}' for rate in sorted(known))} |")
    print("\n| Look | transfers that it saw | came while it looked | ms |\n|---:|---:|---:|---:|")
    for it in looks:
        print(f"| {it.number} | {it.transfers:,} | {it.newer:,} | {it.milliseconds:,} |")


if __name__ == "__main__":
    if len(sys.argv) < 3:
        sys.exit(__doc__)
    main()
