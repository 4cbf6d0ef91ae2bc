#!/usr/bin/env python3
"""Draws picture.svg in a folder that run.sh has filled, and prints its figures as a table.

    picture.py FOLDER

Above: how many transactions a second the updates made alone, and with the analysis beside them; the seconds of the load
are taken off. Below: a bar for each analysis, blue as far as the commits go that it saw, and red for those that came
while it ran and that it didn't see."""

import collections
import pathlib
import re
import sys

RED, BLUE, GREY = "#c1272d", "#4c78a8", "#555555"
LEFT, WIDTH, RIGHT = 140, 420, 180
LINE, TEXT_SIZE = 22, 12
RUNS = {"alone": "updates alone", "beside": "with the analysis"}

Analysis = collections.namedtuple("Analysis", "number start until edges")


def seconds_of(folder):
    pairs = (line.split() for line in (folder / "seconds").read_text().splitlines())
    return {name: float(seconds) for name, seconds in pairs}


def commits_of(folder):
    """How many commits a run made behind the load."""
    return int((folder / "said").read_text().split()[1]) - 1


def rates_of(folder):
    """The transactions a second of each run, without the load."""
    seconds = seconds_of(folder)
    if min(seconds[name] for name in RUNS) <= seconds["load"]:
        sys.exit("the updates took no longer than the load: ask for more TRANSACTIONS")
    return {name: commits_of(folder / name) / (seconds[name] - seconds["load"]) for name in RUNS}


def analyses_of(folder):
    """What each analysis saw: the commits behind the load when it began and when the next one did, and how many edges."""
    report = (folder / "beside" / "analysis.report").read_text()
    starts = [int(start) - 1 for start in re.findall(r"^begin \S+ start (\d+)$", report, re.M)]
    counts = re.findall(r"^vertices \d+ edges (\d+)$", report, re.M)
    ends = [*starts[1:], None]
    return [Analysis(*it) for it in zip(range(1, len(starts) + 1), starts, ends, map(int, counts))]


class Picture:
    """The lines of an SVG file, from above."""

    def __init__(self):
        self.parts, self.y = [], LINE

    def text(self, x, text, anchor="start", colour="black"):
        self.parts.append(f'<text x="{x:.0f}" y="{self.y + 12}" text-anchor="{anchor}" fill="{colour}">{text}</text>')

    def bar(self, x, width, colour):
        size = f'width="{max(width, 0.5):.1f}" height="{LINE - 6}"'
        self.parts.append(f'<rect x="{x:.1f}" y="{self.y}" {size} fill="{colour}"/>')

    def title(self, text):
        self.text(LEFT, text)
        self.y += LINE

    def row(self, name, bars, behind):
        """A name, bars one behind the other, and a text behind them."""
        self.text(LEFT - 8, name, "end")
        x = LEFT
        for width, colour in bars:
            self.bar(x, width, colour)
            x += width
        self.text(x + 6, behind, colour=GREY)
        self.y += LINE

    def written(self, title, description):
        size = f'width="{LEFT + WIDTH + RIGHT}" height="{self.y + LINE}"'
        return "\n".join([
            f'<svg xmlns="http://www.w3.org/2000/svg" {size} font-family="sans-serif" font-size="{TEXT_SIZE}">',
            f"<title>{title}</title>", f"<desc>{description}</desc>",
            '<rect width="100%" height="100%" fill="white"/>', *self.parts, "</svg>", ""])


def drawn(rates, analyses, commits):
    picture = Picture()
    picture.title("Transactions a second, by two scripts of updates")
    for name, said in RUNS.items():
        picture.row(said, [(WIDTH * rates[name] / max(rates.values()), BLUE)], f"{rates[name]:,.0f}")
    picture.y += LINE // 2
    picture.title(f"What each analysis saw of the {commits:,} transactions")
    for it in analyses:
        met = it.until - it.start if it.until is not None else 0
        behind = f"{it.start:,}" + (f", and {met:,} unseen" if it.until is not None else "")
        picture.row(f"analysis {it.number}", [(WIDTH * it.start / commits, BLUE), (WIDTH * met / commits, RED)], behind)
    picture.y += LINE // 2
    picture.bar(LEFT, LINE - 6, BLUE)
    picture.text(LEFT + 24, "committed before it began: it saw these")
    picture.y += LINE
    picture.bar(LEFT, LINE - 6, RED)
    picture.text(LEFT + 24, "committed while it ran: it saw nothing of these")
    return picture.written("An analysis beside updates", "Above, the rate of the updates with and without the analysis. "
                           "Below, how many transactions each analysis saw, and how many came while it ran.")


def print_figures(rates, analyses, commits):
    print("| Transactions a second | |\n|---|---:|")
    for name, said in RUNS.items():
        print(f"| {said} | {rates[name]:,.0f} |")
    print("\n| Analysis | began behind | came while it ran | edges that it counted |\n|---:|---:|---:|---:|")
    for it in analyses:
        met = f"{it.until - it.start:,}" if it.until is not None else ""
        print(f"| {it.number} | {it.start:,} | {met} | {it.edges:,} |")
    if analyses[-1].start == commits:
        print("\nThe analysis went on behind the last update, so the rate beside it is too low: fewer ANALYSES.")


def main():
    folder = pathlib.Path(sys.argv[1])
    rates = rates_of(folder)
    analyses, commits = analyses_of(folder), commits_of(folder / "beside")
    (folder / "picture.svg").write_text(drawn(rates, analyses, commits), encoding="utf-8")
    print_figures(rates, analyses, commits)


if __name__ == "__main__":
    if len(sys.argv) != 2:
        sys.exit(__doc__)
    main()
