#!/usr/bin/env python3
"""Tries check_run.py: it has to accept the stored runs of the examples and three by hand, and to refuse each output
that is broken here, with the fault at the place where it was put. Prints what went wrong, then the counts."""

import collections
import pathlib
import re
import shutil
import subprocess
import sys
import tempfile

HERE = pathlib.Path(__file__).resolve().parent
EXAMPLES = HERE.parent

# a run whose outputs are stored: its example, its words, and what its scripts and results are named there in front
Stored = collections.namedtuple("Stored", "example words front", defaults=("",))
STORED = {
    "first": Stored("first", "--vertices network.v --edges network.e --journal journal --said said first.script"),
    "conflict": Stored("conflict", "--vertices v --edges e --journal j --said said s1 s2"),
    "kernels": Stored("kernels", "--vertices ../first/network.v --edges ../first/network.e --journal journal --said said "
                      "kernels.script"),
    "directed": Stored("graphalytics", "--directed --weights 2 --vertices directed.v --edges directed.e --journal "
                       "directed-journal --said directed-said directed.script"),
    "undirected": Stored("graphalytics", "--weights 2 --vertices undirected.v --edges undirected.e --journal "
                         "undirected-journal --said undirected-said undirected.script"),
    "fraud": Stored("fraud", "--directed --weights 2 --vertices accounts.v --edges transfers.e --journal journal "
                    "--said said bank desk"),
    "routes": Stored("routes", "--weights 1 --vertices roads.v --edges roads.e --journal journal --said said works planner"),
    "network": Stored("network", "--vertices routers.v --edges links.e --journal journal --said said field monitor"),
    "transfers": Stored("transfers", "--directed --weights 2 --vertices v --edges e --journal journal --said said "
                        "clerk1 clerk2 clerk3"),
    "second day": Stored("transfers", "--directed --weights 2 --vertices now.v --edges now.e --journal journal2 "
                         "--said second.said again look"),
    "tour, first": Stored("tour", "--vertices v --edges e --journal first.journal --said first.said first.s1", "first."),
    "tour, clash": Stored("tour", "--vertices v --edges e --journal clash.journal --said clash.said clash.north clash.south",
                          "clash."),
    "tour, roads": Stored("tour", "--directed --weights 2 --vertices v --edges roads --journal roads.journal "
                          "--said roads.said roads.kernels", "roads."),
}
SCRIPTS = {"tour, first": ["s1"], "tour, clash": ["north", "south"], "tour, roads": ["kernels"]}

# A run by hand as threads may make it. South meets north's first transaction while it is open, then as a later commit,
# and then north's second one, which is taken back in the end. 'watch' looks on.
BY_HAND = {
    "v": "1 / 2 / 3 / 4",
    "e": "1 2 5 / 2 3 5",
    "north": "begin / set 1 2 7 / edge 3 4 2 / commit / begin / drop 2 3 / abort",
    "north.report": "begin 1.1 start 1 / ok / ok / commit 2 / begin 1.2 start 2 / ok / aborted",
    "south": "begin / unvertex 4 / commit / begin / set 2 1 8 / commit / begin / drop 3 2 / commit / begin / edge 1 2 / "
             "set 2 1 9 / commit",
    "south.report": "begin 2.1 start 1 / conflict open 1.1 / skipped / begin 2.2 start 1 / conflict later 2 / skipped / "
                    "begin 2.3 start 2 / conflict open 1.2 / skipped / begin 2.4 start 2 / exists / ok / commit 3",
    "watch": "begin / count / sssp 1 ways / bfs 9 none / commit / begin / neighbours 3 / weight 1 2 / unvertex 4 / commit",
    "watch.report": "begin 3.1 start 1 / vertices 4 edges 2 / table 4 / no vertex 9 / commit - / begin 3.2 start 2 / "
                    "neighbours 2 2 4 / weight 7 / has edges / commit -",
    "ways": "1 0 / 2 5 / 3 10 / 4 infinity",
    "journal": "commit 1 start 0 by 0.1 / vertex 1 / vertex 2 / vertex 3 / vertex 4 / edge 1 2 5 / edge 2 3 5 / "
               "commit 2 start 1 by 1.1 / set 1 2 7 / edge 3 4 2 / commit 3 start 2 by 2.4 / set 2 1 9",
    "said": "commits 3 vertices 4 edges 3 undo 0 retired 0",
}
BY_HAND_WORDS = "--threads 3 --weights 0 --vertices v --edges e --journal journal --said said north south watch"

# Two guards of whom each leaves while the other stays, with --serial: the second one's commit is refused.
GUARDS = {
    "v": "1 / 2 / 3",
    "e": "1 3 1 / 2 3 1",
    "anna": "begin / weight 2 3 / set 1 3 0 / commit",
    "anna.report": "begin 1.1 start 1 / weight 1 / ok / commit 2",
    "bert": "begin / weight 1 3 / set 2 3 0 / commit",
    "bert.report": "begin 2.1 start 1 / weight 1 / ok / conflict later 2",
    "journal": "commit 1 start 0 by 0.1 / vertex 1 / vertex 2 / vertex 3 / edge 1 3 1 / edge 2 3 1 / "
               "commit 2 start 1 by 1.1 / set 1 3 0",
    "said": "commits 2 vertices 3 edges 2 undo 0 retired 0",
}
GUARDS_WORDS = "--serial --weights 0 --vertices v --edges e --journal journal --said said anna bert"

# the same without --serial, where both go
BOTH_LEAVE = {
    **GUARDS,
    "bert.report": "begin 2.1 start 1 / weight 1 / ok / commit 3",
    "journal": GUARDS["journal"] + " / commit 3 start 1 by 2.1 / set 2 3 0",
    "said": "commits 3 vertices 3 edges 2 undo 0 retired 0",
}

# runs whose files stand here
WRITTEN = {
    "by hand": (BY_HAND, BY_HAND_WORDS),
    "guards": (GUARDS, GUARDS_WORDS),
    "guards that both leave": (BOTH_LEAVE, GUARDS_WORDS.replace("--serial ", "")),
}
RIGHT = [*STORED, "by hand", "guards", "guards that both leave"]

# a change to the outputs of a run, or to the text of an option: what is put where, and what the checker then says of
# which place
Broken = collections.namedtuple("Broken", "name file old new said run", defaults=("by hand",))
BROKEN = [
    Broken("an answer is another", "watch.report", "weight 7", "weight 5",
           "watch.report:8: weight 1 2: weight 5, where it is weight 7"),
    Broken("a neighbour is missing", "watch.report", "neighbours 2 2 4", "neighbours 1 2", "watch.report:7: "),
    Broken("a count is another", "watch.report", "edges 2", "edges 3", "watch.report:2: "),
    Broken("a result is another", "ways", "3 10", "3 9", "ways:3: 3 9, where it is 3 10"),
    Broken("a result is too short", "ways", "4 infinity\n", "", "ways:4: 3 lines, where there are 4"),
    Broken("a result of a line without a table is there", "none", None, "1 0\n", "watch.report:4: "),
    Broken("a refused write is made", "south.report", "exists", "ok", "south.report:11: edge 1 2: ok, where it is exists"),
    Broken("a write is refused that the graph allows", "south.report", "2.4 start 2\nexists\nok", "2.4 start 2\nexists\n"
           "no edge", "south.report:12: set 2 1 9: no edge, and nothing refuses it"),
    Broken("full where there is room", "north.report", "ok\nok\ncommit 2", "ok\nfull\nskipped", "north.report:3: "),
    Broken("a line behind a conflict is answered", "south.report", "conflict later 2\nskipped", "conflict later 2\ncommit -",
           "south.report:6: commit: commit -, where it is skipped"),
    Broken("a line is skipped without a conflict", "watch.report", "has edges", "skipped", "watch.report:9: "),
    Broken("a conflict names nobody", "south.report", "open 1.1", "open 1.3",
           "south.report:2: unvertex 4: 1.3 made no write that clashes with it"),
    Broken("a conflict names who wrote something else", "south.report", "open 1.2", "open 1.1", "south.report:8: "),
    Broken("a conflict names one of its own script", "south.report", "open 1.2", "open 2.4", "2.4 is of the same script"),
    Broken("a conflict names who had committed", "south.report", "2.4 start 2\nexists\nok", "2.4 start 2\nexists\n"
           "conflict open 1.1", "south.report:12: set 2 1 9: 1.1 is commit 2, which isn't behind the start 2"),
    Broken("a conflict names a commit that it has seen", "south.report", "2.4 start 2\nexists\nok", "2.4 start 2\nexists\n"
           "conflict later 2", "south.report:12: set 2 1 9: commit 2 isn't behind the start 2"),
    Broken("a conflict names a commit apart", "south.report", "open 1.1", "later 3",
           "south.report:2: unvertex 4: no commit 3 clashes with it"),
    Broken("a snapshot is too new", "watch.report", "3.2 start 2", "3.2 start 4", "watch.report:6: begin: it starts at 4"),
    Broken("a snapshot is of another time", "watch.report", "3.2 start 2", "3.2 start 3", "watch.report:8: "),
    Broken("a snapshot is older than what was shown", "south.report", "2.3 start 2", "2.3 start 1",
           "south.report:7: begin: it starts at 1, and 2 was shown before"),
    Broken("a snapshot is before the load", "watch.report", "3.1 start 1", "3.1 start 0", "watch.report:1: "),
    Broken("a transaction has another's name", "watch.report", "3.2 start", "3.3 start", "watch.report:6: "),
    Broken("a commit is missing", "journal", "commit 3 start 2 by 2.4\nset 2 1 9\n", "",
           "south.report:13: commit: commit 3 of the journal isn't 2.4"),
    Broken("a commit that was taken back", "journal", "commit 3", "commit 3 start 2 by 1.2\ndrop 2 3\ncommit 4",
           "journal:11: no report tells of the commit of 1.2"),
    Broken("a commit has lost a write", "journal", "edge 3 4 2\n", "", "north.report:4: commit: commit 2"),
    Broken("a commit has another write", "journal", "set 2 1 9", "set 2 1 8", "south.report:13: "),
    Broken("a commit has another start", "journal", "commit 3 start 2", "commit 3 start 1",
           "journal:12: it clashes with commit 2, which is behind the start 1"),
    Broken("a write that the graph refuses is committed", "journal", "edge 3 4 2", "edge 2 3 2", "journal:10: "),
    Broken("a stamp is passed over", "journal", "commit 3 start", "commit 4 start", "journal:11: commit 4 in place 3"),
    Broken("a transaction commits twice", "journal", "by 2.4", "by 1.1", "journal:11: 1.1 has committed already"),
    Broken("the load is another", "journal", "edge 1 2 5", "edge 1 2 6", "journal:1: the first commit isn't the load"),
    Broken("a report is too short", "watch.report", "has edges\n", "", "watch.report:10: 9 answers to 10 lines"),
    Broken("an answer is none", "south.report", "later 2", "later two", "south.report:5: "),
    Broken("the summary is another", "said", "edges 3", "edges 4", "said:1: "),
    Broken("scripts of one thread overlap", "--threads", "3", "2", "south.report:1: begin: it starts at 1, and 2 was shown"),
    Broken("scripts of one thread meet", "--threads", "3", "2", "south.report:2: unvertex 4: 1.1 is of the same thread"),
    Broken("no order of two commits gives their answers", "--weights", "0", "0 --serial",
           "bert.report:2: weight 1 3: weight 1, where it is weight 0", "guards that both leave"),
    Broken("a commit is refused without a cause", "bert.report", "later 2", "later 1",
           "bert.report:4: commit: commit 1 isn't behind the start 1", "guards"),
    Broken("a component is another", "parts.after", "1074 1061", "1074 1071", "parts.after:", "fraud"),
    Broken("a label is another", "groups.before", "1062 1062", "1062 1061", "groups.before:", "fraud"),
    Broken("a distance is another", "trail.after", "1061 8", "1061 7", "trail.after:", "fraud"),
    Broken("a sum is another", "directed-SSSP", "1 0", "1 1", "directed-SSSP:1: 1 1, where it is 1 0", "directed"),
]


def checked(folder, words):
    """The status of the checker in a folder, and what it says."""
    ended = subprocess.run([sys.executable, HERE / "check_run.py", *words.split()], cwd=folder, check=False, text=True,
                           stdout=subprocess.PIPE, stderr=subprocess.STDOUT)
    return ended.returncode, ended.stdout


def copy_stored(run, folder):
    """Puts a stored run's inputs and outputs side by side, as they stood when it was made."""
    stored = STORED[run]
    here = folder / stored.example
    for example in {"first", stored.example}:
        shutil.copytree(EXAMPLES / example, folder / example)
    for output in (here / "expected").iterdir():
        shutil.copy(output, here)
    for script in SCRIPTS.get(run, ()):
        text = re.sub(r"^(bfs \d+|sssp \d+|cdlp \d+|wcc) ", rf"\g<0>{stored.front}", (here / script).read_text(), flags=re.M)
        (here / f"{stored.front}{script}").write_text(text)
    return here, stored.words


def copy_run(run, folder):
    """Puts a run into a folder: where its files stand then, and its words."""
    if run in STORED:
        return copy_stored(run, folder)
    files, words = WRITTEN[run]
    for name, text in files.items():
        (folder / name).write_text(text.replace(" / ", "\n") + "\n")
    return folder, words


def break_output(broken, here, words):
    """Makes the change, which has one place. Answers the words."""
    if broken.file.startswith("--"):
        return words.replace(f"{broken.file} {broken.old}", f"{broken.file} {broken.new}")
    text = "" if broken.old is None else (here / broken.file).read_text()
    if broken.old is not None and text.count(broken.old) != 1:
        sys.exit(f"{broken.name}: {broken.old!r} stands {text.count(broken.old)} times in {broken.file}")
    (here / broken.file).write_text(broken.new if broken.old is None else text.replace(broken.old, broken.new))
    return words


def is_accepted(run):
    """Whether a run that is right is found to be right."""
    with tempfile.TemporaryDirectory() as name:
        status, said = checked(*copy_run(run, pathlib.Path(name)))
    if status == 0 and re.fullmatch(r"\d+ answers right, journal of \d+ commits legal\n", said):
        return True
    print(f"{run} is right, and the status is {status}:\n{said}")
    return False


def is_refused(broken):
    """Whether a broken output is refused, at its place."""
    with tempfile.TemporaryDirectory() as name:
        here, words = copy_run(broken.run, pathlib.Path(name))
        status, said = checked(here, break_output(broken, here, words))
    if status == 1 and broken.said in said:
        return True
    print(f"{broken.name}: status {status}, where '{broken.said}' is to be said:\n{said}")
    return False


def main():
    accepted, refused = sum(map(is_accepted, RIGHT)), sum(map(is_refused, BROKEN))
    print(f"{accepted} of {len(RIGHT)} right runs are accepted, {refused} of {len(BROKEN)} broken ones are refused")
    return 0 if (accepted, refused) == (len(RIGHT), len(BROKEN)) else 1


if __name__ == "__main__":
    sys.exit(main())
