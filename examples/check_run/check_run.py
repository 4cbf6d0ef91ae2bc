#!/usr/bin/env python3
"""Says of a run of teseo whether each of its answers is right and its journal legal, from what the run has read and
what it has written alone.

    check_run.py --vertices V --edges E --journal J [--directed] [--weights D [--cut]] [--threads N] [--leaves L]
        [--serial] [--said FILE] SCRIPT..

The words are those of the run, and so is the working folder. --schedule is taken as well, and changes nothing: whose
turn it was isn't looked at. --said names a file with what the run has said on standard output. What is checked, and
how, is in README.md beside this file.
"""

import argparse
import bisect
import collections
import gc
import heapq
import pathlib
import re
import sys

MAX_ID = 9223372036854775806
MAX_WEIGHT = 4294967295
NO_WALK = "9223372036854775807"
ROWS_OF_A_FULL_LEAF, MOST_LEAVES = 103, 131072
MOST_FAULTS_SHOWN = 20

LOAD = (0, 1)  # the name of the transaction that loads the graph
WRITES = ("vertex", "unvertex", "edge", "set", "drop")
KERNELS = ("bfs", "fastbfs", "wcc", "cdlp", "sssp", "fastsssp")

COMMIT_LINE = re.compile(r"commit ([1-9]\d*) start (0|[1-9]\d*) by (0|[1-9]\d*)\.([1-9]\d*)")
WRITE_LINE = re.compile(r"(un)?vertex N|(edge|set) N N N|drop N N".replace("N", r"(?:0|[1-9]\d*)"))
BEGIN_ANSWER = re.compile(r"begin ([1-9]\d*)\.([1-9]\d*) start (0|[1-9]\d*)")
COMMIT_ANSWER = re.compile(r"commit ([1-9]\d*)")
LATER_ANSWER = re.compile(r"conflict later ([1-9]\d*)")
OPEN_ANSWER = re.compile(r"conflict open ([1-9]\d*)\.([1-9]\d*)")

# `ends` has the vertex, or the ends of the edge as they were given; the weight is None where there is none. `element`
# is what it changes: the vertex, or the edge by its ends, in rising order where it has no direction
Write = collections.namedtuple("Write", "word ends weight element")
# `name` is the script and the number in it, both from 1; `line` is where the commit stands in the journal
Commit = collections.namedtuple("Commit", "stamp start name writes line")
# a line of a script with its answer, and where the answer stands in the report
Line = collections.namedtuple("Line", "command answer number")
# the weights of the arcs out of each vertex and into each, by the vertex at the other end
Arcs = collections.namedtuple("Arcs", "out into")


class Faults:
    """What was found to be wrong, each with its file and line."""

    def __init__(self):
        self.found = []

    def add(self, file, line, text):
        self.found.append(f"{file}:{line}: {text}")


class Unreadable(Exception):
    """A file that isn't what it has to be, so that nothing more can be said of the run."""


# ---- what a run reads


def text_of(name):
    """The text of a file; bytes that are no ASCII may stand in comments."""
    try:
        return pathlib.Path(name).read_bytes().decode("latin-1")
    except OSError as fault:
        raise Unreadable(f"{name}: {fault.strerror}") from fault


def written_lines(name):
    """The lines of an output, each of which ends with a line feed."""
    text = text_of(name)
    if text and not text.endswith("\n"):
        raise Unreadable(f"{name}: the last line isn't whole")
    return text.split("\n")[:-1]


def records_of(name):
    """The fields of each line of a source that is neither blank nor a comment."""
    for line in text_of(name).split("\n"):
        fields = [field for field in re.split(r"[ \t]+", line[:-1] if line.endswith("\r") else line) if field]
        if fields and not line.startswith("#"):
            yield fields


def units_of(field, digits):
    """A weight of the edge file in units of its last digit that is read."""
    whole, _, fraction = field.partition(".")
    return int((whole or "0") + (fraction + "0" * digits)[:digits])


def load_of(words):
    """The writes of the transaction that loads the graph: an undirected edge that is listed both ways is one edge."""
    writes = [write_of(["vertex", *fields], words.directed) for fields in records_of(words.vertices)]
    known = set()
    for source, target, *weight in records_of(words.edges):
        units = 1 if words.weights is None else units_of(weight[0], words.weights)
        write = write_of(["edge", source, target, units], words.directed)
        if write.element not in known:
            known.add(write.element)
            writes.append(write)
    return writes


def write_of(fields, is_directed):
    """The write that a line of a script asks for, or that a line of the journal has."""
    word, *numbers = fields[0], *map(int, fields[1:])
    if word in ("vertex", "unvertex"):
        ends = tuple(numbers)
        return Write(word, ends, None, ends)
    ends, weight = (numbers[0], numbers[1]), numbers[2] if len(numbers) > 2 else 1
    return Write(word, ends, None if word == "drop" else weight, edge_of(*ends, is_directed))


def edge_of(source, target, is_directed):
    """An edge by its ends, in rising order where it has no direction."""
    return (source, target) if is_directed or source < target else (target, source)


# ---- what a run writes


def read_journal(name, is_directed):
    """The commits of the journal."""
    commits = []
    for number, line in enumerate(written_lines(name), 1):
        begun = COMMIT_LINE.fullmatch(line)
        if begun:
            stamp, start, *by = map(int, begun.groups())
            commits.append(Commit(stamp, start, tuple(by), [], number))
        elif commits and WRITE_LINE.fullmatch(line):
            commits[-1].writes.append(write_of(line.split(" "), is_directed))
        else:
            raise Unreadable(f"{name}:{number}: not a line of a journal: {line}")
    return commits


def read_script(name):
    """The lines of a script with their answers."""
    commands, answers = list(records_of(name)), written_lines(f"{name}.report")
    if len(commands) != len(answers):
        raise Unreadable(f"{name}.report:{min(len(commands), len(answers)) + 1}: "
                         f"{len(answers)} answers to {len(commands)} lines")
    return [Line(command, answer, number) for number, (command, answer) in enumerate(zip(commands, answers), 1)]


# ---- graphs


def value_behind(write):
    """What the element is behind the write: None where it is gone, and of a vertex 0."""
    return None if write.word in ("unvertex", "drop") else write.weight or 0


class History:
    """The graph behind each commit: of each vertex and edge its changes, with the stamp and what it was since."""

    def __init__(self, is_directed):
        self.is_directed = is_directed
        self.changes = collections.defaultdict(list)
        self.edges_at = collections.defaultdict(set)
        self.marks = collections.defaultdict(list)
        self.counts = [(0, 0)]  # how many vertices and edges there are behind so many commits

    def add(self, stamp, view, writes):
        """The next commit, which has made of the graph before it what the view has."""
        self.counts.append(view.counts())
        for write in writes:
            self.changes[write.element].append((stamp, value_behind(write)))
            if len(write.element) == 2:
                for end in write.ends:
                    self.edges_at[end].add(write.element)
            for mark in marks_of(write):
                self.marks[mark].append(stamp)

    def value(self, element, stamp):
        """What an element is in the graph of so many commits."""
        changes = self.changes.get(element)
        if not changes:
            return None
        place = bisect.bisect_left(changes, (stamp + 1,))
        return changes[place - 1][1] if place else None

    def clashes(self, write):
        """The stamps of all commits that hold a write that clashes with this one."""
        return {stamp for mark in marks_met(write) for stamp in self.marks.get(mark, ())}

    def newest_clash(self, write):
        """The greatest of them, or 0."""
        return max((self.marks[mark][-1] for mark in marks_met(write) if mark in self.marks), default=0)


class View:
    """What a transaction sees: the graph of the commits up to its start, with its own writes on it."""

    def __init__(self, history, start):
        self.history, self.start, self.own = history, start, {}
        self.own_edges_at = collections.defaultdict(set)
        self.kept_arcs = None

    def apply(self, write):
        self.own[write.element] = value_behind(write)
        if len(write.element) == 2:
            for end in write.ends:
                self.own_edges_at[end].add(write.element)
        self.kept_arcs = None

    def value(self, element):
        return self.own[element] if element in self.own else self.history.value(element, self.start)

    def has_vertex(self, vertex):
        return self.value((vertex,)) is not None

    def weight(self, source, target):
        return self.value(edge_of(source, target, self.history.is_directed))

    def edges_at(self, vertex):
        """The edges that have this end."""
        known = self.history.edges_at.get(vertex, set()) | self.own_edges_at.get(vertex, set())
        return [edge for edge in known if self.value(edge) is not None]

    def targets(self, vertex):
        """The vertices to which the vertex has an arc, in rising order."""
        if self.history.is_directed:
            return sorted(target for source, target in self.edges_at(vertex) if source == vertex)
        return sorted(one if other == vertex else other for one, other in self.edges_at(vertex))

    def elements(self):
        """All vertices and edges that are there, with what they are."""
        for element in self.history.changes.keys() | self.own.keys():
            value = self.value(element)
            if value is not None:
                yield element, value

    def counts(self):
        """How many vertices and edges there are."""
        vertices, edges = self.history.counts[min(self.start, len(self.history.counts) - 1)]
        for element, value in self.own.items():
            more = (value is not None) - (self.history.value(element, self.start) is not None)
            vertices, edges = (vertices + more, edges) if len(element) == 1 else (vertices, edges + more)
        return vertices, edges

    def arcs(self):
        """The whole graph by its arcs. It is made anew where the transaction has written since."""
        if self.kept_arcs is None:
            there = list(self.elements())
            out = {element[0]: {} for element, _ in there if len(element) == 1}
            into = {vertex: {} for vertex in out} if self.history.is_directed else out
            for element, weight in there:
                # an edge has its ends, but in a journal that isn't legal
                if len(element) == 2 and element[0] in out and element[1] in out:
                    out[element[0]][element[1]] = weight
                    into[element[1]][element[0]] = weight
            self.kept_arcs = Arcs(out, into)
        return self.kept_arcs


# ---- writes that are refused, and writes that clash


def refusal_of(view, write):
    """The answer to a write that the graph doesn't allow, or None."""
    if write.word in ("vertex", "unvertex"):
        vertex, = write.ends
        if write.word == "vertex":
            return "exists" if view.has_vertex(vertex) else None
        return f"no vertex {vertex}" if not view.has_vertex(vertex) else "has edges" if view.edges_at(vertex) else None
    if write.ends[0] == write.ends[1]:
        return "self loop"
    for end in write.ends:
        if not view.has_vertex(end):
            return f"no vertex {end}"
    is_there = view.value(write.element) is not None
    if write.word == "edge":
        return "exists" if is_there else None
    return None if is_there else "no edge"


def marks_of(write):
    """What a write leaves for others to meet: its element, and at a vertex that it added an edge there, or removed it."""
    if write.word == "edge":
        return write.element, ("edge added at", write.ends[0]), ("edge added at", write.ends[1])
    if write.word == "unvertex":
        return write.element, ("removed", write.ends[0])
    return write.element,


def marks_met(write):
    """What a write meets. Two clash where they change one element, or one adds an edge and the other removes an end."""
    if write.word == "edge":
        return write.element, ("removed", write.ends[0]), ("removed", write.ends[1])
    if write.word == "unvertex":
        return write.element, ("edge added at", write.ends[0])
    return write.element,


# ---- the kernels, by their definitions


def least_hops(arcs, root):
    """The least number of arcs from the root to each vertex, level by level."""
    hops, level = {root: 0}, [root]
    while level:
        following = []
        for vertex in level:
            for target in arcs.out[vertex]:
                if target not in hops:
                    hops[target] = hops[vertex] + 1
                    following.append(target)
        level = following
    return {vertex: hops.get(vertex, NO_WALK) for vertex in arcs.out}


def components(arcs):
    """The least vertex that each vertex is connected with, whatever the directions."""
    least = {}
    for vertex in sorted(arcs.out):
        if vertex in least:
            continue
        least[vertex], waiting = vertex, [vertex]
        while waiting:
            reached = waiting.pop()
            for other in [*arcs.out[reached], *arcs.into[reached]]:
                if other not in least:
                    least[other] = vertex
                    waiting.append(other)
    return least


def labels_behind(arcs, rounds):
    """In each round all vertices at once take the label at most of their arcs, out or in, and the least of several."""
    is_directed = arcs.into is not arcs.out
    labels = {vertex: vertex for vertex in arcs.out}
    for _ in range(rounds):
        behind = {}
        for vertex, label in labels.items():
            met = collections.Counter(labels[other] for other in arcs.out[vertex])
            if is_directed:
                met.update(labels[other] for other in arcs.into[vertex])
            most = max(met.values(), default=0)
            behind[vertex] = min((it for it, times in met.items() if times == most), default=label)
        if behind == labels:
            break
        labels = behind
    return labels


def least_sums(arcs, root):
    """The least sum of weights from the root to each vertex."""
    sums, waiting = {}, [(0, root)]
    while waiting:
        length, vertex = heapq.heappop(waiting)
        if vertex in sums:
            continue
        sums[vertex] = length
        for target, weight in arcs.out[vertex].items():
            if target not in sums:
                heapq.heappush(waiting, (length + weight, target))
    return {vertex: sums.get(vertex, "infinity") for vertex in arcs.out}


def table_of(arcs, command):
    """The lines of the result of a kernel's line."""
    if command[0] == "wcc":
        values = components(arcs)
    elif command[0] == "cdlp":
        values = labels_behind(arcs, int(command[1]))
    else:
        values = (least_hops if command[0].endswith("bfs") else least_sums)(arcs, int(command[1]))
    return [f"{vertex} {values[vertex]}" for vertex in sorted(values)]


# ---- the journal


def check_journal(name, commits, load, is_directed, faults):
    """Whether the journal is legal and begins with the load. Answers the graph behind each commit."""
    history, names = History(is_directed), {}
    if load and (not commits or commits[0][:4] != (1, 0, LOAD, load)):
        faults.add(name, 1, "the first commit isn't the load")
    for place, commit in enumerate(commits, 1):
        if commit.stamp != place:
            faults.add(name, commit.line, f"commit {commit.stamp} in place {place}")
        if commit.start >= place:
            faults.add(name, commit.line, f"it starts at {commit.start}, which isn't before itself")
        if not commit.writes:
            faults.add(name, commit.line, "a commit without writes")
        if names.setdefault(commit.name, place) != place:
            faults.add(name, commit.line, f"{shown(commit.name)} has committed already, as commit {names[commit.name]}")
        if commit.name[0] == 0 and not (load and place == 1):
            faults.add(name, commit.line, f"{shown(commit.name)} is no transaction of a script")
        history.add(place, check_writes(name, commit, place, history, faults), commit.writes)
    return history


def check_writes(name, commit, place, history, faults):
    """Whether a commit's writes were allowed at its start and behind the commits before it, and clash with none of those
    between. Answers the graph behind it."""
    views = [View(history, place - 1)]
    if commit.start < place - 1:
        views.append(View(history, commit.start))
    for line, write in enumerate(commit.writes, commit.line + 1):
        if max(write.ends) > MAX_ID or (write.weight or 0) > MAX_WEIGHT:
            faults.add(name, line, "an id or a weight is above its limit")
        for view in views:
            refusal = refusal_of(view, write)
            if refusal:
                faults.add(name, line, f"the graph of commit {view.start} refuses this write: {refusal}")
            view.apply(write)
        newest = history.newest_clash(write)
        if newest > commit.start:
            faults.add(name, line, f"it clashes with commit {newest}, which is behind the start {commit.start}")
    return views[0]


def shown(name):
    return f"{name[0]}.{name[1]}"


# ---- the reports


class Transaction:
    """A transaction of a script, with what its lines have told so far."""

    def __init__(self, name, start, views):
        self.name, self.start, self.views = name, start, views
        self.writes, self.commands, self.is_stopped = [], [], False


class Run:
    """The journal and all reports of a run."""

    def __init__(self, words, faults):
        self.words, self.faults = words, faults
        self.load, self.commits = load_of(words), read_journal(words.journal, words.directed)
        self.history = check_journal(words.journal, self.commits, self.load, words.directed, faults)
        self.scripts = [read_script(script) for script in words.scripts]
        self.stamps = {commit.name: place for place, commit in enumerate(self.commits, 1)}
        self.made = self.made_marks()
        self.is_full = self.may_be_full()
        self.told = {LOAD} if self.load else set()

    def made_marks(self):
        """For each mark the transactions that left it by a write that was answered `ok`, whatever became of them."""
        made = collections.defaultdict(set)
        for job, lines in enumerate(self.scripts, 1):
            number = 0
            for line in lines:
                number += line.command[0] == "begin"
                if line.command[0] in WRITES and line.answer == "ok":
                    for mark in marks_of(write_of(line.command, self.words.directed)):
                        made[mark].add((job, number))
        return made

    def may_be_full(self):
        """Whether the rows that may have been inserted can fill the leaves."""
        rows_of = {"vertex": 1, "edge": 1 if self.words.directed else 2}
        loaded = sum(rows_of[write.word] for write in self.load)
        lines = [line for lines in self.scripts for line in lines]
        asked = sum(rows_of.get(line.command[0], 0) for line in lines)
        made = sum(rows_of.get(line.command[0], 0) for line in lines if line.answer == "ok")
        leaves = self.words.leaves or min(MOST_LEAVES, 1 + (loaded + asked) // ROWS_OF_A_FULL_LEAF)
        return loaded + made >= ROWS_OF_A_FULL_LEAF * leaves

    def block_of(self, job):
        """In which block a script stands: those of one run one after the other. Without threads each has its own."""
        if self.words.threads is None:
            return job
        length, longer = divmod(len(self.scripts), self.words.threads)
        in_longer = longer * (length + 1)
        return (job - 1) // (length + 1) if job <= in_longer else longer + (job - 1 - in_longer) // length

    def check(self):
        shown_to = collections.defaultdict(lambda: 1 if self.load else 0)
        for job, (script, lines) in enumerate(zip(self.words.scripts, self.scripts), 1):
            report = Report(self, job, f"{script}.report", shown_to[self.block_of(job)])
            report.check(lines)
            shown_to[self.block_of(job)] = report.newest_shown
        for commit in self.commits:
            if commit.name not in self.told:
                name = shown(commit.name)
                self.faults.add(self.words.journal, commit.line, f"no report tells of the commit of {name}")
        if self.words.said:
            self.check_said()

    def check_said(self):
        """Whether the summary has the counts of the last graph."""
        vertices, edges = View(self.history, len(self.commits)).counts()
        right = f"commits {len(self.commits)} vertices {vertices} edges {edges} undo 0 retired 0"
        said = written_lines(self.words.said)
        if said != [right]:
            self.faults.add(self.words.said, 1, f"{' / '.join(said)}, where the journal gives: {right}")


class Report:
    """A report that is being checked, line by line."""

    def __init__(self, run, job, name, newest_shown):
        self.run, self.job, self.name = run, job, name
        self.transaction, self.begun, self.newest_shown = None, 0, newest_shown
        self.line = None

    def fault(self, text):
        self.run.faults.add(self.name, self.line.number, f"{' '.join(self.line.command)}: {text}")

    def want(self, right):
        """Looks whether the answer is the right one."""
        if self.line.answer != right:
            self.fault(f"{self.line.answer}, where it is {right}")

    def check(self, lines):
        for place, self.line in enumerate(lines):
            word = self.line.command[0]
            if word == "begin":
                if not self.check_begin(self.stamp_of_commit(lines, place) if self.run.words.serial else None):
                    return
                continue
            self.transaction.commands.append(self.line.command)
            if self.transaction.is_stopped:
                self.want("skipped")
            elif word in WRITES:
                self.check_write(write_of(self.line.command, self.run.words.directed))
            elif word == "commit":
                self.check_commit()
            elif word == "abort":
                self.want("aborted")
            elif word in KERNELS:
                self.check_kernel(self.line.command[-1])
            else:
                self.check_read()

    @staticmethod
    def stamp_of_commit(lines, place):
        """With what stamp the transaction commits that begins at this place, if it does."""
        while lines[place].command[0] not in ("commit", "abort"):
            place += 1
        found = COMMIT_ANSWER.fullmatch(lines[place].answer)
        return int(found[1]) if found else None

    def check_begin(self, stamp):
        """The name is the next one, and the start no commit that isn't there and none before what was shown. Where a
        stamp is given, the lines have to be right behind the commits before it, too."""
        self.begun += 1
        answer = BEGIN_ANSWER.fullmatch(self.line.answer)
        if not answer or (int(answer[1]), int(answer[2])) != (self.job, self.begun):
            right = shown((self.job, self.begun))
            self.fault(f"{self.line.answer}, where {right} begins; what comes behind it isn't looked at")
            return False
        start = int(answer[3])
        if start > len(self.run.commits):
            self.fault(f"it starts at {start}, and there are {len(self.run.commits)} commits")
        if start < self.newest_shown:
            self.fault(f"it starts at {start}, and {self.newest_shown} was shown before")
        views = [View(self.run.history, start)]
        if stamp is not None:
            views.append(View(self.run.history, stamp - 1))
        self.transaction = Transaction((self.job, self.begun), start, views)
        self.newest_shown = max(self.newest_shown, start)
        return True

    def check_read(self):
        for view in self.transaction.views:
            self.want(self.read_of(view))

    def read_of(self, view):
        """The right answer to a question."""
        word, *ids = self.line.command
        ids = list(map(int, ids))
        if word == "count":
            return "vertices {} edges {}".format(*view.counts())
        if word == "weight":
            weight = view.weight(*ids)
            return "none" if weight is None else f"weight {weight}"
        if not view.has_vertex(ids[0]):
            return f"no vertex {ids[0]}"
        targets = view.targets(ids[0])
        return " ".join(map(str, ["neighbours", len(targets), *targets]))

    def check_kernel(self, file):
        """The answer is the number of vertices, and the file holds the kernel's table, where the root is a vertex."""
        command, is_table = self.line.command, self.line.answer.startswith("table ")
        for view in self.transaction.views:
            if command[0] not in ("wcc", "cdlp") and not view.has_vertex(int(command[1])):
                self.want(f"no vertex {int(command[1])}")
                continue
            table = table_of(view.arcs(), command)
            self.want(f"table {len(table)}")
            if is_table:
                self.check_table(file, table)
        if not is_table and pathlib.Path(file).exists():
            self.fault(f"there is a file {file}, though it was answered {self.line.answer}")

    def check_table(self, file, table):
        try:
            found = written_lines(file)
        except Unreadable as fault:
            self.fault(f"its result can't be read: {fault}")
            return
        for number, (line, right) in enumerate(zip(found, table), 1):
            if line != right:
                self.run.faults.add(file, number, f"{line}, where it is {right}")
                return
        if len(found) != len(table):
            number = min(len(found), len(table)) + 1
            self.run.faults.add(file, number, f"{len(found)} lines, where there are {len(table)}")

    def check_write(self, write):
        """A write that the graph refuses has that answer; any other is made, or stops its transaction."""
        answer = self.line.answer
        refusals = [refusal_of(view, write) for view in self.transaction.views]
        for refusal in filter(None, refusals):
            self.want(refusal)
        if answer == "ok":
            self.transaction.writes.append(write)
            for view in self.transaction.views:
                view.apply(write)
        elif answer.startswith("conflict "):
            self.check_conflict(write)
            self.transaction.is_stopped = True
        elif answer == "full":
            if write.word not in ("vertex", "edge") or not self.run.is_full:
                self.fault("full, and there is a place for a row")
            self.transaction.is_stopped = True
        elif None in refusals:
            self.fault(f"{answer}, and nothing refuses it")

    def check_conflict(self, write):
        """It names a later commit with a clashing write, or a transaction of another script that made one."""
        later, opened = LATER_ANSWER.fullmatch(self.line.answer), OPEN_ANSWER.fullmatch(self.line.answer)
        if later:
            self.check_later(int(later[1]), self.run.history.clashes(write), "clashes with it")
        elif opened:
            self.check_open((int(opened[1]), int(opened[2])), write)
        else:
            self.fault(f"{self.line.answer} is no answer")

    def check_later(self, stamp, stamps, what):
        if stamp <= self.transaction.start:
            self.fault(f"commit {stamp} isn't behind the start {self.transaction.start}")
        if stamp not in stamps:
            self.fault(f"no commit {stamp} {what}")
        self.newest_shown = max(self.newest_shown, stamp)

    def check_open(self, name, write):
        if name[0] > len(self.run.scripts):
            self.fault(f"there is no script {name[0]}")
            return
        if self.run.block_of(name[0]) == self.run.block_of(self.job):
            self.fault(f"{shown(name)} is of the same {'script' if name[0] == self.job else 'thread'}")
        if not any(name in self.run.made.get(mark, ()) for mark in marks_met(write)):
            self.fault(f"{shown(name)} made no write that clashes with it")
        stamp = self.run.stamps.get(name)
        if stamp is not None and stamp <= self.transaction.start:
            self.fault(f"{shown(name)} is commit {stamp}, which isn't behind the start {self.transaction.start}")

    def check_commit(self):
        """It is the commit of its stamp, with its start and all that was answered `ok`."""
        found, transaction = COMMIT_ANSWER.fullmatch(self.line.answer), self.transaction
        if not transaction.writes:
            self.want("commit -")
        elif self.run.words.serial and LATER_ANSWER.fullmatch(self.line.answer):
            stamp = int(LATER_ANSWER.fullmatch(self.line.answer)[1])
            self.check_later(stamp, self.stamps_depended_on(), "wrote what its lines depend on")
        elif not found:
            self.fault(f"{self.line.answer}, where it commits what it wrote")
        else:
            self.check_committed(int(found[1]))

    def check_committed(self, stamp):
        transaction = self.transaction
        commits = self.run.commits[stamp - 1:stamp]
        if not commits or commits[0].name != transaction.name:
            self.fault(f"commit {stamp} of the journal isn't {shown(transaction.name)}")
        elif commits[0].start != transaction.start or commits[0].writes != transaction.writes:
            self.fault(f"commit {stamp} of the journal has another start or other writes")
        else:
            self.run.told.add(transaction.name)
        self.newest_shown = max(self.newest_shown, stamp)

    # ---- with --serial

    def stamps_depended_on(self):
        """The commits behind the start that wrote a row on which a line of the transaction depends."""
        commits = enumerate(self.run.commits[self.transaction.start:], self.transaction.start + 1)
        commands = self.transaction.commands
        return [place for place, commit in commits
                if any(self.does_depend(command, write) for command in commands for write in commit.writes)]

    def does_depend(self, command, write):
        """Whether the answer to a line depends on a row that a write writes, as FORMATS has it of --serial."""
        word, is_directed = command[0], self.run.words.directed
        element = write.element
        if word in ("begin", "commit", "abort"):
            return False
        if word in ("count", *KERNELS) or (word == "unvertex" and is_directed):
            return True
        ends = tuple(int(field) for field in command[1:3])
        if word in ("neighbours", "unvertex"):
            return ends[0] in (element[:1] if is_directed else element)
        if word == "vertex":
            return element == ends[:1]
        return element == edge_of(*ends, is_directed) or (word != "weight" and element in ((ends[0],), (ends[1],)))


# ---- the whole


def words_of(arguments):
    description = "Says of a run of teseo whether its answers are right and its journal legal."
    parser = argparse.ArgumentParser(description=description, allow_abbrev=False)
    for name in ("vertices", "edges", "journal"):
        parser.add_argument(f"--{name}", required=True)
    for name in ("directed", "cut", "serial"):
        parser.add_argument(f"--{name}", action="store_true")
    for name in ("weights", "leaves", "threads"):
        parser.add_argument(f"--{name}", type=int)
    parser.add_argument("--schedule")
    parser.add_argument("--said", help="a file with what the run has said on standard output")
    parser.add_argument("scripts", nargs="+")
    return parser.parse_intermixed_args(arguments)


def main():
    gc.disable()  # a large graph is millions of small objects, and nothing here is a cycle that has to be found
    words, faults = words_of(sys.argv[1:]), Faults()
    try:
        run = Run(words, faults)
        run.check()
    except Unreadable as fault:
        print("\n".join([*faults.found[:MOST_FAULTS_SHOWN], str(fault)]))
        return 1
    if faults.found:
        print("\n".join(faults.found[:MOST_FAULTS_SHOWN]))
        if len(faults.found) > MOST_FAULTS_SHOWN:
            print(f".. and {len(faults.found) - MOST_FAULTS_SHOWN} more")
        return 1
    answers = sum(map(len, run.scripts))
    print(f"{answers} answers right, journal of {len(run.commits)} commits legal")
    return 0


if __name__ == "__main__":
    sys.exit(main())
