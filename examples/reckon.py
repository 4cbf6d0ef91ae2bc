#!/usr/bin/env python3
"""Reckons the stored results of fraud, routes and network once more, apart from the program, and compares them.

The graph is read from the two files. What commits have changed in it is taken from the journal, and what a transaction
has changed from its script, where the report says `ok`. Breadth-first search, components and shortest paths are
networkx's; community labels follow the definition of LDBC Graphalytics, since networkx has no synchronous ones. Needs
Debian's python3-networkx, and is run by hand."""

import collections
import fractions
import pathlib
import sys

import networkx

HERE = pathlib.Path(__file__).resolve().parent
NO_WALK = 9223372036854775807
Example = collections.namedtuple("Example", "directed digits vertices edges")
EXAMPLES = {
    "fraud": Example(True, 2, "accounts.v", "transfers.e"),
    "routes": Example(False, 1, "roads.v", "roads.e"),
    "network": Example(False, 0, "routers.v", "links.e"),
}


def lines_of(path):
    """The fields of each line that is neither a comment nor blank."""
    for line in path.read_text(encoding="utf-8").splitlines():
        if line.strip() and not line.startswith("#"):
            yield line.split()


def loaded(folder, example):
    graph = networkx.DiGraph() if example.directed else networkx.Graph()
    graph.add_nodes_from(int(vertex) for vertex, in lines_of(folder / example.vertices))
    for source, target, *weight in lines_of(folder / example.edges):
        units = fractions.Fraction(weight[0]) * 10**example.digits if example.digits else 1
        assert units == int(units)
        graph.add_edge(int(source), int(target), weight=int(units))
    return graph


def apply(graph, write):
    """Makes a write of a script or of the journal in the graph."""
    word, *numbers = write[0], *map(int, write[1:])
    if word == "vertex":
        graph.add_node(*numbers)
    elif word == "unvertex":
        graph.remove_node(*numbers)
    elif word == "drop":
        graph.remove_edge(*numbers)
    else:
        source, target, *weight = numbers
        graph.add_edge(source, target, weight=weight[0] if weight else 1)


def snapshots(folder, example):
    """The graph after each commit, by its stamp. The first is the load, which is compared with the files."""
    found, graph = [networkx.DiGraph() if example.directed else networkx.Graph()], None
    for fields in lines_of(folder / "expected" / "journal"):
        if fields[0] == "commit":
            graph = found[-1].copy()
            found.append(graph)
            assert int(fields[1]) == len(found) - 1
        else:
            apply(graph, fields)
    files = loaded(folder, example)
    assert networkx.utils.graphs_equal(found[1], files), "the load isn't what the files hold"
    return found


def labels_of(graph, rounds):
    """Each round gives a vertex the label that most of its neighbours have, the least of those, in both directions."""
    labels = {vertex: vertex for vertex in graph}
    for _ in range(rounds):
        new = {}
        for vertex in graph:
            met = [*graph.successors(vertex), *graph.predecessors(vertex)] if graph.is_directed() else graph[vertex]
            counts = collections.Counter(labels[other] for other in met)
            new[vertex] = min(counts, key=lambda label: (-counts[label], label)) if counts else labels[vertex]
        labels = new
    return labels


def table_of(graph, words):
    """The result of a kernel's line, by vertex."""
    kernel, argument = words[0], int(words[1]) if len(words) > 2 else None
    if kernel == "bfs":
        hops = networkx.single_source_shortest_path_length(graph, argument)
        return {vertex: hops.get(vertex, NO_WALK) for vertex in graph}
    if kernel == "sssp":
        sums = networkx.single_source_dijkstra_path_length(graph, argument)
        return {vertex: sums.get(vertex, "infinity") for vertex in graph}
    if kernel == "cdlp":
        return labels_of(graph, argument)
    undirected = graph.to_undirected() if graph.is_directed() else graph
    return {vertex: min(part) for part in networkx.connected_components(undirected) for vertex in part}


def results_of(folder, example):
    """Each result that the scripts ask for: its name, and its text as it was reckoned."""
    graphs = snapshots(folder, example)
    for report in sorted((folder / "expected").glob("*.report")):
        graph = None
        for words, answer in zip(lines_of(folder / report.stem), lines_of(report), strict=True):
            if words[0] == "begin":
                graph = graphs[int(answer[3])].copy()
            elif words[0] in ("vertex", "unvertex", "edge", "set", "drop") and answer == ["ok"]:
                apply(graph, words)
            elif answer[0] == "table":
                table = table_of(graph, words)
                yield words[-1], "".join(f"{vertex} {table[vertex]}\n" for vertex in sorted(table))


def main():
    differing = 0
    for name, example in EXAMPLES.items():
        for result, text in results_of(HERE / name, example):
            equal = (HERE / name / "expected" / result).read_text() == text
            differing += not equal
            print(f"{name}/{result}: {'equal' if equal else 'differs'}")
    return 1 if differing else 0


if __name__ == "__main__":
    sys.exit(main())
