#!/usr/bin/env python3
"""Reckons the results of the two graphs of this folder, apart from the program, into the folder that the word names.

Breadth-first search, components and shortest paths are networkx's. Community labels are reckoned here by the definition of
LDBC Graphalytics, since networkx has no synchronous ones. Reads the property file, and the graph files that it names."""

import collections
import fractions
import pathlib
import sys

import networkx

HERE = pathlib.Path(__file__).resolve().parent
NO_WALK = 9223372036854775807


def properties_of(name):
    """The properties of a graph, without the graph's name in front."""
    found = {}
    for line in (HERE / f"{name}.properties").read_text().splitlines():
        if line and not line.startswith("#"):
            key, value = line.split(" = ")
            found[key.removeprefix(f"graph.{name}.")] = value
    return found


def graph_of(properties):
    graph = networkx.DiGraph() if properties["directed"] == "true" else networkx.Graph()
    graph.add_nodes_from(int(line) for line in (HERE / properties["vertex-file"]).read_text().split())
    for line in (HERE / properties["edge-file"]).read_text().splitlines():
        source, target, weight = line.split()
        graph.add_edge(int(source), int(target), weight=int(fractions.Fraction(weight) * 100))
    return graph


def labels_of(graph, rounds):
    """Each round gives a vertex the label that most of its neighbours have, the least of those; both directions count."""
    labels = {vertex: vertex for vertex in graph}
    for _ in range(rounds):
        new = {}
        for vertex in graph:
            if graph.is_directed():
                met = [*graph.successors(vertex), *graph.predecessors(vertex)]
            else:
                met = list(graph.neighbors(vertex))
            counts = collections.Counter(labels[other] for other in met)
            new[vertex] = min(counts, key=lambda label: (-counts[label], label)) if counts else labels[vertex]
        labels = new
    return labels


def components_of(graph):
    parts = networkx.weakly_connected_components(graph) if graph.is_directed() else networkx.connected_components(graph)
    return {vertex: min(part) for part in parts for vertex in part}


def main():
    out = pathlib.Path(sys.argv[1])
    for name in "directed", "undirected":
        properties = properties_of(name)
        graph = graph_of(properties)
        hops = networkx.single_source_shortest_path_length(graph, int(properties["bfs.source-vertex"]))
        paths = networkx.single_source_dijkstra_path_length(graph, int(properties["sssp.source-vertex"]))
        results = {
            "BFS": {vertex: hops.get(vertex, NO_WALK) for vertex in graph},
            "CDLP": labels_of(graph, int(properties["cdlp.max-iterations"])),
            "SSSP": {vertex: paths.get(vertex, "infinity") for vertex in graph},
            "WCC": components_of(graph),
        }
        for kernel, values in results.items():
            text = "".join(f"{vertex} {values[vertex]}\n" for vertex in sorted(values))
            (out / f"{name}-{kernel}").write_text(text)


main()
