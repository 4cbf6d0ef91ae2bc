#!/usr/bin/env python3
"""Kernels by networkx. It has no labels of Graphalytics: those are a loop over its neighbours.

    networkx_kernels.py GRAPH ROOT KERNELS [FOLDER]

Reads GRAPH.v and GRAPH.e, and prints what the programs in C++ print, which kernels.h tells."""

import collections
import pathlib
import sys
import time

import networkx

ROUNDS = 10


def timed(name, call):
    """The answer of a call; prints a name, and the microseconds that the call took."""
    begun = time.perf_counter()
    answer = call()
    print(name, round((time.perf_counter() - begun) * 1e6), flush=True)
    return answer


def read(prefix):
    with open(f"{prefix}.v", encoding="ascii") as file:
        vertices = list(map(int, file))
    with open(f"{prefix}.e", encoding="ascii") as file:
        return vertices, [tuple(map(int, line.split())) for line in file]


def build(vertices, edges):
    graph = networkx.Graph()
    graph.add_nodes_from(vertices)
    graph.add_weighted_edges_from(edges)
    return graph


def search(graph, root):
    return networkx.single_source_shortest_path_length(graph, root)


def components(graph, _):
    return {vertex: least for group in networkx.connected_components(graph) for least in [min(group)] for vertex in group}


def most_frequent(labels, own):
    counts = collections.Counter(labels)
    most = max(counts.values(), default=0)
    return min((label for label, count in counts.items() if count == most), default=own)


def labels(graph, _):
    now = {vertex: vertex for vertex in graph}
    for _round in range(ROUNDS):
        now = {vertex: most_frequent(map(now.__getitem__, graph[vertex]), own) for vertex, own in now.items()}
    return now


def paths(graph, root):
    return networkx.single_source_dijkstra_path_length(graph, root)


KERNELS = {"bfs": (search, "9223372036854775807"), "wcc": (components, ""), "cdlp": (labels, ""), "sssp": (paths, "infinity")}


def main():
    prefix, root, names, *folder = sys.argv[1:]
    vertices, edges = timed("read", lambda: read(prefix))
    graph = timed("build", lambda: build(vertices, edges))
    for name in names.split(","):
        kernel, none = KERNELS[name]
        table = timed(name, lambda: kernel(graph, int(root)))
        if folder:
            with open(pathlib.Path(*folder, name), "w", encoding="ascii") as file:
                file.writelines(f"{vertex} {table.get(vertex, none)}\n" for vertex in vertices)


if __name__ == "__main__":
    main()
