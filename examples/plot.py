#!/usr/bin/env python3
"""Draws picture.svg in the folders fraud, routes and network, from the stored results there.

Needs Debian's package python3-matplotlib, and is run by hand:

    /usr/bin/python3 examples/plot.py [FOLDER..]

A picture has a panel for each result. What is coloured is the result's value; where things stand is taken from the
table of names, and the edges from the edge file, less those that are gone and with those that are new in the panel."""

import collections
import csv
import pathlib
import re
import sys

import matplotlib

matplotlib.use("svg")
from matplotlib import lines, pyplot  # noqa: E402

HERE = pathlib.Path(__file__).resolve().parent
NOTHING = ("9223372036854775807", "infinity")
RED, GREY, PALE = "#c1272d", "#9a9a9a", "#ffffff"
GROUPS = ["#4c78a8", "#76b7b2", "#b279a2", "#bab0ac", "#f2a541", "#9c755f", "#59a14f", "#edc948"]

Panel = collections.namedtuple("Panel", "title result gone new changed", defaults=((), (), ()))
Graph = collections.namedtuple("Graph", "folder places names edges directed")

# edges that are drawn as bows, since a straight line would cross vertices that have no part in them
BENDS = {(1046, 1020): 0.28}

HARBOUR_FAILS, HILLS_FAIL, RING_FAILS = (1, 11), (141, 142), (11, 12)


def rows_of(path):
    with open(path, encoding="utf-8", newline="") as file:
        yield from csv.DictReader(file)


def graph_of(name, table, edges, directed=False):
    rows = list(rows_of(HERE / name / table))
    places = {int(row["id"]): (float(row["x"]), float(row["y"])) for row in rows}
    names = {int(row["id"]): row["name"] for row in rows}
    lines = (HERE / name / edges).read_text(encoding="utf-8").splitlines()
    pairs = [tuple(map(int, line.split()[:2])) for line in lines if line and not line.startswith("#")]
    return Graph(HERE / name, places, names, pairs, directed)


def values_of(graph, result):
    """A vertex's value, or None where no walk leads there."""
    lines = (graph.folder / "expected" / result).read_text().splitlines()
    pairs = (line.split() for line in lines)
    return {int(vertex): None if value in NOTHING else int(value) for vertex, value in pairs}


def draw_edges(axes, graph, panel):
    def draw(edge, colour, style, width, bend=0):
        ends = [graph.places[vertex] for vertex in edge]
        if graph.directed:
            form = {"arrowstyle": "-|>", "color": colour, "linewidth": width, "linestyle": style, "mutation_scale": 6,
                    "connectionstyle": f"arc3,rad={bend}"}
            axes.annotate("", xy=ends[1], xytext=ends[0], arrowprops={**form, "shrinkA": 3, "shrinkB": 3}, zorder=1)
        else:
            axes.plot(*zip(*ends), color=colour, ls=style, lw=width, zorder=1)

    for edge in graph.edges:
        if edge not in panel.gone and edge not in panel.changed:
            draw(edge, GREY, "-", 0.8)
    for edge in panel.gone:
        draw(edge, RED, (0, (2, 2)), 1.4)
    for edge in panel.new:
        draw(edge, RED, "-", 1.8, BENDS.get(edge, 0))
    for edge in panel.changed:
        draw(edge, RED, (0, (1, 1)), 1.8)


def draw_vertices(axes, graph, colour_of, size):
    for vertex, (x, y) in graph.places.items():
        edge = RED if colour_of[vertex] == PALE else "#333333"
        axes.scatter([x], [y], s=size, c=[colour_of[vertex]], edgecolors=edge, linewidths=0.9, zorder=2)


def shades_of(values, most):
    """Colours from light to dark by value; white where no walk leads there."""
    shade = matplotlib.colormaps["YlGnBu"]
    return {vertex: PALE if value is None else matplotlib.colors.to_hex(shade(0.1 + 0.8 * value / most))
            for vertex, value in values.items()}


def panels(graph, rows, columns, width, height, listed):
    """A figure of panels without axes, with their titles and their edges."""
    figure, grid = pyplot.subplots(rows, columns, figsize=(width, height), layout="constrained", squeeze=False)
    for axes, panel in zip(grid.flat, listed, strict=True):
        axes.set_title(panel.title, fontsize=9)
        axes.set_aspect("equal")
        axes.margins(0.06)
        axes.axis("off")
        draw_edges(axes, graph, panel)
        yield figure, axes, panel


def say(axes, graph, vertex, text, size=6.5, offset=(4, 4)):
    """Puts a text beside a vertex."""
    axes.annotate(text, graph.places[vertex], xytext=offset, textcoords="offset points", fontsize=size, zorder=3)


def dot(colour, edge="#333333"):
    return lines.Line2D([], [], ls="", marker="o", markersize=6, markerfacecolor=colour, markeredgecolor=edge)


def stroke(colour, style="-", width=1.8):
    return lines.Line2D([], [], color=colour, ls=style, lw=width)


def add_legend(figure, entries):
    """A legend below all panels: each entry is a sign and what it means."""
    signs, meanings = zip(*entries)
    figure.get_layout_engine().set(rect=(0, 0.07, 1, 0.93))
    figure.legend(signs, meanings, loc="lower center", ncols=len(entries), fontsize=8, frameon=False)


def fraud():
    graph = graph_of("fraud", "accounts.csv", "transfers.e", directed=True)
    closing = ((1065, 1071), (1074, 1061))
    bought, changed = ((1046, 1020),), ((1021, 1020),)
    listed = [Panel("components, before", "parts.before"),
              Panel("components, after", "parts.after", (), closing + bought, changed),
              Panel("labels, before", "groups.before"),
              Panel("labels, after", "groups.after", (), closing + bought, changed)]
    labels = set()
    for panel in listed:
        labels |= set(values_of(graph, panel.result).values())
    colours = dict(zip(sorted(labels), GROUPS, strict=False))
    for figure, axes, panel in panels(graph, 2, 2, 9.5, 6.2, listed):
        colour_of = {vertex: colours[value] for vertex, value in values_of(graph, panel.result).items()}
        draw_vertices(axes, graph, colour_of, 34)
        for vertex in (1001, 1014, 1015, 1020, 1040, 1061, 1065, 1071, 1074):
            say(axes, graph, vertex, graph.names[vertex])
    add_legend(figure, [(dot(GROUPS[0]), "one colour: one component, or one label"), (stroke(GREY, width=0.8), "payments of the load"),
                        (stroke(RED), "booked meanwhile"), (stroke(RED, (0, (1, 1))), "its sum changed meanwhile")])
    return figure


def routes():
    graph = graph_of("routes", "junctions.csv", "roads.e")
    old, timber, motorway = (15, 20), (17, 22), (33, 34)
    listed = [Panel("from the Depot, before", "way.before"), Panel("Old Bridge is closed", "way.after", (old,)),
              Panel("tried: all three bridges closed", "way.cut", (old, timber, motorway))]
    most = max(value for panel in listed for value in values_of(graph, panel.result).values() if value is not None)

    def scale(value):
        return shades_of({0: value}, most)[0]

    for figure, axes, panel in panels(graph, 1, 3, 13, 4.0, listed):
        axes.axhspan(800, 1020, color="#d6e8f5", zorder=0)
        values = values_of(graph, panel.result)
        draw_vertices(axes, graph, shades_of(values, most), 34)
        say(axes, graph, 1, graph.names[1], 9)
        for vertex in (20, 27, 34):
            value = values[vertex]
            far = "no way" if value is None else f"{value / 10000:.1f} km"
            say(axes, graph, vertex, f"{graph.names[vertex]}\n{far}", 9, (5, -20))
        for (source, target), name in ((old, "Old Bridge"), (timber, "Timber Bridge"), (motorway, "Motorway")):
            middle = [sum(both) / 2 for both in zip(graph.places[source], graph.places[target])]
            axes.annotate(name, middle, xytext=(3, -3), textcoords="offset points", fontsize=8, style="italic", zorder=3)
    add_legend(figure, [(dot(scale(0)), "the depot"), (dot(scale(most / 2)), f"{most / 20000:.1f} km from it"),
                        (dot(scale(most)), f"{most / 10000:.1f} km"), (dot(PALE, RED), "no way"),
                        (stroke(RED, (0, (2, 2))), "a closed bridge"), (stroke("#d6e8f5", width=8), "the river")])
    return figure


def network():
    graph = graph_of("network", "routers.csv", "links.e")
    listed = [Panel("all links up", "reach.up"), Panel("two links down", "reach.detour", (HARBOUR_FAILS, HILLS_FAIL)),
              Panel("three links down", "reach.cut", (HARBOUR_FAILS, HILLS_FAIL, RING_FAILS)),
              Panel("all links up again", "reach.again")]
    for figure, axes, panel in panels(graph, 2, 2, 9, 6.6, listed):
        values = values_of(graph, panel.result)
        draw_vertices(axes, graph, shades_of(values, 6), 110)
        for vertex, value in values.items():
            colour = "white" if value is not None and value > 3 else "black"
            number = "x" if value is None else str(value)
            axes.annotate(number, graph.places[vertex], ha="center", va="center", fontsize=7, color=colour, zorder=3)
        for vertex in (1, 11, 15, 101, 141, 142, 143):
            say(axes, graph, vertex, graph.names[vertex], 7, (6, 6))
        say(axes, graph, 103, graph.names[103], 7, (6, -10))
    add_legend(figure, [(dot(shades_of({0: 0}, 6)[0]), "core-west; the number is that of links from it"),
                        (dot(shades_of({0: 5}, 6)[0]), "5 links from it"), (dot(PALE, RED), "x: cut off"),
                        (stroke(RED, (0, (2, 2)), 1.4), "a link that is down")])
    return figure


# What a reader hears who doesn't see the picture.
ABOUT = {
    "fraud": ("A ring of transfers that closes", "Four panels: components and labels of 49 accounts, before and after. Nine accounts are two "
              "components before and one after, and have four labels before and one after. All others stay as they are."),
    "routes": ("A bridge that closes", "Three panels of a town with a river: ways from the depot with all bridges, without the old bridge, and "
               "without any. Mill Bank is 2.2 km away, then 4.1 km, then out of reach."),
    "network": ("Links that fail and return", "Four panels of 29 routers: how many links away from core-west each is, with all links, with two "
                "down, with three down, and with all again. The hills are cut off first, and then the harbour too."),
}


def save(figure, path):
    """Saves a picture, with numbers of two digits behind the point, and with its title and description."""
    title, description = ABOUT[path.parent.name]
    figure.savefig(path, metadata={"Date": None})
    text = path.read_text(encoding="utf-8")
    text = re.sub(r"\d+\.\d{3,}", lambda found: f"{float(found[0]):.2f}", text)
    head = f"\\1<title>{title}</title>\n <desc>{description}</desc>\n"
    path.write_text(re.sub(r"(<svg [^>]*>\n)", head, text, count=1), encoding="utf-8")


def main():
    # With these two the same results give the same file, and the text stays text.
    matplotlib.rcParams.update({"svg.hashsalt": "teseo", "svg.fonttype": "none", "font.family": "sans-serif"})
    drawings = {"fraud": fraud, "routes": routes, "network": network}
    for name in sys.argv[1:] or drawings:
        save(drawings[name](), HERE / name / "picture.svg")
        print(f"{name}/picture.svg")


if __name__ == "__main__":
    main()
