#!/usr/bin/env python3
"""Draws the pictures of ARCHITECTURE.md: store.svg, versions.svg, rebalance.svg and passes.svg, beside this file.

Needs Python 3.9 or later with its standard library alone, and is run by hand: docs/pictures.py"""

import pathlib
from xml.sax.saxutils import escape

HERE = pathlib.Path(__file__).resolve().parent
WIDTH = 760
INK, GREY, PALE, ROW, RECORD, TOUCH = "#222222", "#8a8a8a", "#f4f4f4", "#a6c8e0", "#f4c58a", "#b9d8a8"
HEAD = f"""<svg xmlns="http://www.w3.org/2000/svg" width="{WIDTH}" height="{{height}}" viewBox="0 0 {WIDTH} {{height}}"
 font-family="DejaVu Sans, Verdana, sans-serif" font-size="12" fill="{INK}">
<title>{{title}}</title>
<defs><marker id="tip" viewBox="0 0 8 8" refX="8" refY="4" markerWidth="7" markerHeight="7" orient="auto">
<path d="M0 0 L8 4 L0 8 Z" fill="{INK}"/></marker></defs>
<rect width="100%" height="100%" fill="white"/>
"""


class Picture:
    """Boxes, words and arrows on a white ground."""

    def __init__(self, name, title, height):
        self.name = name
        self.parts = [HEAD.format(title=escape(title), height=height)]

    def box(self, x, y, width, height, fill=PALE, edge=INK):
        self.parts.append(
            f'<rect x="{x}" y="{y}" width="{width}" height="{height}" fill="{fill}" stroke="{edge}"/>\n'
        )

    def word(self, x, y, text, anchor="start", colour=INK, weight="normal"):
        self.parts.append(
            f'<text x="{x}" y="{y}" text-anchor="{anchor}" fill="{colour}" font-weight="{weight}">{escape(text)}</text>\n'
        )

    def labelled(self, x, y, width, height, text, fill=PALE):
        self.box(x, y, width, height, fill)
        self.word(x + width / 2, y + height / 2 + 4, text, "middle")

    def arrow(self, *points):
        path = " ".join(f"{x},{y}" for x, y in points)
        self.parts.append(
            f'<polyline points="{path}" fill="none" stroke="{INK}" marker-end="url(#tip)"/>\n'
        )

    def dashed(self, x, y, width, height):
        self.parts.append(
            f'<rect x="{x}" y="{y}" width="{width}" height="{height}" fill="none" stroke="{INK}"'
            ' stroke-dasharray="4 3"/>\n'
        )

    def save(self):
        text = "".join(self.parts) + "</svg>\n"
        (HERE / f"{self.name}.svg").write_text(text, encoding="utf-8")


def draw_trie(picture):
    """The nodes over the leaves, and the leaves with their segments."""
    picture.word(10, 24, "trie", weight="bold")
    picture.word(10, 40, "over the bytes of the", colour=GREY)
    picture.word(10, 55, "leaves’ least keys", colour=GREY)
    picture.labelled(420, 15, 110, 26, "00 · 01")
    picture.labelled(290, 70, 110, 26, "00 · 80")
    picture.arrow((450, 41), (350, 70))
    picture.arrow((500, 41), (630, 140))
    picture.arrow((320, 96), (250, 140))
    picture.arrow((370, 96), (440, 140))
    picture.word(545, 33, "nodes with one child are left out", colour=GREY)
    picture.word(10, 150, "leaves", weight="bold")
    picture.word(10, 166, "eight segments each,", colour=GREY)
    picture.word(10, 181, "in the order of keys", colour=GREY)
    for x, fills in [(170, (20, 24, 6, 9, 0, 13, 22, 16)), (360, (14,) * 8), (550, (30, 12, 3, 18, 7, 25, 11, 20))]:
        for place, rows in enumerate(fills):
            left = x + place * 21
            picture.box(left, 140, 21, 40)
            if rows:
                picture.box(left, 180 - rows * 40 / 32, 21, rows * 40 / 32, ROW)


def draw_segment(picture):
    """One segment with its rows, heads, records and touches."""
    picture.word(10, 235, "segment", weight="bold")
    picture.word(10, 251, "sorted rows between", colour=GREY)
    picture.word(10, 266, "two fence keys", colour=GREY)
    picture.arrow((180, 180), (180, 218))
    rows = ["(1,0)  0", "(1,3)  5", "(2,0)  0", "(2,2)  7"]
    for place, text in enumerate(rows):
        picture.labelled(170 + place * 90, 220, 90, 30, text, ROW)
    picture.labelled(530, 220, 190, 30, "gap, up to 32 rows")
    picture.word(10, 300, "heads", weight="bold")
    picture.word(10, 316, "of changed rows alone", colour=GREY)
    picture.labelled(260, 290, 90, 26, "(1,3)")
    picture.labelled(350, 290, 90, 26, "(2,0)")
    picture.word(10, 360, "undo records", weight="bold")
    picture.word(10, 376, "newest first", colour=GREY)
    picture.labelled(190, 350, 110, 26, "2.1 · was 4", RECORD)
    picture.labelled(190, 400, 110, 26, "1.1 · no row", RECORD)
    picture.arrow((290, 316), (250, 350))
    picture.arrow((245, 376), (245, 400))
    picture.labelled(390, 350, 110, 26, "touch of 2.1", TOUCH)
    picture.arrow((395, 316), (440, 350))
    picture.word(520, 355, "an edge was put at vertex 2,", colour=GREY)
    picture.word(520, 371, "so nobody else may drop it", colour=GREY)


def draw_store():
    """The store, from the trie to an undo record."""
    picture = Picture("store", "A trie over leaves of eight segments, and one segment with its undo records", 440)
    draw_trie(picture)
    draw_segment(picture)
    picture.save()


def draw_versions():
    """What three readers see of one row."""
    picture = Picture("versions", "One row, its undo records, and what three transactions read of it", 250)
    picture.word(10, 24, "the row (1,3), an edge from 1 to 2", weight="bold")
    picture.labelled(20, 40, 120, 30, "weight 5", ROW)
    picture.labelled(220, 40, 170, 30, "2.1 · before: weight 4", RECORD)
    picture.labelled(470, 40, 170, 30, "1.1 · before: no row", RECORD)
    picture.arrow((140, 55), (220, 55))
    picture.arrow((390, 55), (470, 55))
    picture.word(305, 90, "2.1 is open", "middle", GREY)
    picture.word(555, 90, "1.1 committed as the second", "middle", GREY)
    picture.word(10, 130, "who reads", weight="bold")
    picture.word(220, 130, "walks past", weight="bold")
    picture.word(560, 130, "and reads", weight="bold")
    lines = [
        ("2.1 itself", "nothing: the newest record is its own", "weight 5"),
        ("a reader that started at 2", "the record of 2.1, which isn’t committed", "weight 4"),
        ("a reader that started at 1", "both, since the second commit is later", "no edge"),
    ]
    for place, (who, past, what) in enumerate(lines):
        y = 158 + place * 30
        picture.parts.append(f'<line x1="10" y1="{y - 20}" x2="{WIDTH - 10}" y2="{y - 20}" stroke="{GREY}"/>\n')
        picture.word(10, y, who)
        picture.word(220, y, past)
        picture.word(560, y, what)
    picture.save()


def draw_leaf(picture, x, y, fills, width=36):
    """A leaf with so many rows in its segments."""
    for place, rows in enumerate(fills):
        left, tall = x + place * width, 48
        picture.box(left, y, width, tall)
        if rows:
            high = rows * tall / 32
            picture.box(left, y + tall - high, width, high, ROW)
        picture.word(left + width / 2, y + tall + 15, str(rows), "middle", GREY)


def draw_rebalance():
    """A spread, and a split."""
    picture = Picture("rebalance", "A full segment is spread over a window, and a full leaf is split in two", 330)
    picture.word(10, 24, "spread: the first segment is full, and the window of two has room (32 + 1 of at most 60)", weight="bold")
    draw_leaf(picture, 20, 40, (32, 0, 0, 0, 0, 0, 0, 0))
    picture.dashed(17, 36, 78, 74)
    picture.arrow((325, 64), (415, 64))
    draw_leaf(picture, 430, 40, (16, 16, 0, 0, 0, 0, 0, 0))
    picture.word(10, 150, "split: no window has room (207 + 2 of at most 208), and half of the rows move to a free leaf", weight="bold")
    draw_leaf(picture, 20, 166, (32, 27, 26, 26, 24, 24, 24, 24))
    picture.arrow((325, 190), (415, 190))
    draw_leaf(picture, 430, 166, (13,) * 8)
    draw_leaf(picture, 430, 250, (13,) * 7 + (12,))
    picture.word(20, 270, "The index gets an entry for the new leaf, and the", colour=GREY)
    picture.word(20, 286, "cuts between the segments of both.", colour=GREY)
    picture.save()


def draw_views(picture):
    """What two passes know by themselves."""
    picture.word(10, 36, "passes", weight="bold")
    picture.word(10, 52, "each on a thread,", colour=GREY)
    picture.word(10, 67, "with a view of its own", colour=GREY)
    views = [
        (190, "pass 1 has committed", ("its transaction, and what it has", "seen of the journal: commits 1, 2")),
        (470, "pass 2 has cell 1 in hand", ("its transaction, which began at 1,", "and the rows of cell 1")),
    ]
    for x, name, lines in views:
        picture.box(x, 15, 260, 66)
        picture.word(x + 10, 34, name, weight="bold")
        picture.word(x + 10, 53, lines[0])
        picture.word(x + 10, 69, lines[1])


def draw_words(picture):
    """Numbers that any pass loads and stores in one step, each with what it says."""
    picture.word(10, 151, "words", weight="bold")
    picture.word(10, 167, "any pass loads any,", colour=GREY)
    picture.word(10, 182, "in one step", colour=GREY)
    picture.arrow((240, 81), (240, 120))
    picture.word(250, 104, "a load or a store of one word", colour=GREY)
    words = [
        ("clock", "2", "two commits"),
        ("word of pass 1", "4", "is commit 2"),
        ("word of pass 2", "1", "is open"),
        ("pin of pass 2", "3", "began at 1"),
        ("latch of cell 1", "7", "odd: held"),
        ("block of cell 0", "8 ..", "even: whole"),
    ]
    for place, (name, number, says) in enumerate(words):
        x = 150 + place * 97
        picture.word(x + 46, 135, name, "middle")
        picture.labelled(x, 142, 92, 26, number, ROW)
        picture.word(x + 46, 184, says, "middle", GREY)


def draw_values(picture):
    """What is taken out by its latch, and a record that asks for a word."""
    picture.word(10, 266, "values", weight="bold")
    picture.word(10, 282, "one pass at a time", colour=GREY)
    picture.word(10, 297, "has them, by a latch", colour=GREY)
    values = [("journal", "commit 1, commit 2"), ("index", "leaf of each key"), ("cell 0", "rows, records")]
    for place, (name, holds) in enumerate(values):
        x = 150 + place * 145
        picture.word(x + 66, 255, name, "middle")
        picture.labelled(x, 262, 132, 26, holds)
    picture.word(651, 255, "cell 1", "middle")
    picture.dashed(585, 262, 132, 26)
    picture.word(651, 279, "out, with pass 2", "middle", GREY)
    picture.arrow((717, 275), (748, 275), (748, 48), (732, 48))
    picture.labelled(440, 320, 132, 26, "record of 2.1", RECORD)
    picture.arrow((506, 288), (506, 320))
    picture.arrow((440, 333), (433, 333), (433, 192))
    picture.word(425, 337, "no stamp: the word of its writer’s pass tells", "end", GREY)


def draw_passes():
    """Words, views and latches of a store that passes share."""
    picture = Picture("passes", "Two passes with their views, the words that any pass loads, and values with latches", 365)
    draw_views(picture)
    draw_words(picture)
    draw_values(picture)
    picture.save()


if __name__ == "__main__":
    draw_store()
    draw_versions()
    draw_rebalance()
    draw_passes()
