#!/usr/bin/env python3
"""Edits a layout at random, and compares `dpl edit` with a split of the layout as it is drawn then.

usage: edits.py DPL FILE COUNT [SEED [EVERY]]

DPL is the program, FILE a GDSII file of one structure whose elements all are rectangles on layer 1, datatype 0,
as layouts.py writes them. COUNT edits are made up from SEED (default: 1): rectangles are drawn beside shapes, over
them and far from them, and shapes are taken away, whole or in part. Behind each EVERY edits (default: 1), and behind
the last one, the layout is written as it is then; `dpl edit` of FILE with the edits so far and `dpl split` of that
layout must both end as done or in conflict, say the same line and leave the same bytes in OUT and CERT. Where they
don't, it ends with 1, and says where the files are. At its end it says how many were compared, how many were in
conflict, and the seconds of both commands by the clock. The words RULES, from the environment, stand in each command
(default: --rule 30 --overlap 10).
"""
import collections
import os
import random
import shutil
import struct
import sys
import tempfile

import timed

# The side of the squares of the grid.
SIDE = 2000
# What a boundary begins with that is a rectangle on layer 1, datatype 0, and what it ends with.
BEGIN, END = bytes.fromhex("00040800 00060D020001 00060E020000 002C1003"), bytes.fromhex("00041100")


class Layout:
    """The rectangles of a layer, by the squares of a grid."""

    def __init__(self, file):
        self.front, self.back, self.rects, self.cells = b"", b"", {}, collections.defaultdict(set)
        self.next, self.drawn = 0, {}
        self.read(file)

    def read(self, file):
        data = content(file)
        at, element, first, last = 0, None, None, None
        while at + 4 <= len(data):
            length, kind = struct.unpack(">HH", data[at : at + 4])
            if kind == 0x0800:
                first = at if first is None else first
                element = b""
            if element is not None:
                element += data[at : at + length]
            if kind == 0x1100:
                self.add(rectangle_of(element))
                element, last = None, at + length
            at += max(length, 4)
            if kind == 0x0400:
                break
        if first is None:
            sys.exit(f"{file} has no rectangle")
        self.front, self.back = data[:first], data[last:at]

    def touched(self, rect):
        """The squares of the grid that a rectangle meets."""
        for x in range(rect[0] // SIDE, (rect[2] - 1) // SIDE + 1):
            for y in range(rect[1] // SIDE, (rect[3] - 1) // SIDE + 1):
                yield x, y

    def add(self, rect):
        name = self.next
        self.next += 1
        self.rects[name] = rect
        x0, y0, x1, y1 = rect
        self.drawn[name] = BEGIN + struct.pack(">10i", x0, y0, x1, y0, x1, y1, x0, y1, x0, y0) + END
        for cell in self.touched(rect):
            self.cells[cell].add(name)

    def remove(self, rect):
        x0, y0, x1, y1 = rect
        names = {name for cell in self.touched(rect) for name in self.cells.get(cell, ())}
        for name in sorted(names):
            a0, b0, a1, b1 = self.rects[name]
            if a1 <= x0 or x1 <= a0 or b1 <= y0 or y1 <= b0:
                continue
            for cell in self.touched(self.rects[name]):
                self.cells[cell].discard(name)
            del self.rects[name], self.drawn[name]
            low, high = max(b0, y0), min(b1, y1)
            for left in ((a0, b0, a1, low), (a0, low, x0, high), (x1, low, a1, high), (a0, high, a1, b1)):
                if left[0] < left[2] and left[1] < left[3]:
                    self.add(left)

    def write(self, file):
        with open(file, "wb") as out:
            out.write(self.front + b"".join(self.drawn.values()) + self.back)


def rectangle_of(element):
    """The rectangle that an element draws."""
    if element is None or len(element) != 64 or not element.startswith(BEGIN) or not element.endswith(END):
        sys.exit("an element isn't a boundary of five points on layer 1, datatype 0")
    flat = struct.unpack(">10i", element[len(BEGIN) : -len(END)])
    points = list(zip(flat[::2], flat[1::2]))
    (x0, y0), (x1, y1) = min(points), max(points)
    corners = [(x0, y0), (x1, y0), (x1, y1), (x0, y1)]
    ways = [way[i:] + way[:i] for way in (corners, corners[::-1]) for i in range(4)]
    if x0 == x1 or y0 == y1 or points[:4] not in ways or points[4] != points[0]:
        sys.exit("a boundary isn't a rectangle")
    return x0, y0, x1, y1


def made_up(layout, rng):
    """One edit: what is done, and its rectangle."""
    names = list(layout.rects)
    x0, y0, x1, y1 = layout.rects[names[rng.randrange(len(names))]] if names else (0, 0, 100, 20)
    kind = rng.randrange(5)
    if kind == 0:
        return "remove", (x0, y0, x1, y1)
    if kind == 1:
        x, y = rng.randrange(x0, x1), rng.randrange(y0, y1)
        return "remove", (x, y, x + rng.randrange(1, 200), y + rng.randrange(1, 60))
    if kind == 2:
        y = y1 + rng.randrange(1, 60)
        return "add", (x0, y, x0 + rng.randrange(20, 400), y + 20)
    if kind == 3:
        x, y = rng.randrange(x0, x1), rng.randrange(y0, y1)
        return "add", (x, y, x + rng.randrange(1, 300), y + rng.randrange(1, 60))
    x, y = rng.randrange(-100_000, 100_000), rng.randrange(-100_000, 100_000)
    return "add", (x, y, x + rng.randrange(1, 500), y + rng.randrange(1, 500))


def kept(work):
    """A copy of a folder, which stays when that one goes."""
    return shutil.copytree(work, tempfile.mkdtemp(), dirs_exist_ok=True)


def content(file):
    """The bytes of a file."""
    with open(file, "rb") as opened:
        return opened.read()


def compared(dpl, rules, file, work):
    """Runs `dpl edit` of the file, and `dpl split` of what is drawn; both runs, which must have one answer."""
    edits, drawn, *made = (os.path.join(work, name) for name in ("edits", "drawn.gds", "e.gds", "e.cert", "s.gds", "s.cert"))
    for path in made:
        if os.path.exists(path):
            os.remove(path)
    edited = timed.run([dpl, "edit", *rules, file, edits, *made[:2]])
    split = timed.run([dpl, "split", *rules, "--workers", "1", drawn, *made[2:]])
    contents = [content(path) if os.path.exists(path) else None for path in made]
    if edited.status not in (0, 1) or edited[:2] != split[:2] or contents[:2] != contents[2:]:
        sys.exit(f"edit: {edited[:2]}, split: {split[:2]}; the files are in {kept(work)}")
    return edited, split


def main(dpl, file, count, seed=1, every=1):
    rules = os.environ.get("RULES", "--rule 30 --overlap 10").split() + ["--layer", "1"]
    layout, rng, runs = Layout(file), random.Random(int(seed)), []
    with tempfile.TemporaryDirectory() as work, open(os.path.join(work, "edits"), "w", encoding="utf-8") as out:
        for number in range(1, int(count) + 1):
            what, rect = made_up(layout, rng)
            getattr(layout, what)(rect)
            out.write("%s %d %d %d %d\n" % (what, *rect))
            if number % int(every) == 0 or number == int(count):
                out.flush()
                layout.write(os.path.join(work, "drawn.gds"))
                runs.append(compared(dpl, rules, file, work))
    conflicts = sum(edited.status == 1 for edited, _ in runs)
    seconds = [sum(one.seconds for one in half) for half in zip(*runs)] or [0, 0]
    print("compared %d, in conflict %d, edit %.1f s, split %.1f s" % (len(runs), conflicts, *seconds))


if __name__ == "__main__":
    if not 4 <= len(sys.argv) <= 6:
        sys.exit(__doc__)
    main(*sys.argv[1:])
