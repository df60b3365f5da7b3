#!/usr/bin/env python3
"""Makes a marker database of KLayout's from what dpl says of a layout.

usage: markers.py [--line TEXT] [--masks OUT] [--top NAME] IN CERT DATABASE

IN is the layout and CERT the certificate that `dpl split` wrote; DATABASE, a file whose name should end
with .lyrdb, is made: in KLayout open it by Tools, Marker Browser, beside the layout. It holds

  stitches   each stitch as a box, with the numbers and masks of the two pieces beside it
  cycle      the odd cycle of a conflict: the whole, then each piece and each near pair, in order
  broken     a property that `dpl check` found broken, at its squares or its place in CERT
  fault      why a file is refused: the element at the fault's offset, or what it places

--line   what `dpl split` or `dpl check` said; needed for a broken property and for a fault of check
--masks  the file of masks that was checked; needed to draw a fault that lies in it
--top    the structure in which the layer begins, where that was chosen with --top

Coordinates are micrometres by the UNITS of IN. Nothing but Python 3 is needed. It ends with 0 where
DATABASE is made, with 2 where the words aren't as above, and else with 1; it says why.
"""
import argparse
import bisect
import functools
import itertools
import math
import os
import re
import struct
import sys
from fractions import Fraction
from xml.sax.saxutils import escape

# Record types of GDSII that are looked at.
UNITS, ENDLIB, BGNSTR, STRNAME, ENDSTR = 0x03, 0x04, 0x05, 0x06, 0x07
BOUNDARY, PATH, SREF, AREF, TEXT, NODE, BOX = 0x08, 0x09, 0x0A, 0x0B, 0x0C, 0x15, 0x2D
LAYER, WIDTH, XY, ENDEL, SNAME, COLROW = 0x0D, 0x0F, 0x10, 0x11, 0x12, 0x13
STRANS, MAG, ANGLE, PATHTYPE, BGNEXTN, ENDEXTN = 0x1A, 0x1B, 0x1C, 0x21, 0x30, 0x31

BODIES = {BOUNDARY: "boundary", PATH: "path", SREF: "reference", AREF: "array of references",
          TEXT: "text", NODE: "node", BOX: "box"}
SHAPES, REFERENCES = (BOUNDARY, PATH, BOX), (SREF, AREF)

# So many bytes of a file are looked at: dpl refuses one that has more, whatever they are.
MOST_BYTES = 268435456

# Any number of boundaries of five points without options, which need no look at each record.
PLAIN = re.compile(rb"(?:\x00\x04\x08\x00\x00\x06\x0d\x02..\x00\x06\x0e\x02.."
                   rb"\x00\x2c\x10\x03.{40}\x00\x04\x11\x00)*", re.DOTALL)

# Of an array with more copies than these, the ones in its corners are drawn.
MOST_COPIES = 1000

# So many bytes of a line that is none of a certificate are shown.
MOST_SHOWN = 200

CATEGORIES = {
    "stitches": "Stitches: rectangles that are on both masks, between two pieces of a feature",
    "cycle": "An odd cycle of conflicts: each piece must be on another mask than the next, the last than the first",
    "broken": "{0}: {1}",
    "fault": "{0}: {1}",
}

SYNTAX = ("the file was cut, is compressed (gunzip it), isn't GDSII, "
          "or was written by a tool that leaves the standard")
ELSEWHERE = "flatten it, in the tool that wrote it, into shapes on the grid"
RIGHT_ANGLES = "turn it into boundaries with right angles on the grid"
ADVICE = {
    "TooLarge": "the file has more than 268,435,456 bytes: write out the one cell or layer that is to be split",
    "Truncated": SYNTAX,
    "BadLength": SYNTAX,
    "UnknownRecord": SYNTAX,
    "BadDataType": SYNTAX,
    "BadSize": SYNTAX,
    "Unexpected": SYNTAX + "; several XY records in one element are such a case: "
                  "let the tool write polygons of at most 8,190 points",
    "BadName": "a structure or a reference has no name: name it where the file was written",
    "DuplicateStructure": "two structures have one name: rename one where the file was written",
    "NoTop": "no structure has the name that --top gives, or each one is referred to, or there is none: "
             "name another with --top",
    "ManyTops": "several structures are referred to by no other one: choose one with --top",
    "MissingStructure": "the file lacks the structure that this names: merge in the library that has it",
    "Recursion": "a structure contains itself: take out one of the references",
    "AbsoluteTransform": "it is marked as of absolute magnification or angle: " + ELSEWHERE,
    "Magnified": "it is magnified: " + ELSEWHERE,
    "AngleNotRight": "it is turned by another angle than a right one: " + ELSEWHERE,
    "BadArray": "it has no rows or columns, or more than 32,767, or a spacing that isn't whole: " + ELSEWHERE,
    "SlantedBoundary": "an edge isn't parallel to an axis: " + RIGHT_ANGLES,
    "RoundPath": "a path with round ends: " + RIGHT_ANGLES,
    "BadPathType": "a path of a type that isn't 0, 1, 2 or 4: " + RIGHT_ANGLES,
    "OddWidth": "a path whose half width isn't whole: " + RIGHT_ANGLES,
    "SlantedPath": "a segment isn't parallel to an axis: " + RIGHT_ANGLES,
    "PathTurnsBack": "a path that goes back over itself: " + RIGHT_ANGLES,
    "NegativeExtension": "a path with a negative extension: " + RIGHT_ANGLES,
    "TooManyPoints": "the layer places more than 16,777,216 points: split it cell by cell",
    "OutOfRange": "a point lies farther than 1,000,000,000 units from 0, where this is placed",
}

# What is otherwise of the other files that `dpl check` reads.
ADVICE_OF = {
    "in": {},
    "cert": {
        "TooLarge": "the certificate has more than 268,435,456 bytes",
        "Line": "the text is no certificate from this line on: make it again",
    },
    "out": {
        "TooLarge": "the file of masks has more than 268,435,456 bytes",
        "NoTop": "the masks lie in the one structure that no other one refers to, and there is none",
        "ManyTops": "the masks lie in the one structure that no other one refers to, and there are several",
    },
}

# Faults whose number is no offset in the file.
NOWHERE = {"TooLarge", "NoTop", "ManyTops", "TooManyPoints"}

# What each property of `dpl check` says where it is broken.
PROPERTIES = {
    "Rules": "the certificate was made with another rule, corner rule or overlap",
    "WasFault": "the certificate tells of a fault that the layout hasn't",
    "Counts": "the layer has another number of features, pieces and zones",
    "Cover": "a square is in just one of the layer and both masks together",
    "Overlap": "a square is on both masks and in no listed stitch",
    "SpacingA": "two features on mask A are closer than the rule or the corner rule",
    "SpacingB": "two features on mask B are closer than the rule or the corner rule",
    "Marked": "a square that is fixed to a mask isn't on that mask alone",
    "Stitch": "a listed stitch isn't one: it isn't on both masks, or is too short, or lies between pieces of one mask",
    "Piece": "a piece isn't on the mask that is listed for it",
    "Gain": "a line of gains isn't that of the layer's component, or its flip would save a stitch",
    "Cycle": "a place of the listed cycle isn't true of the layer",
}

# How many numbers each of them is told with.
COUNTS = {"Rules": (2, 3), "WasFault": (1,), "Counts": (3,), "Cover": (2,), "Overlap": (2,), "SpacingA": (4,),
          "SpacingB": (4,), "Marked": (2,), "Stitch": (1,), "Piece": (1,), "Gain": (1,), "Cycle": (1,)}


class Problem(Exception):
    """What keeps a database from being made, in words for the user."""


# ---- the layout ----------------------------------------------------------------------------------


def real(body):
    """The value of an eight-byte real."""
    head = body[0]
    value = Fraction(int.from_bytes(body[1:8], "big"), 1 << 56) * Fraction(16) ** ((head & 0x7F) - 64)
    return -value if head & 0x80 else value


def name_of(body):
    """A name as text, without the zero bytes at its end."""
    body = body.rstrip(b"\0")
    try:
        return body.decode("utf-8")
    except UnicodeDecodeError:
        return body.decode("latin-1")


def numbers(body, letter, size):
    """The big-endian integers of a body; what is left over at its end is dropped."""
    return struct.unpack(">%d%s" % (len(body) // size, letter), body[:len(body) // size * size])


def pairs(flat):
    """The points whose coordinates stand in a row."""
    return list(zip(flat[::2], flat[1::2]))


class Element:
    """An element of a structure, as far as it could be read."""

    def __init__(self, at, kind):
        self.at, self.end, self.kind = at, at, kind
        self.layer, self.points, self.name = None, [], None
        self.width, self.path_type, self.extensions = 0, 0, [0, 0]
        self.flags, self.magnification, self.angle = 0, 1.0, 0.0
        self.columns, self.rows = 1, 1

    def take(self, kind, body):
        """Takes a record of the element."""
        if kind == XY:
            self.points += pairs(numbers(body, "i", 4))
        elif kind == SNAME:
            self.name = name_of(body)
        elif kind in (MAG, ANGLE) and len(body) == 8:
            setattr(self, "magnification" if kind == MAG else "angle", float(real(body)))
        elif kind in (WIDTH, BGNEXTN, ENDEXTN) and len(body) == 4:
            self.take_length(kind, numbers(body, "i", 4)[0])
        elif kind in (LAYER, PATHTYPE, STRANS) and len(body) == 2:
            name = {LAYER: "layer", PATHTYPE: "path_type", STRANS: "flags"}[kind]
            setattr(self, name, numbers(body, "H", 2)[0])
        elif kind == COLROW and len(body) == 4:
            self.columns, self.rows = numbers(body, "h", 2)

    def take_length(self, kind, value):
        if kind == WIDTH:
            self.width = abs(value)
        else:
            self.extensions[kind == ENDEXTN] = value

    def ends(self):
        """How far a path reaches past its first and its last point."""
        half = self.width / 2
        return {1: [half, half], 2: [half, half], 4: self.extensions}.get(self.path_type, [0, 0])

    def sides(self):
        """From point to point; a boundary and a box go back to the first one."""
        behind = self.points[1:] + (self.points[:1] if self.kind in (BOUNDARY, BOX) else [])
        return list(zip(self.points, behind))

    def outline(self):
        """Points that lie as far out as what the element draws."""
        points = [p for i, p in enumerate(self.points) if i == 0 or p != self.points[i - 1]]
        if self.kind != PATH or len(points) < 2 or self.width == 0:
            return points
        found, last = [], len(points) - 2
        for i, ((x0, y0), (x1, y1)) in enumerate(zip(points, points[1:])):
            length = math.hypot(x1 - x0, y1 - y0)
            ux, uy = (x1 - x0) / length, (y1 - y0) / length
            before, behind = self.ends()[0] if i == 0 else 0, self.ends()[1] if i == last else 0
            for x, y in ((x0 - before * ux, y0 - before * uy), (x1 + behind * ux, y1 + behind * uy)):
                for half in (self.width / 2, -self.width / 2):
                    found.append((x - half * uy, y + half * ux))
        return found

    def turned(self, x, y):
        """A point of what is referred to, turned as the reference says, before it is moved."""
        if self.flags & 0x8000:
            y = -y
        quarters = self.angle / 90
        if quarters == int(quarters):
            cos, sin = ((1, 0), (0, 1), (-1, 0), (0, -1))[int(quarters) % 4]
        else:
            cos, sin = math.cos(math.radians(self.angle)), math.sin(math.radians(self.angle))
        return self.magnification * (x * cos - y * sin), self.magnification * (x * sin + y * cos)

    def steps(self):
        """By how much a column and a row of an array are moved on."""
        if self.kind != AREF or len(self.points) < 3 or self.columns < 1 or self.rows < 1:
            return (0, 0), (0, 0)
        (x, y), (x1, y1), (x2, y2) = self.points[:3]
        return (((x1 - x) / self.columns, (y1 - y) / self.columns),
                ((x2 - x) / self.rows, (y2 - y) / self.rows))

    def places(self, most):
        """Where copies stand: all of them where there are at most so many, else those in the corners."""
        if not self.points:
            return []
        columns, rows = (max(n, 1) for n in (self.columns, self.rows))
        across, up = range(columns), range(rows)
        if columns * rows > most:
            across, up = sorted({0, columns - 1}), sorted({0, rows - 1})
        (x, y), ((cx, cy), (rx, ry)) = self.points[0], self.steps()
        return [(x + i * cx + j * rx, y + i * cy + j * ry) for j in up for i in across]


class Library:
    """A GDSII file, read as far as its records are sound."""

    def __init__(self, path):
        try:
            with open(path, "rb") as file:
                self.data = file.read(MOST_BYTES)
        except OSError as error:
            raise Problem("%s: %s" % (path, error.strerror)) from None
        self.path, self.unit = path, None
        self.starts, self.names, self.place, self.referred = [], [], {}, set()
        self.look_through()

    def records(self, at, past=0):
        """The records from an offset on: offset, type and body of each, up to one that isn't sound.

        Plain boundaries that end before `past` are left out.
        """
        data, end = self.data, len(self.data)
        while at + 4 <= end:
            length, kind = data[at] << 8 | data[at + 1], data[at + 2]
            if length < 4 or length & 1 or at + length > end:
                return
            plain = PLAIN.match(data, at, past).end() if kind == BOUNDARY and at < past else at
            if plain == at:
                yield at, kind, data[at + 4:at + length]
            at = max(plain, at + length)

    def look_through(self):
        """Finds the unit, where each structure begins, and the names that references give."""
        data, at, end = self.data, 0, len(self.data)
        while at + 4 <= end:
            length, kind = data[at] << 8 | data[at + 1], data[at + 2]
            if length < 4 or length & 1 or at + length > end or kind == ENDLIB:
                return
            if kind == BOUNDARY:
                plain = PLAIN.match(data, at).end()
                length = max(plain - at, length)
            elif kind == SNAME:
                self.referred.add(name_of(data[at + 4:at + length]))
            elif kind == BGNSTR:
                self.starts.append(at)
                self.names.append("")
            elif kind == STRNAME and self.names:
                self.names[-1] = name_of(data[at + 4:at + length])
                self.place.setdefault(self.names[-1], self.starts[-1])
            elif kind == UNITS and length == 20:
                self.unit = float(real(data[at + 12:at + 20]) * 1000000)
            at += length

    def tops(self):
        """The structures that no reference names."""
        return [name for name in self.names if name not in self.referred]

    def elements(self, start, past=0):
        """The elements of the structure that begins at this offset; the last may lack its end."""
        element = None
        for at, kind, body in self.records(start, past):
            if kind == ENDSTR or kind == ENDLIB or (kind == BGNSTR and at > start):
                break
            if kind in BODIES:
                element = Element(at, kind)
            elif element:
                element.take(kind, body)
            if element:
                element.end = at + 4 + len(body)
                if kind == ENDEL:
                    yield element
                    element = None
        if element:
            element.end += 1  # what comes next is where its fault is
            yield element

    def find(self, at):
        """The name of the structure that an offset lies in, and the element; each may be None."""
        place = bisect.bisect_right(self.starts, at) - 1
        if place < 0:
            return None, None
        for element in self.elements(self.starts[place], at):
            if element.at <= at < element.end:
                return self.names[place], element
        return self.names[place], None

    def bounds(self, name):
        """A rectangle round all that a structure draws and places, or None where that is nothing."""
        drawn, done, stack = {}, {}, [name]
        while stack:
            here = stack[-1]
            if here not in drawn:  # first what it places
                drawn[here] = self.drawing(here)
                stack += dict.fromkeys(e.name for e in drawn[here][1] if e.name not in drawn)
                continue
            if here not in done:
                points, references = drawn[here]
                done[here] = around(points + [p for e in references for p in placed(e, done.get(e.name))])
            stack.pop()
        return done[name]

    def drawing(self, name):
        """The corners of what a structure draws, and its references."""
        elements = list(self.elements(self.place[name])) if name in self.place else []
        references = [e for e in elements if e.kind in REFERENCES]
        box = around([p for e in elements if e.kind in SHAPES for p in e.outline()])
        return [box[:2], box[2:]] if box else [], references


def around(points):
    """The rectangle round some points, or None."""
    if not points:
        return None
    xs, ys = [x for x, _ in points], [y for _, y in points]
    return min(xs), min(ys), max(xs), max(ys)


def copies(element, box, most=MOST_COPIES):
    """The four corners of a rectangle in each copy that a reference places."""
    x0, y0, x1, y1 = box
    corners = [element.turned(x, y) for x, y in ((x0, y0), (x1, y0), (x1, y1), (x0, y1))]
    return [[(x + cx, y + cy) for cx, cy in corners] for x, y in element.places(most)]


def placed(element, box):
    """The outermost corners of a rectangle where a reference places it."""
    return [p for copy in copies(element, box, 0) for p in copy] if box else []


# ---- the certificate -----------------------------------------------------------------------------


class Certificate:
    """A certificate, read line by line: its head at once, what comes behind it when it is asked for."""

    def __init__(self, path):
        self.path, self.at = path, 0
        try:
            self.file = open(path, "rb")
        except OSError as error:
            raise Problem("%s: %s" % (path, error.strerror)) from None
        self.letters = bytearray()
        self.kind, self.fault, self.rule, self.corner, self.pieces, self.count, self.gains = "", None, 0, 0, 0, 0, 0

    def __enter__(self):
        return self

    def __exit__(self, *_):
        self.file.close()

    def head(self):
        """Reads the first lines, which tell of what kind it is."""
        (version,) = self.take("dpl #")
        if version not in (1, 2, 3):
            self.fail()
        line = self.line()
        fault = re.fullmatch(rb"fault ([A-Za-z]+) ([0-9]{1,20})\n", line)
        if fault and version == 1:
            self.kind, self.fault = "fault", (text_of(fault[1]), int(fault[2]))
            self.end()
            return
        rules = "rule # overlap #" if version == 1 else "rule # overlap # corner #"
        numbers = self.match(rules, line) or self.fail()
        self.rule, self.corner = numbers[0], numbers[-1] if len(numbers) == 3 else numbers[0]
        line = self.line()
        counts = self.match("features # pieces # zones # stitches #", line)
        self.kind = "masks" if counts or version == 3 else "conflict"
        counts = counts or (version < 3 and self.match("features # pieces # zones #", line)) or self.fail()
        self.pieces = counts[1]
        self.count = counts[3] if self.kind == "masks" else self.take("cycle #")[0]
        self.gains = self.take("gains #")[0] if version == 3 else 0

    def fail(self):
        raise Problem("%s: line %d is not one that a certificate has there" % (self.path, self.at))

    def line(self):
        self.at += 1
        return self.file.readline()

    @staticmethod
    def match(pattern, line):
        """The numbers of a line that stand where the pattern has #, or None."""
        found = pattern_of(pattern).fullmatch(line)
        return [int(number) for number in found.groups()] if found else None

    def take(self, pattern):
        """The numbers of the next line, which must be of the pattern."""
        numbers = self.match(pattern, self.line())
        return self.fail() if numbers is None else numbers

    def end(self):
        """Reads the last line, behind which nothing may stand."""
        self.take("end")
        if self.line():
            self.fail()

    def piece_lines(self, wanted):
        """Reads the pieces of masks and keeps their letters; the square of one of them, or None."""
        square, form = None, re.compile(rb"piece [0-9]+ ([AB]) (-?[0-9]{1,20}) (-?[0-9]{1,20})\n")
        for n in range(self.pieces):
            found = form.fullmatch(self.line()) or self.fail()
            self.letters += found[1]
            if n == wanted:
                square = int(found[2]), int(found[3])
        return square

    def stitch_lines(self):
        """Each stitch of masks: its rectangle and the pieces on its sides."""
        for _ in range(self.count):
            yield self.take("stitch # # # # # #")
        for _ in range(self.gains):
            self.take("gain # # #")
        self.end()

    def letter(self, piece):
        return chr(self.letters[piece]) if 0 <= piece < len(self.letters) else "no mask"

    def cycle(self):
        """The places of a conflict, and the squares that join each to the next one."""
        places = [self.place() for _ in range(self.count)]
        nears = [self.near() for _ in range(self.count)]
        self.end()
        return places, nears

    def place(self):
        """The name of a piece, with its least square, or that of an anchor, which has none."""
        line = self.line()
        piece = self.match("piece # # #", line)
        if piece:
            return "piece %d" % piece[0], piece[1:]
        anchor = re.fullmatch(rb"anchor ([AB])\n", line) or self.fail()
        return "anchor %s" % text_of(anchor[1]), None

    def near(self):
        """Two near squares, one marked square, or none between the anchors."""
        line = self.line()
        if line == b"anchors\n":
            return []
        return pairs(self.match("near # # # #", line) or self.match("marked # #", line) or self.fail())


@functools.lru_cache(maxsize=None)
def pattern_of(text):
    return re.compile(text.replace("#", "(-?[0-9]{1,20})").encode() + b"\n")


def text_of(word):
    return word.decode("utf-8", "replace")


# ---- what was said -------------------------------------------------------------------------------


class Said:
    """A line of `dpl split` or `dpl check`: a broken property or a fault, or neither."""

    def __init__(self, line):
        words = line.split()
        self.line, self.name, self.numbers, self.file = " ".join(words), None, [], None
        if words[:2] == ["refused", "edits"]:
            raise Problem("what is refused is the text of edits, of which nothing is drawn: '%s'" % self.line)
        if words[:1] == ["refused"]:
            self.file = words.pop(1) if words[1:2] and words[1] in ADVICE_OF else "in"
        if words[:1] in (["refused"], ["no"]):
            self.take(words[1:])
        elif words[:1] not in (["done"], ["valid"], ["conflict"]):
            self.fail()

    def fail(self):
        raise Problem("dpl says no such line: '%s'" % self.line)

    def take(self, words):
        """Takes the name and the numbers; only the property WasFault has a name among its numbers."""
        self.name = words[0] if words else ""
        digits = words[2:] if self.name == "WasFault" else words[1:]
        if not all(re.fullmatch("-?[0-9]{1,20}", word) for word in digits):
            self.fail()
        self.numbers = [int(word) for word in digits]
        if len(digits) not in ((1,) if self.file else COUNTS.get(self.name, ())):
            self.fail()

    def broken(self):
        """Whether the line tells of a broken property."""
        return self.name is not None and self.file is None

    def broken_at(self, name, count):
        """Which of so many listed ones breaks a property of this name; none is -1."""
        if not self.broken() or self.name != name:
            return -1
        if not 0 <= self.numbers[0] < count:
            raise Problem("the certificate has no such place: '%s'" % self.line)
        return self.numbers[0]


# ---- what is drawn -------------------------------------------------------------------------------


class Pen:
    """Writes shapes and texts as values of a marker database, in micrometres."""

    def __init__(self, unit):
        self.unit = unit

    def length(self, value):
        text = ("%.9f" % (value * self.unit)).rstrip("0").rstrip(".")
        return "0" if text == "-0" else text

    def point(self, x, y):
        return self.length(x) + "," + self.length(y)

    def points(self, points):
        return ";".join(self.point(x, y) for x, y in points)

    def box(self, x0, y0, x1, y1):
        return "box: (%s;%s)" % (self.point(x0, y0), self.point(x1, y1))

    def square(self, x, y):
        return self.box(x, y, x + 1, y + 1)

    def spot(self, x, y):
        """A point, as a box that can be seen."""
        return self.box(x - 1, y - 1, x + 1, y + 1)

    def edge(self, a, b):
        return "edge: (%s)" % self.points([a, b])

    def polygon(self, points):
        return "polygon: (%s)" % self.points(points)

    def path(self, element):
        before, behind = element.ends()
        return "path: (%s) w=%s bx=%s ex=%s r=%s" % (
            self.points(element.points), self.length(element.width), self.length(before),
            self.length(behind), "true" if element.path_type == 1 else "false")

    @staticmethod
    def text(text):
        return "text: '%s'" % text.replace("\\", "\\\\").replace("'", "\\'")


def between(a, b):
    """The shortest line from one unit square to another."""
    ends = [(i + 1, j) if i < j else (i, j + 1) if i > j else (i + 0.5, i + 0.5) for i, j in zip(a, b)]
    return (ends[0][0], ends[1][0]), (ends[0][1], ends[1][1])


def masks_marks(certificate, said, pen, cell):
    """The stitches of masks, and the piece or the stitch of a broken property."""
    broken = said.broken_at("Piece", certificate.pieces)
    square = certificate.piece_lines(broken)
    if square:
        text = "piece %d, listed on mask %s" % (broken, certificate.letter(broken))
        yield "broken", cell, [pen.text(text), pen.square(*square)]
    broken = said.broken_at("Stitch", certificate.count)
    for n, (x0, y0, x1, y1, p, q) in enumerate(certificate.stitch_lines()):
        text = "stitch %d between piece %d (%s) and piece %d (%s)" % (
            n, p, certificate.letter(p), q, certificate.letter(q))
        values = [pen.text(text), pen.box(x0, y0, x1, y1)]
        yield "stitches", cell, values
        if n == broken:
            yield "broken", cell, values


def conflict_marks(certificate, said, pen, cell):
    """The cycle as a whole, then its pieces and near pairs in order, and the place that is broken."""
    places, nears = certificate.cycle()
    count = len(places)
    # from each piece to the next one, and across each piece
    lines = [between(*near) if len(near) == 2 else None for near in nears]
    ways = [lines[i - 1] and lines[i] and (lines[i - 1][1], lines[i][0]) for i in range(count)]
    names = " ".join(name.replace("piece ", "") for name, _ in places)
    text = "odd cycle of %d %s: %s" % (count, "pieces" if all(lines) else "pieces and anchors", names)
    edges = [edge for pair in zip(ways, lines) for edge in pair if has_length(edge)]
    yield "cycle", cell, [pen.text(text)] + [pen.edge(*edge) for edge in edges]
    broken = said.broken_at("Cycle", count)
    for i, ((name, square), near) in enumerate(zip(places, nears)):
        values = [pen.text("%d of %d: %s" % (i + 1, count, name))] + ([pen.square(*square)] if square else [])
        values += [pen.edge(*ways[i])] if has_length(ways[i]) else []
        yield "cycle", cell, values
        text = "%d of %d: %s and %s are " % (i + 1, count, name, places[(i + 1) % count][0])
        pair = [pen.square(*one) for one in near]
        if lines[i]:
            text += distance(lines[i], certificate, pen)
            pair.insert(0, pen.edge(*lines[i]))
        else:
            text += "joined by a marked square" if near else "joined"
        yield "cycle", cell, [pen.text(text)] + pair
        if i == broken:
            yield "broken", cell, values + pair


def has_length(line):
    """Whether there is a line that isn't a single point."""
    return line is not None and line[0] != line[1]


def distance(line, certificate, pen):
    """How long the shortest line between two near squares is, and how long the rule wants it."""
    (x0, y0), (x1, y1) = line
    is_corner = x0 != x1 and y0 != y1 and certificate.corner != certificate.rule
    rule = ("corner rule", certificate.corner) if is_corner else ("rule", certificate.rule)
    length = math.hypot(x1 - x0, y1 - y0)
    return "%s µm apart, the %s is %s µm" % (pen.length(length), rule[0], pen.length(rule[1]))


def broken_marks(said, pen, cell):
    """A broken property that tells its squares, or has none."""
    values, squares = [pen.text(said.line)], []
    if said.name in ("Cover", "Overlap", "SpacingA", "SpacingB", "Marked"):
        squares = pairs(said.numbers)
    values += [pen.square(*square) for square in squares]
    if len(squares) == 2:
        values.append(pen.edge(*between(*squares)))
    if said.name not in ("Stitch", "Piece", "Cycle"):
        yield "broken", cell, values


def element_values(element, name, library, pen):
    """The shapes of an element with a fault of this name."""
    points = element.points
    if element.kind in REFERENCES:
        box = library.bounds(element.name)
        shapes = [pen.polygon(copy) for copy in copies(element, box)] if box else []
        return shapes + [pen.spot(*point) for point in (points[:1] if box else points)]
    slanted = [pen.edge(a, b) for a, b in element.sides()
               if a[0] != b[0] and a[1] != b[1] and name.startswith("Slanted")]
    if element.kind in (BOUNDARY, BOX):
        if points[1:] and points[0] == points[-1]:
            points = points[:-1]
        if len(points) > 2:
            return slanted + [pen.polygon(points)]
    if element.kind == PATH and len(points) > 1:
        return slanted + [pen.path(element)]
    return [pen.spot(*point) for point in points]


def fault_mark(library, name, at, pen, cell):
    """A fault of a layout: the element that it lies in, or else words alone."""
    values = [pen.text("refused %s %d" % (name, at))]
    if name == "ManyTops":
        values.append(pen.text("no other one refers to " + ", ".join(library.tops())))
    if name in NOWHERE:
        return "fault", cell, values
    structure, element = library.find(at)
    if element is None:
        where = "outside of all structures" if structure is None else "in structure " + (structure or "without a name")
        return "fault", structure or cell, values + [pen.text(where)]
    what = BODIES[element.kind] + (" to " + element.name if element.name else "")
    layer = "" if element.layer is None else " on layer %d" % element.layer
    values.append(pen.text("%s%s, at offset %d" % (what, layer, element.at)))
    return "fault", structure or cell, values + element_values(element, name, library, pen)


def line_mark(certificate, number, pen, cell):
    """A certificate that is refused at a line."""
    line = next(itertools.islice(certificate.file, number - 1, number), None) if 0 < number <= sys.maxsize else None
    values = [pen.text("line %d of %s is none of a certificate" % (number, certificate.path))]
    values.append(pen.text("the text ends there" if line is None else text_of(line[:MOST_SHOWN].rstrip(b"\n"))))
    if line is not None and not line.endswith(b"\n"):
        values.append(pen.text("it has no line feed at its end"))
    return "fault", cell, values


# ---- the database --------------------------------------------------------------------------------

# Characters that XML has no place for.
UNFIT = re.compile("[\x00-\x08\x0b\x0c\x0e-\x1f\ud800-\udfff\ufffe\uffff]")


def fit(text):
    """A text as XML."""
    return escape(UNFIT.sub("?", text))


def write(file, about, categories, cells, marks):
    """Writes a marker database."""
    put = file.write
    put('<?xml version="1.0" encoding="utf-8"?>\n<report-database>\n')
    for key in ("description", "original-file", "generator", "top-cell"):
        put(" <%s>%s</%s>\n" % (key, fit(about[key]), key))
    put(" <tags/>\n <categories>\n")
    for name, description in categories.items():
        put("  <category>\n   <name>%s</name>\n   <description>%s</description>\n   <categories/>\n"
            "  </category>\n" % (name, fit(description)))
    put(" </categories>\n <cells>\n")
    for name in cells:
        put("  <cell>\n   <name>%s</name>\n   <variant/>\n   <references/>\n  </cell>\n" % fit(name))
    put(" </cells>\n <items>\n")
    for category, cell, values in marks:
        put("  <item>\n   <tags/>\n   <category>%s</category>\n   <cell>%s</cell>\n   <visited>false</visited>\n"
            "   <multiplicity>1</multiplicity>\n   <values>\n" % (category, fit(cell)))
        for value in values:
            put("    <value>%s</value>\n" % fit(value))
        put("   </values>\n  </item>\n")
    put(" </items>\n</report-database>\n")


def top_of(library, name, is_refused):
    """The structure in whose coordinates a certificate speaks; of a refused file any one that may be meant."""
    tops = library.tops()
    if is_refused:
        return next(filter(None, [name if name in library.names else None] + tops + library.names), "TOP")
    if name is not None and name not in library.names:
        raise Problem("%s has no structure '%s'" % (library.path, name))
    if library.unit is None or not library.unit > 0:
        raise Problem("%s: no GDSII layout with a unit" % library.path)
    if name is not None:
        return name
    if len(tops) != 1:
        raise Problem("%s has %d structures that no other one refers to (%s): choose one with --top"
                      % (library.path, len(tops), ", ".join(tops)))
    return tops[0]


def plan(source, certificate, said, masks, top):
    """What is to be written: the categories, the cells and the marks."""
    library = Library(source)
    if said.file:
        file, fault = said.file, (said.name, said.numbers[0])
    else:
        certificate.head()
        file, fault = "in", None if said.broken() else certificate.fault
    cell = top_of(library, top, fault is not None)
    if not fault:
        return listed(certificate, said, Pen(library.unit), cell)
    mark = refused_mark(library, certificate, file, fault, masks, cell)
    return {"fault": CATEGORIES["fault"].format(fault[0], advice(file, fault[0]))}, [mark[1]], [mark]


def advice(file, name):
    """What is wrong with a file that has a fault of this name, and what helps."""
    return ADVICE_OF[file].get(name) or ADVICE.get(name, "a fault that isn't known here")


def refused_mark(library, certificate, file, fault, masks, cell):
    """The mark of a fault, which lies in the layout, the certificate or the file of masks."""
    pen = Pen(library.unit or 0.001)
    if file == "cert" and fault[0] == "Line":
        return line_mark(certificate, fault[1], pen, cell)
    if file == "cert":
        return "fault", cell, [pen.text("%s %d" % fault), pen.text("it lies in the certificate, %s" % certificate.path)]
    if file == "out" and masks is None:
        words = "it lies in the file of masks: give that with --masks to see it drawn"
        return "fault", cell, [pen.text("%s %d" % fault), pen.text(words)]
    if file == "out":
        library = Library(masks)
        pen, cell = Pen(library.unit or 0.001), top_of(library, None, True)
    return fault_mark(library, fault[0], fault[1], pen, cell)


def listed(certificate, said, pen, cell):
    """The marks of a certificate that isn't of a fault, or of one with a broken property."""
    categories, first = {}, []
    if said.broken():
        categories["broken"] = CATEGORIES["broken"].format(said.line, PROPERTIES[said.name])
        first = broken_marks(said, pen, cell)
    if certificate.kind == "fault":
        return categories, [cell], first
    own = masks_marks if certificate.kind == "masks" else conflict_marks
    name = "stitches" if certificate.kind == "masks" else "cycle"
    categories[name] = CATEGORIES[name]
    return categories, [cell], itertools.chain(first, own(certificate, said, pen, cell))


def is_one(path, other):
    """Whether both are paths of one file."""
    return os.path.exists(path) and os.path.exists(other) and os.path.samefile(path, other)


def build(source, certificate, database, line=None, masks=None, top=None):
    """Makes the marker database of a layout and a certificate; what was said may add to it."""
    said = Said("done" if line is None else line)
    for path in (source, certificate, masks):
        if path is not None and is_one(path, database):
            raise Problem("%s would be overwritten: give the database another name" % path)
    about = {"description": "dpl: " + (line or certificate).strip(), "original-file": source,
             "generator": "dpl markers.py"}
    part = database + ".part"
    try:
        with Certificate(certificate) as text:
            categories, cells, marks = plan(source, text, said, masks, top)
            about["top-cell"] = cells[0]
            with open(part, "w", encoding="utf-8") as file:
                write(file, about, categories, cells, marks)
        os.replace(part, database)
    except OSError as error:
        raise Problem("%s: %s" % (database, error.strerror)) from None
    finally:
        if os.path.exists(part):
            os.remove(part)


def main(words):
    parser = argparse.ArgumentParser(
        description="Makes a marker database of KLayout's from what dpl says of a layout.")
    parser.add_argument("source", metavar="IN", help="the layout that was split")
    parser.add_argument("certificate", metavar="CERT", help="the certificate")
    parser.add_argument("database", metavar="DATABASE", help="the marker database to be made (.lyrdb)")
    parser.add_argument("--line", metavar="TEXT", help="what dpl split or dpl check said")
    parser.add_argument("--masks", metavar="OUT", help="the file of masks, where a fault lies in it")
    parser.add_argument("--top", metavar="NAME", help="the structure in which the layer begins")
    try:
        build(**vars(parser.parse_args(words)))
    except Problem as problem:
        print("markers.py: %s" % problem, file=sys.stderr)
        return 1
    return 0


if __name__ == "__main__":
    sys.exit(main(sys.argv[1:]))
