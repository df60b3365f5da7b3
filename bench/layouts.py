#!/usr/bin/env python3
"""Writes made-up layouts as GDSII files.

usage: layouts.py KIND COUNT SEED FILE
       layouts.py rects FILE X0,Y0,X1,Y1 ...

KIND is one of
  bars     routing-like rows: bars of random length on tracks 60 units apart, gaps of 29 to 200 units
  dense    the same on tracks 40 units apart, which a rule of 30 can't split
  routed   the same on tracks 40 units apart with gaps of 200 to 1,200 units: a stitch zone for every five bars
  upright  bars with x and y exchanged
  wires    upright wires side by side, with random ends
  through  upright wires side by side, from the lowest rows to the highest
  mesh     long horizontal wires over as many vertical ones, with COUNT crossings: one feature
  scatter  rectangles of 10 to 100 units scattered over a square, about one to 200 by 200 units
  polygons combs of 8,000 points each, COUNT teeth in all
  stairs   staircases of 7,983 points each, COUNT steps in all
  plate    bars under one covering plate
  ragged   bars with ragged ends that lie on one another, row by row
  rising   upright bars side by side, each a little higher than the one before it
  teeth    one comb of rectangles: COUNT teeth on one bar
  nested   rectangles one inside the other
  stacked  squares one over the other, each a little further right and up
  flood    pairs of loops that turn opposite ways over the same squares
  holes    squares whose hole is cut by a doubled edge
  stitched COUNT times three features, of seven shapes, that need a stitch
  triangles COUNT times three squares, each too close to the other two
  pairs    COUNT times two squares too close to one another, each two within a tile of 64 by 64 units
  chain    COUNT structures, each with one reference of the next, over one bar
  doubling COUNT structures, each with two references of the next at (0,0), over one unit square
  twisted  the same, but the last refers to the first
  ring     COUNT structures, each with one reference of the next, the last of the first
  tower    a chain under an array of 1,000 by 1,000 copies, all at one place
All shapes are boundaries on layer 1, datatype 0, in one structure, TOP; chain, doubling, twisted,
ring and tower have structures named 0, 1 and so on, and tower TOP too. The same KIND, COUNT and SEED give the same file.
"""
import random
import struct
import sys


def record(kind, data_type, body=b""):
    return struct.pack(">HBB", len(body) + 4, kind, data_type) + body


FRONT = (
    record(0x00, 2, b"\x02\x58")
    + record(0x01, 2, bytes(24))
    + record(0x02, 6, b"LIB\0")
    + record(0x03, 5, bytes.fromhex("3E4189374BC6A7F03944B82FA09B5A54"))
)
BACK = record(0x04, 0)
BEGIN = record(0x08, 0) + record(0x0D, 2, b"\0\1") + record(0x0E, 2, b"\0\0")
END = record(0x11, 0)


def structure(name, elements):
    """The parts of a structure, in order."""
    text = name.encode()
    yield record(0x05, 2, bytes(24)) + record(0x06, 6, text + bytes(len(text) % 2))
    yield from elements
    yield record(0x07, 0)


def reference(name):
    """One reference at (0,0)."""
    text = name.encode()
    return record(0x0A, 0) + record(0x12, 6, text + bytes(len(text) % 2)) + record(0x10, 3, bytes(8)) + END


def boundary(points):
    flat = [c for p in points for c in p]
    return BEGIN + record(0x10, 3, struct.pack(">%di" % len(flat), *flat)) + END


def rect(x0, y0, x1, y1):
    return boundary([(x0, y0), (x1, y0), (x1, y1), (x0, y1), (x0, y0)])


def bars(count, rng, pitch=60, gaps=(29, 200)):
    per_row = max(1, int(count**0.5))
    made, row = 0, 0
    while made < count:
        x = rng.randrange(0, 300)
        for _ in range(min(per_row, count - made)):
            length = rng.randrange(60, 900)
            yield rect(x, pitch * row, x + length, pitch * row + 20)
            x += length + rng.randrange(*gaps)
            made += 1
        row += 1


def routed(count, rng):
    return bars(count, rng, 40, (200, 1200))


def dense(count, rng):
    return bars(count, rng, 40)


def upright(count, rng):
    made, column = 0, 0
    while made < count:
        y = rng.randrange(0, 300)
        for _ in range(min(max(1, int(count**0.5)), count - made)):
            length = rng.randrange(60, 900)
            yield rect(60 * column, y, 60 * column + 20, y + length)
            y += length + rng.randrange(29, 200)
            made += 1
        column += 1


def wires(count, rng):
    for i in range(count):
        y = rng.randrange(10_000_000)
        yield rect(60 * i, y, 60 * i + 20, y + rng.randrange(1000, 5_000_000))


def through(count, rng):
    for i in range(count):
        yield rect(60 * i, rng.randrange(20), 60 * i + 20, 10_000_000 + rng.randrange(20))


def mesh(count, rng):
    half = max(1, int(count**0.5))
    for i in range(half):
        yield rect(0, 100 * i, 100 * half, 100 * i + 20)
    for i in range(half):
        yield rect(100 * i, 0, 100 * i + 20, 100 * half)


def scatter(count, rng):
    side = int(200 * count**0.5) + 1
    for _ in range(count):
        x, y = rng.randrange(side), rng.randrange(side)
        yield rect(x, y, x + rng.randrange(10, 100), y + rng.randrange(10, 100))


def polygons(count, rng):
    teeth = 2000
    for k in range(max(1, count // teeth)):
        y = 1000 * k
        points = [(0, y)]
        for i in range(teeth):
            x = 100 * i
            height = rng.randrange(200, 700)
            points += [(x, y + 100), (x, y + height), (x + 20, y + height), (x + 20, y + 100)]
        points += [(100 * teeth, y + 100), (100 * teeth, y), (0, y)]
        yield boundary(points)


def stairs(count, rng):
    steps = 3990
    for k in range(max(1, count // steps)):
        x, y = 400_000 * (k // 900), 1_000_000 * (k % 900)
        points = [(x, y), (x + 60 * steps, y)]
        for i in range(steps, 0, -1):
            points += [(x + 60 * i, y + 60 * i), (x + 60 * (i - 1), y + 60 * i)]
        yield boundary(points + [(x, y)])


def plate(count, rng):
    yield rect(-10, -10, 2_000_000, 40 * (count // 100 + 2))
    for i in range(count):
        x, y = 3000 * (i % 100), 40 * (i // 100)
        yield rect(x, y, x + 2000, y + 20)


def chain(count):
    for k in range(count):
        yield from structure(str(k), [reference(str(k + 1))])
    yield from structure(str(count), [rect(0, 0, 100, 20)])


def tower(count):
    points = record(0x10, 3, bytes(24))
    size = record(0x13, 2, struct.pack(">hh", 1000, 1000))
    yield from structure("TOP", [record(0x0B, 0) + record(0x12, 6, b"0\0") + size + points + END])
    yield from chain(count)


def doubling(count):
    for k in range(count):
        yield from structure(str(k), [reference(str(k + 1))] * 2)
    yield from structure(str(count), [rect(0, 0, 1, 1)])


def twisted(count):
    for k in range(count):
        yield from structure(str(k), [reference(str(k + 1))] * 2)
    yield from structure(str(count), [rect(0, 0, 1, 1), reference("0")])


def ring(count):
    for k in range(count):
        yield from structure(str(k), [reference(str((k + 1) % count))])


def ragged(count, rng):
    for i in range(count):
        yield rect(rng.randrange(10_000_000), 20 * i, 10_000_000 + rng.randrange(10_000_000), 20 * i + 20)


def rising(count, rng):
    for i in range(count):
        yield rect(100 * i, 0, 100 * i + 100, 1000 + 10 * i)


def teeth(count, rng):
    yield rect(0, 0, 40 * count, 100)
    for i in range(count):
        yield rect(40 * i, 100, 40 * i + 20, 300 + rng.randrange(500))


def nested(count, rng):
    for i in range(count):
        yield rect(10 * i, 10 * i, 30 * count - 10 * i, 30 * count - 10 * i)


def stacked(count, rng):
    for i in range(count):
        yield rect(10 * i, 10 * i, 10 * (i + count), 10 * (i + count))


def flood(count, rng):
    for i in range(count // 2):
        x, y = 100 * (i % 1000), 100 * (i // 1000)
        yield boundary([(x, y), (x + 40, y), (x + 40, y + 40), (x, y + 40), (x, y)])
        yield boundary([(x, y), (x, y + 40), (x + 40, y + 40), (x + 40, y), (x, y)])


def holes(count, rng):
    per_row = max(1, int(count**0.5))
    for i in range(count):
        x, y = 200 * (i % per_row), 200 * (i // per_row)
        points = [(0, 0), (100, 0), (100, 100), (0, 100), (0, 50), (40, 50), (40, 60)]
        points += [(60, 60), (60, 40), (40, 40), (40, 50), (0, 50), (0, 0)]
        yield boundary([(x + u, y + v) for u, v in points])


def stitched(count, rng):
    shapes = [(0, 0, 400, 20), (0, 40, 50, 60), (0, 40, 20, 200), (0, 180, 190, 200)]
    shapes += [(350, 40, 400, 60), (380, 40, 400, 200), (215, 180, 400, 200)]
    per_row = max(1, int(count**0.5))
    for i in range(count):
        x, y = 600 * (i % per_row), 400 * (i // per_row)
        for x0, y0, x1, y1 in shapes:
            yield rect(x + x0, y + y0, x + x1, y + y1)


def triangles(count, rng):
    per_row = max(1, int(count**0.5))
    for i in range(count):
        x, y = 200 * (i % per_row), 200 * (i // per_row)
        for u, v in ((0, 0), (40, 0), (20, 40)):
            yield rect(x + u, y + v, x + u + 20, y + v + 20)


def pairs(count, rng):
    per_row = max(1, int(count**0.5))
    for i in range(count):
        x, y = 256 * (i % per_row), 256 * (i // per_row)
        yield rect(x, y, x + 20, y + 20)
        yield rect(x + 40, y, x + 60, y + 20)


KINDS = {f.__name__: f for f in (
    bars, dense, routed, upright, wires, through, mesh, scatter, polygons, stairs, plate,
    ragged, rising, teeth, nested, stacked, flood, holes, stitched, triangles, pairs,
)}
TREES = {f.__name__: f for f in (chain, doubling, twisted, ring, tower)}


def write(path, parts):
    """Writes the parts of structures as a file."""
    with open(path, "wb") as out:
        out.write(FRONT)
        out.writelines(parts)
        out.write(BACK)


def main(words):
    if len(words) > 2 and words[0] == "rects":
        write(words[1], structure("TOP", (rect(*map(int, w.split(","))) for w in words[2:])))
    elif len(words) == 4 and words[0] in KINDS:
        write(words[3], structure("TOP", KINDS[words[0]](int(words[1]), random.Random(int(words[2])))))
    elif len(words) == 4 and words[0] in TREES:
        write(words[3], TREES[words[0]](int(words[1])))
    else:
        sys.exit(__doc__)


if __name__ == "__main__":
    main(sys.argv[1:])
