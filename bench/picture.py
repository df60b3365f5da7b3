#!/usr/bin/env python3
"""Draws a layer and what dpl made of it as SVG.

usage: picture.py IN CERT [OUT] > PICTURE

IN is a GDSII file of boundaries of one layer in one structure, as layouts.py writes it, and CERT the
certificate. OUT has the masks, where there are some: layer 101 is mask A, 102 mask B. Pieces are
numbered at their least squares, stitches are outlined. A cycle of conflicts is drawn as lines between
the near squares of its pieces.
"""
import struct
import sys

A_COLOUR, B_COLOUR, MARGIN = "#3b7dd8", "#f08c2e", 20


def shapes(path):
    """The boundaries of a file: the layer and the points of each."""
    with open(path, "rb") as file:
        data = file.read()
    at, layer, found = 0, 0, []
    while at + 4 <= len(data):
        length, kind = struct.unpack(">HB", data[at:at + 3])
        body = data[at + 4:at + length]
        if kind == 0x0D:
            layer = struct.unpack(">H", body)[0]
        elif kind == 0x10:
            numbers = struct.unpack(">%di" % (len(body) // 4), body)
            found.append((layer, list(zip(numbers[::2], numbers[1::2]))))
        elif kind == 0x04:
            break
        at += max(length, 4)
    return found


class Drawing:
    """One picture below another, each of the whole layer."""

    def __init__(self, layer):
        xs = [x for p in layer for x, _ in p]
        ys = [y for p in layer for _, y in p]
        self.left, self.low = min(xs), min(ys)
        self.width, self.height = max(xs) - min(xs), max(ys) - min(ys)
        # small layouts are drawn larger
        self.scale = max(1, 400 // max(self.width, self.height))
        self.step = self.height * self.scale + 3 * MARGIN
        self.down, self.lines, self.count = 0, [], 0

    def begin(self, title):
        self.down = self.count * self.step
        self.count += 1
        self.lines.append('<text x="%d" y="%d">%s</text>' % (MARGIN, self.down + 14, title))

    def at(self, x, y):
        return (x - self.left) * self.scale + MARGIN, (self.height - (y - self.low)) * self.scale + MARGIN + self.down

    def polygon(self, points, style):
        path = " ".join("%d,%d" % self.at(x, y) for x, y in points)
        self.lines.append('<polygon points="%s" %s/>' % (path, style))

    def number(self, text, x, y):
        x, y = self.at(x, y)
        self.lines.append('<text x="%d" y="%d">%s</text>' % (x + 3, y - 5, text))

    def line(self, a, b):
        (x0, y0), (x1, y1) = self.at(*a), self.at(*b)
        self.lines.append('<line x1="%d" y1="%d" x2="%d" y2="%d" stroke="#c03030" stroke-width="2"/>' % (x0, y0, x1, y1))

    def text(self):
        width = max(self.width * self.scale, 440) + 2 * MARGIN
        head = ['<svg xmlns="http://www.w3.org/2000/svg" viewBox="0 0 %d %d" font-family="sans-serif" font-size="10">'
                % (width, self.count * self.step), '<rect width="100%" height="100%" fill="white"/>']
        return "\n".join(head + self.lines + ["</svg>"])


def square(x, y):
    return [(x, y), (x + 1, y), (x + 1, y + 1), (x, y + 1)]


def draw_layer(drawing, layer, title):
    drawing.begin(title)
    for points in layer:
        drawing.polygon(points, 'fill="#bbb" stroke="#888"')


def main(layout, certificate, masks=None):
    layer = [p for _, p in shapes(layout)]
    with open(certificate, encoding="utf-8") as file:
        lines = [line.split() for line in file]
    pieces = [line for line in lines if line[0] == "piece"]
    drawing = Drawing(layer)
    if masks is None:
        draw_layer(drawing, layer, "the layer; pieces of the cycle at their numbers; red: too near")
        for _, *numbers in (line for line in lines if line[0] == "near"):
            x, y, u, v = map(int, numbers)
            drawing.polygon(square(x, y), 'fill="#c03030"')
            drawing.polygon(square(u, v), 'fill="#c03030"')
            drawing.line((x + 0.5, y + 0.5), (u + 0.5, v + 0.5))
    else:
        draw_layer(drawing, layer, "the layer")
        drawing.begin("masks A (blue) and B (orange); pieces at their numbers; stitches outlined")
        for number, points in shapes(masks):
            drawing.polygon(points, 'fill="%s" fill-opacity="0.6"' % (A_COLOUR if number == 101 else B_COLOUR))
        for _, *numbers in (line for line in lines if line[0] == "stitch"):
            x0, y0, x1, y1 = map(int, numbers[:4])
            drawing.polygon([(x0, y0), (x1, y0), (x1, y1), (x0, y1)], 'fill="none" stroke="black" stroke-width="1.5"')
    for piece in pieces:
        drawing.number(piece[1], int(piece[-2]), int(piece[-1]))
    print(drawing.text())


if __name__ == "__main__":
    if len(sys.argv) not in (3, 4):
        sys.exit(__doc__)
    main(*sys.argv[1:])
