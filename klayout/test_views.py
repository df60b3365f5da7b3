"""Tests of markers.py and dpl.lyp with KLayout itself, run by test.sh: klayout -b -r test_views.py.

Layouts are split by dpl, the marker databases are read back by KLayout's own reader, and their shapes
are compared with the layouts as KLayout sees them. Of each example, each layout that KLayout writes
here with a fault, and each GDSII file in the folder that `files` names.
"""
import glob
import os
import subprocess
import sys
import tempfile

import pya

HERE = os.path.dirname(os.path.abspath(__file__))
sys.path.insert(0, HERE)
import markers  # noqa: E402
import testing  # noqa: E402

DPL, VIEW, FILES = globals()["dpl"], globals().get("view", ""), globals().get("files", "")
NONE = pya.Region()


def said_by(words):
    """What dpl says, and its status."""
    done = subprocess.run([DPL] + words, stdout=subprocess.PIPE, check=False)
    return done.returncode, done.stdout.decode().strip()


class Split:
    """A layer of a layout that was split, its markers as KLayout reads them, and its shapes."""

    def __init__(self, folder, source, layer=(1, 0), rule=30, overlap=10):
        self.rule, self.layout = rule, pya.Layout()
        self.masks, self.certificate, database = (os.path.join(folder, n) for n in ("out.gds", "cert", "m.lyrdb"))
        self.options = ["--layer", str(layer[0]), "--datatype", str(layer[1]), "--rule", str(rule), "--overlap", str(overlap)]
        self.files = [source, self.masks, self.certificate]
        self.status, self.line = said_by(["split"] + self.options + self.files)
        self.source = source
        markers.build(source, self.certificate, database, self.line)
        self.base = read_back(database)
        self.layout.read(source)
        index = self.layout.find_layer(*layer)
        self.shapes = pya.Region() if index is None else pya.Region(self.layout.top_cells()[0].begin_shapes_rec(index))

    def items(self, category):
        found = self.base.category_by_path(category)
        return [] if found is None else list(self.base.each_item_per_category(found.rdb_id()))

    def values(self, item):
        return [value for value in item.each_value() if not value.is_string()]

    def check(self):
        {0: self.check_masks, 1: self.check_cycle, 2: self.check_fault}[self.status]()
        return "%s: %s, %d markers" % (os.path.basename(self.source), self.line, self.base.num_items())

    def check_masks(self):
        """The stitches are just what both masks share, as KLayout finds it."""
        masks, dbu = pya.Layout(), self.layout.dbu
        masks.read(self.masks)
        a, b = (pya.Region(masks.top_cell().begin_shapes_rec(masks.layer(n, 0))) for n in (101, 102))
        boxes = [value.box() for item in self.items("stitches") for value in self.values(item)]
        assert len(boxes) == self.base.num_items() == int(self.line.split()[8]), (len(boxes), self.line)
        stitches = pya.Region([box.to_itype(dbu) for box in boxes])
        assert ((a & b) ^ stitches).is_empty(), "stitches"
        assert ((a | b) ^ self.shapes.merged()).is_empty(), "masks"

    def check_cycle(self):
        """The cycle is closed, and each near pair stands on the layer and closer than the rule."""
        items, dbu = self.items("cycle"), self.layout.dbu
        count = int(self.line.split()[2])
        assert len(items) == self.base.num_items() == 1 + 2 * count, len(items)
        chain = [value.edge() for value in self.values(items[0])]
        assert all(a.p2 == b.p1 for a, b in zip(chain, chain[1:] + chain[:1])), "chain"
        for item in items[2::2]:
            edge, first, second = self.values(item)
            assert edge.edge().length() < self.rule * dbu + 1e-9, edge
            squares = pya.Region([box.box().to_itype(dbu) for box in (first, second)])
            assert (squares - self.shapes).is_empty(), "squares"

    def check_fault(self):
        assert self.base.num_items() == 1 == len(self.items("fault")), self.line

    def fault_box(self):
        """The rectangle round what is drawn of a fault, and the cell that it is in."""
        (item,) = self.items("fault")
        box = pya.DBox()
        drawn = self.values(item)
        for value in drawn[:1] if len(drawn) == 1 else [value for value in drawn if not value.is_box()]:
            shape = (value.is_polygon() and value.polygon() or value.is_path() and value.path()
                     or value.is_edge() and value.edge() or value.box())
            box += shape.bbox() if not isinstance(shape, pya.DBox) else shape
        return box, self.base.cell_by_id(item.cell_id()).qname()


def read_back(path):
    base = pya.ReportDatabase("dpl")
    base.load(path)
    return base


class Faults:
    """Layouts that KLayout writes, each with one fault."""

    def __init__(self, folder):
        self.path = os.path.join(folder, "fault.gds")

    def new(self):
        layout = pya.Layout()
        layout.dbu = 0.0005
        top, sub = layout.create_cell("TOP"), layout.create_cell("SUB")
        sub.shapes(layout.layer(1, 0)).insert(pya.Box(-10, 0, 100, 40))
        return layout, top, sub, top.shapes(layout.layer(1, 0))

    def written(self, layout):
        options = pya.SaveLayoutOptions()
        options.write_context_info = False
        layout.write(self.path, options)
        return self.path

    def references(self):
        """Each way in which a reference may be refused, with KLayout's own bounds of it."""
        for name, motion in (("Magnified", pya.ICplxTrans(2, 0, False, 500, -300)),
                             ("Magnified", pya.ICplxTrans(0.5, 90, True, -500, 300)),
                             ("AngleNotRight", pya.ICplxTrans(1, 30, False, 0, 1000)),
                             ("AngleNotRight", pya.ICplxTrans(1, 135, True, 70, 1000))):
            for size in ((1, 1), (7, 3), (90, 80)):
                layout, top, sub, _ = self.new()
                spacing = pya.Vector(300, 0), pya.Vector(10, 200)
                if size == (1, 1):
                    top.insert(pya.CellInstArray(sub.cell_index(), motion))
                else:
                    top.insert(pya.CellInstArray(sub.cell_index(), motion, spacing[0], spacing[1], size[0], size[1]))
                yield name, self.written(layout), exact_bounds(layout, top, sub, size, spacing), "TOP"

    def shapes(self):
        """Each way in which a shape may be refused."""
        for name, shape in (("SlantedBoundary", pya.Polygon([pya.Point(0, 0), pya.Point(50, 70), pya.Point(90, 0)])),
                            ("RoundPath", pya.Path([pya.Point(0, 0), pya.Point(500, 0)], 40, 20, 20, True)),
                            ("OddWidth", pya.Path([pya.Point(0, 0), pya.Point(500, 0)], 41)),
                            ("SlantedPath", pya.Path([pya.Point(0, 0), pya.Point(500, 70)], 40)),
                            ("NegativeExtension", pya.Path([pya.Point(0, 0), pya.Point(500, 0)], 40, -10, 30))):
            for place in ("TOP", "SUB"):
                layout, top, sub, _ = self.new()
                layout.cell(place).shapes(layout.layer(1, 0)).insert(shape)
                top.insert(pya.CellInstArray(sub.cell_index(), pya.Trans(pya.Trans.R90, 1000, 2000)))
                yield name, self.written(layout), shape.bbox().to_dtype(layout.dbu), place


def exact_bounds(layout, top, sub, size, spacing):
    """The bounds of the corners of a cell's box in each copy of an array."""
    box, bounds = sub.dbbox(), pya.DBox()
    corners = [pya.DPoint(x, y) for x in (box.left, box.right) for y in (box.bottom, box.top)]
    motion = next(top.each_inst()).dcplx_trans
    for i in (0, size[0] - 1):
        for j in (0, size[1] - 1):
            moved = pya.DCplxTrans(layout.dbu) * (spacing[0] * i + spacing[1] * j)
            for corner in corners:
                bounds += motion * corner + moved
    return bounds


def close(a, b, by):
    return all(abs(x - y) <= by for x, y in ((a.left, b.left), (a.right, b.right), (a.bottom, b.bottom), (a.top, b.top)))


def test_examples(folder):
    for name, count in (("two-bars", 0), ("stitch", 1), ("conflict", 7)):
        split = Split(folder, os.path.join(HERE, "../examples", name + ".gds"))
        print(split.check())
        assert split.base.num_items() == count, split.base.num_items()
    split = Split(folder, os.path.join(HERE, "../examples/stitch.gds"))
    (box,) = split.values(split.items("stitches")[0])
    assert box.box() == pya.DBox(0.097, 0.18, 0.107, 0.2), box


def test_faults(folder):
    faults, seen = Faults(folder), set()
    for source in (faults.references(), faults.shapes()):
        for name, path, wanted, cell in source:
            split = Split(folder, path)
            assert split.line.split()[:2] == ["refused", name], (split.line, name)
            split.check()
            box, place = split.fault_box()
            # a slanted path has round numbers of units in the file, and slanted corners here
            assert place == cell and close(box, wanted, 0.0021), (name, box.to_s(), wanted.to_s(), place)
            seen.add(name)
    print("faults: " + ", ".join(sorted(seen)))


def test_broken(folder):
    """A mask is moved by one unit, and the marker is where KLayout finds the first difference."""
    split = Split(folder, os.path.join(HERE, "../examples/stitch.gds"))
    masks = pya.Layout()
    masks.read(split.masks)
    masks.top_cell().shapes(masks.layer(101, 0)).insert(pya.Box(500, -60, 520, -50))
    options = pya.SaveLayoutOptions()
    options.write_context_info = False
    masks.write(split.masks, options)
    status, line = said_by(["check"] + split.options + split.files)
    assert (status, line) == (7, "no Cover 500 -60"), line
    database = os.path.join(folder, "m.lyrdb")
    markers.build(split.source, split.certificate, database, line)
    split.base = read_back(database)
    (item,) = split.items("broken")
    (value,) = split.values(item)
    assert value.box() == pya.DBox(0.5, -0.06, 0.501, -0.059), value
    texts = [value.string() for value in item.each_value() if value.is_string()]
    assert texts == [line] and len(split.items("stitches")) == 1
    assert "in just one of the layer" in split.base.category_by_path("broken").description
    print(line)


def test_all_conflicts(folder):
    """Each cycle that dplview lists is one marker, a closed line that KLayout reads."""
    if not VIEW:
        return
    source, database = os.path.join(HERE, "../examples/conflict.gds"), os.path.join(folder, "all.lyrdb")
    subprocess.run([VIEW, "conflicts", "--layer", "1", "--rule", "30", "--overlap", "10", source, database],
                   stdout=subprocess.DEVNULL, check=False)
    base = read_back(database)
    (item,) = base.each_item()
    text, line = item.each_value()
    points = list(line.path().each_point())
    assert text.string() == "cycle 0: 3 pieces", text
    assert len(points) == 7 and points[0] == points[-1] == pya.DPoint(0.001, 0), line
    assert base.cell_by_id(item.cell_id()).qname() == "TOP" and not item.is_visited()


def test_names(folder):
    """Names and texts that XML and KLayout would take for signs come back as they were."""
    name = "A<&>\"'\\ b"
    mark = ("stitches", name, [markers.Pen.text(name), "box: (0,0;1,1)"])
    about = {"description": name, "original-file": name, "generator": name, "top-cell": name}
    path = os.path.join(folder, "names.lyrdb")
    with open(path, "w", encoding="utf-8") as file:
        markers.write(file, about, {"stitches": name}, [name], [mark])
    base = read_back(path)
    item = next(base.each_item())
    assert base.cell_by_id(item.cell_id()).qname() == base.top_cell_name == base.description == name
    assert next(item.each_value()).string() == name, next(item.each_value()).string()


def test_colours(folder):
    """dpl.lyp gives the input and both masks their entries."""
    split = Split(folder, os.path.join(HERE, "../examples/stitch.gds"))
    view = pya.LayoutView()
    view.load_layout(split.source, True)
    view.load_layout(split.masks, True)
    view.load_layer_props(os.path.join(HERE, "dpl.lyp"))
    entries = [(entry.source, entry.name, entry.visible) for entry in view.each_layer()]
    assert entries == [("1/0@1", "input", True), ("101/0@2", "mask A", True), ("102/0@2", "mask B", True)], entries


def test_files(folder):
    """Every layer of every GDSII file in the folder that was named."""
    for path in sorted(glob.glob(os.path.join(FILES, "*.gds"))) if FILES else []:
        layout = pya.Layout()
        layout.read(path)
        for info in layout.layer_infos():
            print("%d/%d of " % (info.layer, info.datatype)
                  + Split(folder, path, (info.layer, info.datatype), 500, 100).check())


def call_in_folder(test):
    """Calls a test with a new folder, which is gone when it ends."""
    with tempfile.TemporaryDirectory() as folder:
        test(folder)


pya.Application.instance().exit(1 if testing.failures(globals(), call_in_folder) else 0)
