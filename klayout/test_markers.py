"""Tests without KLayout: of markers.py by small layouts and certificates, of what dplview draws, and of parts of menu.py."""
import os
import re
import struct
import subprocess
import sys
import tempfile
import types
import unittest
import xml.etree.ElementTree as xml
from unittest import mock

import markers

# What menu.py asks of KLayout once it is read.
PYA = types.SimpleNamespace(QDialog=object, LayerInfo=lambda *numbers: numbers)
with mock.patch.dict(sys.modules, pya=PYA):
    import menu

NANOMETRE = bytes.fromhex("3E4189374BC6A7F03944B82FA09B5A54")
STITCH = """dpl 1
rule 30 overlap 10
features 3 pieces 4 zones 2 stitches 2
piece 0 A 0 0
piece 1 B 205 0
piece 2 B -7 40
piece 3 A 350 40
stitch 97 180 107 200 0 1
stitch -10 -20 -5 0 2 3
end
"""
CYCLE = """dpl 1
rule 30 overlap 10
features 3 pieces 9 zones 6
cycle 3
piece 0 0 0
piece 5 20 0
piece 8 10 20
near 0 0 20 0
near 20 0 10 20
near 10 20 0 0
end
"""
ANCHORED = """dpl 2
rule 30 overlap 10 corner 25
features 2 pieces 2 zones 0
cycle 3
anchor B
piece 0 0 0
piece 1 0 49
marked 0 0
near 0 19 0 49
marked 0 49
end
"""
GAINS = (STITCH.replace("dpl 1", "dpl 3").replace("overlap 10", "overlap 10 corner 30")
         .replace("stitches 2\n", "stitches 2\ngains 1\n").replace("end", "gain 0 1 1\nend"))
FAULT = "dpl 1\nfault %s %d\nend\n"


def record(kind, data_type=0, body=b""):
    return struct.pack(">HBB", 4 + len(body), kind, data_type) + body


def text(kind, name):
    return record(kind, 6, name.encode() + b"\0" * (len(name.encode()) % 2))


def points(*both):
    return record(0x10, 3, struct.pack(">%di" % (2 * len(both)), *(v for p in both for v in p)))


def boundary(*corners):
    return record(0x08) + record(0x0D, 2, b"\0\1") + record(0x0E, 2, b"\0\0") + points(*corners) + record(0x11)


def rectangle(x0, y0, x1, y1):
    return boundary((x0, y0), (x1, y0), (x1, y1), (x0, y1), (x0, y0))


def path(width, kind, *way):
    return (record(0x09) + record(0x0D, 2, b"\0\1") + record(0x0E, 2, b"\0\0") + record(0x21, 2, struct.pack(">H", kind))
            + record(0x0F, 3, struct.pack(">i", width)) + points(*way) + record(0x11))


def reference(name, at, flags=0, magnification=None, angle=None):
    trans = record(0x1A, 1, struct.pack(">H", flags))
    trans += record(0x1B, 5, bytes.fromhex(magnification)) if magnification else b""
    trans += record(0x1C, 5, bytes.fromhex(angle)) if angle else b""
    return record(0x0A) + text(0x12, name) + trans + points(at) + record(0x11)


def array(name, columns, rows, *at):
    return (record(0x0B) + text(0x12, name) + record(0x1A, 1, b"\0\0") + record(0x13, 2, struct.pack(">hh", columns, rows))
            + points(*at) + record(0x11))


def library(units=NANOMETRE, **structures):
    data = record(0x00, 2, b"\2\x58") + record(0x01, 2, bytes(24)) + text(0x02, "LIB") + record(0x03, 5, units)
    for name, elements in structures.items():
        data += record(0x05, 2, bytes(24)) + text(0x06, name) + b"".join(elements) + record(0x07)
    return data + record(0x04)


class Markers(unittest.TestCase):
    def setUp(self):
        folder = tempfile.TemporaryDirectory()
        self.addCleanup(folder.cleanup)
        self.folder = folder.name

    def build(self, layout, certificate, line=None, **options):
        """The database of a layout and a certificate: category, cell and values of each marker."""
        paths = [os.path.join(self.folder, name) for name in ("in.gds", "cert", "out.lyrdb")]
        for name, content in zip(paths, (layout, certificate.encode())):
            with open(name, "wb") as file:
                file.write(content)
        markers.build(*paths, line=line, **options)
        root = xml.parse(paths[2]).getroot()
        self.descriptions = [description.text for description in root.findall("categories/category/description")]
        return [(item.find("category").text, item.find("cell").text, [v.text for v in item.find("values")])
                for item in root.find("items")]

    def fault(self, layout, name, element):
        """The values that are drawn for a fault of this element."""
        (mark,) = self.build(layout, FAULT % (name, layout.index(element)))
        self.assertEqual(mark[0], "fault")
        return mark[1], mark[2][2:]

    def test_stitches_are_boxes_with_the_numbers_of_their_pieces(self):
        items = self.build(library(TOP=[]), STITCH, "done features 3 pieces 4 zones 2 stitches 2 a 1 b 1\n")
        self.assertEqual(items, [
            ("stitches", "TOP", ["text: 'stitch 0 between piece 0 (A) and piece 1 (B)'", "box: (0.097,0.18;0.107,0.2)"]),
            ("stitches", "TOP", ["text: 'stitch 1 between piece 2 (B) and piece 3 (A)'", "box: (-0.01,-0.02;-0.005,0)"])])

    @unittest.skipUnless(os.environ.get("DPL"), "DPL doesn't name the program")
    def test_the_examples_as_dpl_splits_them(self):
        examples = os.path.join(os.path.dirname(os.path.abspath(__file__)), "../examples")
        for name, wanted in (("two-bars", []), ("conflict", ["cycle"] * 7), ("stitch", ["stitches"])):
            source = os.path.join(examples, name + ".gds")
            masks, certificate = (os.path.join(self.folder, n) for n in ("masks", "certificate"))
            line = subprocess.run([os.environ["DPL"], "split", "--layer", "1", "--rule", "30", "--overlap", "10", source,
                                   masks, certificate], stdout=subprocess.PIPE, check=False).stdout.decode()
            with open(source, "rb") as layout, open(certificate, encoding="utf-8") as text:
                items = self.build(layout.read(), text.read(), line)
            self.assertEqual([category for category, _, _ in items], wanted)
        self.assertEqual(items[0][2], ["text: 'stitch 0 between piece 4 (B) and piece 6 (A)'", "box: (0.097,0.18;0.107,0.2)"])

    def test_a_cycle_is_a_closed_chain_and_then_its_pieces_and_near_pairs_in_order(self):
        items = self.build(library(TOP=[]), CYCLE)
        edges = [re.findall(r"[-0-9.]+,[-0-9.]+", value) for value in items[0][2][1:]]
        self.assertTrue(all(before[1] == after[0] for before, after in zip(edges, edges[1:] + edges[:1])))
        self.assertEqual([re.split("[:']", values[0])[2].strip() for _, _, values in items[1:]],
                         [n for n in ("1 of 3", "2 of 3", "3 of 3") for _ in range(2)])
        self.assertEqual(items[2][2], [
            "text: '1 of 3: piece 0 and piece 5 are 0.019 µm apart, the rule is 0.03 µm'",
            "edge: (0.001,0.0005;0.02,0.0005)", "box: (0,0;0.001,0.001)", "box: (0.02,0;0.021,0.001)"])

    def test_squares_across_a_corner_are_told_the_corner_rule(self):
        cycle = CYCLE.replace("dpl 1", "dpl 2").replace("overlap 10", "overlap 10 corner 29")
        texts = [values[0] for _, _, values in self.build(library(TOP=[]), cycle)]
        self.assertIn("text: '1 of 3: piece 0 and piece 5 are 0.019 µm apart, the rule is 0.03 µm'", texts)
        self.assertTrue(any(text.endswith("the corner rule is 0.029 µm'") for text in texts))

    def test_a_cycle_may_have_anchors(self):
        items = self.build(library(TOP=[]), ANCHORED)
        self.assertEqual([values[0] for _, _, values in items], [
            "text: 'odd cycle of 3 pieces and anchors: anchor B 0 1'", "text: '1 of 3: anchor B'",
            "text: '1 of 3: anchor B and piece 0 are joined by a marked square'", "text: '2 of 3: piece 0'",
            "text: '2 of 3: piece 0 and piece 1 are 0.029 µm apart, the rule is 0.03 µm'", "text: '3 of 3: piece 1'",
            "text: '3 of 3: piece 1 and anchor B are joined by a marked square'"])
        self.assertEqual(items[2][2][1:], ["box: (0,0;0.001,0.001)"])

    def test_micrometres_are_those_of_the_units(self):
        units = NANOMETRE[:8] + bytes.fromhex("3B1AD7F29ABCAF48")  # 1e-7 m
        items = self.build(library(units, TOP=[]), STITCH)
        self.assertEqual(items[0][2][1], "box: (9.7,18;10.7,20)")

    def test_broken_properties_are_at_their_squares(self):
        for line, values in (
                ("no Cover 5 -7", ["box: (0.005,-0.007;0.006,-0.006)"]),
                ("no Overlap 0 0", ["box: (0,0;0.001,0.001)"]),
                ("no SpacingA 0 19 0 49", ["box: (0,0.019;0.001,0.02)", "box: (0,0.049;0.001,0.05)",
                                           "edge: (0.0005,0.02;0.0005,0.049)"]),
                ("no Marked 5 -7", ["box: (0.005,-0.007;0.006,-0.006)"]), ("no Gain 0", []),
                ("no Rules 40 10", []), ("no Rules 40 10 25", []), ("no Counts 3 4 2", []), ("no WasFault Truncated 12", [])):
            items = self.build(library(TOP=[]), GAINS, line)
            self.assertEqual([items[0][0], items[0][2][0], items[0][2][1:]], ["broken", "text: '%s'" % line, values])
            self.assertEqual(len(items), 3)

    def test_a_broken_stitch_piece_or_place_of_a_cycle_is_found_in_the_certificate(self):
        for certificate, line, value in (
                (STITCH, "no Stitch 1", "box: (-0.01,-0.02;-0.005,0)"), (STITCH, "no Piece 2", "box: (-0.007,0.04;-0.006,0.041)"),
                (CYCLE, "no Cycle 1", "edge: (0.02,0.001;0.011,0.02)")):
            broken = [values for category, _, values in self.build(library(TOP=[]), certificate, line) if category == "broken"]
            self.assertEqual(len(broken), 1)
            self.assertIn(value, broken[0])

    def test_a_slanted_boundary_shows_its_edge_and_its_points(self):
        slanted = boundary((0, 0), (100, 0), (101, 20), (0, 20), (0, 0))
        layout = library(TOP=[rectangle(0, 0, 5, 5), slanted])
        self.assertEqual(self.fault(layout, "SlantedBoundary", slanted), ("TOP", [
            "edge: (0.1,0;0.101,0.02)", "polygon: (0,0;0.1,0;0.101,0.02;0,0.02)"]))

    def test_the_side_that_closes_a_boundary_may_be_the_slanted_one(self):
        slanted = boundary((0, 0), (100, 0), (100, 20), (5, 20))
        self.assertEqual(self.fault(library(TOP=[slanted]), "SlantedBoundary", slanted)[1], [
            "edge: (0.005,0.02;0,0)", "polygon: (0,0;0.1,0;0.1,0.02;0.005,0.02)"])

    def test_a_path_has_its_width_and_its_ends(self):
        odd = path(7, 2, (0, 0), (100, 0))
        self.assertEqual(self.fault(library(TOP=[odd]), "OddWidth", odd)[1],
                         ["path: (0,0;0.1,0) w=0.007 bx=0.0035 ex=0.0035 r=false"])

    def test_a_reference_is_drawn_where_it_places_its_structure(self):
        turned = reference("SUB", (1000, 0), 0x8000, "4120000000000000", "425A000000000000")
        layout = library(SUB=[rectangle(0, 0, 10, 20)], TOP=[turned])
        self.assertEqual(self.fault(layout, "Magnified", turned)[1],
                         ["polygon: (1,0;1,0.02;1.04,0.02;1.04,0)", "box: (0.999,-0.001;1.001,0.001)"])

    def test_an_array_is_drawn_copy_by_copy_and_a_large_one_by_its_corners(self):
        small = array("SUB", 2, 3, (0, 0), (251, 0), (0, 300))
        values = self.fault(library(SUB=[rectangle(0, 0, 10, 20)], TOP=[small]), "BadArray", small)[1]
        self.assertEqual([v for v in values if v.startswith("polygon")][3],
                         "polygon: (0.1255,0.1;0.1355,0.1;0.1355,0.12;0.1255,0.12)")
        self.assertEqual(len(values), 6 + 1)
        large = array("SUB", 1000, 1000, (0, 0), (100000, 0), (0, 100000))
        values = self.fault(library(SUB=[rectangle(0, 0, 10, 20)], TOP=[large]), "BadArray", large)[1]
        self.assertEqual(values[3], "polygon: (99.9,99.9;99.91,99.9;99.91,99.92;99.9,99.92)")
        self.assertEqual(len(values), 4 + 1)

    def test_a_reference_over_a_deep_hierarchy_is_drawn(self):
        cells = {"C%d" % i: [reference("C%d" % (i + 1), (1, 0)), reference("C%d" % (i + 1), (0, 0))] for i in range(3000)}
        cells["C3000"] = [rectangle(0, 0, 10, 20)]
        turned = reference("C0", (0, 0), 0, None, "422D000000000000")
        values = self.fault(library(TOP=[turned], **cells), "AngleNotRight", turned)[1]
        self.assertEqual(values[0].split(";")[2], "2.114249276,2.142533547")

    def test_a_fault_below_the_top_is_in_its_own_structure(self):
        slanted = boundary((0, 0), (9, 9), (0, 9), (0, 0))
        layout = library(SUB=[slanted], TOP=[reference("SUB", (0, 0))])
        self.assertEqual(self.fault(layout, "SlantedBoundary", slanted)[0], "SUB")

    def test_what_is_missing_or_contains_itself_is_drawn_as_far_as_it_goes(self):
        missing, back = reference("NONE", (3, 4)), reference("TOP", (0, 100))
        self.assertEqual(self.fault(library(TOP=[missing]), "MissingStructure", missing)[1],
                         ["box: (0.002,0.003;0.004,0.005)"])
        layout = library(TOP=[rectangle(0, 0, 10, 10), reference("SUB", (50, 0))], SUB=[rectangle(0, 0, 5, 5), back])
        self.assertEqual(len(self.fault(layout, "Recursion", back)[1]), 2)

    def test_texts_draw_nothing_where_a_reference_is_drawn(self):
        label = (record(0x0C) + record(0x0D, 2, b"\0\1") + record(0x16, 2, b"\0\0") + points((900, 900))
                 + text(0x19, "x") + record(0x11))
        turned = reference("SUB", (0, 0), 0, None, "422D000000000000")
        values = self.fault(library(SUB=[label], TOP=[turned]), "AngleNotRight", turned)[1]
        self.assertEqual(values, ["box: (-0.001,-0.001;0.001,0.001)"])

    def test_a_structure_without_a_name_is_none_of_the_cells(self):
        nameless = library(TOP=[], **{"": []})
        (mark,) = self.build(nameless, FAULT % ("BadName", nameless.rindex(record(0x06, 6))))
        self.assertEqual((mark[1], mark[2][1]), ("TOP", "text: 'in structure without a name'"))
        (mark,) = self.build(nameless, FAULT % ("Unexpected", 0))
        self.assertEqual((mark[1], mark[2][1]), ("TOP", "text: 'outside of all structures'"))

    def test_a_file_that_is_cut_short_shows_the_element_that_it_ends_in(self):
        last = boundary((0, 0), (100, 0), (100, 20), (0, 20), (0, 0))
        layout = library(TOP=[rectangle(0, 0, 5, 5), last])
        cut = layout.index(last) + len(last) - 4
        (mark,) = self.build(layout[:cut], FAULT % ("Truncated", cut))
        self.assertEqual(mark[2][2:], ["polygon: (0,0;0.1,0;0.1,0.02;0,0.02)"])

    def test_faults_without_a_place_are_told_in_words(self):
        layout = library(ONE=[], TWO=[])
        self.assertIn("ONE, TWO", self.build(layout, FAULT % ("ManyTops", 2))[0][2][1])
        self.assertEqual(self.build(b"\x1f\x8b\x08", FAULT % ("Truncated", 0))[0][0], "fault")
        self.assertEqual(len(self.build(layout, FAULT % ("TooManyPoints", 0))[0][2]), 1)
        for top, cell in (("TWO", "TWO"), ("THREE", "ONE")):
            self.assertEqual(self.build(layout, FAULT % ("NoTop", 0), top=top)[0][1], cell)

    def test_what_check_refused(self):
        slanted = boundary((0, 0), (9, 9), (0, 9), (0, 0))
        layout = library(TOP=[slanted])
        line = "SlantedBoundary %d" % layout.index(slanted)
        self.assertIn("edge: (0,0;0.009,0.009)", self.build(layout, "no certificate", "refused in " + line)[0][2])
        self.assertIn("--masks", self.build(library(TOP=[]), STITCH, "refused out " + line)[0][2][1])
        masks = os.path.join(self.folder, "masks.gds")
        with open(masks, "wb") as file:
            file.write(layout)
        mark = self.build(library(TOP=[]), STITCH, "refused out " + line, masks=masks)[0]
        self.assertIn("edge: (0,0;0.009,0.009)", mark[2])

    def test_a_certificate_that_check_refused(self):
        certificate = STITCH.replace("piece 1 B", "piece <1>")[:-1]
        for line, texts in (("Line 5", ["line 5 of", "'piece <1> 205 0'"]),
                            ("Line 10", ["line 10 of", "'end'", "no line feed"]),
                            ("Line 11", ["line 11 of", "the text ends there"]),
                            ("Line 18446744073709551615", ["line 18446744073709551615 of", "the text ends there"]),
                            ("TooLarge 268435456", ["TooLarge 268435456", "the certificate"])):
            ((category, cell, values),) = self.build(library(TOP=[]), certificate, "refused cert " + line)
            self.assertEqual((category, cell, len(values)), ("fault", "TOP", len(texts)))
            for value, part in zip(values, texts):
                self.assertIn(part, value)
        self.assertEqual(self.descriptions, ["TooLarge: the certificate has more than 268,435,456 bytes"])

    def test_the_top_of_the_masks_is_no_choice(self):
        masks = os.path.join(self.folder, "masks.gds")
        with open(masks, "wb") as file:
            file.write(library(ONE=[], TWO=[]))
        (mark,) = self.build(library(TOP=[]), STITCH, "refused out ManyTops 2", masks=masks)
        self.assertIn("ONE, TWO", mark[2][1])
        self.assertNotIn("--top", self.descriptions[0])
        self.build(library(ONE=[], TWO=[]), STITCH, "refused in ManyTops 2")
        self.assertIn("--top", self.descriptions[0])

    def test_no_other_file_is_overwritten(self):
        layout, masks = os.path.join(self.folder, "in.gds"), os.path.join(self.folder, "out.lyrdb")
        with open(masks, "wb") as file:
            file.write(b"masks")
        with self.assertRaisesRegex(markers.Problem, "out.lyrdb would be overwritten"):
            self.build(library(TOP=[]), STITCH, masks=masks)
        with self.assertRaisesRegex(markers.Problem, "in.gds would be overwritten"):
            markers.build(layout, os.path.join(self.folder, "cert"), os.path.join(self.folder, ".", "in.gds"))
        with open(layout, "rb") as file:
            self.assertEqual(file.read(), library(TOP=[]))

    def test_names_and_texts_are_escaped(self):
        layout = library(**{"A<&>'\\\1": []})
        self.assertEqual(self.build(layout, STITCH)[0][1], "A<&>'\\?")
        self.assertEqual(markers.Pen.text("it's a \\"), "text: 'it\\'s a \\\\'")

    def test_the_top_is_chosen_or_asked_for(self):
        layout = library(ONE=[], TWO=[])
        self.assertEqual(self.build(layout, STITCH, top="TWO")[0][1], "TWO")
        for options in ({}, {"top": "THREE"}):
            with self.assertRaisesRegex(markers.Problem, "TWO|THREE"):
                self.build(layout, STITCH, **options)

    def test_what_is_no_certificate_and_no_line_makes_no_database(self):
        for certificate, place in ((STITCH[:-4], 10), (STITCH[:-1], 10), (STITCH.replace("A 0 0", "C 0 0"), 4),
                                   ("dpl 9\n", 1), ("", 1), (CYCLE.replace("near 20", "near x"), 9), (GAINS.replace("gain 0", "gain A"), 11),
                                   (ANCHORED.replace("anchor B", "anchor C"), 5), (FAULT.replace("1", "2"), 2),
                                   ((FAULT % ("NoTop", 0))[:-4], 3), (STITCH + "end\n", 11), (CYCLE + "\n", 12)):
            with self.assertRaisesRegex(markers.Problem, "line %d " % place):
                self.build(library(TOP=[]), certificate)
        for line in ("", "usage: dpl", "no Cover 5", "no Cover a b", "no Such 1", "no Rules 30", "no Cover 1 2 3",
                     "refused in", "no Stitch 2", "refused edits Line 3"):
            with self.assertRaises(markers.Problem):
                self.build(library(TOP=[]), STITCH, line)
        self.assertEqual(sorted(os.listdir(self.folder)), ["cert", "in.gds"])
        with self.assertRaises(markers.Problem):
            self.build(b"no layout", STITCH)

    @unittest.skipUnless(os.environ.get("DPLVIEW"), "DPLVIEW doesn't name the program")
    def test_dplview_draws_a_cycle_as_a_closed_line(self):
        source = os.path.join(os.path.dirname(os.path.abspath(__file__)), "../examples/conflict.gds")
        database = os.path.join(self.folder, "all.lyrdb")
        done = subprocess.run([os.environ["DPLVIEW"], "conflicts", "--layer", "1", "--rule", "30", "--overlap", "10", source,
                               database], stdout=subprocess.PIPE, check=False)
        self.assertEqual(done.returncode, 1)
        root = xml.parse(database).getroot()
        self.assertEqual(root.tag, "report-database")
        self.assertEqual([name.text for name in root.findall("categories/category/name")], ["cycle"])
        self.assertEqual([name.text for name in root.findall("cells/cell/name")], ["TOP"])
        (item,) = root.findall("items/item")
        self.assertEqual([(part.tag, part.text) for part in item][:2], [("category", "cycle"), ("cell", "TOP")])
        self.assertEqual([value.text for value in item.findall("values/value")], [
            "text: 'cycle 0: 3 pieces'",
            "path: (0.001,0;0.02,0;0.02,0.001;0.011,0.02;0.01,0.02;0.001,0.001;0.001,0) w=0 bx=0 ex=0 r=false"])


class Menu(unittest.TestCase):
    """What of the menu entry needs no window."""

    def test_lengths_are_database_units(self):
        for words, unit, units in (("0.03", 0.001, 30), (" 0,03 ", 0.001, 30), ("0.00025", 5e-05, 5),
                                   ("1000", 0.001, 1000000)):
            self.assertEqual(menu.units_of(words, unit, "rule"), units)
        for words in ("", "x", "nan", "1/0", "0.0305", "0", "-0.03", "1000.001"):
            with self.assertRaises(menu.Problem):
                menu.units_of(words, 0.001, "rule")

    def test_options_among_words(self):
        words = ["--a", "7", "--mark-b=5", "--fewer", "--mark-a", "7"]
        self.assertEqual([menu.option(words, name, "102") for name in ("--a", "--b", "--mark-b")], ["7", "102", "5"])
        self.assertEqual(menu.marker_layers(words), [5, 7])
        self.assertEqual(menu.marker_layers(["--mark-a", "x", "--mark-b"]), [])

    def test_each_mask_has_its_colour(self):
        with open(os.path.join(menu.HERE, "dpl.lyp"), encoding="utf-8") as file:
            text = file.read()
        for numbers in ((101, 102), (102, 101), (7, 102)):
            root = xml.fromstring(menu.coloured(text, "<1/0>", numbers, 2).encode())
            entries = [[entry.find(part).text for part in ("source", "name", "fill-color")]
                       for entry in root.findall("properties")]
            self.assertEqual(entries[1:], [["%d/0@2" % numbers[0], "<1/0> mask A", "#3b8eff"],
                                           ["%d/0@2" % numbers[1], "<1/0> mask B", "#ff9020"]])

    def test_markers_are_written_with_their_layer(self):
        for info, layers, number in (((1, 0), {(1, 0): 4, (7, 0): 5}, (1, 0)), ((-1, -1), {(1, 0): 4, (7, 0): 5}, (2, 0)),
                                     ((7, 0), {(1, 0): 4, (7, 0): 5}, (7, 0))):
            index = layers.get(info, 6)
            written, cellview = self.cell_view(info, layers)
            self.assertEqual(menu.save_layers(cellview, index, [1, 7], "path"), number)
            self.assertEqual(written, {**layers, number: index})
            with self.assertRaisesRegex(menu.Problem, "no layer 3/0"):
                menu.save_layers(cellview, index, [3], "path")

    def cell_view(self, info, layers):
        """What stands for the view of a cell with these layers, and what of it is written."""
        written = {}
        options = types.SimpleNamespace(select_cell=lambda cell: None, deselect_all_layers=written.clear,
                                        add_layer=lambda index, numbers: written.update({numbers: index}))
        PYA.SaveLayoutOptions = lambda: options
        layout = types.SimpleNamespace(
            get_info=lambda index: types.SimpleNamespace(layer=info[0], datatype=info[1]),
            find_layer=lambda *numbers: layers.get(numbers), write=lambda path, options: None)
        box = types.SimpleNamespace(empty=lambda: False)
        cell = types.SimpleNamespace(bbox_per_layer=lambda index: box)
        return written, types.SimpleNamespace(layout=lambda: layout, cell=cell, cell_index=0)

    def test_what_dpl_says_and_what_it_tells_standard_error_stay_apart(self):
        PYA.AbsoluteProgress = lambda title: types.SimpleNamespace(set=lambda value, force: None, _destroy=lambda: None)
        words = "import sys; print('done'); print('dpl: the layer is empty', file=sys.stderr); sys.exit(3)"
        self.assertEqual(menu.call([sys.executable, "-c", words], "1/0"), (3, "done", "dpl: the layer is empty"))
        with self.assertRaisesRegex(menu.Problem, "/nowhere/dpl: "):
            menu.call(["/nowhere/dpl"], "1/0")

    def test_a_refusal_without_a_place_shows_none(self):
        for line, has_place in (("refused TooManyPoints 0", False), ("refused OddWidth 98", True)):
            self.assertIs("shows where" in menu.explained(2, line, 1, markers), has_place)


if __name__ == "__main__":
    unittest.main()
