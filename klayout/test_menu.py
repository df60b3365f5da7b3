"""Tests of the menu entry in KLayout's window, run by test.sh with no screen: klayout -z -rm dpl.lym -rm test_menu.py.

The entry is triggered, its dialogs are filled in and closed, and what is then shown is compared.
"""
import os
import sys
import tempfile

import pya

sys.path.insert(0, os.path.dirname(os.path.abspath(__file__)))
import testing  # noqa: E402

EXAMPLES, FOLDER = os.environ["DPL_EXAMPLES"], tempfile.mkdtemp(prefix="test-menu-")
PATH = os.environ["PATH"]
seen, wanted = [], {}


def entry():
    """The action of the menu entry."""
    menu = pya.MainWindow.instance().menu()
    (item,) = [item for item in menu.items("tools_menu") if menu.action(item).title == "Split into two masks (dpl)"]
    return menu.action(item)


def close_dialog():
    """Fills in and closes the dialog that is open; called again and again by a timer."""
    dialog = pya.QApplication.activeModalWidget()
    if dialog is None:
        return
    if not hasattr(dialog, "take"):
        seen.append(dialog.text)
        dialog.accept() if not hasattr(dialog, "buttons") else dialog.done(0)
        return
    for name, value in wanted.items():
        getattr(dialog, name).text = value
    dialog.take()
    if dialog.values is None:
        seen.append(dialog.hint.text)
        dialog.reject()


def split(**values):
    """Triggers the entry with these values in its form; what the dialogs said."""
    wanted.clear()
    wanted.update({"rule": "0.03", "overlap": "0.01", "more": ""}, **values)
    del seen[:]
    entry().trigger()
    return list(seen)


def load(path):
    window = pya.MainWindow.instance()
    window.close_all()
    window.load_layout(path, 1)
    return window.current_view()


def example(name):
    return load(os.path.join(EXAMPLES, name + ".gds"))


def entries(view):
    return [(layer.source.split("@")[0], layer.name) for layer in view.each_layer()]


def test_masks_are_shown_beside_the_layout():
    view = example("stitch")
    (text,) = split()
    assert text.startswith("done features 3 pieces 8 zones 5 stitches 1 a 2 b 6\n"), text
    assert view.cellviews() == 2 and view.active_cellview_index() == 0
    assert entries(view) == [("1/0", ""), ("101/0", "1/0 mask A"), ("102/0", "1/0 mask B")], entries(view)
    assert view.num_rdbs() == 1 and view.rdb(0).num_items() == 1


def test_a_second_split_takes_the_place_of_the_first():
    view = example("stitch")
    split()
    first = os.path.dirname(view.cellview(1).filename())
    (text,) = split(rule="0.02", more="--a 7 --b=8")
    assert view.cellviews() == 2 and view.num_rdbs() == 1 and not os.path.exists(first)
    assert entries(view)[1:] == [("7/0", "1/0 mask A"), ("8/0", "1/0 mask B")], entries(view)


def test_masks_that_change_their_numbers_keep_their_colours():
    view = example("stitch")
    split(more="--a 102 --b 101")
    assert entries(view)[1:] == [("102/0", "1/0 mask A"), ("101/0", "1/0 mask B")], entries(view)


def test_markers_are_split_with_their_layer():
    view = example("markers")
    choose(view, view.active_cellview().layout().find_layer(1, 0))
    (text,) = split(more="--mark-b 7")
    assert text.startswith("done features 2 pieces 2 zones 0 stitches 0 a 1 b 1\n"), text
    (text,) = split(more="--mark-b 8")
    assert text == "The layout has no layer 8/0, which the options name for markers.", text


def test_a_layer_without_a_square():
    layout = pya.Layout()
    layout.create_cell("TOP").shapes(layout.layer(1, 0)).insert(pya.Path([pya.Point(0, 0), pya.Point(100, 0)], 0))
    path = os.path.join(FOLDER, "nothing.gds")
    layout.write(path)
    load(path)
    (text,) = split()
    assert text.startswith("done features 0 ") and "the layer is empty" in text, text


def test_a_conflict_shows_its_cycle():
    view = example("conflict")
    (text,) = split()
    assert text.startswith("conflict cycle 3\n") and "Move or thin" in text, text
    assert view.cellviews() == 1 and view.rdb(0).num_items() == 7


def test_a_refused_layer_shows_its_element():
    layout = pya.Layout()
    top, sub = layout.create_cell("TOP"), layout.create_cell("SUB")
    sub.shapes(layout.layer(1, 0)).insert(pya.Box(0, 0, 100, 40))
    top.insert(pya.CellInstArray(sub.cell_index(), pya.ICplxTrans(1, 45, False, 0, 0)))
    path = os.path.join(FOLDER, "turned.gds")
    layout.write(path)
    view = load(path)
    (text,) = split()
    assert text.startswith("refused AngleNotRight ") and "flatten it" in text, text
    assert view.cellviews() == 1 and view.rdb(0).num_items() == 1


def test_a_layer_without_a_number_and_cells_without_the_layer():
    window = pya.MainWindow.instance()
    window.close_all()
    cellview = window.create_layout(1)
    view, layout = window.current_view(), cellview.layout()
    top, other = layout.create_cell("TOP"), layout.create_cell("OTHER")
    other.shapes(layout.layer(5, 0)).insert(pya.Box(0, 0, 100, 40))
    metal = layout.layer(pya.LayerInfo("metal"))
    top.shapes(metal).insert(pya.Box(0, 0, 100, 40))
    top.insert(pya.CellInstArray(other.cell_index(), pya.ICplxTrans(1.5, 45, False, 0, 0)))
    cellview.cell = top
    view.add_missing_layers()
    choose(view, metal)
    (text,) = split()
    assert text.startswith("done features 1 "), text
    cellview.cell = other
    (text,) = split()
    assert text == "Layer metal has no shapes in cell OTHER.", text


def choose(view, layer):
    """Makes a layer the current one in the panel."""
    pya.Application.instance().process_events()
    at = view.begin_layers()
    while at.current().layer_index() != layer:
        at.next()
    view.current_layer = at


def test_wrong_values_are_told_in_the_form():
    example("stitch")
    for values, word in (({"rule": "x"}, "no length"), ({"rule": "0.0305"}, "multiple"), ({"overlap": "0"}, "from 0.001 to 1000"),
                         ({"more": "--top 'A"}, "quotation")):
        (text,) = split(**values)
        assert word in text, text


def test_options_that_dpl_does_not_take():
    example("stitch")
    left = os.listdir(tempfile.gettempdir())
    (text,) = split(more="--colour red")
    assert "doesn't take these options" in text and "usage: dpl split" in text, text
    assert left == os.listdir(tempfile.gettempdir())


def test_no_program_and_no_layout():
    example("stitch")
    os.environ["PATH"] = "/usr/bin:/bin" if not os.path.exists("/usr/bin/dpl") else "/nowhere"
    try:
        texts = split()
    finally:
        os.environ["PATH"] = PATH
    if not os.path.exists("/usr/bin/dpl") and not os.path.exists("/usr/local/bin/dpl"):
        assert len(texts) == 1 and "isn't on the PATH" in texts[0], texts
    pya.MainWindow.instance().close_all()
    assert split() == ["Open a layout first."]


def main():
    failed = testing.failures(globals(), lambda test: test())
    os._exit(1 if failed else 0)


# the window isn't shown, so the end of a progress bar would be that of the last window
pya.QGuiApplication.setQuitOnLastWindowClosed(False)
closing = pya.QTimer()
closing.timeout = close_dialog
closing.start(100)
beginning = pya.QTimer()
beginning.singleShot = True
beginning.timeout = main
beginning.start(500)
