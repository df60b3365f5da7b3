"""What the entry "Split into two masks (dpl)" in KLayout's menu Tools does; dpl.lym calls it.

The layer, and the layers of markers that options name, are written to a temporary file, and the program
dpl splits the layer. The masks are shown beside the layout, in the colours of dpl.lyp, and the marker
browser lists stitches, a cycle of conflicts, or the element for which the layer is refused (markers.py).
"""
import collections
import importlib.util
import itertools
import os
import re
import shlex
import shutil
import subprocess
import tempfile
import time
from fractions import Fraction
from xml.sax.saxutils import escape

import pya

TITLE = "Split into two masks (dpl)"
HERE = os.path.dirname(os.path.realpath(__file__))
PREFIX = "dpl-"
MOST = 1000000

# Where installations put the program; the last one is that of a package that these files belong to.
FOLDERS = ["~/bin", "/usr/local/bin", "/usr/bin"]
if HERE.endswith("/share/dpl/klayout"):
    FOLDERS.append(os.path.join(HERE, "../../../bin"))

# The layers of a layout, their names, and the place in both of the one that is offered first.
Layers = collections.namedtuple("Layers", "indices names current")
# What the user asks for: the place of a layer, two lengths in database units, and words for dpl.
Values = collections.namedtuple("Values", "place rule overlap more")

NOT_FOUND = """The program dpl isn't on the PATH, nor in %s.

Install it (the Debian package, or sh install.sh in its sources). If it is somewhere else, choose it now?"""

CONFLICT = """The layer can't be split like this: the marker browser lists an odd cycle of pieces, each of \
which would have to be on another mask than the next.

Move or thin one of the shapes at the near squares, or make one long enough to be cut: clear of all \
others for the overlap and two units more in its middle."""

FAILURES = {
    3: "dpl doesn't take these options. What it takes:",
    4: "dpl couldn't read the file that KLayout wrote for it.",
    5: "dpl couldn't write its files: is the disk full?",
    6: "dpl found no memory. Split one cell or a smaller part.",
}


class Problem(Exception):
    """What keeps a layer from being split, in words for the user."""


def setting(name, value=None):
    """A value that is kept from one run of KLayout to the next; a new one where it is given."""
    app = pya.Application.instance()
    if value is not None:
        app.set_config(PREFIX + name, value)
        app.commit_config()
    return app.get_config(PREFIX + name) or ""


# ---- the program ---------------------------------------------------------------------------------


def find_program():
    """Where the program is, or None: as chosen before, on the PATH, or where installations put it."""
    names = [setting("program"), shutil.which("dpl") or ""]
    names += [os.path.join(os.path.expanduser(folder), "dpl") for folder in FOLDERS]
    return next((os.path.normpath(n) for n in names if os.path.isfile(n) and os.access(n, os.X_OK)), None)


def program():
    """Where the program is; the user is asked where it isn't found."""
    found = find_program()
    if found:
        return found
    buttons = pya.MessageBox.Yes + pya.MessageBox.No
    text = NOT_FOUND % "~/bin, /usr/local/bin or /usr/bin"
    if pya.MessageBox.warning(TITLE, text, buttons) != pya.MessageBox.Yes:
        return None
    path = pya.FileDialog.ask_open_file_name("The program dpl", os.path.expanduser("~"), "All files (*)")
    if path is None:
        return None
    if not os.access(path, os.X_OK):
        raise Problem("%s is no program." % path)
    return setting("program", path)


def call(words, layer):
    """Runs the program, while KLayout stays alive; its status, what it said, and what it told standard error."""
    try:
        process = subprocess.Popen(words, stdin=subprocess.DEVNULL, stdout=subprocess.PIPE, stderr=subprocess.PIPE)
    except OSError as error:
        raise Problem("%s: %s" % (words[0], error.strerror)) from None
    progress = pya.AbsoluteProgress("dpl splits layer " + layer)
    try:
        steps = 0
        while process.poll() is None:
            time.sleep(0.02)
            steps += 1
            progress.set(steps, True)
    except Exception:  # the user pressed Cancel
        raise Problem("The split was stopped.") from None
    finally:
        if process.poll() is None:
            process.kill()
            process.wait()
        progress._destroy()
    line, told = (text.decode("utf-8", "replace").strip() for text in process.communicate())
    return process.returncode, line, told


# ---- what the user is asked ----------------------------------------------------------------------


def units_of(text, unit, name):
    """A length in micrometres as a number of database units."""
    try:
        value = Fraction(text.strip().replace(",", ".")) / Fraction(repr(unit))
    except (ValueError, ZeroDivisionError):
        raise Problem("The %s is no length in µm: '%s'" % (name, text)) from None
    if abs(value - round(value)) > Fraction(1, 1000):
        raise Problem("The %s must be a multiple of the database unit, %g µm." % (name, unit))
    if not 1 <= round(value) <= MOST:
        raise Problem("The %s must be from %g to %g µm." % (name, unit, MOST * unit))
    return round(value)


class Form(pya.QDialog):
    """Asks for layer, rule, overlap and further options."""

    def __init__(self, unit, layers):
        super(Form, self).__init__(pya.MainWindow.instance())
        self.unit, self.values = unit, None
        self.windowTitle = TITLE
        form = pya.QFormLayout(self)
        self.layers = pya.QComboBox(self)
        for name in layers.names:
            self.layers.addItem(name)
        self.layers.currentIndex = layers.current
        self.rule = self.field(setting("rule") or "%g" % (30 * unit), "two features closer than this go to different masks")
        self.overlap = self.field(setting("overlap") or "%g" % (10 * unit), "how wide a stitch is")
        self.more = self.field(setting("more"), "as on dpl's command line, lengths in database units: --corner 25, for instance")
        self.hint = pya.QLabel(self)
        self.hint.wordWrap = True
        for label, field in (("Layer", self.layers), ("Rule (µm)", self.rule), ("Overlap (µm)", self.overlap),
                             ("More options", self.more)):
            form.addRow(label, field)
        form.addRow(self.hint)
        buttons = pya.QDialogButtonBox(self)
        buttons.standardButtons = pya.QDialogButtonBox.Ok | pya.QDialogButtonBox.Cancel
        buttons.accepted = self.take
        buttons.rejected = self.reject
        form.addRow(buttons)

    def field(self, text, hint):
        field = pya.QLineEdit(self)
        field.text = text
        field.toolTip = hint
        field.minimumWidth = 260
        return field

    def take(self):
        """Takes the values, or says what is wrong with them and stays open."""
        try:
            rule = units_of(self.rule.text, self.unit, "rule")
            overlap = units_of(self.overlap.text, self.unit, "overlap")
            more = shlex.split(self.more.text)
        except (Problem, ValueError) as problem:
            self.hint.text = str(problem)
            return
        for name, text in (("layer", self.layers.currentText), ("rule", self.rule.text),
                           ("overlap", self.overlap.text), ("more", self.more.text)):
            setting(name, text)
        self.values = Values(self.layers.currentIndex, rule, overlap, more)
        self.accept()


def layers_of(view, cellview):
    """The layers of a layout; first is offered the current one of the panel, or else the one that was split last."""
    layout = cellview.layout()
    indices = sorted(layout.layer_indexes(), key=lambda i: layout.get_info(i).to_s())
    if not indices:
        raise Problem("The layout has no layer.")
    names = [layout.get_info(i).to_s() for i in indices]
    place = names.index(setting("layer")) if setting("layer") in names else 0
    current = view.current_layer
    if not current.is_null() and not current.at_end():
        entry = current.current()
        if entry.cellview() == cellview.index() and entry.layer_index() in indices:
            place = indices.index(entry.layer_index())
    return Layers(indices, names, place)


# ---- files and views -----------------------------------------------------------------------------


def option(words, name, default):
    """The value of an option among words."""
    for word, after in zip(words, words[1:] + [""]):
        if word == name:
            return after
        if word.startswith(name + "="):
            return word[len(name) + 1:]
    return default


def marker_layers(words):
    """The layers of markers that options name; what is no number is left for dpl to refuse."""
    texts = [option(words, name, "") for name in ("--mark-a", "--mark-b")]
    return sorted({int(text) for text in texts if re.fullmatch("[-+]?[0-9]{1,9}", text)})


def save_layers(cellview, index, markers, path):
    """Writes a layer of the shown cell and layers of markers as GDSII; the number and datatype of the layer there."""
    layout = cellview.layout()
    info = layout.get_info(index)
    if cellview.cell.bbox_per_layer(index).empty():
        raise Problem("Layer %s has no shapes in cell %s." % (info.to_s(), cellview.cell.name))
    number = (info.layer, info.datatype)
    if not all(0 <= n <= 65535 for n in number):
        number = next((n, 0) for n in itertools.count(1) if n not in markers)
    written = {number: index}
    for marker in markers:
        found = layout.find_layer(marker, 0)
        if found is None:
            raise Problem("The layout has no layer %d/0, which the options name for markers." % marker)
        written.setdefault((marker, 0), found)
    options = pya.SaveLayoutOptions()
    options.format = "GDS2"
    options.write_context_info = False
    options.no_empty_cells = True
    options.gds2_max_vertex_count = 8000
    options.gds2_multi_xy_records = False
    options.select_cell(cellview.cell_index)
    options.deselect_all_layers()
    for there, here in written.items():
        options.add_layer(here, pya.LayerInfo(*there))
    layout.write(path, options)
    return number


def is_ours(path, name):
    """Whether a file is one of this name in a temporary folder of an earlier split."""
    folder = os.path.dirname(path)
    return (os.path.basename(path) == name and os.path.basename(folder).startswith(PREFIX)
            and os.path.dirname(folder) == tempfile.gettempdir())


def close_earlier(view, masks, markers):
    """Closes what an earlier split of the layer has shown."""
    folders = set()
    for i in reversed(range(view.num_rdbs())):
        if is_ours(view.rdb(i).filename(), markers):
            folders.add(os.path.dirname(view.rdb(i).filename()))
            view.remove_rdb(i)
    for i in reversed(range(view.cellviews())):
        if is_ours(view.cellview(i).filename(), masks):
            folders.add(os.path.dirname(view.cellview(i).filename()))
            view.erase_cellview(i)
    for folder in folders:
        shutil.rmtree(folder, ignore_errors=True)


def coloured(text, layer, numbers, place):
    """The layer properties of dpl.lyp for masks of a layer, by their numbers and the place of their layout in the panel."""
    text = re.sub("10([12])/0@2", lambda found: "%d/0@%d" % (numbers[int(found[1]) - 1], place), text)
    return text.replace("<name>mask", "<name>%s mask" % escape(layer))


def show_masks(view, path, layer, more, folder):
    """Shows the masks beside the layout, in their colours."""
    box, active = view.box(), view.active_cellview_index()
    index = view.load_layout(path, True)
    numbers = [int(option(more, name, default)) for name, default in (("--a", "101"), ("--b", "102"))]
    with open(os.path.join(HERE, "dpl.lyp"), encoding="utf-8") as file:
        text = coloured(file.read(), layer, numbers, index + 1)
    colours = os.path.join(folder, "dpl.lyp")
    with open(colours, "w", encoding="utf-8") as file:
        file.write(text)
    view.load_layer_props(colours, index, False)
    view.set_active_cellview_index(active)
    view.zoom_box(box)


def show_markers(view, cellview, database, layer):
    """Opens the marker browser where there is something to show; how many markers there are."""
    index = view.create_rdb("dpl %s" % layer)
    base = view.rdb(index)
    base.load(database)
    if base.num_items() > 0:
        view.show_rdb(index, cellview.index())
    return base.num_items()


def markers_module():
    spec = importlib.util.spec_from_file_location("dpl_markers", os.path.join(HERE, "markers.py"))
    module = importlib.util.module_from_spec(spec)
    spec.loader.exec_module(module)
    return module


# ---- the whole -----------------------------------------------------------------------------------


def split(view, cellview, tool, values, layers):
    """Splits a layer and shows what came of it; the text that is to be said."""
    folder = tempfile.mkdtemp(prefix=PREFIX)
    try:
        return split_in(folder, view, cellview, tool, values, layers)
    except Exception:
        shutil.rmtree(folder, ignore_errors=True)
        raise


def split_in(folder, view, cellview, tool, values, layers):
    """Splits a layer by files in a folder."""
    layer = layers.names[values.place]
    name = re.sub(r"[^\w.-]+", "-", layer)
    source, masks, certificate, database = (
        os.path.join(folder, n % name) for n in ("layer-%s.gds", "masks-%s.gds", "masks-%s.cert", "masks-%s.lyrdb"))
    number = save_layers(cellview, layers.indices[values.place], marker_layers(values.more), source)
    words = [tool, "split", "--layer", str(number[0]), "--datatype", str(number[1]), "--rule", str(values.rule),
             "--overlap", str(values.overlap)] + values.more + [source, masks, certificate]
    status, line, told = call(words, layer)
    said = "\n".join(filter(None, (line, told)))
    if status not in (0, 1, 2):
        raise Problem("%s\n\n%s" % (FAILURES.get(status, "dpl ended with status %d." % status), said))
    module = markers_module()
    try:
        module.build(source, certificate, database, line, top=option(values.more, "--top", None))
    except module.Problem as problem:
        raise Problem("%s\n\nThe markers couldn't be made: %s" % (said, problem)) from None
    close_earlier(view, os.path.basename(masks), os.path.basename(database))
    if status == 0:
        show_masks(view, masks, layer, values.more, folder)
    count = show_markers(view, cellview, database, layer)
    return "%s\n\n%s\n\nThe files are in %s; the command was:\n%s" % (
        said, explained(status, line, count, module), folder, " ".join(shlex.quote(word) for word in words))


def explained(status, line, count, module):
    """What a line means for the user."""
    if status == 1:
        return CONFLICT
    if status == 2:
        fault = line.split()[1]
        where = "" if fault in module.NOWHERE else "\n\nThe marker browser shows where it is."
        return "The layer is refused: %s.%s" % (module.ADVICE.get(fault, fault), where)
    stitches = "There is no stitch." if count == 0 else "The marker browser lists the stitches: %d." % count
    return "Mask A is blue, mask B orange; where the colours mix, there is a stitch. " + stitches


def run():
    """The menu entry."""
    try:
        view = pya.LayoutView.current()
        cellview = view and view.active_cellview()
        if not cellview or not cellview.is_valid():
            raise Problem("Open a layout first.")
        tool = program()
        if tool is None:
            return
        layers = layers_of(view, cellview)
        form = Form(cellview.layout().dbu, layers)
        form.exec_()
        if form.values is None:
            return
        text = split(view, cellview, tool, form.values, layers)
        pya.MessageBox.info(TITLE, text, pya.MessageBox.Ok)
    except (Problem, OSError) as problem:
        pya.MessageBox.warning(TITLE, str(problem), pya.MessageBox.Ok)
