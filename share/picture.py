# A picture of a chip, made by KLayout without a window, in the colours of share/klayout.lyp:
#
#   QT_QPA_PLATFORM=offscreen klayout -z -b -r share/picture.py -rd gds=CHIP.gds -rd png=CHIP.png
#
# More words, each after `-rd`:
#   width=1600         the width in pixels, from 500 to 20000; the height follows from what is shown
#   scale=600          in place of a width: nanometres a pixel, so that pictures of several chips have one scale
#   box=X0,Y0,X1,Y1    shows only this part, in micrometres
#   names=1            names the layers that are shown, at the right, in 430 pixels of the width
#   rows=1             shades the rows in the colours of their phases, and names row and phase at the left, in 150
#                      pixels
#   lines=1            draws the ways of the excitation along its two lines, with arrows, and at each bar how far it has
#                      run there, in micrometres, counted from the line's first bar
#   bar=1              puts a scale bar below the chip
#   legend=1           tells below the chip what its colours are
# Where a chip has names of inputs and outputs, by share/names.py, they are shown in place of the labels. Of names and
# labels that would stand on one another some are left out. Layers that klayout.lyp has not, as those of share/pdk.py,
# are shown in colours that KLayout chooses.
# What is wrong is one line on standard error, with status 1.
import math
import os
import sys
import tempfile
import pya

NAMES = 430  # the width of the names of layers, in pixels
ROWS = 150  # the width of the names of rows, in pixels
LABEL = 20  # pixels of a label at the upper edge, which KLayout writes above its point
LETTER, LINE = 8, 16  # the width of a letter and the height of a line, in pixels
ENTRY = 130  # the width of an entry of the legend, in pixels
LEAST, MOST = 500, 20000  # pixels of a picture
PHASES = ("#ffc4c4", "#ffe9a8", "#c4e2ff", "#c4ecc4")  # the colours of phases 0 to 3
WAYS = ((14, "#a00000", "way of the even line"), (15, "#0000a0", "way of the odd line"))
LINK, START = 1, 2  # the datatypes of the parts of a line that are no bars
SHADE = """ <properties>
  <frame-color>{0}</frame-color>
  <fill-color>{0}</fill-color>
  <dither-pattern>I0</dither-pattern>
  <valid>true</valid>
  <visible>true</visible>
  <transparent>false</transparent>
  <width>1</width>
  <name>{1}</name>
  <source>{2}@1</source>
 </properties>
"""
GROUPS = {10: "lower metal", 12: "upper metal", 14: "even line", 15: "odd line", 21: "input pin", 22: "output pin"}
HERE = os.path.dirname(os.path.abspath(__file__))
WORDS = globals()


class Stop(Exception):
    """Ends the script with one line."""


def word(name):
    """A word that has to be there."""
    if not WORDS.get(name):
        raise Stop(f"-rd {name}=FILE is missing")
    return WORDS[name]


def number(name, least, most, default=None):
    """A word that is a number, if it is there."""
    text = WORDS.get(name)
    if text is None:
        return default
    if not (text.isascii() and text.isdecimal()) or len(text) > 9 or not least <= int(text) <= most:
        raise Stop(f"{name}={text}: a number from {least} to {most}")
    return int(text)


def scale_of(area):
    """The width of a pixel in micrometres: as it is said, or so that all is as wide as is said."""
    scale = number("scale", 1, 1000000)
    if scale is not None:
        if "width" in WORDS:
            raise Stop("width and scale are said: one of them follows from the other")
        return scale / 1000
    beside = (NAMES if "names" in WORDS else 0) + (ROWS if "rows" in WORDS else 0)
    return area.width() / (number("width", LEAST, MOST, 1600) - beside)


def part_of(sheet):
    """The part that is shown, where a box says one."""
    text = WORDS.get("box")
    if text is None:
        return None
    try:
        x0, y0, x1, y1 = (float(number) for number in text.split(","))
        part = pya.DBox(x0, y0, x1, y1)
    except ValueError:
        raise Stop(f"box={text}: four numbers X0,Y0,X1,Y1 in micrometres") from None
    whole = sheet.cell.dbbox()
    if part.empty() or part.width() <= 0 or part.height() <= 0 or not part.overlaps(whole):
        raise Stop(f"box={text} shows nothing: the chip goes from {whole.left:g},{whole.bottom:g} to "
                   f"{whole.right:g},{whole.top:g}")
    return part


def shown_layers(view):
    """The entries of the layer list that have a shape or a label, the topmost first."""
    found = []
    each = view.begin_layers()
    while not each.at_end():
        entry = each.current()
        if entry.layer_index() >= 0:
            found.append(entry)
        each.next()
    return list(reversed(found))


def rows_of(sheet):
    """The lower and upper edges of the rows, in micrometres, the lowest row first: those of the frames."""
    layout, edges = sheet.layout(), set()
    for layer in layout.layer_indexes():
        if layout.get_info(layer).layer == 20:
            shapes = sheet.cell.begin_shapes_rec(layer)
            while not shapes.at_end():
                box = shapes.trans() * shapes.shape().bbox()
                edges.add((box.bottom * layout.dbu, box.top * layout.dbu))
                shapes.next()
    lowest = {}
    for bottom, top in edges:
        lowest[bottom] = max(top, lowest.get(bottom, top))
    return sorted(lowest.items())


def show_names(sheet):
    """Leaves the labels out where texts on layer 31 name the inputs and outputs."""
    layout = sheet.layout()
    names, labels = layout.find_layer(31, 0), layout.find_layer(30, 0)
    if names is None or labels is None or sheet.cell.dbbox_per_layer(names).empty():
        return
    for cell in layout.each_cell():
        cell.shapes(labels).clear()


def thin_out(sheet, pixel):
    """Leaves labels out that would stand on others, at the same height."""
    layout = sheet.layout()
    for index in filter(lambda index: layout.get_info(index).layer in (30, 31), layout.layer_indexes()):
        for cell in layout.each_cell():
            texts = [shape.text for shape in cell.shapes(index).each() if shape.is_text()]
            if len(texts) == cell.shapes(index).size():
                cell.shapes(index).clear()
                for text in apart(texts, pixel / layout.dbu):
                    cell.shapes(index).insert(text)


def apart(texts, pixel):
    """The texts that do not stand on others at the same height, from the left."""
    ends = {}
    for text in sorted(texts, key=lambda text: text.x):
        if text.x >= ends.get(text.y, text.x):
            ends[text.y] = text.x + (len(text.string) + 0.5) * LETTER * pixel
            yield text


def add_names(view, area, pixel):
    """Puts a sample of each layer and its name at the right of the area; gives the area with them."""
    sheet = view.active_cellview()
    layout, cell = sheet.layout(), sheet.cell
    labels = layout.layer(30, 0)
    texts = (labels, layout.layer(31, 0))
    entries = [entry for entry in shown_layers(view) if entry.layer_index() not in texts]
    step = area.height() / max(len(entries), 12)
    left = area.right + 30 * pixel
    for place, entry in enumerate(entries):
        top = area.top - place * step
        bottom = top - step * 0.7
        cell.shapes(entry.layer_index()).insert(pya.DBox(left, bottom, left + 40 * pixel, top))
        cell.shapes(labels).insert(pya.DText(entry.name, left + 50 * pixel, (top + bottom) / 2 - 4 * pixel))
    return pya.DBox(area.left, area.bottom, area.right + NAMES * pixel, area.top)


def load_colours(view, own):
    """Takes the layers and colours of klayout.lyp, with those of this script below them, and layers that it has not
    with colours of KLayout above them."""
    with open(os.path.join(HERE, "klayout.lyp"), encoding="utf-8") as file:
        text = file.read()
    shades = [(colour, f"phase {phase}", f"{own}/{phase}") for phase, colour in enumerate(PHASES)]
    shades = "".join(SHADE.format(*each) for each in (*shades, ("#000000", "", f"{own}/{len(PHASES)}")))
    ways = "".join(SHADE.format(colour, name, f"{own + 1}/{layer}") for layer, colour, name in WAYS)
    text = text.replace("</layer-properties>", ways + "</layer-properties>")
    with tempfile.NamedTemporaryFile("w", suffix=".lyp", encoding="utf-8") as file:
        file.write(text.replace("<layer-properties>\n", "<layer-properties>\n" + shades))
        file.flush()
        view.load_layer_props(file.name)
    view.add_missing_layers()
    each = view.begin_layers()
    while not each.at_end():
        entry = each.current()
        if not entry.name and entry.source_layer not in (own, own + 1):
            entry.name = f"layer {entry.source_layer}/{entry.source_datatype}"
        each.next()


def add_rows(sheet, own, area, rows, pixel):
    """Shades the rows by their phases and names them at the left of the area, in one line where they are low, and not
    all where names would stand on one another; gives the area with the names."""
    layout, cell = sheet.layout(), sheet.cell
    labels = layout.layer(30, 0)
    left, free = area.left - ROWS * pixel, -math.inf
    steps = [upper[0] - lower[0] for lower, upper in zip(rows, rows[1:])]
    low = min(steps, default=math.inf) < 2.2 * LINE * pixel
    for number, (bottom, top) in enumerate(rows):
        bottom, top = max(bottom, area.bottom), min(top, area.top)
        if bottom >= top:
            continue
        cell.shapes(layout.layer(own, number % 4)).insert(pya.DBox(left, bottom, area.right, top))
        middle, phase = (bottom + top) / 2, f"phase {number % 4}"
        if low and middle >= free:
            cell.shapes(labels).insert(pya.DText(f"row {number} {phase}", left + 4 * pixel, middle - 6 * pixel))
            free = middle + LINE * pixel
        elif not low:
            cell.shapes(labels).insert(pya.DText(f"row {number}", left + 10 * pixel, middle + 2 * pixel))
            cell.shapes(labels).insert(pya.DText(phase, left + 10 * pixel, middle - 14 * pixel))
    return pya.DBox(left, area.bottom, area.right, area.top)


def parts_of(sheet, layer):
    """The parts of an excitation line, each with its datatype, in micrometres."""
    layout, parts = sheet.layout(), []
    for index in layout.layer_indexes():
        if layout.get_info(index).layer == layer:
            shapes = sheet.cell.begin_shapes_rec(index)
            while not shapes.at_end():
                box = (shapes.trans() * shapes.shape().bbox()).to_dtype(layout.dbu)
                parts.append((layout.get_info(index).datatype, box))
                shapes.next()
    return parts


def in_order(parts):
    """The parts from the start on, as far as each has one contact that the line did not come from."""
    line, before = [part for part in parts if part[0] == START][:1], None
    while line and len(line) <= len(parts):
        onward = [part for part in parts if part not in (line[-1], before) and part[1].touches(line[-1][1])]
        if len(onward) != 1:
            break
        before = line[-1]
        line.append(onward[0])
    return line


def way_of(line):
    """The points that a line leads over, and for each bar where it is come to, which way, and after how far."""
    points, bars, gone = [line[0][1].center()], [], 0
    for (_, before), (datatype, box) in zip(line, line[1:]):
        if datatype == LINK:
            points.append(pya.DPoint(box.center().x, points[-1].y))
            gone += max(box.width(), box.height())
            continue
        side, other = box.left, box.right
        if not before.touches(pya.DBox(box.left, box.bottom, box.left, box.top)):
            side, other = other, side
        points += [pya.DPoint(points[-1].x, box.center().y), pya.DPoint(side, box.center().y),
                   pya.DPoint(other, box.center().y)]
        bars.append((points[-2], 1 if other > side else -1, gone))
        gone += box.width()
    return points, bars


def add_ways(sheet, own, pixel):
    """Draws how the excitation runs along both lines, and writes at each bar how far it has run there."""
    layout, cell = sheet.layout(), sheet.cell
    for layer, _, _ in WAYS:
        line = in_order(parts_of(sheet, layer))
        if len(line) < 2:
            continue
        shapes, (points, bars) = cell.shapes(layout.layer(own + 1, layer)), way_of(line)
        shapes.insert(pya.DPath(points, 2 * pixel))
        for point, onward, gone in bars:
            x, y, head = point.x + onward * 14 * pixel, point.y, 6 * pixel
            shapes.insert(pya.DPolygon([pya.DPoint(x, y), pya.DPoint(x - 2 * onward * head, y - head),
                                        pya.DPoint(x - 2 * onward * head, y + head)]))
            text = f"{gone:g}"
            left = x + (0.5 if onward > 0 else -0.5 - len(text)) * LETTER * pixel
            cell.shapes(layout.layer(30, 0)).insert(pya.DText(text, left, y + 2 * pixel))


def add_bar(sheet, own, area, pixel):
    """Puts a scale bar below the area, as long as a round number of micrometres; gives the area with it."""
    longest = 120 * pixel
    power = 10.0 ** math.floor(math.log10(longest))
    length = max(step * power for step in (1, 2, 5) if step * power <= longest)
    top = area.bottom - LINE * pixel
    layout, cell = sheet.layout(), sheet.cell
    cell.shapes(layout.layer(own, len(PHASES))).insert(pya.DBox(area.left, top - 5 * pixel, area.left + length, top))
    text = pya.DText(f"{length:g} um", area.left + length + LETTER * pixel, top - 9 * pixel)
    cell.shapes(layout.layer(30, 0)).insert(text)
    return pya.DBox(area.left, top - 10 * pixel, area.right, area.top)


def legend_of(view, own):
    """The entries of the legend: a layer each, and what it is."""
    found = {}
    for entry in reversed(shown_layers(view)):
        if entry.source_layer not in (30, 31) and (entry.source_layer, entry.source_datatype) != (own, len(PHASES)):
            found.setdefault(GROUPS.get(entry.source_layer, entry.name), entry.layer_index())
    return list(found.items())


def add_legend(view, own, area, pixel):
    """Tells below the area what is shown, in as many columns as there is room for; gives the area with that."""
    sheet, entries = view.active_cellview(), legend_of(view, own)
    columns = max(1, int(area.width() / pixel / ENTRY))
    lines = -(-len(entries) // columns)
    labels, height = sheet.layout().layer(30, 0), 1.25 * LINE * pixel
    for place, (name, layer) in enumerate(entries):
        left = area.left + place // lines * ENTRY * pixel
        top = area.bottom - 0.8 * LINE * pixel - place % lines * height
        sheet.cell.shapes(layer).insert(pya.DBox(left, top - 12 * pixel, left + 16 * pixel, top))
        sheet.cell.shapes(labels).insert(pya.DText(name, left + 20 * pixel, top - 11 * pixel))
    return pya.DBox(area.left, area.bottom - 0.8 * LINE * pixel - lines * height, area.right, area.top)


def framed(whole, pixel):
    """What is shown with a margin, and the width and height of the picture in pixels."""
    if "scale" not in WORDS:
        whole = whole.enlarged(whole.width() * 0.02, max(whole.height() * 0.02, LABEL * pixel))
        width = number("width", LEAST, MOST, 1600)
        return whole, width, max(1, round(width * whole.height() / whole.width()))
    whole = whole.enlarged(10 * pixel, LABEL * pixel)
    width, height = math.ceil(whole.width() / pixel), math.ceil(whole.height() / pixel)
    return pya.DBox(whole.left, whole.bottom, whole.left + width * pixel, whole.bottom + height * pixel), width, height


def opened(view, gds):
    """Opens a chip."""
    for key, value in (("grid-visible", "false"), ("background-color", "#ffffff"), ("text-visible", "true")):
        view.set_config(key, value)
    if not os.path.isfile(gds):
        raise Stop(f"{gds}: no such file")
    try:
        view.load_layout(gds, True)
    except RuntimeError as error:
        raise Stop(f"{gds}: {str(error).splitlines()[0]}") from None
    return view.active_cellview()


def laid_out(view):
    """Puts all that is to be shown into the chip that is open; gives the area with it, and the width of a pixel."""
    sheet = view.active_cellview()
    rows, part = rows_of(sheet), part_of(sheet)
    if part is not None:
        clipped = sheet.layout().clip(sheet.cell.cell_index(), part.to_itype(sheet.layout().dbu))
        sheet.cell = sheet.layout().cell(clipped)
    show_names(sheet)
    area = whole = sheet.cell.dbbox()
    own = 1 + max([999, *(sheet.layout().get_info(index).layer for index in sheet.layout().layer_indexes())])
    pixel = scale_of(area)
    thin_out(sheet, pixel)
    if "rows" in WORDS:
        whole = add_rows(sheet, own, area, rows, pixel)
    if "lines" in WORDS:
        add_ways(sheet, own, pixel)
    load_colours(view, own)
    view.max_hier()
    if not shown_layers(view):
        raise Stop(f"{WORDS['gds']} has no shape" + (" in the box" if part is not None else ""))
    if "names" in WORDS:
        whole += add_names(view, area, pixel)
    if "legend" in WORDS:
        whole = add_legend(view, own, whole, pixel)
    if "bar" in WORDS:
        whole = add_bar(sheet, own, whole, pixel)
    return whole, pixel


def main():
    gds, png = word("gds"), word("png")
    view = pya.LayoutView()
    opened(view, gds)
    whole, width, height = framed(*laid_out(view))
    if width > MOST or height > MOST:
        raise Stop(f"the picture would be {width} by {height} pixels, and {MOST} is the most: a smaller one, or a box")
    view.zoom_box(whole)
    try:
        view.save_image(png, width, height)
    except RuntimeError as error:
        raise Stop(f"{png}: {str(error).splitlines()[0]}") from None
    if not os.path.isfile(png):
        raise Stop(f"{png}: could not be written")


try:
    main()
except Stop as stop:
    line = "".join(char if char.isprintable() else f"\\x{ord(char):02x}" for char in str(stop))
    print(f"picture: {line}", file=sys.stderr)
    sys.stderr.flush()
    os._exit(1)  # of sys.exit KLayout makes status 0
