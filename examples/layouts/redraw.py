# Draws a chip that `build` stored anew, with what a designer uses in KLayout, as the same circuit:
#
#   QT_QPA_PLATFORM=offscreen klayout -z -b -r examples/layouts/redraw.py -rd gds=CHIP.gds -rd out=REDRAWN.gds
#
# - Metal is drawn as paths: a rise with flush ends (PATHTYPE 0), a fall and a run with ends half a width further (2).
# - A wire whose run has no other M1 near it needs no M2 and no vias: it becomes one figure of M1 with two corners, in
#   turn a path and a polygon. With `-rd bridges=0` these wires stay, and each layer holds what it held.
# - Equal cells at equal steps in a row are an array, and equal arrays at equal steps of height are one of several rows.
# - Each kind of cell is stored turned or mirrored in a way of its own, and its references turn it back.
# - `TURNED` places the old top with a quarter turn, and the new top `CHIP` turns it back.
import pya

SPACE = 1000  # the least space between shapes of M1 in library A
M1, VIA, M2 = 10, 11, 12
TURNS = [pya.Trans.M45, pya.Trans.R90, pya.Trans.M0, pya.Trans.R180, pya.Trans.M135, pya.Trans.R270, pya.Trans.M90]


def progressions(values):
    """Cuts sorted numbers into pieces of equal steps, from left to right: the first number, step and count of each."""
    pieces = []
    for value in values:
        first, step, count = pieces[-1] if pieces else (value, 0, 0)
        if count == 1 or (count > 1 and value == first + step * count):
            pieces[-1] = (first, value - first if count == 1 else step, count + 1)
        else:
            pieces.append((value, 0, 1))
    return pieces


def grids(points):
    """Points as grids: the first point, step and count along a row, and step and count of the rows."""
    rows, heights = {}, {}
    for point in points:
        rows.setdefault(point.y, []).append(point.x)
    for y, columns in rows.items():
        for piece in progressions(sorted(columns)):
            heights.setdefault(piece, []).append(y)
    for (x, across, columns), lower_edges in heights.items():
        for y, up, count in progressions(sorted(lower_edges)):
            yield pya.Vector(x, y), pya.Vector(across, 0), pya.Vector(0, up), columns, count


def copy_shapes(source, target, turn, without=()):
    for index in source.layout().layer_indexes():
        layer = source.layout().get_info(index)
        if layer.layer not in without:
            for shape in source.shapes(index).each():
                target.shapes(target.layout().layer(layer)).insert(shape, turn)


def place_cells(old_top, new_top):
    """Stores each kind of cell turned, and places it by references and arrays that turn it back."""
    places = {}
    for reference in old_top.each_inst():
        places.setdefault(reference.cell.name, []).append(reference.trans.disp)
    for name, turn in zip(sorted(places), TURNS):
        kind = new_top.layout().create_cell(name)
        copy_shapes(old_top.layout().cell(name), kind, pya.Trans(turn, 0, 0))
        for at, across, up, columns, rows in grids(places[name]):
            back = pya.Trans(at) * pya.Trans(turn, 0, 0).inverted()
            grid = (across, up, columns, rows) if columns * rows > 1 else ()
            new_top.insert(pya.CellInstArray(kind.cell_index(), back, *grid))


def boxes_in(cell, layer, area):
    """The boxes of a layer, in the cell itself, that overlap an area."""
    return [shape.box for shape in cell.shapes(cell.layout().layer(layer, 0)).each_overlapping(area)]


def straight(box, width, end):
    """A box as a path of one step along its longer side, whose ends go further by `end`."""
    upright = box.height() > box.width()
    inner = box.enlarged(-width // 2, -end) if upright else box.enlarged(-end, -width // 2)
    return pya.Path([inner.p1, inner.p2], width, end, end)


def bridge(rise, fall, run):
    """A path of M1 over all that rise, run and fall cover."""
    left, right, middle = rise.center().x, fall.center().x, run.center().y
    corners = [(left, rise.bottom), (left, middle), (right, middle), (right, fall.top)]
    return pya.Path([pya.Point(x, y) for x, y in corners], run.height())


def draw_wires(old_top, new_top, may_bridge):
    """Draws the wires, each of which is a run of M2 with a via at each end, to a rise and to a fall of M1."""
    m1, via, m2 = (new_top.shapes(new_top.layout().layer(layer, 0)) for layer in (M1, VIA, M2))
    bridges = 0
    for run in boxes_in(old_top, M2, old_top.bbox()):
        width, ends = run.height(), boxes_in(old_top, VIA, run)
        rise, fall = sorted((box for end in ends for box in boxes_in(old_top, M1, end)), key=lambda box: box.bottom)
        near = boxes_in(old_top, M1, run.enlarged(SPACE, SPACE))
        if may_bridge and all(box in (rise, fall) for box in near):
            path = bridge(rise, fall, run)
            m1.insert(path if bridges % 2 == 0 else path.polygon())
            bridges += 1
            continue
        m1.insert(straight(rise, width, 0))
        m1.insert(straight(fall, width, width // 2))
        m2.insert(straight(run, width, width // 2))
        for end in ends:
            via.insert(end)


old, new = pya.Layout(), pya.Layout()
old.read(globals()["gds"])
new.dbu = old.dbu
chip, turned, top = (new.create_cell(name) for name in ("CHIP", "TURNED", "TOP"))
copy_shapes(old.top_cell(), top, pya.Trans(), without=(M1, VIA, M2))
draw_wires(old.top_cell(), top, globals().get("bridges") != "0")
place_cells(old.top_cell(), top)
quarter = pya.Trans(pya.Trans.R90, 7000, 3000)
turned.insert(pya.CellInstArray(top.cell_index(), quarter))
chip.insert(pya.CellInstArray(turned.cell_index(), quarter.inverted()))
options = pya.SaveLayoutOptions()
options.format, options.gds2_write_timestamps, options.write_context_info = "GDS2", False, False
new.write(globals()["out"], options)
