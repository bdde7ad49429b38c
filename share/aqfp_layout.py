"""Chips as their streams draw them: the flat shapes of a layout, its cells and pins, and its wires, whose shapes are
joined here. Streams may be strict or wide: references, turns, arrays, paths and polygons are followed as `aqfp verify`
follows them. What is read here has been taken by the program before, so few faults are told. Lengths are in nanometres.
"""
import bisect
import re
import struct
import sys
from array import array
from collections import defaultdict
from itertools import chain, compress

from aqfp_files import (AREF, BGNSTR, BOUNDARY, ELEMENTS, ENDEL, LABELS, LAYER, PATH, READ_LAYERS, SNAME, SREF, STRING,
                        STRNAME, Stop, TEXT, load_stream, records, text_of)

M1, VIA, M2, EVEN_LINE, ODD_LINE, FRAME, INPUT_PIN, OUTPUT_PIN = 10, 11, 12, 14, 15, 20, 21, 22
KIND_NAMES = {1: "buffer", 2: "inverter", 3: "zero", 4: "one", 5: "split2", 6: "split3", 7: "majority"}

# The rows of a definition of each kind, in a netlist.
ROWS_OF = {1: ["1 1"], 2: ["0 1"], 3: [], 4: ["1"], 5: ["1 1"], 6: ["1 1"], 7: ["11- 1", "1-1 1", "-11 1"]}

# More record types of the GDSII Stream Format.
DATATYPE, WIDTH, XY, COLROW, STRANS, ANGLE, PATHTYPE = 0x0E, 0x0F, 0x10, 0x13, 0x1A, 0x1C, 0x21
QUARTERS = {0: 0, 0x425A000000000000: 1, 0x42B4000000000000: 2, 0x4310E00000000000: 3}

# Boundaries of five points without optional records, one after another, and a reference without turn: nearly all of a
# large stream are such, and are read at once.
PLAIN_BOXES = re.compile(rb"(?s)(?:\x00\x04\x08\x00\x00\x06\x0d\x02..\x00\x06\x0e\x02.."
                         rb"\x00\x2c\x10\x03.{40}\x00\x04\x11\x00)+")
PLAIN_CALL = re.compile(rb"(?s)\x00\x04\x0a\x00\x00(.)\x12\x06(.{2,32}?)\x00\x0c\x10\x03(.{8})\x00\x04\x11\x00")


class Rectangles:
    """The rectangles of a layer with their datatypes, one array for each edge."""

    def __init__(self):
        self.datatype, self.x0, self.y0, self.x1, self.y1 = array("H"), array("q"), array("q"), array("q"), array("q")

    def add(self, datatype, x0, y0, x1, y1):
        self.datatype.append(datatype)
        self.x0.append(x0)
        self.y0.append(y0)
        self.x1.append(x1)
        self.y1.append(y1)

    def extend(self, datatypes, x0, y0, x1, y1):
        self.datatype.extend(datatypes)
        self.x0.extend(x0)
        self.y0.extend(y0)
        self.x1.extend(x1)
        self.y1.extend(y1)

    def __len__(self):
        return len(self.x0)

    def __iter__(self):
        return zip(self.datatype, self.x0, self.y0, self.x1, self.y1)

    def box(self, place):
        return self.x0[place], self.y0[place], self.x1[place], self.y1[place]


class Drawing:
    """Rectangles by layer, and labels as (x, y, text): of one structure, or of a whole chip. References are points by
    the name of the structure and its turn."""

    def __init__(self):
        self.layers = {layer: Rectangles() for layer in READ_LAYERS}
        self.labels = []
        self.references = defaultdict(list)


# From records to structures

def boxes_of_ring(points):
    """The rectangles of a polygon: slabs between the heights of its points, those of equal sides joined upward."""
    walls = [(x, min(y, after), max(y, after)) for (x, y), (_, after) in zip(points, points[1:]) if y != after]
    levels = sorted({y for _, y in points})
    boxes, open_below = [], {}
    for y0, y1 in zip(levels, levels[1:]):
        crossed = defaultdict(int)
        for x, low, high in walls:
            if low <= y0 < high:
                crossed[x] += 1
        edges = sorted(x for x, times in crossed.items() if times % 2)
        above = {}
        for sides in zip(edges[::2], edges[1::2]):
            above[sides] = open_below.pop(sides, y0)
        boxes += [(x0, low, x1, y0) for (x0, x1), low in open_below.items()]
        open_below = above
    return boxes + [(x0, low, x1, levels[-1]) for (x0, x1), low in open_below.items()]


def turns(points):
    """A path's points without those inside a straight run."""
    kept = points[:1]
    for place in range(1, len(points)):
        (x, y), (x1, y1) = points[place - 1], points[place]
        if (x, y) == (x1, y1):
            continue
        if len(kept) > 1 and (kept[-2][0] == x == x1 or kept[-2][1] == y == y1):
            kept[-1] = (x1, y1)
        else:
            kept.append((x1, y1))
    return kept


def boxes_of_path(points, half, end):
    """The rectangles of a path: one for each step, corners in both, and `end` beyond its two ends."""
    points, boxes = turns(points), []
    for place, ((x0, y0), (x1, y1)) in enumerate(zip(points, points[1:])):
        before = end if place == 0 else half
        behind = end if place == len(points) - 2 else half
        if (x0, y0) > (x1, y1):
            x0, y0, x1, y1, before, behind = x1, y1, x0, y0, behind, before
        along_x, along_y = (0, 1) if x0 == x1 else (1, 0)
        boxes.append((x0 - (before if along_x else half), y0 - (before if along_y else half),
                      x1 + (behind if along_x else half), y1 + (behind if along_y else half)))
    return boxes


def points_of(data):
    numbers = struct.unpack(f">{len(data) // 8 * 2}i", data[:len(data) // 8 * 8])
    return list(zip(numbers[::2], numbers[1::2]))


def number_of(data):
    return int.from_bytes(data or b"", "big")


def steps_of(parts, points):
    """The points where a reference places its structure, before any that places itself."""
    (x, y), *ends = points
    if COLROW not in parts or len(ends) < 2:
        return [(x, y)]
    columns, rows = struct.unpack(">2H", parts[COLROW])
    (right_x, right_y), (up_x, up_y) = ends[:2]
    column, row = ((right_x - x) // columns, (right_y - y) // columns), ((up_x - x) // rows, (up_y - y) // rows)
    return [(x + across * column[0] + up * row[0], y + across * column[1] + up * row[1])
            for up in range(rows) for across in range(columns)]


def add_element(drawing, kind, parts):
    """Takes in an element by its records; a structure that none has drawn yet is referenced by its name."""
    points = points_of(parts.get(XY, b""))
    if kind in (SREF, AREF):
        turn = (number_of(parts.get(STRANS)) == 0x8000, QUARTERS.get(number_of(parts.get(ANGLE)), 0))
        drawing.references[text_of(parts[SNAME]), turn] += steps_of(parts, points)
        return
    layer = number_of(parts[LAYER])
    if kind == TEXT and layer == LABELS:
        drawing.labels.append((*points[0], text_of(parts[STRING])))
    if layer not in drawing.layers or kind not in (BOUNDARY, PATH):
        return
    if kind == BOUNDARY:
        boxes = boxes_of_ring(points)
    else:
        half = abs(struct.unpack(">i", parts[WIDTH])[0]) // 2
        boxes = boxes_of_path(points, half, half if number_of(parts.get(PATHTYPE)) == 2 else 0)
    for box in boxes:
        drawing.layers[layer].add(number_of(parts[DATATYPE]), *box)


def add_boxes(drawing, data):
    """Takes in plain boundaries, all at once where they are rectangles that begin along one axis."""
    words = array("i", data)
    if sys.byteorder == "little":
        words.byteswap()
    xa, ya, xb, yb, xc, yc, xd, yd = (words[5 + place::16] for place in range(8))
    if (xa, ya, xb, yc) != (xd, yb, xc, yd) and (xa, ya, xc, yb) != (xb, yd, xd, yc):
        for place in range(0, len(data), 64):
            parts = {LAYER: data[place + 8:place + 10], DATATYPE: data[place + 14:place + 16],
                     XY: data[place + 20:place + 60]}
            add_element(drawing, BOUNDARY, parts)
        return
    edges = [array("i", map(choose, one, other)) for choose in (min, max) for one, other in ((xa, xc), (ya, yc))]
    layers, datatypes = [word >> 16 & 0xFFFF for word in words[2::16]], [word & 0xFFFF for word in words[3::16]]
    for layer in set(layers) & set(drawing.layers):
        chosen = [each == layer for each in layers]
        drawing.layers[layer].extend(*(compress(part, chosen) for part in (datatypes, *edges)))


def add_plain(drawing, kind, data, start):
    """Takes in what begins at a place, where it is plain; says where that ends, or where it began."""
    if drawing is None:
        return start
    if kind == BOUNDARY:
        found = PLAIN_BOXES.match(data, start)
        if found:
            add_boxes(drawing, found[0])
        return found.end() if found else start
    found = PLAIN_CALL.match(data, start) if kind == SREF else None
    if not found or found[1][0] != len(found[2]) + 4:
        return start
    drawing.references[text_of(found[2]), (False, 0)].append(struct.unpack(">2i", found[3]))
    return found.end()


def read_structures(path):
    """The structures of a stream by their names."""
    data = load_stream(path)
    structures, drawing, kind, parts, place = {}, None, None, {}, 0
    while place is not None:
        begun, place = place, None
        for record, start, end in records(data, path, begun):
            if record == BGNSTR:
                drawing = Drawing()
            elif record == STRNAME:
                structures[text_of(data[start + 4:end])] = drawing
            elif record in ELEMENTS:
                past = add_plain(drawing, record, data, start)
                if past > start:
                    place = past
                    break
                kind, parts = record, {}
            elif record == ENDEL:
                add_element(drawing, kind, parts)
            else:
                parts[record] = data[start + 4:end]
    return structures


# From structures to flat shapes

def turned(turn, x0, y0, x1, y1):
    """A rectangle that is mirrored at the x axis, if so, and then turned by quarters counterclockwise."""
    mirror, quarters = turn
    if mirror:
        y0, y1 = -y1, -y0
    for _ in range(quarters):
        x0, y0, x1, y1 = -y1, x0, -y0, x1
    return x0, y0, x1, y1


def place_all(drawing, held, turn, points):
    """Adds what a structure holds at each of these points."""
    right, up = [x for x, _ in points], [y for _, y in points]
    for layer, shapes in held.layers.items():
        for datatype, *box in shapes:
            x0, y0, x1, y1 = turned(turn, *box)
            drawing.layers[layer].extend([datatype] * len(points), [x0 + x for x in right], [y0 + y for y in up],
                                         [x1 + x for x in right], [y1 + y for y in up])
    for label_x, label_y, text in held.labels:
        label_x, label_y, _, _ = turned(turn, label_x, label_y, label_x, label_y)
        drawing.labels += [(label_x + x, label_y + y, text) for x, y in points]


def flatten(structures, name, path, depth=0):
    """Puts into a structure what it references; that is done once for each."""
    drawing = structures.get(name)
    if drawing is None or depth > 64:
        raise Stop(f"{path}: a reference to {name}, which is not there or in a loop")
    references, drawing.references = drawing.references, {}
    for (other, turn), points in references.items():
        place_all(drawing, flatten(structures, other, path, depth + 1), turn, points)
    return drawing


def read_drawing(path):
    """The flat shapes and labels of a stream on the layers that `verify` reads."""
    structures = read_structures(path)
    called = {name for drawing in structures.values() for name, _ in drawing.references}
    tops = [name for name in structures if name not in called]
    if len(tops) != 1:
        raise Stop(f"{path}: {len(tops)} structures that none references")
    return flatten(structures, tops[0], path)


# Nets

def strips_of(edges, members):
    """Rectangles by strips along the way that most of them go: the axis across the strips, and the numbers in each."""
    sums = [sum(map(edge.__getitem__, members)) for edge in edges]
    across = 1 if sums[2] - sums[0] > sums[3] - sums[1] else 0
    low, high = edges[across], edges[across + 2]
    sides = sorted(high[each] - low[each] for each in members)
    width = max(1, 2 * sides[len(sides) // 2]) if sides else 1
    strips = defaultdict(list)
    for each in members:
        first, last = low[each] // width, high[each] // width
        strips[first].append(each)
        for number in range(first + 1, last + 1):
            strips[number].append(each)
    return across, strips.values()


def touching(edges, members, vias):
    """Pairs of rectangles that share a point, but for two vias: each strip is gone along from one end to the other."""
    across, strips = strips_of(edges, members)
    sides = [edges[1 - across], edges[3 - across], edges[across], edges[across + 2]]
    first_via, past_vias = vias.start, vias.stop
    for strip in strips:
        reached = []
        for shape in sorted(zip(*(map(side.__getitem__, strip) for side in sides), strip)):
            begin, _, left, right, each = shape
            reached = [other for other in reached if other[1] >= begin]
            is_via = first_via <= each < past_vias
            for _, _, other_left, other_right, other in reached:
                if other_left <= right and left <= other_right and not (is_via and first_via <= other < past_vias):
                    yield each, other
            reached.append(shape)


def least_joined(count, pairs):
    """The least number that is joined to each number by a chain of pairs."""
    parent = list(range(count))

    def find(one):
        while parent[one] != one:
            parent[one] = one = parent[parent[one]]
        return one

    for one, other in pairs:
        one, other = find(one), find(other)
        if one < other:
            parent[other] = one
        elif other < one:
            parent[one] = other
    for each in range(count):
        parent[each] = parent[parent[each]]
    return parent


class Conductors:
    """All shapes that conduct, numbered layer by layer. `net` has the number of each shape's net, the least in it."""

    ORDER = (M1, VIA, M2, INPUT_PIN, OUTPUT_PIN)

    def __init__(self, drawing):
        self.edges, self.first = tuple(array("q") for _ in range(4)), {}
        for layer in self.ORDER:
            self.first[layer] = len(self.edges[0])
            shapes = drawing.layers[layer]
            for edge, more in zip(self.edges, (shapes.x0, shapes.y0, shapes.x1, shapes.y1)):
                edge.extend(more)
        vias = self.numbers(VIA)
        lower = [*self.numbers(M1), *vias, *self.numbers(INPUT_PIN), *self.numbers(OUTPUT_PIN)]
        upper = [*vias, *self.numbers(M2)]
        pairs = chain(touching(self.edges, lower, vias), touching(self.edges, upper, vias))
        self.net = least_joined(len(self.edges[0]), pairs)

    def box(self, each):
        """The rectangle of a shape."""
        x0, y0, x1, y1 = self.edges
        return x0[each], y0[each], x1[each], y1[each]

    def numbers(self, layer):
        """The numbers of a layer's shapes."""
        place = self.ORDER.index(layer) + 1
        end = self.first[self.ORDER[place]] if place < len(self.ORDER) else len(self.edges[0])
        return range(self.first[layer], end)

    def lengths(self):
        """The length of each net: the longer sides of its shapes of M1 and M2."""
        lengths, (x0, y0, x1, y1) = defaultdict(int), self.edges
        for each in chain(self.numbers(M1), self.numbers(M2)):
            lengths[self.net[each]] += max(x1[each] - x0[each], y1[each] - y0[each])
        return lengths


# Cells and wires

class Cell:
    """A cell: its kind, its row, its frame, and the numbers of its pins' shapes by the numbers of the pins."""
    __slots__ = ("kind", "row", "box", "inputs", "outputs")

    def __init__(self, kind, row, box):
        self.kind, self.row, self.box, self.inputs, self.outputs = kind, row, box, {}, {}


class Wire:
    """A wire from an output pin of a cell to an input pin of another one, with the number of its net."""
    __slots__ = ("source", "source_pin", "target", "target_pin", "length", "net")

    def __init__(self, source, target, length, net):
        self.source, self.source_pin = source
        self.target, self.target_pin = target
        self.length, self.net = length, net


class Chip:
    """The cells of a chip as they are numbered by `aqfp netlist`, its labelled pins and its wires."""

    def __init__(self, path):
        self.path, self.drawing = path, read_drawing(path)
        self.conductors = Conductors(self.drawing)
        frames = sorted((box[1], box[0], place, box, kind) for place, (kind, *box) in
                        enumerate(self.drawing.layers[FRAME]))
        self.edges = sorted({y for y, *_ in frames})
        number = {edge: row for row, edge in enumerate(self.edges)}
        self.cells = [Cell(kind, number[y], tuple(box)) for y, _, _, box, kind in frames]
        self.rows = [[] for _ in self.edges]
        for place, cell in enumerate(self.cells):
            self.rows[cell.row].append(place)
        self.lefts = [[self.cells[place].box[0] for place in row] for row in self.rows]
        self.pins = {}
        self.find_pins()
        self.inputs, self.outputs = {}, {}
        self.find_labels()
        self.wires = list(self.find_wires())

    def cell_at(self, x, y):
        """The cell in whose frame a point lies, by its row and the left edges there; or none."""
        row = bisect.bisect_right(self.edges, y) - 1
        place = bisect.bisect_right(self.lefts[row], x) - 1 if row >= 0 else -1
        return self.rows[row][place] if place >= 0 else None

    def find_pins(self):
        """Gives each pin to the cell in whose frame it lies."""
        for layer in (INPUT_PIN, OUTPUT_PIN):
            for each, pin in zip(self.conductors.numbers(layer), self.drawing.layers[layer].datatype):
                x0, y0, x1, y1 = self.conductors.box(each)
                place = self.cell_at(x0, y0)
                if place is None or not (self.cells[place].box[2] >= x1 and self.cells[place].box[3] >= y1):
                    raise Stop(f"{self.path}: the pin at {x0} {y0} lies in no frame")
                cell = self.cells[place]
                (cell.inputs if layer == INPUT_PIN else cell.outputs)[pin] = each
                self.pins[each] = (place, pin)

    def find_labels(self):
        """The labelled pins: those that hold a label's point, inputs in the lowest row and outputs in the last."""
        ends = (("I", self.rows[0], "inputs", self.inputs), ("O", self.rows[-1], "outputs", self.outputs))
        for letter, row, side, found in ends:
            pins = sorted((self.conductors.box(each), each) for place in row
                          for each in getattr(self.cells[place], side).values())
            for x, y, text in self.drawing.labels:
                if not text.startswith(letter) or not text[1:].isdecimal():
                    continue
                last = bisect.bisect_right(pins, ((x + 1,),))
                held = (each for box, each in reversed(pins[:last]) if box[2] >= x and box[1] <= y <= box[3])
                each = next(held, None)
                if each is None:
                    raise Stop(f"{self.path}: label {text} marks no pin")
                found[int(text[1:])] = each

    def find_wires(self):
        """The wires by rising cell and pin that they lead to."""
        net_of, lengths = self.conductors.net, self.conductors.lengths()
        sources = {net_of[each]: each for each in self.conductors.numbers(OUTPUT_PIN)}
        labelled = set(self.inputs.values())
        for cell in self.cells:
            for _, each in sorted(cell.inputs.items()):
                if each in labelled:
                    continue
                net = net_of[each]
                if net not in sources:
                    raise Stop(f"{self.path}: the input pin at {self.conductors.box(each)[:2]} has no source")
                yield Wire(self.pins[sources[net]], self.pins[each], lengths.get(net, 0), net)

    def feeds(self):
        """What each cell takes, pin by pin: inputs as `I..` and cells as `n..`, as in the netlist."""
        takes = [{} for _ in self.cells]
        for number, each in self.inputs.items():
            place, pin = self.pins[each]
            takes[place][pin] = f"I{number}"
        for wire in self.wires:
            takes[wire.target][wire.target_pin] = f"n{wire.source}"
        return [[taken[pin] for pin in sorted(taken)] for taken in takes]

    def netlist(self):
        """The lines of the chip's circuit, as `aqfp netlist` writes them."""
        inputs, outputs = (" ".join(f"{letter}{number}" for number in sorted(ends))
                           for letter, ends in (("I", self.inputs), ("O", self.outputs)))
        yield from (".model aqfp", f".inputs {inputs}".rstrip(), f".outputs {outputs}")
        for place, (cell, takes) in enumerate(zip(self.cells, self.feeds())):
            yield " ".join([".names", *takes, f"n{place}"])
            yield from ROWS_OF[cell.kind]
        for number, each in sorted(self.outputs.items()):
            yield f".names n{self.pins[each][0]} O{number}"
            yield "1 1"
        yield ".end"

    def extent(self):
        """The least rectangle around all shapes."""
        filled = [shapes for shapes in self.drawing.layers.values() if len(shapes)]
        return (min(min(shapes.x0) for shapes in filled), min(min(shapes.y0) for shapes in filled),
                max(max(shapes.x1) for shapes in filled), max(max(shapes.y1) for shapes in filled))
