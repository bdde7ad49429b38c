"""The cells of a layout: the frames of a stream that `aqfp` reads, through all its references, in rows."""
import bisect
import struct
from dataclasses import dataclass

from aqfp_files import AREF, BOUNDARY, PATH, SNAME, SREF, STRNAME, field, layer_of, load_stream, pieces, text_of
from aqfp_markers import FRAMES, micrometres

DATATYPE, WIDTH, XY, COLROW, STRANS, ANGLE, PATHTYPE = 0x0E, 0x0F, 0x10, 0x13, 0x1A, 0x1C, 0x21
FRAME_LAYER = 20
# What x and y become in a reference that is turned by so many quarters.
TURNS = ((1, 0, 0, 1), (0, -1, 1, 0), (-1, 0, 0, -1), (0, 1, -1, 0))


@dataclass(frozen=True)
class Cell:
    """A frame: its rectangle in nanometres, the number of its kind, its row, and its number in the order of rows."""
    box: tuple
    kind: int
    row: int
    number: int

    def told(self, named):
        """The cell in words; its name is that of the netlist that `aqfp netlist` writes, where there is a circuit."""
        kind = FRAMES.get(self.kind, f"cell of kind {self.kind}")
        name = f" n{self.number}" if named else ""
        x, y = map(micrometres, self.box[:2])
        return f"the {kind}{name} of row number {self.row}, lower left at {x},{y} um"


def points(element, path):
    """The points of an element."""
    data = field(element, XY, path)
    return list(struct.iter_unpack(">2i", data[:len(data) // 8 * 8]))


def optional(element, wanted):
    """The data of an element's record of one type, or nothing where it has none."""
    place = 0
    while place + 4 <= len(element):
        length, kind = struct.unpack_from(">HB", element, place)
        if kind == wanted:
            return element[place + 4:place + length]
        place += length
    return b""


def frame_of(kind, element, path):
    """The rectangle around a figure, and its datatype."""
    xs, ys = zip(*points(element, path))
    right = up = 0
    if kind == PATH:
        half = abs(struct.unpack(">i", field(element, WIDTH, path)[:4])[0]) // 2
        flush = optional(element, PATHTYPE)[-1:] != b"\2"
        right = 0 if flush and len(set(ys)) == 1 else half
        up = 0 if flush and len(set(xs)) == 1 else half
    box = min(xs) - right, min(ys) - up, max(xs) + right, max(ys) + up
    return box, struct.unpack(">H", field(element, DATATYPE, path)[:2])[0]


def quarters(element):
    """By how many quarters a reference is turned: its angle is a real of 0, 90, 180 or 270."""
    data = optional(element, ANGLE)
    if len(data) != 8 or not any(data[1:]):
        return 0
    angle = int.from_bytes(data[1:], "big") / 2 ** 56 * 16.0 ** ((data[0] & 127) - 64)
    return round(angle / 90) * (-1 if data[0] & 128 else 1) % 4


def places_of(kind, element, path):
    """Where a reference or an array puts what it names."""
    first, *ends = points(element, path)
    if kind == SREF or len(ends) < 2:
        return [first]
    columns, rows = struct.unpack(">2H", field(element, COLROW, path)[:4])
    (x, y), (column, row) = first, ends[:2]
    return [(x + (column[0] - x) * i // columns + (row[0] - x) * j // rows,
             y + (column[1] - y) * i // columns + (row[1] - y) * j // rows)
            for j in range(rows) for i in range(columns)]


def moved(box, mirrored, turn, place):
    """A rectangle as a reference puts it: mirrored at the x axis, turned, and moved."""
    a, b, c, d = TURNS[turn]
    corners = [(x, -y if mirrored else y) for x, y in (box[:2], box[2:])]
    xs = [a * x + b * y + place[0] for x, y in corners]
    ys = [c * x + d * y + place[1] for x, y in corners]
    return min(xs), min(ys), max(xs), max(ys)


class Layout:
    """The frames of a stream that keeps what `aqfp` asks of streams, and the name of its top structure."""

    def __init__(self, path):
        self.structures, named = {}, set()
        for kind, structure, piece in pieces(load_stream(path), path):
            if kind == STRNAME:
                self.structures[structure] = ([], [])
            elif kind in (BOUNDARY, PATH) and layer_of(piece, path) == FRAME_LAYER:
                self.structures[structure][0].append(frame_of(kind, piece, path))
            elif kind in (SREF, AREF):
                name = text_of(field(piece, SNAME, path))
                named.add(name)
                mirrored = bool(optional(piece, STRANS)[:1] >= b"\x80")
                self.structures[structure][1].append((name, mirrored, quarters(piece), places_of(kind, piece, path)))
        self.top = next((name for name in self.structures if name not in named), "TOP")
        self.flat = {}
        self.file_rows(sorted(self.frames_in(self.top), key=lambda frame: (frame[0][1], frame[0][0])))

    def frames_in(self, name):
        """The frames below a structure, in its coordinates."""
        if name not in self.flat:
            frames, references = self.structures.get(name, ((), ()))
            self.flat[name] = list(frames)
            for other, mirrored, turn, places in references:
                below = self.frames_in(other)
                self.flat[name] += [(moved(box, mirrored, turn, place), kind)
                                    for place in places for box, kind in below]
        return self.flat[name]

    def file_rows(self, frames):
        """Puts cells in rows by the lower edges of their frames."""
        self.rows, lower = [], None
        for number, (box, kind) in enumerate(frames):
            if box[1] != lower:
                self.rows.append([])
                lower = box[1]
            self.rows[-1].append(Cell(box, kind, len(self.rows) - 1, number))
        self.lowers = [row[0].box[1] for row in self.rows]
        self.lefts = [[cell.box[0] for cell in row] for row in self.rows]

    def near(self, box):
        """How far the nearest cell is from a rectangle, and this cell; nothing where there is no cell."""
        best = None
        middle = bisect.bisect_right(self.lowers, box[1])
        order = sorted(range(len(self.rows)), key=lambda row: abs(row - middle + 0.5))
        for row in order:
            if best and outside(box[1::2], self.rows[row][0].box[1::2]) > best[0]:
                continue
            at = bisect.bisect_right(self.lefts[row], box[0])
            for cell in self.rows[row][max(0, at - 2):at + 2]:
                away = max(outside(box[1::2], cell.box[1::2]), outside(box[0::2], cell.box[0::2]))
                if best is None or away < best[0]:
                    best = away, cell
        return best


def outside(one, other):
    """How far two intervals are apart, 0 where they meet."""
    return max(0, other[0] - one[1], one[0] - other[1])
