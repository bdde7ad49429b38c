#!/usr/bin/env python3
"""The skew of chips, found in their shapes: how far the excitation runs between a cell and one that feeds it.

    skew.py [--rows] GDS..

A line for each chip that `verify` accepts, with lengths in nanometres: the width of its widest bar, the skew, what the
cells of even rows are ahead at most (`even`) and those of odd rows (`odd`), and the least skew that a lag between the
lines gives. `--rows` adds a line for each row: the skew of the wires that leave it, and 0 where none does. A chip bears
the period T where the excitation runs the skew in less than a quarter of T (docs/timing.md).
"""
import bisect
import os
import pathlib
import sys

sys.path.insert(0, str(pathlib.Path(__file__).resolve().parent.parent / "share"))

from aqfp_files import Arguments, Stop, run  # noqa: E402
from aqfp_layout import EVEN_LINE, ODD_LINE, Chip  # noqa: E402

BAR, LINK, START = 0, 1, 2  # the datatypes of the parts of a line


def meet(one, other):
    return one[0] <= other[2] and other[0] <= one[2] and one[1] <= other[3] and other[1] <= one[3]


class Near:
    """The rectangles of a layer by their lower edges, to ask which of them meet another one."""

    def __init__(self, boxes):
        self.boxes = boxes
        self.order = sorted(range(len(boxes)), key=lambda each: boxes[each][1])
        self.low = [boxes[each][1] for each in self.order]
        self.height = max((box[3] - box[1] for box in boxes), default=0)

    def meeting(self, box):
        first, past = bisect.bisect_left(self.low, box[1] - self.height), bisect.bisect_right(self.low, box[3])
        return [each for each in self.order[first:past] if meet(box, self.boxes[each])]


def path_of(parts, near, path):
    """The numbers of a layer's parts from the start on. The next one is the contact that the line did not come from."""
    starts = [each for each, part in enumerate(parts) if part[0] == START]
    if not parts:
        return []
    if len(starts) != 1:
        raise Stop(f"{path}: an excitation line has {len(starts)} starts")
    line, before = [starts[0]], None
    while True:
        here = line[-1]
        onward = [each for each in near.meeting(parts[here][1:]) if each not in (here, before)]
        if len(onward) > 1 or len(line) > len(parts):
            raise Stop(f"{path}: an excitation line is not one path")
        if not onward:
            return line
        before = here
        line.append(onward[0])


class Bars:
    """The bars of both lines: how far the excitation has run where it comes to each, and whether it goes right."""

    def __init__(self, chip):
        self.boxes, self.ways = [], []
        for layer in (EVEN_LINE, ODD_LINE):
            self.add_line(list(chip.drawing.layers[layer]), chip.path)
        self.near = Near(self.boxes)

    def add_line(self, parts, path):
        line, gone = path_of(parts, Near([part[1:] for part in parts]), path), 0
        for before, here in zip(line, line[1:]):
            datatype, x0, y0, x1, y1 = parts[here]
            if datatype == BAR:
                self.boxes.append((x0, y0, x1, y1))
                self.ways.append((gone, meet(parts[before][1:], (x0, y0, x0, y1))))
                gone += x1 - x0
            elif datatype == LINK:
                gone += max(x1 - x0, y1 - y0)

    def place(self, frame):
        """Where along its line a frame begins and ends."""
        over = [bar for bar in self.near.meeting(frame) if self.holds(bar, frame)]
        if len(over) != 1:
            raise Stop(f"{len(over)} bars lie over the frame at {frame[0]} {frame[1]}")
        (gone, right), box = self.ways[over[0]], self.boxes[over[0]]
        near = gone + (frame[0] - box[0] if right else box[2] - frame[2])
        return near, near + frame[2] - frame[0]

    def holds(self, bar, frame):
        box = self.boxes[bar]
        return box[0] <= frame[0] and frame[2] <= box[2] and box[1] <= frame[1] and frame[3] <= box[3]


class Skew:
    """The distances of a chip, in nanometres."""

    def __init__(self, chip):
        bars = Bars(chip)
        places = [bars.place(cell.box) for cell in chip.cells]
        widest = max((far - near for near, far in places), default=0)
        self.width = max((box[2] - box[0] for box in bars.boxes), default=0)
        self.even, self.odd, self.rows = widest, widest, [0] * len(chip.rows)
        for wire in chip.wires:
            (near, far), (feed_near, feed_far) = places[wire.target], places[wire.source]
            row = chip.cells[wire.source].row
            above, below = far - feed_near, feed_far - near
            odd, even = (above, below) if row % 2 == 0 else (below, above)
            self.even, self.odd = max(self.even, even), max(self.odd, odd)
            self.rows[row] = max(self.rows[row], above, below, far - near)
        self.skew = max(self.even, self.odd)
        self.lagged = max(widest, -(-(self.even + self.odd) // 2))


def main():
    parser = Arguments("skew", __doc__)
    parser.add_argument("--rows", action="store_true", help="a line for each row too")
    parser.add_argument("gds", nargs="+", metavar="GDS")
    words = parser.parse_args()
    for path in words.gds:
        skew = Skew(Chip(path))
        print(f"{os.path.basename(path)} width {skew.width} skew {skew.skew} even {skew.even} odd {skew.odd} "
              f"lagged {skew.lagged}")
        if words.rows:
            for number, each in enumerate(skew.rows):
                print(f"row {number} skew {each}")


if __name__ == "__main__":
    run(main)
