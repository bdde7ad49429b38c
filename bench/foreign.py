#!/usr/bin/env python3
"""Chips that this program would not draw, whose skew `report` has to find as bench/skew.py does.

    foreign.py [--program AQFP] [--library LIB] [--count N] [--seed N] GDS..

Of each stream, a chip that `verify` accepts, random foreign ones are made: bars without frames before and behind a
line's rows, and between two of them, starts and links of other sizes, and all of it moved. Each keeps the rules. A line
is printed for each that `report` refuses or finds another skew of, and one with the counts at the end.
"""
import pathlib
import random
import struct
import subprocess
import sys
import tempfile

sys.path.insert(0, str(pathlib.Path(__file__).resolve().parent.parent / "share"))

from aqfp_files import (BGNSTR, BOUNDARY, ENDEL, ENDLIB, ENDSTR, HEADER, LABELS, LAYER, STRING, STRNAME,  # noqa: E402
                        TEXT, UNITS, Arguments, Stop, record, run)
from aqfp_layout import EVEN_LINE, ODD_LINE, Chip  # noqa: E402
from skew import BAR, LINK, START, Near, Skew, path_of  # noqa: E402

DATES = b"\0\0" * 12


def stream_of(layers, labels):
    """A stream of one structure, all boundaries and texts."""
    units = bytes.fromhex("3e4189374bc6a7f03944b82fa09b5a54")
    parts = [record(HEADER, 2, struct.pack(">h", 600)), record(1, 2, DATES), record(2, 6, b"F"),
             record(UNITS, 5, units), record(BGNSTR, 2, DATES), record(STRNAME, 6, b"FOREIGN")]
    for layer, boxes in layers.items():
        for datatype, x0, y0, x1, y1 in boxes:
            ring = struct.pack(">10i", x0, y0, x1, y0, x1, y1, x0, y1, x0, y0)
            parts += [record(BOUNDARY, 0, b""), record(LAYER, 2, struct.pack(">h", layer)),
                      record(0x0E, 2, struct.pack(">h", datatype)), record(0x10, 3, ring), record(ENDEL, 0, b"")]
    for x, y, text in labels:
        parts += [record(TEXT, 0, b""), record(LAYER, 2, struct.pack(">h", LABELS)), record(0x16, 2, b"\0\0"),
                  record(0x10, 3, struct.pack(">2i", x, y)), record(STRING, 6, text.encode()), record(ENDEL, 0, b"")]
    return b"".join(parts + [record(ENDSTR, 0, b""), record(ENDLIB, 0, b"")])


class Line:
    """One excitation line of a chip, as its parts from the start on; changed in place."""

    def __init__(self, parts, dice, path):
        boxes = [part[1:] for part in parts]
        self.parts = [list(parts[each]) for each in path_of(parts, Near(boxes), path)]
        self.dice = dice

    def low(self):
        return min(part[2] for part in self.parts)

    def lead(self, floor):
        """Bars without frames before the first bar of the rows, each below the one that follows it. `floor` is a height
        that nothing lies below."""
        count = self.dice.randrange(4)
        if not count or len(self.parts) < 2:
            return
        start, first = self.parts[0], self.parts[1]
        left_first = start[3] <= first[1]  # the line comes to the first bar of the rows from the left
        high, leads, below = floor - self.dice.randrange(2_000, 9_000), [], first
        for number in range(count):
            height = self.dice.randrange(3_000, 12_000)
            width = self.dice.randrange(20_000, 200_000)
            at_left = left_first == (number % 2 == 0)
            edge = below[1] if at_left else below[3]
            far = edge + width if at_left else edge - width
            bar = [BAR, min(edge, far), high - height, max(edge, far), high]
            reach = self.dice.randrange(2_000, 9_000)
            link = ([LINK, edge - reach, bar[2], edge, below[4]] if at_left
                    else [LINK, edge, bar[2], edge + reach, below[4]])
            leads = [bar, link] + leads
            high, below = bar[2] - self.dice.randrange(2_000, 9_000), bar
        came_right = leads[1][3] <= leads[0][1]  # its link stands left of it, so the line comes to it from the right
        edge = leads[0][3] if came_right else leads[0][1]
        size = self.dice.randrange(2_000, 60_000)
        self.parts = [[START, edge, leads[0][2], edge + size, leads[0][4]] if came_right
                      else [START, edge - size, leads[0][2], edge, leads[0][4]]] + leads + self.parts[1:]

    def tail(self, roof):
        """A bar without frames behind the last one, above all that is drawn."""
        if self.dice.random() < 0.5:
            return
        before, last = self.parts[-2], self.parts[-1]
        at_left = before[1] >= last[3]  # the line leaves the last bar at its left edge
        edge = last[1] if at_left else last[3]
        low = roof + self.dice.randrange(2_000, 9_000)
        high, width = low + self.dice.randrange(3_000, 12_000), self.dice.randrange(20_000, 200_000)
        reach = self.dice.randrange(2_000, 9_000)
        link = [LINK, edge - reach, last[2], edge, high] if at_left else [LINK, edge, last[2], edge + reach, high]
        self.parts += [link, [BAR, edge, low, edge + width, high] if at_left else [BAR, edge - width, low, edge, high]]

    def stretch(self):
        """Links and starts of other widths, away from the bars."""
        lefts = min(part[1] for part in self.parts if part[0] == BAR)
        for part in self.parts:
            if part[0] != BAR and self.dice.random() < 0.6:
                more = self.dice.randrange(1, 40_000)
                if part[3] <= lefts:
                    part[1] -= more
                elif part[1] >= max(other[3] for other in self.parts if other[0] == BAR):
                    part[3] += more

    def split(self):
        """Between two bars of rows that a link joins at the right: a bar without frames farther right, to which a link
        leads; the upper bar reaches beyond its left end, and a link leads back to it."""
        rights = max(part[3] for part in self.parts)
        for place in range(1, len(self.parts) - 2):
            lower, link, upper = self.parts[place:place + 3]
            fits = [part[0] for part in (lower, link, upper)] == [BAR, LINK, BAR] and link[1] == lower[3] == upper[3]
            if not fits or upper[2] <= lower[4] or self.dice.random() < 0.5:
                continue
            gap, width = self.dice.randrange(2_000, 9_000), self.dice.randrange(20_000, 60_000)
            out = [LINK, lower[3], lower[2], rights + gap, lower[4]]
            bar = [BAR, rights + gap, lower[2], rights + gap + width, lower[4]]
            upper[3] = rights + gap + width // 2
            back = [LINK, upper[3], lower[4], bar[3] + 2_000, upper[4]]
            self.parts[place + 1:place + 2] = [out, bar, back]
            return


def changed(chip, dice, path):
    """The layers and labels of a foreign chip."""
    layers = {layer: [list(box) for box in boxes] for layer, boxes in chip.drawing.layers.items() if len(boxes)}
    lines = {layer: Line([tuple(box) for box in layers[layer]], dice, path)
             for layer in (EVEN_LINE, ODD_LINE) if layer in layers}
    every = [box for boxes in layers.values() for box in boxes]
    floor, roof = min(box[2] for box in every), max(box[4] for box in every)
    for line in lines.values():
        line.split()
        line.stretch()
        line.lead(floor)
        line.tail(roof)
    layers |= {layer: line.parts for layer, line in lines.items()}
    labels = list(chip.drawing.labels)
    right, up = dice.randrange(-9_000_000, 9_000_000), dice.randrange(-9_000_000, 9_000_000)
    layers = {layer: [(kind, x0 + right, y0 + up, x1 + right, y1 + up) for kind, x0, y0, x1, y1 in boxes]
              for layer, boxes in layers.items()}
    return layers, [(x + right, y + up, text) for x, y, text in labels]


def skew_line(program, path, library):
    """The line of the skew that `report` prints, or what it says instead."""
    said = subprocess.run([program, "report", path, library], capture_output=True, text=True, check=False)
    lines = [line for line in said.stdout.split("\n") if line.startswith("skew ")]
    return lines[0] if lines and not said.returncode else said.stderr.strip()


def main():
    parser = Arguments("foreign", __doc__)
    parser.add_argument("--program", default="./aqfp")
    parser.add_argument("--library", default="libraries/a.toml")
    parser.add_argument("--count", type=int, default=200)
    parser.add_argument("--seed", type=int, default=1)
    parser.add_argument("gds", nargs="+", metavar="GDS")
    words = parser.parse_args()
    dice, wrong, greatest = random.Random(words.seed), 0, 0.0
    chips = [(path, Chip(path)) for path in words.gds]
    with tempfile.TemporaryDirectory() as room:
        path = f"{room}/foreign.gds"
        for number in range(words.count):
            base, chip = chips[number % len(chips)]
            pathlib.Path(path).write_bytes(stream_of(*changed(chip, dice, base)))
            skew = Skew(Chip(path))
            expected = f"skew {skew.skew} even {skew.even} odd {skew.odd}"
            said = skew_line(words.program, path, words.library)
            greatest = max(greatest, skew.skew / skew.width)
            if said != expected:
                wrong += 1
                print(f"{base} changed, {number}: {said}, where {expected} is expected")
    if wrong:
        raise Stop(f"{wrong} of {words.count} went otherwise")
    print(f"{words.count} layouts, 0 otherwise; the greatest skew is {greatest:.1f} times the widest bar")


if __name__ == "__main__":
    run(main)
