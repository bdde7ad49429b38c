#!/usr/bin/env python3
"""Drawings of the cells of libraries A and B, to try share/pdk.py with before one has drawings of one's own.

  draw_cells.py CELLS.gds

CELLS.gds has a structure for each kind of cell, with an outline on layer 100 and two references to JJ in each slot,
which is a junction, an octagon on layer 101. They are no circuits. Layers and sizes are examples; what counts are the
names of the structures, the lower left corner at (0, 0), and layers that `aqfp verify` does not read.
"""
import pathlib
import struct
import sys

sys.dont_write_bytecode = True
here = pathlib.Path(__file__).resolve().parent
for share in here.parent / "share", here.parents[2] / "aqfp":  # of a clone, and where share/install puts this file
    sys.path.append(str(share))
from aqfp_files import (BGNSTR, BOUNDARY, ENDEL, ENDLIB, ENDSTR, HEADER, LAYER, SNAME, SREF, STRNAME, UNITS, Arguments,
                        record, run)

BGNLIB, LIBNAME, DATATYPE, XY = 0x01, 0x02, 0x0E, 0x10
SLOTS = {"BUF": 1, "INV": 1, "ZERO": 1, "ONE": 1, "SPL2": 2, "SPL3": 3, "MAJ": 3}
SLOT, HEIGHT, EDGE = 8000, 10000, 300  # nanometres
NANOMETRE = bytes.fromhex("3e4189374bc6a7ef3944b82fa09b5a51")
DATE = struct.pack(">12H", *[1970, 1, 1, 0, 0, 0] * 2)


def place(*points):
    """The record of some points, in nanometres."""
    return record(XY, 3, b"".join(struct.pack(">2i", *point) for point in points))


def boundary(layer, points):
    """A closed figure."""
    return (record(BOUNDARY, 0, b"") + record(LAYER, 2, struct.pack(">H", layer)) + record(DATATYPE, 2, b"\0\0")
            + place(*points, points[0]) + record(ENDEL, 0, b""))


def structure(name, elements):
    return record(BGNSTR, 2, DATE) + record(STRNAME, 6, name.encode()) + b"".join(elements) + record(ENDSTR, 0, b"")


def cell(slots):
    """The outline of a cell, and two junctions in each slot."""
    right, top = slots * SLOT - EDGE, HEIGHT - EDGE
    yield boundary(100, [(EDGE, EDGE), (right, EDGE), (right, top), (EDGE, top)])
    for x in range(SLOT // 4, slots * SLOT, SLOT // 2):
        yield record(SREF, 0, b"") + record(SNAME, 6, b"JJ") + place((x, HEIGHT // 2)) + record(ENDEL, 0, b"")


def main():
    parser = Arguments("draw_cells", __doc__)
    parser.add_argument("out", metavar="CELLS.gds", help="the drawings")
    words = parser.parse_args()
    octagon = [(700, 300), (300, 700), (-300, 700), (-700, 300), (-700, -300), (-300, -700), (300, -700), (700, -300)]
    parts = [record(HEADER, 2, b"\x02\x58"), record(BGNLIB, 2, DATE), record(LIBNAME, 6, b"CELLS"),
             record(UNITS, 5, NANOMETRE), structure("JJ", [boundary(101, octagon)]),
             *(structure(name, cell(slots)) for name, slots in SLOTS.items()),
             record(ENDLIB, 0, b"")]
    with open(words.out, "wb") as file:
        file.write(b"".join(parts))
    print("drawn:", *SLOTS)


run(main)
