#!/usr/bin/env python3
"""A chip without the layers that `aqfp verify` does not read, so that what lies on them can't be refused.

  strip.py FULL.gds CHECK.gds [--top NAME]

`verify` reads the layers 10, 11, 12, 14, 15, 20, 21, 22 and 30, but refuses round figures, slanted edges and the like
on every layer. Boundaries, paths, texts, boxes and nodes on other layers are taken out; references stay. With --top
only that structure stays, and those below it. Shapes are numbered anew, so numbers that verify tells are those of
CHECK.gds. A box or a node on a layer that verify reads stops the script, since it might be meant as metal: draw it as a
boundary.
"""
import sys

sys.dont_write_bytecode = True
from aqfp_files import (AREF, BGNSTR, BOX, ENDLIB, ENDSTR, NODE, READ_LAYERS, SNAME, SREF, STRNAME, ELEMENTS, Arguments,
                        Stop, field, layer_of, load_stream, pieces, run, text_of)


def below(data, path, top):
    """The names of the structures that a structure leads to, itself among them."""
    refers = {}
    for kind, structure, piece in pieces(data, path):
        if kind == STRNAME:
            refers[structure] = set()
        elif kind in (SREF, AREF):
            refers[structure].add(text_of(field(piece, SNAME, path)))
    if top not in refers:
        raise Stop(f"{path}: no structure {top}")
    found, waiting = {top}, [top]
    while waiting:
        for name in refers.get(waiting.pop(), ()):
            if name not in found:
                found.add(name)
                waiting.append(name)
    return found


def main():
    parser = Arguments("strip", __doc__)
    parser.add_argument("full", metavar="FULL.gds", help="a chip with layers of one's own")
    parser.add_argument("check", metavar="CHECK.gds", help="the chip that is written")
    parser.add_argument("--top", metavar="NAME", help="keeps this structure, and those below it")
    words = parser.parse_args()
    data = load_stream(words.full)
    kept = None if words.top is None else below(data, words.full, words.top)
    out, begin, taken = [], b"", 0
    for kind, structure, piece in pieces(data, words.full):
        if kind == BGNSTR:
            begin = piece
            continue
        if kind == STRNAME:
            piece, begin = begin + piece, b""
        if kind != ENDLIB and structure is not None and kept is not None and structure not in kept:
            continue
        if kind in ELEMENTS and kind not in (SREF, AREF):
            layer = layer_of(piece, words.full)
            if layer not in READ_LAYERS:
                taken += 1
                continue
            if kind in (BOX, NODE):
                what = "box" if kind == BOX else "node"
                raise Stop(f"{words.full}: structure {structure}: a {what} on layer {layer}, which verify "
                           "reads: draw it as a boundary")
        out.append(piece)
    with open(words.check, "wb") as file:
        file.write(b"".join(out))
    print(f"{taken} elements on other layers taken out")


run(main)
