#!/usr/bin/env python3
"""One's own drawings of cells in a chip: what is below a frame in a process.

  pdk.py CHIP.gds CELLS.gds OUT.gds

CELLS.gds has structures with the names of the chip's cells: BUF, INV, ZERO, ONE, SPL2, SPL3, MAJ, each drawn as in the
chip, its lower left corner at (0, 0). What stands in them is put into the cells of the chip, and the structures that
they refer to come with it. CELLS.gds keeps to layers that `aqfp verify` does not read, and has the database unit of the
chip. What is there already is not put there twice; where a cell has another drawing on a layer of CELLS.gds, it is
refused. `strip.py` takes all layers that `verify` does not read out again.
"""
import sys

sys.dont_write_bytecode = True
from aqfp_files import (AREF, ELEMENTS, ENDLIB, ENDSTR, READ_LAYERS, SNAME, SREF, STRNAME, Arguments, Stop,
                        database_unit, field, layer_of, load_stream, pieces, run, text_of)

CELLS = ("BUF", "INV", "ZERO", "ONE", "SPL2", "SPL3", "MAJ")


def structures_of(data, path):
    """The structures of a stream: for each name its first record and its name's, and its elements."""
    found, begin = {}, b""
    for kind, structure, piece in pieces(data, path):
        if kind == STRNAME:
            found[structure] = (begin + piece, [])
        elif kind in ELEMENTS:
            found[structure][1].append((kind, piece))
        begin = piece
    return found


def checked(drawn, name, path):
    """Stops at an element on a layer that verify reads."""
    for kind, piece in drawn[name][1]:
        if kind not in (SREF, AREF) and layer_of(piece, path) in READ_LAYERS:
            raise Stop(f"{path}: structure {name}: an element on layer {layer_of(piece, path)}, which verify reads: "
                       "give it another layer")


def needed(drawn, cells, path):
    """The structures that the cells lead to, the cells left out, each checked."""
    found, waiting = [], list(cells)
    while waiting:
        name = waiting.pop()
        checked(drawn, name, path)
        for kind, piece in drawn[name][1]:
            if kind not in (SREF, AREF):
                continue
            other = text_of(field(piece, SNAME, path))
            if other in CELLS:
                raise Stop(f"{path}: structure {name} refers to {other}, which is a cell of the chip")
            if other not in drawn:
                raise Stop(f"{path}: structure {name} refers to {other}, which is not there")
            if other not in found:
                found.append(other)
                waiting.append(other)
    return found


def layers_of(elements, path):
    """The layers of elements, and their references as they are."""
    return {piece if kind in (SREF, AREF) else layer_of(piece, path) for kind, piece in elements}


def missing(name, drawn, there, words):
    """What of a cell's drawing is not in the chip yet. Another drawing there, on the same layers, is refused."""
    wanted, has = drawn[name][1], set(there[name][1])
    mixed = sorted(layers_of(has - set(wanted), words.chip) & layers_of(wanted, words.cells))
    if mixed:
        raise Stop(f"{words.chip}: structure {name} has another drawing on layer {mixed[0]}: begin with the chip as "
                   "build stored it")
    return [element for element in wanted if element not in has]


def new_structures(drawn, there, used, words):
    """The names of the structures that the drawings of cells lead to and that the chip has not."""
    names = needed(drawn, used, words.cells)
    for name in names:
        if name in there and sorted(there[name][1]) != sorted(drawn[name][1]):
            raise Stop(f"{name} is a structure of {words.chip} and another one of {words.cells}: give it another name")
    return [name for name in names if name not in there]


def loaded(words):
    """The chip's stream, and the structures of the drawings and of the chip, which have one database unit."""
    chip, cells = load_stream(words.chip), load_stream(words.cells)
    units = database_unit(chip, words.chip), database_unit(cells, words.cells)
    if abs(units[0] / units[1] - 1) > 1e-6:
        raise Stop(f"{words.cells}: a database unit of {units[1]:.4g} m, and {words.chip} has {units[0]:.4g} m")
    return chip, structures_of(cells, words.cells), structures_of(chip, words.chip)


def main():
    parser = Arguments("pdk", __doc__)
    parser.add_argument("chip", metavar="CHIP.gds", help="a chip, as build stored it")
    parser.add_argument("cells", metavar="CELLS.gds", help="drawings of its cells")
    parser.add_argument("out", metavar="OUT.gds", help="the chip with them")
    words = parser.parse_args()
    chip, drawn, there = loaded(words)
    used = [name for name in CELLS if name in drawn and name in there]
    if not used:
        raise Stop(f"{words.cells}: no structure BUF, MAJ, .. that is in {words.chip}")
    more = new_structures(drawn, there, used, words)
    added = {name: missing(name, drawn, there, words) for name in used}
    out = []
    for kind, structure, piece in pieces(chip, words.chip):
        if kind == ENDSTR and structure in added:
            out += [element for _, element in added.pop(structure)]
        if kind == ENDLIB:
            for name in more:
                begin, elements = drawn[name]
                out += [begin, *(element for _, element in elements), b"\x00\x04\x07\x00"]
        out.append(piece)
    with open(words.out, "wb") as file:
        file.write(b"".join(out))
    print("drawn:", *used)
    left = [name for name in CELLS if name in there and name not in drawn]
    if left:
        print("not drawn:", *left)


run(main)
