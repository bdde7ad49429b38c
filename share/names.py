#!/usr/bin/env python3
"""The names of a netlist's inputs and outputs as texts in a chip, on a layer of their own that `aqfp verify` passes
over.

  names.py CHIP.gds NET.blif OUT.gds [--layer 31]

Beside each label I0, I1, .., O0, O1, .. comes a text with the name that NET.blif gives this input or output, in place
of one that an earlier run put there. Everything else stays as it is. klayout.lyp shows layer 31 as `names`.
"""
import re
import struct
import sys

sys.dont_write_bytecode = True
from aqfp_files import (ENDEL, LABELS, LAYER, READ_LAYERS, STRING, TEXT, Arguments, Stop, field, layer_of, load_stream,
                        pieces, ports, record, run, text_of)


def renamed(element, layer, name):
    """A text with another layer, where one is given, and another string."""
    parts, place = [], 0
    while place < len(element):
        length, kind = struct.unpack_from(">HB", element, place)
        part = element[place:place + length]
        if kind == LAYER and layer is not None:
            part = record(LAYER, 2, struct.pack(">H", layer))
        if kind == STRING:
            part = record(STRING, 6, name)
        parts.append(part)
        if kind == ENDEL:
            break
        place += length
    return b"".join(parts)


def labels_of(data, path):
    """The pieces of a stream, each with its structure, and with the label that it is where it is one."""
    for kind, structure, piece in pieces(data, path):
        label = None
        if kind == TEXT and layer_of(piece, path) == LABELS:
            label = re.fullmatch(r"([IO])(0|[1-9][0-9]{0,9})", text_of(field(piece, STRING, path)))
        yield kind, structure, piece, label


def with_names(data, words):
    """A stream with names beside its labels, and how many these are. What an earlier run put there is left out."""
    names, out, count = dict(zip("IO", ports(words.net))), [], 0
    places = {(structure, renamed(piece, words.layer, b""))
              for _, structure, piece, label in labels_of(data, words.chip) if label}
    for kind, structure, piece, label in labels_of(data, words.chip):
        if kind == TEXT and (structure, renamed(piece, None, b"")) in places:
            continue
        out.append(piece)
        if not label:
            continue
        letter, number = label[1], int(label[2])
        if number >= len(names[letter]):
            raise Stop(f"{words.chip}: label {label[0]}, and {words.net} has {len(names['I'])} inputs and "
                       f"{len(names['O'])} outputs: another netlist?")
        out.append(renamed(piece, words.layer, names[letter][number].encode("utf-8", "surrogateescape")))
        count += 1
    if count == 0:
        raise Stop(f"{words.chip}: no label on layer {LABELS}")
    return b"".join(out), count


def main():
    parser = Arguments("names", __doc__)
    parser.add_argument("chip", metavar="CHIP.gds", help="a chip, as build or another tool stored it")
    parser.add_argument("net", metavar="NET.blif", help="the netlist that it was built from")
    parser.add_argument("out", metavar="OUT.gds", help="the chip with names")
    parser.add_argument("--layer", type=int, default=31, help="the layer of the names; 31 if not given")
    words = parser.parse_args()
    if not 0 <= words.layer <= 65535 or words.layer in READ_LAYERS:
        raise Stop(f"--layer {words.layer}: a layer from 0 to 65535 that verify does not read")
    stream, count = with_names(load_stream(words.chip), words)
    with open(words.out, "wb") as file:
        file.write(stream)
    print(f"{count} names on layer {words.layer}")


run(main)
