"""A chip as a page for a browser that stands alone, and as a picture in SVG. The page's markup is chip_page.html, what
it knows of the chip chip_page_data.js, and what it does chip_page.js; the chip's data is put in compressed."""
import base64
import json
import pathlib
import re
import sys
import zlib
from array import array
from html import escape

from aqfp_files import Stop, bus
from aqfp_layout import EVEN_LINE, FRAME, INPUT_PIN, KIND_NAMES, M1, M2, ODD_LINE, OUTPUT_PIN, VIA

HERE = pathlib.Path(__file__).resolve().parent

# What is drawn, the lowest first, in the colours of klayout.lyp: the layer, its key, its name, fill and edge.
LAYERS = ((EVEN_LINE, "even", "even excitation line", "#ffcc80", "#c07000"),
          (ODD_LINE, "odd", "odd excitation line", "#ccb0f0", "#7040a0"),
          (FRAME, "cells", "cells", "#e8e8e8", "#707070"),
          (INPUT_PIN, "inputs", "input pins", "#40c080", "#007838"),
          (OUTPUT_PIN, "outputs", "output pins", "#f0b820", "#a07000"),
          (M1, "m1", "M1, lower metal", "#4080e0", "#1050b0"),
          (M2, "m2", "M2, upper metal", "#e86060", "#b02020"),
          (VIA, "vias", "vias", "#303030", "#101010"))
KIND_COLOURS = {1: "#e8e8e8", 2: "#f4cccc", 3: "#c4c4c4", 4: "#fffff0", 5: "#d4ecd4", 6: "#b8e0b8", 7: "#ccd8f8"}
KIND_TITLES = {"split2": "splitter of 2", "split3": "splitter of 3", "zero": "constant zero", "one": "constant one"}

CODE = ("chip_page_data.js", "chip_page.js")
MOST_VALUES = 12  # values of a word that the page tells by their names


class Words:
    """Words that went through a chip: their lines, and for each the signs of all cells, as bytes of + and -."""

    def __init__(self, lines, signs):
        self.lines, self.signs = lines, signs

    def answers(self, chip):
        """The line of each answer."""
        cells = [chip.pins[each][0] for _, each in sorted(chip.outputs.items())]
        return ["".join("1" if signs[cell] == ord("+") else "0" for cell in cells) for signs in self.signs]


def values(digits, names):
    """A word as `a=9 b=8` where names are known, buses as numbers; its digits where these would be too many to read."""
    found = {}
    for name, digit in zip(names, digits):
        base, bit = bus(name or "")
        found[base] = found.get(base, 0) | int(digit) << (bit or 0)
    if None in names or not 0 < len(found) <= MOST_VALUES:
        return digits
    return " ".join(f"{base}={value}" for base, value in found.items())


# The page

def four_bytes(numbers):
    """Numbers of four bytes, the least byte first."""
    try:
        data = array("i", numbers)
    except OverflowError:
        raise Stop("a coordinate does not fit in 32 bits") from None
    if sys.byteorder == "big":
        data.byteswap()
    return data.tobytes()


def bits(signs):
    """A bit for each cell, the lowest bit of a byte first; it is 1 where the sign is plus."""
    digits = signs.translate(bytes.maketrans(b"+-.", b"100"))[::-1]
    return int(digits or b"0", 2).to_bytes((len(signs) + 7) // 8, "little")


def wire_numbers(chip, layer):
    """The number of the wire that each shape of a layer belongs to, or -1."""
    numbers = {wire.net: number for number, wire in enumerate(chip.wires)}
    return (numbers.get(chip.conductors.net[each], -1) for each in chip.conductors.numbers(layer))


def parts_of(chip, words):
    """The chip's data by name: rectangles by layer as their four edges one after another, the wires of metals and vias,
    cells, wires, and signs."""
    for layer, key, *_ in LAYERS:
        shapes = chip.drawing.layers[layer]
        if layer != FRAME:
            for side in ("x0", "y0", "x1", "y1"):
                yield f"{key}.{side}", four_bytes(getattr(shapes, side))
        if layer in (M1, M2, VIA):
            yield f"{key}.wire", four_bytes(wire_numbers(chip, layer))
    for side in range(4):
        yield f"cells.{('x0', 'y0', 'x1', 'y1')[side]}", four_bytes(cell.box[side] for cell in chip.cells)
    yield "cells.kind", four_bytes(cell.kind for cell in chip.cells)
    yield "cells.row", four_bytes(cell.row for cell in chip.cells)
    for field in ("source", "source_pin", "target", "target_pin", "length"):
        yield f"wires.{field}", four_bytes(getattr(wire, field) for wire in chip.wires)
    for number, signs in enumerate(words.signs if words else ()):
        yield f"signs.{number}", bits(signs)


def ports_of(letter, ends, names, chip):
    """Each input or output with its label, name, cell and point."""
    facts = []
    for number, each in sorted(ends.items()):
        x0, y0, x1, y1 = chip.conductors.box(each)
        facts.append({"label": f"{letter}{number}", "name": names[number], "cell": chip.pins[each][0],
                      "x": (x0 + x1) // 2, "y": (y0 + y1) // 2})
    return facts


def facts_of(chip, report, title, names, words):
    """What the page says besides shapes."""
    played = []
    if words:
        played = [{"given": values(line, names[0]), "answer": values(answer, names[1])}
                  for line, answer in zip(words.lines, words.answers(chip))]
    return {"title": title, "counts": {key: report[key] for key in ("rows", "cells", "wires", "delay", "junctions",
                                                                    "width", "height", "longest", "limit")},
            "kinds": {number: {"name": name, "title": KIND_TITLES.get(name, name), "fill": KIND_COLOURS[number]}
                      for number, name in KIND_NAMES.items()},
            "layers": [{"key": key, "name": name, "fill": fill, "edge": edge} for _, key, name, fill, edge in LAYERS],
            "extent": chip.extent(), "inputs": ports_of("I", chip.inputs, names[0], chip),
            "outputs": ports_of("O", chip.outputs, names[1], chip), "words": played}


def page_text(chip, report, title, names, words):
    """The lines of the page."""
    packer, parts, data = zlib.compressobj(3), [], []
    for name, content in parts_of(chip, words):
        content += b"\0" * (-len(content) % 4)
        parts.append([name, len(content)])
        data.append(packer.compress(content))
    data.append(packer.flush())
    facts = {**facts_of(chip, report, title, names, words), "parts": parts}
    fills = {"TITLE": escape(title), "FACTS": json.dumps(facts, separators=(",", ":")).replace("<", "\\u003c"),
             "DATA": base64.b64encode(b"".join(data)).decode(),
             "CODE": "".join((HERE / name).read_text(encoding="utf-8") for name in CODE)}
    text = (HERE / "chip_page.html").read_text(encoding="utf-8")
    yield re.sub(r"@(TITLE|FACTS|DATA|CODE)@", lambda found: fills[found[1]], text).rstrip("\n")


# The picture

# How large a picture opens: so many pixels a nanometre, by which names can be read, and at most so many at a side.
NEAR, MOST = 0.012, 3000


def svg_shapes(shapes, fill, edge):
    """The rectangles of a layer as one path."""
    steps = "".join(f"M{x0} {y0}h{x1 - x0}v{y1 - y0}h{x0 - x1}z" for _, x0, y0, x1, y1 in shapes)
    return f'<path fill="{fill}" stroke="{edge}" d="{steps}"/>'


def svg_cells(chip):
    """Each cell with its name, kind and row as its title."""
    for place, cell in enumerate(chip.cells):
        x0, y0, x1, y1 = cell.box
        name = KIND_NAMES[cell.kind]
        yield (f'<rect x="{x0}" y="{y0}" width="{x1 - x0}" height="{y1 - y0}" fill="{KIND_COLOURS[cell.kind]}" '
               f'stroke="#707070"><title>n{place}: {KIND_TITLES.get(name, name)}, row {cell.row}</title></rect>')


def plain_text(name):
    """A name as text of XML, which has no place for a few letters."""
    return escape(re.sub("[\ufffe\uffff]", "\ufffd", name))


def svg_lines(chip, title, names):
    """The lines of a picture, a unit of which is a nanometre; y grows downward there, so all is turned over."""
    x0, y0, x1, y1 = chip.extent()
    edge = 4000
    width, height = x1 - x0 + 2 * edge, y1 - y0 + 2 * edge
    scale = min(NEAR, MOST / max(width, height))
    yield (f'<svg xmlns="http://www.w3.org/2000/svg" width="{width * scale:.0f}" height="{height * scale:.0f}" '
           f'viewBox="{x0 - edge} {-y1 - edge} {width} {height}">')
    yield f"<title>{plain_text(title)}</title>"
    yield '<rect x="-100%" y="-100%" width="300%" height="300%" fill="#ffffff"/>'
    yield '<g transform="scale(1,-1)" stroke-width="60" fill-opacity="0.75">'
    for layer, key, name, fill, line in LAYERS:
        yield f'<g id="{key}"><title>{name}</title>' if layer != FRAME else f'<g id="{key}">'
        if layer == FRAME:
            yield from svg_cells(chip)
        else:
            yield svg_shapes(chip.drawing.layers[layer], fill, line)
        yield "</g>"
    yield "</g>"
    yield '<g id="labels" font-family="sans-serif" font-size="1600" text-anchor="middle">'
    for letter, ends, given, shift in (("I", chip.inputs, names[0], 2200), ("O", chip.outputs, names[1], -1000)):
        for port in ports_of(letter, ends, given, chip):
            yield f'<text x="{port["x"]}" y="{-port["y"] + shift}">{plain_text(port["name"] or port["label"])}</text>'
    yield "</g>"
    yield "</svg>"
