"""A chip in LEF and DEF: its cells as macros, where they are placed, and its wires. Coordinates are whole nanometres: a
database unit of both is one."""
import re

from aqfp_layout import EVEN_LINE, M1, M2, ODD_LINE, VIA

MACROS = {1: "BUF", 2: "INV", 3: "ZERO", 4: "ONE", 5: "SPL2", 6: "SPL3", 7: "MAJ"}
LAYER_NAMES = {M1: "M1", VIA: "VIA", M2: "M2", EVEN_LINE: "EX_EVEN", ODD_LINE: "EX_ODD"}
INPUTS, OUTPUTS = "ABC", "YZX"


def pin_name(letters, number):
    """The name of a cell's pin: A, B, C for inputs, Y, Z, X for outputs."""
    return letters[number]


def plain(name):
    """A name in DEF: a letter that DEF has another use for gets a backslash before it."""
    return re.sub(r"([^A-Za-z0-9_.$\[\]<>:\x80-\U0010ffff])", r"\\\1", name)


# Macros

class Macro:
    """The cells of one kind whose frames and pins are alike."""

    def __init__(self, name, kind, size, pins):
        self.name, self.kind, self.size, self.pins = name, kind, size, pins


def shape_of(chip, cell):
    """What a cell looks like: its kind, its size, and its pins' names and rectangles from its lower left corner."""
    x, y, right, high = cell.box
    pins = []
    for letters, held in ((INPUTS, cell.inputs), (OUTPUTS, cell.outputs)):
        for number, each in sorted(held.items()):
            x0, y0, x1, y1 = chip.conductors.box(each)
            pins.append((pin_name(letters, number), x0 - x, y0 - y, x1 - x, y1 - y))
    return cell.kind, (right - x, high - y), tuple(pins)


def macros_of(chip):
    """The macro of each cell, and all macros; a second look of a kind gets a number behind its name."""
    macros, of_kind, each_cell = {}, {}, []
    for cell in chip.cells:
        shape = shape_of(chip, cell)
        if shape not in macros:
            of_kind[cell.kind] = of_kind.get(cell.kind, 0) + 1
            more = f"_{of_kind[cell.kind]}" if of_kind[cell.kind] > 1 else ""
            macros[shape] = Macro(MACROS[cell.kind] + more, *shape)
        each_cell.append(macros[shape])
    return each_cell, list(macros.values())


def microns(number):
    """Nanometres as micrometres."""
    return f"{number // 1000}.{number % 1000:03}" if number >= 0 else f"-{microns(-number)}"


# Wires and vias

def wire_width(chip):
    """The width that most shapes of M1 and M2 have, which is the default width of a wire; an even number."""
    counts = {}
    for layer in (M1, M2):
        for _, x0, y0, x1, y1 in chip.drawing.layers[layer]:
            side = min(x1 - x0, y1 - y0)
            counts[side] = counts.get(side, 0) + 1
    even = [side for side in counts if side % 2 == 0]
    return max(even, key=lambda side: (counts[side], side), default=1000)


def via_sizes(chip):
    """The sizes of vias, and a name for each."""
    sizes = sorted({(x1 - x0, y1 - y0) for _, x0, y0, x1, y1 in chip.drawing.layers[VIA]})
    return {size: f"VIA_{size[0]}_{size[1]}" for size in sizes}


def routed(layer, box, width):
    """A rectangle of metal as a wire of the default width, whose ends go half a width past its points; or else as a
    rectangle at its lower left corner."""
    x0, y0, x1, y1 = box
    half = width // 2
    if x1 - x0 == width and y1 - y0 > width:
        return f"{LAYER_NAMES[layer]} ( {x0 + half} {y0 + half} ) ( * {y1 - half} )"
    if y1 - y0 == width and x1 - x0 > width:
        return f"{LAYER_NAMES[layer]} ( {x0 + half} {y0 + half} ) ( {x1 - half} * )"
    return f"{LAYER_NAMES[layer]} ( {x0} {y0} ) RECT ( 0 0 {x1 - x0} {y1 - y0} )"


def parts_of_nets(chip, width, vias):
    """The parts of each net's wiring, by the number of the net."""
    parts, net_of = {}, chip.conductors.net
    for layer in (M1, M2, VIA):
        for each in chip.conductors.numbers(layer):
            x0, y0, x1, y1 = chip.conductors.box(each)
            if layer == VIA:
                part = f"M1 ( {(x0 + x1) // 2} {(y0 + y1) // 2} ) {vias[x1 - x0, y1 - y0]}"
            else:
                part = routed(layer, (x0, y0, x1, y1), width)
            parts.setdefault(net_of[each], []).append(part)
    return parts


# LEF

def lef_layers(chip, width):
    """The layers: two metals, the via between them, and those of the excitation lines, which no router fills."""
    for name, way in (("M1", "VERTICAL"), ("VIA", None), ("M2", "HORIZONTAL"), ("EX_EVEN", None), ("EX_ODD", None)):
        yield f"LAYER {name}"
        if way:
            yield f"  TYPE ROUTING ;\n  DIRECTION {way} ;\n  WIDTH {microns(width)} ;"
        else:
            yield "  TYPE CUT ;" if name == "VIA" else "  TYPE MASTERSLICE ;"
        yield f"END {name}"
    for (wide, high), name in via_sizes(chip).items():
        x0, y0 = -(wide // 2), -(high // 2)
        box = " ".join(map(microns, (x0, y0, x0 + wide, y0 + high)))
        yield f"VIA {name} DEFAULT"
        yield from (f"  LAYER {layer} ;\n    RECT {box} ;" for layer in ("M1", "VIA", "M2"))
        yield f"END {name}"


def lef_macro(macro):
    """A macro: its size and its pins, which lie on M1."""
    yield f"MACRO {macro.name}"
    yield f"  CLASS CORE ;\n  ORIGIN 0 0 ;\n  SIZE {microns(macro.size[0])} BY {microns(macro.size[1])} ;"
    for name, *box in macro.pins:
        yield f"  PIN {name}"
        yield f"    DIRECTION {'INPUT' if name in INPUTS else 'OUTPUT'} ;\n    USE SIGNAL ;"
        yield f"    PORT\n      LAYER M1 ;\n        RECT {' '.join(map(microns, box))} ;\n    END"
        yield f"  END {name}"
    yield f"END {macro.name}"


def lef_lines(chip, title):
    """The lines of the LEF text."""
    yield f"# The cells of {title}"
    yield 'VERSION 5.8 ;\nBUSBITCHARS "[]" ;\nDIVIDERCHAR "/" ;'
    yield "UNITS\n  DATABASE MICRONS 1000 ;\nEND UNITS\nMANUFACTURINGGRID 0.001 ;"
    yield from lef_layers(chip, wire_width(chip))
    for macro in sorted(macros_of(chip)[1], key=lambda macro: macro.name):
        yield from lef_macro(macro)
    yield "END LIBRARY"


# DEF

def def_pins(chip, ports):
    """The inputs and outputs of the chip, at the pins that they label."""
    yield f"PINS {len(ports)} ;"
    for name, _, each, way in ports:
        x0, y0, x1, y1 = chip.conductors.box(each)
        yield (f"- {name} + NET {name} + DIRECTION {way} + USE SIGNAL\n  + LAYER M1 ( 0 0 ) ( {x1 - x0} {y1 - y0} )\n"
               f"  + PLACED ( {x0} {y0} ) N ;")
    yield "END PINS"


def def_nets(chip, ports):
    """The nets of inputs, then the wires, then the nets of outputs."""
    parts = parts_of_nets(chip, wire_width(chip), via_sizes(chip))
    yield f"NETS {len(ports) + len(chip.wires)} ;"
    for name, (place, letters, number), each, _ in ports:
        yield f"- {name} ( PIN {name} ) ( n{place} {pin_name(letters, number)} )"
        yield from routing(parts.get(chip.conductors.net[each], []))
    for number, wire in enumerate(chip.wires):
        yield (f"- w{number} ( n{wire.source} {pin_name(OUTPUTS, wire.source_pin)} ) "
               f"( n{wire.target} {pin_name(INPUTS, wire.target_pin)} )")
        yield from routing(parts.get(wire.net, []))
    yield "END NETS"


def routing(parts):
    """The wiring of a net, and the end of its statement."""
    for place, part in enumerate(parts):
        yield f"  {'NEW' if place else '+ ROUTED'} {part}"
    yield "  ;"


def def_lines_of_excitation(chip):
    """The excitation lines, each a special net of rectangles."""
    lines = [(layer, chip.drawing.layers[layer]) for layer in (EVEN_LINE, ODD_LINE) if len(chip.drawing.layers[layer])]
    yield f"SPECIALNETS {len(lines)} ;"
    for layer, shapes in lines:
        yield f"- {LAYER_NAMES[layer].lower()} + USE CLOCK"
        yield from (f"  + RECT {LAYER_NAMES[layer]} ( {x0} {y0} ) ( {x1} {y1} )" for _, x0, y0, x1, y1 in shapes)
        yield "  ;"
    yield "END SPECIALNETS"


def ports_of(chip, names):
    """Inputs and outputs: the name, the cell's pin, the shape and the way. A name that comes twice, or is that of a
    wire, gives way to the label."""
    found, taken = [], {"ex_even", "ex_odd"}
    for letter, letters, ends, given, way in (("I", INPUTS, chip.inputs, names[0], "INPUT"),
                                              ("O", OUTPUTS, chip.outputs, names[1], "OUTPUT")):
        for number, each in sorted(ends.items()):
            place, pin = chip.pins[each]
            name = plain(given[number] or f"{letter}{number}")
            if name in taken or re.fullmatch(r"w\d+|[IO]\d+", given[number] or ""):
                name = f"{letter}{number}"
            taken.add(name)
            found.append((name, (place, letters, pin), each, way))
    return found


def def_lines(chip, title, names):
    """The lines of the DEF text."""
    each_cell, _ = macros_of(chip)
    ports = ports_of(chip, names)
    x0, y0, x1, y1 = chip.extent()
    yield f"# {title}"
    yield 'VERSION 5.8 ;\nDIVIDERCHAR "/" ;\nBUSBITCHARS "[]" ;\nDESIGN chip ;\nUNITS DISTANCE MICRONS 1000 ;'
    yield f"DIEAREA ( {x0} {y0} ) ( {x1} {y1} ) ;"
    yield f"COMPONENTS {len(chip.cells)} ;"
    for place, (cell, macro) in enumerate(zip(chip.cells, each_cell)):
        yield f"- n{place} {macro.name} + PLACED ( {cell.box[0]} {cell.box[1]} ) N ;"
    yield "END COMPONENTS"
    yield from def_pins(chip, ports)
    yield from def_lines_of_excitation(chip)
    yield from def_nets(chip, ports)
    yield "END DESIGN"
