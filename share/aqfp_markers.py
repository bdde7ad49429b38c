"""Places of shapes and labels, in words and as markers for KLayout."""
import re
from dataclasses import dataclass
from xml.sax.saxutils import escape

from aqfp_files import one_line

WHAT = {10: "M1", 11: "via", 12: "M2", 20: "frame", 21: "input pin", 22: "output pin", 30: "label"}
LINES = {14: "even line", 15: "odd line"}
PARTS = {0: "bar", 1: "link", 2: "start"}
FRAMES = {1: "buffer", 2: "inverter", 3: "constant zero", 4: "constant one", 5: "splitter of two",
          6: "splitter of three", 7: "majority"}
COUNT, NUMBER = "([0-9]{1,10})", "(-?[0-9]{1,10})"
RULE = re.compile(r"aqfp: rule ([EG][0-9]): shapes ([0-9]+) ([0-9]+)")
SHAPE = re.compile(f"shape {COUNT} layer {COUNT} datatype {COUNT} box " + " ".join([NUMBER] * 4))
LABEL = re.compile(f"label {COUNT} layer {COUNT} at {NUMBER} {NUMBER}")


@dataclass
class Place:
    """A shape or a label in words, as the value of a marker, and its rectangle in nanometres."""
    told: str
    value: str
    box: tuple


def what_is(layer, datatype):
    """What lies on a layer, in words."""
    if layer in LINES:
        return f"{PARTS.get(datatype, 'part')} of {LINES[layer]}"
    if layer == 20 and datatype in FRAMES:
        return f"frame of a {FRAMES[datatype]}"
    if layer in (21, 22):
        return f"{WHAT[layer]} {datatype}"
    return WHAT.get(layer, f"layer {layer}/{datatype}")


def micrometres(number):
    """A coordinate in micrometres."""
    return f"{int(number) / 1000:.10g}"


def corners(box):
    """The two corners of a rectangle, in words."""
    x0, y0, x1, y1 = map(micrometres, box)
    return f"{x0},{y0} to {x1},{y1} um"


def place_of(line):
    """The place that a line of `aqfp shapes` says, if it says one."""
    found = SHAPE.fullmatch(line)
    if found:
        name, layer, datatype, *box = (int(each) for each in found.groups())
        x0, y0, x1, y1 = map(micrometres, box)
        told = f"shape {name}, {what_is(layer, datatype)}: {corners(box)}"
        return Place(told, f"box: ({x0},{y0};{x1},{y1})", tuple(box))
    found = LABEL.fullmatch(line)
    if found:
        x, y = map(int, found.groups()[2:])
        at = f"{micrometres(x)},{micrometres(y)}"
        return Place(f"label {found[1]}: {at} um", f"label: ('label {found[1]}',r0 {at})", (x, y, x, y))
    return None


def write_markers(path, top, items):
    """Writes a marker file: each item is the name of a rule and the value of a marker."""
    top = escape(one_line(top))
    with open(path, "w", encoding="utf-8", errors="backslashreplace") as out:
        out.write('<?xml version="1.0" encoding="utf-8"?>\n<report-database>\n')
        out.write(f" <description>aqfp</description>\n <top-cell>{top}</top-cell>\n <categories>\n")
        for rule in dict.fromkeys(rule for rule, _ in items):
            out.write(f"  <category><name>{rule}</name></category>\n")
        out.write(f" </categories>\n <cells><cell><name>{top}</name></cell></cells>\n <items>\n")
        for rule, value in items:
            out.write(f"  <item><category>'{rule}'</category><cell>{top}</cell>"
                      f"<values><value>{escape(value)}</value></values></item>\n")
        out.write(" </items>\n</report-database>\n")
