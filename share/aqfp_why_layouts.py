"""What the faults of a chip mean, for the files at hand: sizes above a limit, broken rules, words that don't fit."""
import os

from aqfp_files import ports, one_line
from aqfp_layouts import Layout
from aqfp_markers import place_of
from aqfp_program import answer
from aqfp_why_libraries import FAR, FAR_REACH, far_library, read

LIMITS = {"cells": (2_000_000, "cells, repeaters too"),
          "slots": (2_000_000_000, "nanometres of the widest row; the number is the slots that it spans"),
          "rows": (2_147_483_647, "nanometres of height with all channels full; the number is the rows"),
          "elements": (2_000_000, "elements of the structure TOP"),
          "design": (16_777_216, "the size of a design with each call expanded"),
          "functions": (1_000_000, "subfunctions of the two circuits"),
          "shapes": (8_000_000, "shapes and labels, each reference counted by what it stands for")}
BUILT = ("cells", "rows", "elements", "slots")  # what a chip has too much of
SMALLER = {"cells": "shallower logic, splitters of three (split3), compact in place of build, or parts of the netlist",
           "slots": "fewer inputs side by side, a smaller pitch, or fewer columns a slot",
           "rows": "shallower logic, lower cells, fewer tracks (capacity), or a smaller pitch",
           "elements": "fewer cells: shallower logic, compact in place of build, or parts of the netlist",
           "design": "fewer calls of large models: build parts of it", "shapes": "check a part of the layout",
           "functions": "compare parts of the chip by themselves (docs/equal.md), or by cec of ABC with aqfp netlist"}
RULES = {"E1": "each frame is that of a cell with all its pins, and each pin lies in one frame",
         "E2": "the excitation lines are whole, and one bar lies over each frame, of the phase of its row",
         "E3": "an input pin is wired to one output pin, or is labelled",
         "E4": "a wire comes from the row just below",
         "E6": "the pins of the lowest row and of the last row are labelled I0, I1, .. and O0, O1, ..",
         "G1": "shapes are as wide as wire, via and pin of the library",
         "G2": "shapes that don't touch are as far apart as space of the library",
         "G3": "a via is enclosed by M1 and by M2, as far as enclose of the library",
         "G4": "no metal lies over a cell, but M1 over a pin",
         "G5": "cells don't overlap, and those of one height stand in one row",
         "E5": "a net is no longer than limit of the library"}
SIZES = {"G1": ("wire", "via", "pin"), "G2": ("space",), "G3": ("enclose",), "E5": ("limit",)}


def explain_size(command, number, what):
    """Says what a line of status 10 means: `too large: N WHAT`."""
    most, of_what = LIMITS.get(what, (0, what))
    yield f"{number} {what}; the limit is {most} {of_what}"
    if command.name == "compact" and what in BUILT:
        yield "the number is that of build's chip: the search found none within the limits"
    if command.name in ("build", "compact", "draw") and what in BUILT:
        yield from with_far_library(command, what)
    if what in SMALLER:
        yield f"what makes it smaller: {SMALLER[what]}"
    yield "look at docs/limits.md, docs/statuses.md (\"Limits\") and docs/guide.md (\"How large a chip may be\")"


def with_far_library(command, what):
    """Whether the reach of the library is the cause: the command with wires that reach further."""
    text, reach, far = far_library(command.words["LIB"])
    library = command.folder / "far.toml"
    library.write_text(text)
    numbers = " and ".join(f"{key} = {value}" for key, value in FAR.items())
    yield f"wires of the library reach {reach} slots; with {numbers} they reach {far}"
    status, out, line = answer(command.name, command.words["NET"], library, command.folder / "far")
    if status == 0:
        yield f"so {command.name} makes a chip: {out.splitlines()[0]}"
        yield "reach is the cause: a greater limit and more tracks (capacity) together make it smaller"
        yield "look at docs/library.md, \"The reach\""
    elif what == "slots":
        yield f"so {command.name} says: {line}: the width of a row is the cause, not the reach"
    elif command.name == "compact":
        yield f"so compact says: {line}: it finds no chip with these either, so reach alone is not the cause"
    elif command.line == line:
        yield f"{command.name} says the same of it: reach is not the cause"
    else:
        yield f"so {command.name} says: {line}: a greater reach helps, and is not enough"


def explain_rule(command, rule, first, second):
    """Says what a line of status 12 means: `rule R: shapes A B`."""
    yield f"{rule}: {RULES.get(rule, 'a rule')}"
    chip = command.words["GDS"]
    status, out, _ = answer("shapes", chip, first, second)
    places = [place_of(line) for line in dict.fromkeys(out.splitlines())] if status == 0 else []
    layout = Layout(chip)
    for place in (place for place in places if place):
        best = layout.near(place.box)
        yield place.told + (f"; the nearest cell is {best[1].told(False)}" if best else "; there is no cell")
    library = read(command.words["LIB"])
    if rule in SIZES:
        yield "the library has " + ", ".join(f"{key} = {library[key]}" for key in SIZES[rule])
    if rule == "E5":
        yield "a chip that was made with a library of a greater limit breaks this rule: verify it with that library"
    yield "share/check.py says more and makes markers; with --deck it finds all breaks of geometry at once"
    yield "look at docs/rules.md"


def explain_words(command, line):
    """Says what a line of status 13 means: `words: line L`."""
    circuit = command.folder / "circuit.blif"
    status, _, _ = answer("netlist", command.words["GDS"], command.words["LIB"], circuit)
    width = len(ports(circuit)[0]) if status == 0 else None
    with open(command.words["WORDS"], "rb") as file:
        data = file.read()
    lines = data.split(b"\n")
    text = lines[line - 1].removesuffix(b"\r") if line <= len(lines) else b""
    told = one_line(text[:80].decode("utf-8", "surrogateescape"))
    yield f"line {line} is: {told}" if text else f"line {line} is empty"
    if width is not None:
        yield f"a word has {width} digits, one for each input of the chip, and this one has {len(text)} bytes"
    other = next((byte for byte in text if byte not in b"01"), None)
    if data.startswith(b"\xef\xbb\xbf"):
        yield "the file begins with a byte order mark: sed -i '1s/^\\xef\\xbb\\xbf//' takes it off"
    elif other is not None:
        yield f"the byte {other:02X} in it is no digit: a word is of 0 and 1 alone, without blanks"
    elif not text:
        yield "an empty line is a word of no digits: take it out"
    yield "share/words.py makes words of lines as `a=9 b=8`; look at docs/statuses.md, \"Words\""
