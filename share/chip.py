#!/usr/bin/env python3
"""A chip as data, as a picture, as a page for a browser, and in LEF and DEF.

  chip.py CHIP.gds LIB [--net NET.blif] --json CHIP.json
  chip.py CHIP.gds LIB [--net NET.blif] --svg CHIP.svg
  chip.py CHIP.gds LIB [--net NET.blif] [--words WORDS] --html CHIP.html
  chip.py CHIP.gds LIB [--net NET.blif] --lef CHIP.lef --def CHIP.def

CHIP.gds is a chip that keeps all rules with LIB, as `aqfp verify` tries them. NET.blif, the netlist that it was built
from, names its inputs and outputs. The page stands alone; with WORDS it plays what `aqfp trace` says of them. A FILE
that is `-` is standard output. The environment's AQFP names the program; else it is the one beside this folder or on
the PATH. docs/chip.md says what is in each file.
"""
import gc
import json
import os
import pathlib
import re
import shutil
import subprocess
import sys
import tempfile

sys.dont_write_bytecode = True
from aqfp_files import Arguments, Stop, ports, run
from aqfp_layout import KIND_NAMES, Chip
from chip_def import def_lines, lef_lines
from chip_page import Words, page_text, svg_lines

HERE = pathlib.Path(__file__).resolve().parent


# The program

def program():
    """The program's path."""
    named = os.environ.get("AQFP")
    beside = [HERE.parent / "aqfp", HERE.parent.parent / "bin/aqfp"]
    found = named or next((str(path) for path in beside if path.is_file()), None) or shutil.which("aqfp")
    if not found:
        raise Stop("no program aqfp: set AQFP to its path")
    return found


def start(*words):
    """A run of the program that goes on beside this script."""
    try:
        return subprocess.Popen([program(), *map(str, words)], stdout=subprocess.PIPE, stderr=subprocess.PIPE)
    except PermissionError:
        raise Stop(f"{program()}: is not to be run") from None


def end(process):
    """What a run printed; if it was refused, its line ends this script."""
    out, errors = (part.decode("utf-8", "replace") for part in process.communicate())
    if process.returncode:
        raise Stop((errors.splitlines() or [f"aqfp ended with status {process.returncode}"])[0])
    return out


def read_report(text):
    """What `aqfp report` says, by the names that the page docs/chip.md has for it."""
    numbers = [[int(word) for word in re.findall(r"\d+", line)] for line in text.splitlines()]
    if len(numbers) < 6 or [len(each) for each in numbers[:6]] != [4, 7, 1, 2, 2, 3]:
        raise Stop("aqfp report says something else than this script reads")
    (rows, cells, wires, delay), kinds, (junctions,), (width, height), (longest, limit), *rest = numbers
    (skew, even, odd), *each_row = rest
    return {"rows": rows, "cells": cells, "wires": wires, "delay": delay,
            "kinds": dict(zip(("buffer", "inverter", "zero", "one", "split2", "split3", "majority"), kinds)),
            "junctions": junctions, "width": width, "height": height, "area": width * height,
            "longest": longest, "limit": limit, "skew": skew, "even_ahead": even, "odd_ahead": odd,
            "each_row": [dict(zip(("row", "phase", "cells", "wires", "longest", "skew"), row)) for row in each_row]}


def read_words(chip, library, words, folder):
    """The words of a file, and the signs that the cells of each row show for them, as `aqfp trace` prints them."""
    given = pathlib.Path(words).read_bytes()
    copy = pathlib.Path(folder) / "words"
    copy.write_bytes(given)
    process = start("trace", chip.path, library, copy)
    rows = {}
    for line in process.stdout:
        if line.startswith(b"rows "):
            continue
        time, row, fluxes = line.split()
        word, phase = divmod(int(time) - int(row), 4)
        if phase == 0 and word >= 0:
            rows.setdefault(word, []).append(fluxes)
    signs = [b"".join(rows[word]) for word in sorted(rows) if len(rows[word]) == len(chip.rows)]
    end(process)
    lines = given.decode("ascii").split("\n")[:len(signs)]
    if any(len(each) != len(chip.cells) for each in signs):
        raise Stop("aqfp trace says something else than this script reads")
    return Words([line.removesuffix("\r") for line in lines], signs)


def read_chip(gds, library, folder):
    """The chip of a stream and what the program reports of it. The circuit of the shapes, as they are read here, has to
    be the one that the program extracts."""
    circuit = pathlib.Path(folder) / "circuit.blif"
    reported, extracted = start("report", gds, library), start("netlist", gds, library, circuit)
    report = read_report(end(reported))
    end(extracted)
    chip = Chip(gds)
    if "\n".join(chip.netlist()) + "\n" != circuit.read_text():
        raise Stop(f"{gds}: its shapes make another circuit here than for aqfp netlist; please report this")
    return chip, report


# Names

def read_names(path, chip):
    """The names that a netlist gives to the inputs and outputs of a chip; without one they are none."""
    counts = (len(chip.inputs), len(chip.outputs))
    if path is None:
        return [None] * counts[0], [None] * counts[1]
    names = ports(path)
    if tuple(map(len, names)) != counts:
        raise Stop(f"{path}: {len(names[0])} inputs and {len(names[1])} outputs, and the chip has {counts[0]} and "
                   f"{counts[1]}")
    for name in (*names[0], *names[1]):
        if any("\ud800" <= letter <= "\udfff" for letter in name):
            given = name.encode("utf-8", "surrogateescape").decode("utf-8", "backslashreplace")
            raise Stop(f"{path}: a name is no UTF-8: {given}")
    return names


def title_of(path):
    """A file's name as text, whatever its bytes are."""
    return os.fsencode(path.rpartition("/")[2]).decode("utf-8", "replace")


# Data

def slot_width(library):
    """The width of a slot in nanometres, by the numbers of a library."""
    with open(library, encoding="utf-8", errors="replace") as file:
        text = file.read()
    numbers = [re.search(rf"^[ \t]*[\"']?{key}[\"']?[ \t]*=[ \t]*\+?(0[xob][0-9a-fA-F_]+|[0-9_]+)", text, re.M)
               for key in ("columns", "pitch")]
    if None in numbers:
        return None
    columns, pitch = (int(found[1], 0) for found in numbers)
    return columns * pitch


def port_facts(letter, ends, names, chip):
    """Each input or output: its label, name, cell and pin."""
    return [{"label": f"{letter}{number}", "name": names[number], "cell": f"n{chip.pins[each][0]}",
             "pin": chip.pins[each][1]} for number, each in sorted(ends.items())]


def facts_of(chip, report, library, names):
    """All that the JSON text has."""
    slot, left = slot_width(library), min(cell.box[0] for cell in chip.cells)
    cells = []
    for place, (cell, feeds) in enumerate(zip(chip.cells, chip.feeds())):
        x0, y0, x1, y1 = cell.box
        whole = slot and (x0 - left) % slot == 0
        cells.append({"name": f"n{place}", "kind": KIND_NAMES[cell.kind], "row": cell.row, "x": x0, "y": y0,
                      "width": x1 - x0, "height": y1 - y0, "slot": (x0 - left) // slot if whole else None,
                      "feeds": feeds})
    wires = [{"source": f"n{wire.source}", "source_pin": wire.source_pin, "target": f"n{wire.target}",
              "target_pin": wire.target_pin, "row": chip.cells[wire.source].row, "length": wire.length}
             for wire in chip.wires]
    rows = [{**row, "y": edge} for row, edge in zip(report["each_row"], chip.edges)]
    counts = {key: report[key] for key in ("rows", "cells", "wires", "delay", "kinds", "junctions", "width", "height",
                                           "area", "longest", "limit", "skew", "even_ahead", "odd_ahead")}
    return {"chip": title_of(chip.path), "library": title_of(library),
            "counts": {**counts, "total_length": sum(wire.length for wire in chip.wires)},
            "inputs": port_facts("I", chip.inputs, names[0], chip),
            "outputs": port_facts("O", chip.outputs, names[1], chip), "rows": rows, "cells": cells, "wires": wires}


def json_lines(facts):
    """JSON with a line for each entry of a list."""
    keys = list(facts)
    yield "{"
    for key in keys:
        comma = "," * (key != keys[-1])
        if not isinstance(facts[key], list):
            yield f"{json.dumps(key)}: {json.dumps(facts[key])}{comma}"
            continue
        yield f"{json.dumps(key)}: ["
        last = len(facts[key]) - 1
        yield from (json.dumps(each) + "," * (place < last) for place, each in enumerate(facts[key]))
        yield f"]{comma}"
    yield "}"


# Words of the command line

def put(path, lines):
    """Writes lines to a file, or to standard output."""
    if path == "-":
        sys.stdout.reconfigure(encoding="utf-8")
        sys.stdout.writelines(line + "\n" for line in lines)
        return
    with open(path, "w", encoding="utf-8") as file:
        file.writelines(line + "\n" for line in lines)


def read_command():
    parser = Arguments("chip", __doc__)
    parser.add_argument("chip", metavar="CHIP.gds", help="a chip, as build or another tool stored it")
    parser.add_argument("library", metavar="LIB", help="the library of its cells")
    parser.add_argument("--net", metavar="NET.blif", help="the netlist that the chip was built from")
    parser.add_argument("--words", metavar="WORDS", help="words that the page plays")
    for name, what in (("json", "its cells, wires, rows and sizes"), ("svg", "a picture"),
                       ("html", "a page for a browser"), ("lef", "its cells for other tools"),
                       ("def", "where its cells and wires are, for other tools")):
        parser.add_argument(f"--{name}", metavar="FILE", dest=f"to_{name}", help=what)
    words = parser.parse_args()
    if not any((words.to_json, words.to_svg, words.to_html, words.to_lef, words.to_def)):
        parser.error("nothing is asked for: --json, --svg, --html, --lef or --def")
    if words.words and not words.to_html:
        parser.error("--words wants --html")
    return words


def main():
    words = read_command()
    gc.disable()  # what is read is kept to the end, and has no loops
    with tempfile.TemporaryDirectory() as folder:
        chip, report = read_chip(words.chip, words.library, folder)
        names = read_names(words.net, chip)
        played = read_words(chip, words.library, words.words, folder) if words.words else None
    title = title_of(words.chip)
    if words.to_json:
        put(words.to_json, json_lines(facts_of(chip, report, words.library, names)))
    if words.to_svg:
        put(words.to_svg, svg_lines(chip, title, names))
    if words.to_html:
        put(words.to_html, page_text(chip, report, title, names, played))
    if words.to_lef:
        put(words.to_lef, lef_lines(chip, title))
    if words.to_def:
        put(words.to_def, def_lines(chip, title, names))


run(main)
