#!/usr/bin/env python3
"""The rules of a layout, and where they are broken: in words, and as markers for KLayout.

  check.py CHIP.gds LIB.toml [--deck] [--markers FILE.lyrdb]

`aqfp report` tries the rules. Of the first that is broken the two shapes are told, each with the cell whose frame holds
it or is nearest to it; its name n0, n1, .. is that of the netlist that `aqfp netlist` writes, where the shapes make a
circuit. With --deck KLayout tries its deck aqfp.drc too, which finds all breaks of the rules of geometry at once,
counted by place. What was found is written to FILE.lyrdb, by default CHIP.lyrdb in the working folder; nothing is
written where all is kept.

Ends with 0 where all rules are kept, and with 1 where one is broken, or with one line on standard error where the files
can't be read. AQFP names the program, if it is not found beside this folder or as a command.
"""
import os
import pathlib
import re
import subprocess
import sys
import tempfile
import xml.etree.ElementTree

sys.dont_write_bytecode = True
from aqfp_files import Arguments, Stop, run, one_line
from aqfp_layouts import Layout
from aqfp_markers import RULE, Place, corners, micrometres, place_of, write_markers
from aqfp_program import HERE, answer

USAGE, BROKEN = 1, 12
# So many places of a rule are told in words; the marker file has all.
TOLD = 20
# The rules that make a circuit, which are tried before all others.
CIRCUIT = ("E1", "E2", "E3", "E4", "E6")


def first_break(chip, library):
    """The first rule that is broken, and the places of its shapes; or nothing, and the counts of the chip."""
    status, out, line = answer("report", chip, library)
    if status == 0:
        return None, out.splitlines()[0]
    found = RULE.fullmatch(line)
    if status == USAGE:
        raise Stop(f"{chip} {library}: a name that aqfp does not take: it has to be UTF-8")
    if status != BROKEN or not found:
        raise Stop(f"{line.removeprefix('aqfp: ')}; why.py report says more")
    status, out, _ = answer("shapes", chip, *found.groups()[1:])
    places = [place_of(each) for each in dict.fromkeys(out.splitlines())] if status == 0 else []
    return found[1], [place for place in places if place is not None]


def deck_breaks(chip, library, folder):
    """What KLayout's deck finds: its lines about parts of rules that are broken, and for each place its rule."""
    report = folder / "deck.lyrdb"
    words = ["klayout", "-z", "-b", "-r", HERE / "aqfp.drc"]
    for each in (f"gds={os.path.abspath(chip)}", f"library={os.path.abspath(library)}", f"report={report}"):
        words += ["-rd", each]
    environment = {**os.environ, "QT_QPA_PLATFORM": "offscreen"}
    try:
        ended = subprocess.run(words, stdin=subprocess.DEVNULL, capture_output=True, env=environment)
    except FileNotFoundError:
        raise Stop("klayout is not found: --deck needs it") from None
    if ended.returncode != 0 or not report.exists():
        lines = ended.stderr.decode("utf-8", "surrogateescape").strip().splitlines()
        raise Stop(f"klayout: {lines[0].removeprefix('aqfp.drc: ') if lines else 'ended without a word'}")
    lines = ended.stdout.decode("utf-8", "replace").splitlines()
    broken = [line for line in lines if re.match(r"G\d .*: [1-9]", line)]
    return broken, [found for item in xml.etree.ElementTree.parse(report).iter("item") for found in found_in(item)]


def found_in(item):
    """The place of an item of KLayout's marker file."""
    rule = item.findtext("category").strip("'\"")
    for value in item.iter("value"):
        numbers = [round(1000 * float(each)) for each in re.findall(r"-?\d+(?:\.\d+)?(?:e-?\d+)?", value.text)]
        box = min(numbers[0::2]), min(numbers[1::2]), max(numbers[0::2]), max(numbers[1::2])
        yield rule, Place(corners(box), value.text, box)


def tell(layout, named, rule, place):
    """Prints a place, and the cell that it is in or near."""
    print(f"{rule}: {place.told}")
    best = layout.near(place.box)
    if best is None:
        print("  there is no cell")
        return
    away, cell = best
    holds = cell.box[0] <= place.box[0] and cell.box[1] <= place.box[1] and (
        cell.box[2] >= place.box[2] and cell.box[3] >= place.box[3])
    how = "in" if holds else "at" if away == 0 else f"{micrometres(away)} um from"
    print(f"  {how} {cell.told(named)}")


def tell_all(layout, named, breaks):
    """Prints the first places of each rule, and how many more there are."""
    rules = {}
    for rule, place in breaks:
        rules.setdefault(rule, []).append(place)
    for rule, places in rules.items():
        for place in places[:TOLD]:
            tell(layout, named, rule, place)
        if len(places) > TOLD:
            print(f"{rule}: {len(places) - TOLD} places more")


def checked(words, markers, folder):
    """Tries the rules, tells what is broken, and answers the status to end with."""
    rule, found = first_break(words.chip, words.library)
    breaks = [(rule, place) for place in found] if rule else []
    if rule:
        print(f"rule {rule} is broken, the first in the order of docs/rules.md")
    else:
        print(found)
    parts, deck = deck_breaks(words.chip, words.library, folder) if words.deck else ([], [])
    if rule is None:
        print("keeps all rules")
    if words.deck and not deck:
        print("KLayout's deck finds nothing")
    if rule is None and not deck:
        return 0
    layout = Layout(words.chip)
    named = rule not in CIRCUIT
    tell_all(layout, named, breaks)
    if deck:
        print("KLayout's deck finds", *parts, sep="\n  ")
        tell_all(layout, named, deck)
    items = {(name, place.value): None for name, place in breaks}
    items.update({(f"deck {name}", place.value): None for name, place in deck})
    write_markers(markers, layout.top, items)
    counted = f"{len(items)} marker" + "s" * (len(items) != 1)
    print(f"{counted} in {one_line(markers)}: klayout {one_line(words.chip)} -m {one_line(markers)}")
    return 1


def main():
    parser = Arguments("check", __doc__)
    parser.add_argument("chip", metavar="CHIP.gds", help="a layout")
    parser.add_argument("library", metavar="LIB.toml", help="the library whose numbers the rules take")
    parser.add_argument("--deck", action="store_true", help="KLayout's deck too")
    parser.add_argument("--markers", metavar="FILE.lyrdb", help="the marker file; CHIP.lyrdb here if not given")
    words = parser.parse_args()
    markers = words.markers or pathlib.Path(words.chip).with_suffix(".lyrdb").name
    for each in (words.chip, words.library):
        if os.path.exists(markers) and os.path.exists(each) and os.path.samefile(markers, each):
            raise Stop(f"{each}: the marker file would take its place; --markers names another")
    with tempfile.TemporaryDirectory() as name:
        sys.exit(checked(words, markers, pathlib.Path(name)))


run(main)
