#!/usr/bin/env python3
"""The places of shapes and labels as a marker file for KLayout.

  .. | markers.py OUT.lyrdb [--top NAME]

Standard input has lines as these, coordinates in nanometres:

  shape 8 layer 11 datatype 0 box 4700 11700 5300 12300
  label 15 layer 30 at 3000 500

A line as `aqfp: rule G3: shapes 8 8` among them is the rule under which those that follow are shown. Other lines are
refused. OUT.lyrdb is written, and a line for each place is printed, in micrometres. To see it:

  klayout -l klayout.lyp CHIP.gds -m OUT.lyrdb
"""
import sys

sys.dont_write_bytecode = True
from aqfp_files import Arguments, Stop, run, standard_input
from aqfp_markers import RULE, place_of, write_markers


def main():
    parser = Arguments("markers", __doc__)
    parser.add_argument("out", metavar="OUT.lyrdb", help="the marker file that is written")
    parser.add_argument("--top", metavar="NAME", default="TOP", help="the top structure of the chip; TOP if not given")
    words = parser.parse_args()
    if not words.top.isprintable():
        raise Stop(f"--top {words.top}: a name without control bytes, in UTF-8")
    rule, items = "places", {}
    for number, line in enumerate(standard_input("a line as shape N layer L datatype T box X0 Y0 X1 Y1"), 1):
        found = RULE.fullmatch(line)
        if found:
            rule = found[1]
            continue
        place = place_of(line)
        if place is None:
            raise Stop(f"standard input: line {number}: no shape and no label: {line[:60]}")
        if (rule, place.value) not in items:
            print(f"{rule}: {place.told}" if rule != "places" else place.told)
            items[rule, place.value] = None
    if not items:
        raise Stop("standard input has no shape and no label")
    write_markers(words.out, words.top, items)


run(main)
