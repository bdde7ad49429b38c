#!/usr/bin/env python3
"""Puts two files of lines of the port side by side: cells, junctions, rows and seconds of each netlist, and the
geometric means of the second file's numbers over the first one's.

  bench/port/compare.py OLD NEW
"""
import math
import re
import sys

KEYS = "cells", "jj", "rows", "user"


def read(path):
    """The numbers of each run, by netlist, library and reach."""
    runs = {}
    with open(path) as lines:
        for line in lines:
            words = line.split()
            if len(words) > 3 and words[2].startswith("reach="):
                found = re.findall(r"\b(cells|jj|rows|user)=([\d.]+)", line.split("[")[0])
                runs[tuple(words[:3])] = {key: float(number) for key, number in found}
    return runs


old, new = read(sys.argv[1]), read(sys.argv[2])
ratios = {key: [] for key in KEYS}
for run in sorted(set(old) & set(new)):
    said = []
    for key in KEYS:
        before, after = old[run].get(key), new[run].get(key)
        if before and after:
            ratios[key].append(after / before)
            said.append(f"{key} {before:g} -> {after:g} ({100 * (after / before - 1):+.1f}%)")
    print("%-12s %s %-9s" % run, " | ".join(said))
for key, of_key in ratios.items():
    if of_key:
        print(f"{key:6} mean ratio {math.exp(sum(map(math.log, of_key)) / len(of_key)):.4f} over {len(of_key)}")
