#!/usr/bin/env python3
"""Prints how large the chips are that several commands make of the same netlists, side by side.

  compact.py PROGRAM LIBRARY COMMAND,COMMAND,.. NETLIST|FOLDER ..

A folder stands for the netlists in it. A command is `build`, `compact` or `draw`; `compact=OTHER` is that of another
program, and `free` is `compact` where wires may be of any length. Each netlist gets a line for each command: figures,
seconds of processor, and what `equal` says of chip and netlist. Geometric means come last. docs/measuring.md says what
each figure is.
"""
import math
import os
import re
import resource
import struct
import subprocess
import sys
import tempfile

FRAMES = 20  # the layer of frames
BOUNDARY, SREF, LAYER, XY, ENDEL, SNAME, STRNAME = 0x08, 0x0A, 0x0D, 0x10, 0x11, 0x12, 0x06
TEXT, BGNSTR = 0x0C, 0x05


def records(data):
    at = 0
    while at + 4 <= len(data):
        length, kind = struct.unpack_from(">HB", data, at)
        if length < 4:
            return
        yield kind, data[at + 4 : at + length]
        at += length


def measured(path):
    """The area of the frames in square millimetres, and the elements of the last structure."""
    frames, name, elements = {}, b"", 0
    box = None
    layer = used = None
    points = ()
    for kind, body in records(open(path, "rb").read()):
        if kind == BGNSTR:
            elements = 0
        elif kind == STRNAME:
            name = body.rstrip(b"\0")
        elif kind in (BOUNDARY, SREF, TEXT):
            layer = used = None
            elements += 1
        elif kind == LAYER:
            layer = struct.unpack(">h", body)[0]
        elif kind == SNAME:
            used = body.rstrip(b"\0")
        elif kind == XY:
            points = struct.unpack(f">{len(body) // 4}i", body)
        elif kind == ENDEL:
            if layer == FRAMES and used is None:
                frames[name] = (max(points[0::2]), max(points[1::2]))
            elif used in frames:
                x, y = points[:2]
                wide, high = frames[used]
                corner = (x, y, x + wide, y + high)
                box = corner if box is None else (
                    min(box[0], x), min(box[1], y), max(box[2], corner[2]), max(box[3], corner[3]))
    if box is None:
        return 0.0, elements
    return (box[2] - box[0]) * (box[3] - box[1]) / 1e12, elements


def ran(words):
    """What a command gave, and how many seconds of processor it took."""
    before = resource.getrusage(resource.RUSAGE_CHILDREN)
    done = subprocess.run(words, capture_output=True, text=True, check=False)
    after = resource.getrusage(resource.RUSAGE_CHILDREN)
    return done, after.ru_utime + after.ru_stime - before.ru_utime - before.ru_stime


def netlists(words):
    """The netlists of words that name each one or a folder of them."""
    for word in words:
        if os.path.isdir(word):
            yield from sorted(os.path.join(word, one) for one in os.listdir(word) if one.endswith(".blif"))
        else:
            yield word


def freed(library, folder):
    """A copy of a library with wires of any length and wide channels."""
    with open(library, encoding="utf-8") as lines:
        text = lines.read()
    for key, value in ("capacity", 1000), ("limit", 2**31 - 1):
        text = re.sub(rf"(?m)^{key}\s*=\s*\d+", f"{key} = {value}", text)
    path = os.path.join(folder, "free.toml")
    with open(path, "w", encoding="utf-8") as file:
        file.write(text)
    return path


def statements(path):
    """The cells of a netlist that `netlist` wrote: what each reads, its own signal, whether it keeps what it reads."""
    words = []
    with open(path, encoding="ascii") as lines:
        for line in lines:
            part = line.split()
            if part[:1] == [".names"]:
                if words:
                    yield words[1:-1], words[-1], False
                words = part
            elif words and part and not part[0].startswith("."):
                yield words[1:-1], words[-1], part == ["1", "1"]
                words = []
    if words:
        yield words[1:-1], words[-1], False


def cells_of(path):
    """How many majorities a netlist of cells has, and how many cells stand in rows of nothing but buffers. Each cell
    stands one row above what it reads, and a constant one row below its user."""
    row, uses, cells = {}, {}, list(statements(path))
    for reads, own, _ in cells:
        known = [row[one] for one in reads if one in row]
        if reads:
            row[own] = 1 + max(known, default=-1)
        for one in reads:
            uses[one] = uses.get(one, 0) + 1
    for reads, own, _ in cells:
        for one in reads:
            row.setdefault(one, row[own] - 1)
    counts, others = {}, set()
    for reads, own, keeps in cells:
        place = row.get(own, 0)
        counts[place] = counts.get(place, 0) + 1
        if not keeps or uses.get(own, 0) > 1:
            others.add(place)
    majorities = sum(len(reads) == 3 for reads, _, _ in cells)
    return majorities, sum(count for place, count in counts.items() if place not in others)


def chip(program, command, net, library, folder):
    """The figures of a chip, or the line of its refusal."""
    gds = os.path.join(folder, "chip.gds")
    verb, _, other = command.partition("=")
    if verb == "free":
        verb, library = "compact", freed(library, folder)
    done, seconds = ran([other or program, verb, net, library, gds])
    if done.returncode:
        return None, done.stderr.strip()
    words = done.stdout.split()
    rows, cells, wires = int(words[1]), int(words[3]), int(words[5])
    text = os.path.join(folder, "chip.blif")
    ran([program, "netlist", gds, library, text])
    majorities, spare = cells_of(text)
    area, elements = measured(gds)
    said, _ = ran([program, "equal", gds, library, net])
    verdict = said.stdout.strip() or said.stderr.strip()
    return (cells, 2 * cells + 4 * majorities, rows, wires, area, elements, spare / cells, seconds), verdict


def main():
    if len(sys.argv) < 5:
        sys.exit(__doc__.strip())
    program, library, commands = sys.argv[1], sys.argv[2], sys.argv[3].split(",")
    print(f"{'netlist':<24} {'command':<8} {'cells':>8} {'JJ':>8} {'rows':>5} {'wires':>8} {'mm2':>8} {'elements':>8} "
          f"{'buffers':>7} {'seconds':>8}  equal")
    logs = {command: [] for command in commands[:-1]}
    for net in netlists(sys.argv[4:]):
        name = os.path.splitext(os.path.basename(net))[0]
        found = {}
        with tempfile.TemporaryDirectory() as folder:
            for command in commands:
                figures, said = chip(program, command, net, library, folder)
                if figures is None:
                    print(f"{name:<24} {command:<8} {said}")
                    continue
                found[command] = figures[0]
                label = command.split("=")[0]
                print(f"{name:<24} {label:<8} {figures[0]:>8} {figures[1]:>8} {figures[2]:>5} {figures[3]:>8} "
                      f"{figures[4]:>8.4f} {figures[5]:>8} {figures[6]:>7.2f} {figures[7]:>8.3f}  {said}", flush=True)
        for command in logs:
            if command in found and commands[-1] in found:
                logs[command].append((found[command], math.log(found[command] / found[commands[-1]])))
    for command, pairs in logs.items():
        for least, which in (0, "of which both are stored"), (6, "of these with more than five cells"):
            each = [log for cells, log in pairs if cells >= least]
            if each:
                print(f"{len(each)} netlists {which}: {math.exp(sum(each) / len(each)):.2f} times fewer "
                      f"cells by {commands[-1]} than by {command} (geometric mean)")


if __name__ == "__main__":
    main()
