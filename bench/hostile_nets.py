#!/usr/bin/env python3
"""What netlists cost that are made to be slow for `compact` or `draw`, beside ordinary ones with as many cells.

    hostile_nets.py [--library LIB] [--seconds N] [--doublings N] [--short] [KIND ..]

For each kind a line for each of three sizes, doubled each time: bytes, the chip or the refusal, seconds of processor
time over those of an ordinary netlist with as many cells, and megabytes at most: for `compact` in bytes for each cell
of the largest net on the way, for `draw` over those of an ordinary netlist; then the exponents with which both grow.
Then what HOPELESS netlists take over the chip of a netlist a third as large. --short begins at half the sizes and
leaves these out. KIND may be `compact`, `draw` or `hopeless`. docs/measuring.md says the kinds and what is wanted; the
status is 1 where a figure is above. AQFP names the program. Needs GNU time."""
import argparse
import pathlib
import random
import re
import sys
import tempfile

from hostile_texts import A_BIT, adder
from measured import Run, SHORT, Series, TOP, least, own_memory, program


def netlist(inputs, outputs, lines):
    return "\n".join([".inputs " + " ".join(inputs), ".outputs " + " ".join(outputs), *lines, ".end", ""])


def ordinary(count):
    """Random gates of two inputs, each of which names some of the last 400 signals."""
    draw = random.Random(count)
    signals, lines, used = [f"x{k}" for k in range(40)], [], set()
    rows = ("11 1", "00 1", "10 1", "1- 1\n-1 1", "10 1\n01 1")
    for k in range(count):
        one, other = draw.sample(signals[-400:], 2)
        used |= {one, other}
        lines.append(f".names {one} {other} g{k}\n{draw.choice(rows)}")
        signals.append(f"g{k}")
    return netlist(signals[:40], [it for it in signals[40:] if it not in used], lines)


def shown_chain(count):
    """A chain of gates each of which is an output too."""
    lines, last = [], "a"
    for k in range(count):
        lines.append(f".names {last} b g{k}\n" + ("10 1\n01 1" if k % 2 else "11 1"))
        last = f"g{k}"
    return netlist(["a", "b"], [f"g{k}" for k in range(count)], lines)


def shown_ands(count):
    """A chain of conjunctions with inputs of their own, each of which is an output too."""
    lines, last = [], "a"
    for k in range(count):
        lines.append(f".names {last} x{k} g{k}\n11 1")
        last = f"g{k}"
    return netlist(["a", *(f"x{k}" for k in range(count))], [f"g{k}" for k in range(count)], lines)


def shown_deep(count):
    """The same with exclusive ors between them, so that the chain stays as deep as it is long."""
    lines, last = [], "a"
    for k in range(count):
        lines.append(f".names {last} x{k} g{k}\n" + ("10 1\n01 1" if k % 2 else "11 1"))
        last = f"g{k}"
    return netlist(["a", *(f"x{k}" for k in range(count))], [f"g{k}" for k in range(count)], lines)


def tables(count):
    """Random tables of six inputs in a chain."""
    draw = random.Random(count)
    lines, last = [], "x0"
    for k in range(count):
        names = " ".join(f"x{k + j + 1}" for j in range(5))
        rows = [f"{row:06b} 1" for row in range(64) if draw.random() < 0.5]
        lines.append("\n".join([f".names {last} {names} t{k}", *rows]))
        last = f"t{k}"
    return netlist([f"x{k}" for k in range(count + 5)], [last], lines)


def apart(count):
    """Random tables of six inputs beside one another, of 24 inputs."""
    draw = random.Random(count)
    lines = []
    for k in range(count):
        names = " ".join(draw.sample([f"x{j}" for j in range(24)], 6))
        rows = [f"{row:06b} 1" for row in range(64) if draw.random() < 0.5]
        lines.append("\n".join([f".names {names} t{k}", *rows]))
    return netlist([f"x{k}" for k in range(24)], [f"t{k}" for k in range(count)], lines)


def cubes(count):
    """A sum of as many products as there are inputs."""
    draw = random.Random(count)
    inputs = [f"x{k}" for k in range(count)]
    rows = ["".join(draw.choice("01-") for _ in inputs) + " 1" for _ in inputs]
    return netlist(inputs, ["y"], ["\n".join([f".names {' '.join(inputs)} y", *rows])])


def majorities(count):
    """A chain of majorities, each of the one before and two inputs of its own."""
    lines, last = [], "x0"
    for k in range(count):
        lines.append(f".names {last} x{2 * k + 1} x{2 * k + 2} m{k}\n11- 1\n1-1 1\n-11 1")
        last = f"m{k}"
    return netlist([f"x{k}" for k in range(2 * count + 1)], [last], lines)


def adder_of(bits):
    """An adder of so many bits."""
    return adder(bits * A_BIT)


def shuffled(text):
    """A netlist of cells in another order of the text, so that this says nothing of places."""
    head, *cells = text.split(".names ")
    random.Random(1).shuffle(cells)
    return ".names ".join([head, *cells]).replace(".end\n", "") + ".end\n"


def mixed(count):
    """So many inputs, each split to three majorities chosen by chance: most wires are long in every order, so that rows
    are added."""
    draw, chosen = random.Random(count), [[k] for k in range(count)]
    for _ in range(2):
        order = draw.sample(range(count), count)
        for k in range(count):  # a signal that a majority has already goes to another one that lacks both
            while order[k] in chosen[k]:
                other = draw.randrange(count)
                if order[k] not in chosen[other] and order[other] not in chosen[k]:
                    order[k], order[other] = order[other], order[k]
        for k in range(count):
            chosen[k].append(order[k])
    lines = [f".names x{k} a{k}\n1 1\n.names a{k} s{k}\n1 1" for k in range(count)]
    lines += [f".names {' '.join(f's{j}' for j in three)} m{k}\n11- 1\n1-1 1\n-11 1\n.names m{k} o{k}\n1 1\n"
              f".names o{k} y{k}\n1 1" for k, three in enumerate(chosen)]
    return netlist([f"x{k}" for k in range(count)], [f"y{k}" for k in range(count)], lines)


def lanes(count):
    """So many chains of sixteen buffers side by side: a wide chip in which nothing has to move."""
    lines = []
    for k in range(count):
        lines.append(f".names x{k} b{k}_0\n1 1")
        lines += [f".names b{k}_{row} b{k}_{row + 1}\n1 1" for row in range(15)]
        lines.append(f".names b{k}_15 y{k}\n1 1")
    return netlist([f"x{k}" for k in range(count)], [f"y{k}" for k in range(count)], lines)


def tower(count):
    """Four chains of so many buffers each: a chip of many rows."""
    lines = []
    for k in range(4):
        lines.append(f".names x{k} b{k}_0\n1 1")
        lines += [f".names b{k}_{row} b{k}_{row + 1}\n1 1" for row in range(count)]
        lines.append(f".names b{k}_{count} y{k}\n1 1")
    return netlist([f"x{k}" for k in range(4)], [f"y{k}" for k in range(4)], lines)


KINDS = {"shown_chain": (shown_chain, 100), "shown_ands": (shown_ands, 100), "shown_deep": (shown_deep, 50),
         "tables": (tables, 10), "apart": (apart, 20), "cubes": (cubes, 20), "majorities": (majorities, 100),
         "random": (ordinary, 200)}

# What `netlist` stores of the chip of a command, in the order of its text or in another one, or a netlist of cells.
DRAWN = {"built": (("build", adder_of, False), 40), "compacted": (("compact", ordinary, False), 200),
         "mixed_up": (("build", adder_of, True), 40), "mixed": (mixed, 100), "lanes": (lanes, 500),
         "tower": (tower, 1_000)}

HOPELESS = {"apart": (apart, 480), "ordinary": (ordinary, 9_600)}


class Bench:
    """The program, a library and a folder, and what ordinary netlists took: pairs of cells and runs."""

    def __init__(self, words, folder):
        self.path, self.library, self.seconds, self.folder = program(), words.library, words.seconds, folder
        self.net, self.chip = folder / "net.blif", folder / "chip.gds"
        self.own = own_memory(self.path, folder)

    def ran(self, command, text):
        """A command that stores the chip of a netlist."""
        self.net.write_text(text)
        return least([self.path, command, self.net, self.library, self.chip], self.folder, self.seconds)

    def cells_of(self, command, text):
        """What `netlist` stores of the chip of a netlist, or None where there is none."""
        if self.ran(command, text).status != 0:
            return None
        stored = self.folder / "cells.blif"
        Run([self.path, "netlist", self.chip, self.library, stored], self.folder, self.seconds)
        return stored.read_text()

    def planned_cells(self):
        """How many cells the chip has that `build` makes of the netlist at hand, which `compact` makes on its way, or
        comes to where there are too many, as a sixth of its elements where these are; 0 where it tells neither."""
        run = Run([self.path, "build", self.net, self.library, self.chip], self.folder, self.seconds)
        told = re.search(r"(\d+) (cells|elements)", run.said)
        refused = int(told[1]) // (6 if told[2] == "elements" else 1) if told else 0
        return run.count("cells") or refused

    def ordinary(self, command, counts):
        """Runs of ordinary netlists: for `draw` what `netlist` stores of their chips by `build`."""
        plain = []
        for count in counts:
            text = ordinary(count) if command == "compact" else self.cells_of("build", ordinary(count))
            run = self.ran(command, text)
            print(f"{command} of {count} ordinary gates: {len(text):,} bytes, {run.said}, {run.seconds:.2f} s, "
                  f"{run.megabytes:.1f} MB", flush=True)
            if run.status == 0:
                plain.append((run.count("cells"), run))
        return plain

    def kind(self, command, name, make, counts, plain):
        """Prints the runs of a kind; how many figures are above. A larger one is not tried where one was cut off."""
        series = Series(f"{command} {name}", plain, self.own, most_memory=float("inf"))
        for count in counts:
            text = make(count) if callable(make) else self.cells_of(make[0], make[1](count))
            if text is None:
                print(f"{command} {name} {count}: {make[0]} made no chip to begin with", flush=True)
                break
            run = self.ran(command, shuffled(text) if not callable(make) and make[2] else text)
            room = max(self.planned_cells(), run.count("cells") or 0) if command == "compact" else None
            series.add(count, run.count("cells"), f"{len(text):,} bytes", run, room)
            if run.status is None:
                break
        return series.end()

    def refused(self):
        """Prints what hopeless netlists take beside those a third as large; how many of them take longer."""
        above = 0
        for kind, (make, count) in HOPELESS.items():
            third = self.ran("compact", make(count // 3))
            whole = self.ran("compact", make(count))
            ratio = whole.seconds / max(third.seconds, SHORT)
            above += ratio > 1
            print(f"hopeless {kind} {count}: {whole.said}, {whole.seconds:.2f} s, {whole.megabytes:.1f} MB; a third of "
                  f"it {third.said}, {third.seconds:.2f} s, {third.megabytes:.1f} MB: {ratio:.2f} times", flush=True)
        return above


def main():
    words = argparse.ArgumentParser(description=__doc__, formatter_class=argparse.RawDescriptionHelpFormatter)
    words.add_argument("--library", default=TOP / "libraries/b.toml")
    words.add_argument("--seconds", type=int, default=300)
    words.add_argument("--doublings", type=int, default=2)
    words.add_argument("--short", action="store_true")
    words.add_argument("kinds", nargs="*", choices=[*KINDS, *DRAWN, "compact", "draw", "hopeless", []])
    words = words.parse_args()
    kinds = words.kinds or ["compact", "draw", *(["hopeless"] if not words.short else [])]
    above, smaller = 0, 2 if words.short else 1
    ordinary_counts = {"compact": (100, 200, 400, 800), "draw": (50, 100, 200, 400)}
    with tempfile.TemporaryDirectory(prefix="aqfp_hostile_") as folder:
        bench = Bench(words, pathlib.Path(folder))
        for command, known in (("compact", KINDS), ("draw", DRAWN)):
            wanted = [it for it in known if it in kinds or command in kinds]
            if wanted:
                counts = ordinary_counts[command][:-1 if words.short else None]
                plain = bench.ordinary(command, counts)
            for name in wanted:
                make, first = known[name]
                counts = [first // smaller << k for k in range(words.doublings + 1)]
                above += bench.kind(command, name, make, counts, plain)
        if "hopeless" in kinds:
            above += bench.refused()
    return 1 if above else 0


if __name__ == "__main__":
    sys.exit(main())
