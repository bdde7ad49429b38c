#!/usr/bin/env python3
"""Makes chips of real designs by `compact`, and prints how large they are and what they take.

    real_designs.py [--library LIB] [--seconds N] [--memory MB] [--words N] [--check] [--keep FOLDER]
                    [--program FILE] [DESIGN ..]

Yosys makes gates of two inputs of the Verilog of bench/designs/, which are tried by words against design_models.py.
Then comes `compact`, and `equal` of the chip and the gates, each under a limit on processor time and memory. --check
goes no further than the words, --keep keeps the gates as NAME.blif. docs/measuring.md says what a line has. The status
is 1 where a word or a chip is wrong. AQFP names the program too. Needs Yosys and GNU time."""
import argparse
import pathlib
import random
import re
import subprocess
import sys
import tempfile

sys.dont_write_bytecode = True
sys.path.insert(0, str(pathlib.Path(__file__).resolve().parent.parent / "share"))
from aqfp_files import statements
from compact import cells_of
from design_models import MODELS, chosen
from measured import Run, TOP, program

GATES = "AND,OR,XOR,ANDNOT,ORNOT"
FAST = 40  # bits of a product from which on ABC's own script searches for minutes, so its fast one is taken
DESIGNS = {name: (name, None) for name in ("fadd32", "rv32i", "aes_round", "sha256_round", "alu32", "keccak_round")}
DESIGNS |= {f"mul{bits}": ("multiplier", bits) for bits in (8, 16, 24, 32, 40)}


def gates(name, to):
    """Stores a design as a netlist of gates of two inputs."""
    top, bits = DESIGNS[name]
    sized = f"chparam -set N {bits} {top}; " if bits else ""
    fast = "-fast " if (bits or 0) >= FAST else ""
    lines = (f"read_verilog {TOP}/bench/designs/{top}.v; {sized}synth -flatten -top {top}; abc {fast}-g {GATES}; "
             f"opt_clean -purge; write_blif {to}")
    subprocess.run(["yosys", "-q", "-p", lines], check=True)


class Netlist:
    """A netlist of one model, read to be evaluated: its ports by their buses, and its definitions in an order in which
    each takes what stands before it."""

    def __init__(self, path):
        self.inputs, self.outputs, found = [], [], {}
        for _, words in statements(path):
            if words[0] in (".inputs", ".outputs"):
                (self.inputs if words[0] == ".inputs" else self.outputs).extend(words[1:])
            elif words[0] == ".names":
                rows = []
                found[words[-1]] = (words[1:-1], rows)
            elif not words[0].startswith("."):
                rows.append(words)
        self.count = sum(len(takes) > 1 for takes, _ in found.values())
        self.order, ready, waiting = [], set(self.inputs), list(reversed(found))
        while waiting:
            name = waiting[-1]
            lacks = [] if name in ready else [it for it in found[name][0] if it not in ready]
            waiting.extend(lacks)
            if not lacks:
                waiting.pop()
                if name not in ready:
                    ready.add(name)
                    self.order.append((name, *found[name]))

    @staticmethod
    def widths(names):
        """How many bits each port has."""
        found = {}
        for name in names:
            port = re.sub(r"\[\d+\]$", "", name)
            found[port] = found.get(port, 0) + 1
        return found

    def answers(self, words):
        """What it answers to words, each a number for each port: all at once, a bit of a number for each word."""
        full = (1 << len(words)) - 1
        values = {}
        for name in self.inputs:
            port, bit = place(name)
            values[name] = sum((word[port] >> bit & 1) << k for k, word in enumerate(words))
        for name, takes, rows in self.order:
            total = 0
            for row in rows:
                product = full
                for sign, one in zip(row[0] if takes else "", takes):
                    product &= full if sign == "-" else values[one] if sign == "1" else ~values[one]
                total |= product
            values[name] = total if not rows or rows[0][-1] == "1" else full & ~total
        made = [dict.fromkeys(self.widths(self.outputs), 0) for _ in words]
        for name in self.outputs:
            port, bit = place(name)
            for k, answer in enumerate(made):
                answer[port] |= (values[name] >> k & 1) << bit
        return made


def place(name):
    """The port and the bit of a signal."""
    found = re.fullmatch(r"(.*)\[(\d+)\]", name)
    return (found[1], int(found[2])) if found else (name, 0)


def wrong(name, netlist, count):
    """The first word that the netlist answers otherwise than the model, or None."""
    model, draw = DESIGNS[name][0], random.Random(1)
    words = [chosen(model, netlist.widths(netlist.inputs), draw) for _ in range(count)]
    for word, answer in zip(words, netlist.answers(words)):
        due = MODELS[model](**word)
        for port, value in due.items():
            if answer[port] != int(value):
                return f"{word}: {port} is {answer[port]:x} and not {int(value):x}"
    return None


class Bench:
    """The program and what it is run with."""

    def __init__(self, words, folder):
        self.path, self.folder, self.words = words.program or program(), folder, words
        self.chip, self.cells = folder / "chip.gds", folder / "cells.blif"

    def ran(self, *words):
        return Run([self.path, *words], self.folder, self.words.seconds, self.words.memory)

    def chip_of(self, net):
        """The figures of a chip and whether it is equal to its gates, or the line of the refusal."""
        made = self.ran("compact", net, self.words.library, self.chip)
        took = f"{made.seconds:>9.1f} {made.megabytes:>7.0f}"
        if made.status != 0:
            return f"{'-':>9} {'-':>5} {'-':>9} {took}  {made.said}", True
        self.ran("netlist", self.chip, self.words.library, self.cells)
        cells, rows = made.count("cells"), made.count("rows")
        junctions = 2 * cells + 4 * cells_of(self.cells)[0]
        said = self.ran("equal", self.chip, self.words.library, net).said
        is_fine = said in ("equal", "cut off") or "functions" in said
        return f"{cells:>9} {rows:>5} {junctions:>9} {took}  {said}", is_fine


def main():
    words = argparse.ArgumentParser(description=__doc__, formatter_class=argparse.RawDescriptionHelpFormatter)
    words.add_argument("--library", type=pathlib.Path, default=TOP / "libraries/b.toml")
    words.add_argument("--seconds", type=int, default=600)
    words.add_argument("--memory", type=int, default=6_000)
    words.add_argument("--words", type=int, default=500)
    words.add_argument("--check", action="store_true")
    words.add_argument("--keep", type=pathlib.Path)
    words.add_argument("--program")
    words.add_argument("designs", nargs="*", choices=[*DESIGNS, []])
    words = words.parse_args()
    failed = False
    print(f"library {words.library.name}, at most {words.seconds} seconds of processor time and {words.memory} MB")
    print(f"{'design':<14} {'gates':>6} {'cells':>9} {'rows':>5} {'JJ':>9} {'seconds':>9} {'MB':>7}  equal, or refusal")
    with tempfile.TemporaryDirectory(prefix="aqfp_designs_") as folder:
        bench = Bench(words, pathlib.Path(folder))
        kept = words.keep or bench.folder
        kept.mkdir(parents=True, exist_ok=True)
        for name in words.designs or DESIGNS:
            net = kept / f"{name}.blif"
            gates(name, net)
            netlist = Netlist(net)
            fault = wrong(name, netlist, words.words)
            line, is_fine = f"wrong: {fault}", False
            if not fault:
                line, is_fine = ("as its model", True) if words.check else bench.chip_of(net)
            print(f"{name:<14} {netlist.count:>6} {line}", flush=True)
            failed |= not is_fine
    return 1 if failed else 0


if __name__ == "__main__":
    sys.exit(main())
