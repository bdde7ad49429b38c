#!/usr/bin/env python3
"""Prints the tables of sizes of README.md and docs/guide.md in Markdown, measured by `compact`.

  recipes.py [--only sizes | choices | gains] [FOLDER ..]

`sizes` is the table of README.md. `choices` and `gains` are those of the guide: what choices of gates of Yosys and
what the recipes of share/shrink give, the latter also over the netlists of each FOLDER. docs/measuring.md says how each
is counted. Needs yosys with its ABC, and ABC as share/shrink finds it. AQFP names the program.
"""
import argparse
import importlib.machinery
import importlib.util
import math
import pathlib
import resource
import shutil
import subprocess
import sys
import tempfile

sys.dont_write_bytecode = True
TOP = pathlib.Path(__file__).resolve().parent.parent
sys.path.insert(0, str(TOP / "share"))
sys.path.insert(0, str(TOP / "bench"))
GATES = "-g AND,OR,XOR,ANDNOT,ORNOT,MUX"
CHOICES = {
    "`-g AND,OR,XOR,`<br>`ANDNOT,ORNOT,MUX`": GATES,
    "the same without `XOR`": "-g AND,OR,ANDNOT,ORNOT,MUX",
    "`-g AND,OR`": "-g AND,OR",
    "`-lut 3`": "-lut 3",
    "`-lut 4`": "-lut 4",
}
MODULES = ("decoder3", "priority8", "popcount7", "crc8", "mul4", "adder16", "alu4")
SIZED = {
    "full_adder": "`examples/full_adder.blif`",
    "adder4": "`examples/adder4.blif`, an adder of 4 bits",
    "crc8": "`examples/crc8.blif`, a CRC of 8 bits",
    "mul4": "`examples/mul4.blif`, a multiplier of 4 bits",
    "adder16": "`examples/adder16.blif`, an adder of 16 bits",
    "add64": "an adder of 64 bits",
    "alu16": "an arithmetic logic unit of 16 bits",
    "mul16": "a multiplier of 16 bits",
}
LIBRARIES = ("b", "a")
ALL = "all"


def load(name, path):
    """A script as a module."""
    loader = importlib.machinery.SourceFileLoader(name, str(path))
    module = importlib.util.module_from_spec(importlib.util.spec_from_loader(name, loader))
    loader.exec_module(module)
    return module


shrink = load("shrink", TOP / "share/shrink")
aqfp = shrink.find("AQFP", ["aqfp"], [TOP / "aqfp"])
abc = shrink.find("ABC", ["berkeley-abc", "abc", "yosys-abc"])


def library(letter):
    return TOP / "libraries" / f"{letter}.toml"


def synthesise(source, top, choice, to):
    """A module in Verilog as a netlist, by Yosys."""
    script = f"read_verilog {source}; synth -flatten {top}; abc {choice}; opt_clean -purge; write_blif {to}"
    subprocess.run(["yosys", "-q", "-p", script], check=True)
    return to


def chip_of(net, letter, work):
    """The chip of a netlist, or none where it is refused."""
    return shrink.make_chip(aqfp, "", net, library(letter), work / "chip.gds")[0]


def print_row(*cells):
    print("|", " | ".join(map(str, cells)), "|", flush=True)


def print_head(*cells):
    print_row(*cells)
    print("|---" * len(cells) + "|", flush=True)


def print_sizes(work):
    """The table of README.md."""
    designs = load("designs", TOP / "bench/designs.py").MODULES
    print_head("Netlist", "Cells", "Rows", "Junctions", "Width by height, mm", "Seconds")
    for name, title in SIZED.items():
        net = TOP / "examples" / f"{name}.blif"
        if name in designs and not net.exists():
            (work / "design.v").write_text(f"module {name} ({designs[name]}\nendmodule\n")
            net = synthesise(work / "design.v", f"-top {name}", GATES, work / "design.blif")
        begun = resource.getrusage(resource.RUSAGE_CHILDREN)
        subprocess.run([aqfp, "compact", net, library("b"), work / "timed.gds"], check=True, stdout=subprocess.DEVNULL)
        ended = resource.getrusage(resource.RUSAGE_CHILDREN)
        seconds = ended.ru_utime + ended.ru_stime - begun.ru_utime - begun.ru_stime
        chip = chip_of(net, "b", work)
        size = f"{chip.width / 1e6:.2f} by {chip.height / 1e6:.2f}"
        time = f"{seconds:.2g}" if seconds < 10 else round(seconds)
        print_row(title, f"{chip.cells:,}", chip.rows, f"{chip.junctions:,}", size, time)


def chips_of(net, letter, work):
    """The chip of each recipe of share/shrink; in place of one that gives none, that of the netlist as it is."""
    shutil.copyfile(net, work / "net.blif")
    shutil.copyfile(TOP / "share" / shrink.GATES, work / shrink.GATES)
    found = {}
    for recipe, commands in shrink.RECIPES.items():
        made = net if commands is None else shrink.rewrite(abc, commands, work, 300)[0]
        found[recipe] = made and chip_of(made, letter, work) or found.get(shrink.AS_IT_IS)
    return found


def print_choices(work):
    """The first table of the guide: junctions by library B, and in brackets by A."""
    print_head("Module", *CHOICES, "`share/shrink` of the first")
    for name in MODULES:
        counts = []
        for choice in CHOICES.values():
            net = synthesise(TOP / "examples" / f"{name}.v", "-auto-top", choice, work / f"{name}.blif")
            if choice == GATES:
                shutil.copyfile(net, work / "first.blif")
            counts.append([chip_of(net, letter, work).junctions for letter in LIBRARIES])
        counts.append([min(chip.junctions for chip in chips_of(work / "first.blif", letter, work).values())
                       for letter in LIBRARIES])
        least = [min(column) for column in zip(*counts)]
        marks = [["**" if count == low else "" for count, low in zip(pair, least)] for pair in counts]
        told = (f"{at_b}{b:,}{at_b} ({at_a}{a:,}{at_a})" for (b, a), (at_b, at_a) in zip(counts, marks))
        print_row(f"`{name}`", *told)


def gains(nets, letter, work):
    """The geometric means over the netlists of more than five cells of what each recipe gives, and the smallest of all;
    and how many netlists these are."""
    sums, count = {}, 0
    for net in nets:
        found = chips_of(net, letter, work)
        plain = found[shrink.AS_IT_IS]
        if plain is None or plain.cells <= 5:
            continue
        count += 1
        junctions = {recipe: chip.junctions for recipe, chip in found.items()}
        junctions[ALL] = min(junctions.values())
        for recipe, each in junctions.items():
            sums[recipe] = sums.get(recipe, 0.0) + math.log(plain.junctions / each)
        print(f"{net.stem}, library {letter.upper()}: {junctions}", file=sys.stderr, flush=True)
    return {recipe: math.exp(total / count) for recipe, total in sums.items()}, count


def print_gains(folders, work):
    """The second table of the guide."""
    columns, heads = [], []
    for number, folder in enumerate([TOP / "examples", *map(pathlib.Path, folders)]):
        nets = [net for net in sorted(folder.glob("*.blif")) if net.stem != "cycle"]
        for letter in LIBRARIES:
            found, count = gains(nets, letter, work)
            columns.append(found)
            heads.append(f"{count} {'netlists' if number else 'examples'}, library {letter.upper()}")
    print_head("Recipe", "Commands of ABC", *heads)
    for recipe in [*list(shrink.RECIPES)[1:], ALL]:
        commands = shrink.RECIPES.get(recipe)
        said = f"`{commands}`".replace(shrink.C2RS, "c2rs") if commands else "the smallest, or as it is"
        print_row(recipe, said, *(f"{column[recipe]:.2f}" for column in columns))


def main():
    parser = argparse.ArgumentParser(description=__doc__, formatter_class=argparse.RawDescriptionHelpFormatter)
    parser.add_argument("--only", choices=("sizes", "choices", "gains"))
    parser.add_argument("folders", nargs="*", metavar="FOLDER")
    words = parser.parse_args()
    parts = {"sizes": print_sizes, "choices": print_choices, "gains": lambda work: print_gains(words.folders, work)}
    with tempfile.TemporaryDirectory() as folder:
        for name, part in parts.items():
            if words.only in (None, name):
                part(pathlib.Path(folder))
                print(flush=True)


main()
