#!/usr/bin/env python3
"""What small netlists cost that come to much, by `build`, beside an ordinary one of as many bytes.

    hostile_texts.py [--library LIB] [--seconds N] [--short] [KIND ..]

For each kind a line for each of three sizes, doubled each time: bytes, the memory in times of them, what was said,
seconds of processor time and megabytes at most, both over those of an ordinary one of as many bytes; then the exponents
with which both grow with the text. --short begins at a quarter of the size. docs/measuring.md says the kinds and what
is wanted; the status is 1 where a figure is above. AQFP names the program. Needs GNU time."""
import argparse
import itertools
import pathlib
import sys
import tempfile

from measured import Series, TOP, least, own_memory, program

FIRST = 64_000  # bytes of the least text
MOST_TIMES, MOST_BYTES = 20, 8 << 20
A_BIT = 173  # bytes of a bit of the adder
FEW = 1_000  # cells that count nothing beside a text
SIGNS = "0123456789abcdefghijklmnopqrstuvwxyzABCDEFGHIJKLMNOPQRSTUVWXYZ"


def names(first=2):
    """All names of letters and digits, the shortest first, from so many signs on."""
    for length in itertools.count(first):
        yield from map("".join, itertools.product(SIGNS, repeat=length))


def filled(head, parts, size, end=""):
    """A text of at most so many bytes, of a head and as many parts as fit."""
    made, left = [head], size - len(head) - len(end)
    for part in parts:
        left -= len(part)
        if left < 0:
            break
        made.append(part)
    return "".join(made) + end


def adder(size):
    """An adder of two half adders a bit."""
    bits = size // A_BIT
    return adder_that_shows(bits, [*(f"s{k}" for k in range(bits)), f"c{bits}"])


def ordinary(size):
    """An ordinary netlist that comes to few cells: an adder of which one gate alone is an output."""
    return adder_that_shows(size // A_BIT, ["p0"])


def adder_that_shows(bits, outputs):
    lines = [".inputs " + " ".join(f"a{k} b{k}" for k in range(bits)) + " c0", ".outputs " + " ".join(outputs)]
    for k in range(bits):
        lines += [f".names a{k} b{k} p{k}\n10 1\n01 1\n.names p{k} c{k} s{k}\n10 1\n01 1",
                  f".names a{k} b{k} g{k}\n11 1\n.names p{k} c{k} h{k}\n11 1\n.names g{k} h{k} c{k + 1}\n1- 1\n-1 1"]
    return "\n".join(lines) + "\n"


def chain(size):
    """Definitions, each of the next one; the last is of an input."""
    links = list(itertools.islice(names(3), size // 18))
    return (f".inputs ~\n.outputs {links[0]}\n"
            + "".join(f".names {two} {one}\n1 1\n" for one, two in zip(links, [*links[1:], "~"])))


def waiting(size):
    """Inputs that are all shown, and a chain of gates of 100 of them, so that all others wait in its rows."""
    shown = list(itertools.islice(names(), size // 8))
    chained = [shown[0], *(f"~{k}" for k in range(1, 100))]
    links = "".join(f".names {one} {shown[k + 1]} {two}\n10 1\n01 1\n"
                    for k, (one, two) in enumerate(itertools.pairwise(chained)))
    return f".inputs {' '.join(shown)}\n.outputs {' '.join(shown)} ~99\n{links}"


def called(size):
    """Models that the first one calls, a quarter of the bytes, and their texts."""
    count = size // 66
    head = ".model top\n.inputs a\n.outputs a\n"
    calls = "".join(f".subckt {name} a=a\n" for name in itertools.islice(names(), count))
    bodies = (f".model {name}\n.inputs a\n.outputs y\n.names a y\n1 1\n" for name in names())
    return head + calls + "".join(itertools.islice(bodies, count))


def one_pair(size):
    """Gates of the same two inputs, each of them an output."""
    count = size // 21
    outputs = " ".join(itertools.islice(names(), count))
    gates = "".join(f".names ~ ^ {it}\n11 1\n" for it in itertools.islice(names(), count))
    return f".inputs ~ ^\n.outputs {outputs}\n{gates}"


KINDS = {
    "inputs": lambda size: filled(".outputs 00\n.inputs", (" " + it for it in names()), size, "\n"),
    "outputs": lambda size: filled(".inputs a\n.outputs", itertools.repeat(" a"), size, "\n"),
    "constants": lambda size: filled(".inputs ~\n.outputs ~\n", (f".names {it}\n1\n" for it in names()), size),
    "definitions": lambda size: filled(".inputs ~\n.outputs ~\n", (f".names {it}\n" for it in names()), size),
    "feeds": lambda size: filled(".inputs ~\n.outputs ~\n", (f".names ~ {it}\n1 1\n" for it in names()), size),
    "rows": lambda size: filled(".inputs a\n.outputs y\n.names a y\n", itertools.repeat("1 1\n"), size),
    "ones": lambda size: filled(".inputs a\n.outputs y\n.names y\n", itertools.repeat("1\n"), size),
    "chain": chain, "adder": adder, "waiting": waiting, "called": called, "one_pair": one_pair,
    "models": lambda size: filled(".model top\n.inputs a\n.outputs a\n", (
        f".model {it}\n.inputs a\n.outputs y\n.names a y\n1 1\n" for it in names()), size),
    "empty": lambda size: filled(".model top\n.inputs a\n.outputs a\n", (f".model {it}\n" for it in names()), size),
}


def main():
    words = argparse.ArgumentParser(description=__doc__, formatter_class=argparse.RawDescriptionHelpFormatter)
    words.add_argument("--library", default=TOP / "libraries/a.toml")
    words.add_argument("--seconds", type=int, default=60)
    words.add_argument("--short", action="store_true")
    words.add_argument("kinds", nargs="*", choices=[*KINDS, []])
    words = words.parse_args()
    sizes = [(FIRST // 4 if words.short else FIRST) << k for k in range(3)]
    path, above = program(), 0
    with tempfile.TemporaryDirectory(prefix="aqfp_hostile_") as folder:
        folder = pathlib.Path(folder)
        net = folder / "net.blif"

        def built(text):
            net.write_text(text)
            return least([path, "build", net, words.library, folder / "chip.gds"], folder, words.seconds)

        own = own_memory(path, folder)
        plain = [(size, built(ordinary(size))) for size in sizes]
        for size, run in plain:
            print(f"ordinary {size}: {run.said}, {run.seconds:.2f} s, {run.megabytes:.1f} MB", flush=True)
        for kind in words.kinds or KINDS:
            series = Series(kind, plain, own, most_memory=float("inf"))
            for size in sizes:
                text = KINDS[kind](size)
                run = built(text)
                times = run.megabytes * (1 << 20) / len(text)
                is_few = (run.count("cells") or 0) < FEW  # a larger chip takes more than an ordinary text
                is_large = times > MOST_TIMES and times * len(text) > MOST_BYTES and is_few
                series.most_times = 3 if is_few else float("inf")
                series.above += is_large
                mark = " (ABOVE)" if is_large else ""
                series.add(size, len(text), f"{len(text):,} bytes, memory {times:.0f} times these{mark}", run)
            above += series.end()
    return 1 if above else 0


if __name__ == "__main__":
    sys.exit(main())
