#!/usr/bin/env python3
"""Compares `aqfp equal` with a trial of all words, on random circuits and changed copies of them.

  changed.py [--program PATH] [--count N] [--seed N] [--library PATH]     (1,000 circuits, seed 1, library A)

The chip of each circuit is compared with a copy that answers every word alike, and with one that is changed. All words
are tried here too, and the answer, the output and the least word have to be the same. The status is 1 at the first that
is not, and its files are kept and named; else the counts are printed. AQFP names the program, if --program does not.
"""
import argparse
import os
import pathlib
import random
import shutil
import subprocess
import sys
import tempfile

HERE = pathlib.Path(__file__).resolve().parent.parent


class Circuit:
    """Definitions in an order in which each names earlier signals: a name, the signals it reads, and its values."""

    def __init__(self, inputs, definitions, outputs):
        self.inputs, self.definitions, self.outputs = inputs, definitions, outputs

    def copy(self):
        return Circuit(list(self.inputs), [(n, list(s), list(v)) for n, s, v in self.definitions], list(self.outputs))

    def fresh(self, chance):
        names = {name for name, _, _ in self.definitions} | set(self.inputs)
        while True:
            name = f"t{chance.randrange(10**6)}"
            if name not in names:
                return name


def cover(chance, values, width):
    """The rows of a definition: those of its trues or of its falses, some of them joined."""
    wanted = chance.choice([True, False]) if any(values) and not all(values) else True
    if not any(values):
        return []
    left = {i for i, value in enumerate(values) if value == wanted}
    rows = []
    while left:
        first = min(left)
        row, bits = {first}, list(f"{first:0{width}b}") if width else []
        for place in chance.sample(range(width), width):
            flip = 1 << (width - 1 - place)
            more = {i ^ flip for i in row}
            if chance.random() < 0.7 and all(values[i] == wanted for i in more):
                row |= more
                bits[place] = "-"
        left -= row
        rows.append(("".join(bits) + " " if width else "") + ("1" if wanted else "0"))
    chance.shuffle(rows)
    return rows


def blif(chance, circuit):
    lines = [".model c", ".inputs " + " ".join(circuit.inputs), ".outputs " + " ".join(circuit.outputs)]
    definitions = list(circuit.definitions)
    if chance.random() < 0.5:
        chance.shuffle(definitions)
    for name, signals, values in definitions:
        lines.append(".names " + " ".join([*signals, name]))
        lines += cover(chance, values, len(signals))
    return "\n".join([*lines, ".end", ""])


def random_circuit(chance):
    count = chance.randint(1, 10)
    inputs = [f"i{k}" for k in range(count)]
    known, definitions = list(inputs), []
    for k in range(chance.randint(5, 60)):
        near = known[-12:] if chance.random() < 0.7 else known
        width = min(len(near), chance.choice([0, 1, 1, 2, 2, 2, 2, 3, 3, 3, 4]) if k else 2)
        signals = chance.sample(near, width)
        values = [chance.random() < 0.5 for _ in range(1 << width)]
        if width > 1 and chance.random() < 0.5:  # an and of literals or its complement keeps circuits from being noise
            row, value = chance.randrange(1 << width), chance.random() < 0.5
            values = [(i == row) == value for i in range(1 << width)]
        definitions.append((f"d{k}", signals, values))
        known.append(f"d{k}")
    names = [name for name, _, _ in definitions]
    outputs = chance.sample(names, chance.randint(1, min(6, len(names))))
    return Circuit(inputs, definitions, outputs)


def values_of(circuit):
    """The values of all signals at all words, as bits of one number each; input 0 is the highest digit of a word."""
    count = len(circuit.inputs)
    size = 1 << count
    whole = (1 << size) - 1
    values = {}
    for k, name in enumerate(circuit.inputs):
        period = 1 << (count - 1 - k)
        block = ((1 << period) - 1) << period
        values[name] = sum(block << shift for shift in range(0, size, 2 * period))
    for name, signals, table in circuit.definitions:
        total = 0
        for i, value in enumerate(table):
            if value:
                term = whole
                for place, signal in enumerate(signals):
                    bit = i >> (len(signals) - 1 - place) & 1
                    term &= values[signal] if bit else whole ^ values[signal]
                total |= term
        values[name] = total
    return values


def expected(one, other):
    first, second = values_of(one), values_of(other)
    for place, (x, y) in enumerate(zip(one.outputs, other.outputs)):
        apart = first[x] ^ second[y]
        if apart:
            word = (apart & -apart).bit_length() - 1
            return f"differ O{place} at {word:0{len(one.inputs)}b}"
    return "equal"


def by_complement(chance, circuit, place):
    """A definition as the complement of its complement, of complemented operands."""
    name, signals, values = circuit.definitions[place]
    below, turned = circuit.fresh(chance), []
    circuit.definitions[place] = (name, [below], [True, False])
    added = []
    for signal in signals:
        inverse = circuit.fresh(chance) + "n"
        added.append((inverse, [signal], [True, False]))
        turned.append(inverse)
    table = [not values[~i & (len(values) - 1)] for i in range(len(values))]
    circuit.definitions[place:place] = [*added, (below, turned, table)]


def twice_turned(chance, circuit, place):
    name, signals, values = circuit.definitions[place]
    if signals:
        k = chance.randrange(len(signals))
        one, two = circuit.fresh(chance) + "p", circuit.fresh(chance) + "q"
        added = [(one, [signals[k]], [True, False]), (two, [one], [True, False])]
        circuit.definitions[place] = (name, signals[:k] + [two] + signals[k + 1:], values)
        circuit.definitions[place:place] = added


def by_choice(chance, circuit, place):
    """A definition as a choice by one operand between what it is with that operand true and false."""
    name, signals, values = circuit.definitions[place]
    if len(signals) > 1:
        half = len(values) // 2
        low, high = circuit.fresh(chance) + "l", circuit.fresh(chance) + "h"
        added = [(low, signals[1:], values[:half]), (high, signals[1:], values[half:])]
        choice = [False, True, False, True, False, False, True, True]
        circuit.definitions[place] = (name, [signals[0], high, low], choice)
        circuit.definitions[place:place] = added


def copied(chance, circuit, place):
    name, signals, values = circuit.definitions[place]
    order = chance.sample(range(len(signals)), len(signals))
    table = []
    for i in range(len(values)):
        source = 0
        for at, k in enumerate(order):
            source |= (i >> (len(order) - 1 - at) & 1) << (len(order) - 1 - k)
        table.append(values[source])
    other = circuit.fresh(chance) + "c"
    circuit.definitions.insert(place + 1, (other, [signals[k] for k in order], table))
    for k in range(place + 2, len(circuit.definitions)):
        n, s, v = circuit.definitions[k]
        circuit.definitions[k] = (n, [other if x == name and chance.random() < 0.5 else x for x in s], v)


def shared(chance, circuit, place):
    """Equal definitions before this place and at it become one."""
    name, signals, values = circuit.definitions[place]
    for n, s, v in circuit.definitions[:place]:
        if s == signals and v == values:
            for k, (m, t, w) in enumerate(circuit.definitions):
                circuit.definitions[k] = (m, [n if x == name else x for x in t] if k > place else t, w)
            return


def rewritten(chance, circuit):
    other = circuit.copy()
    for _ in range(chance.randint(1, 12)):
        step = chance.choice([by_complement, twice_turned, by_choice, copied, shared])
        step(chance, other, chance.randrange(len(other.definitions)))
    return other


def changed(chance, circuit):
    other = circuit.copy()
    place = chance.randrange(len(other.definitions))
    name, signals, values = other.definitions[place]
    kind = chance.choice(["row", "name", "constant"])
    known = other.inputs + [n for n, _, _ in other.definitions[:place]]
    if kind == "name" and signals and len(set(known) - set(signals)) > 0:
        k = chance.randrange(len(signals))
        signals[k] = chance.choice(sorted(set(known) - set(signals)))
    elif kind == "constant" and chance.random() < 0.5:
        other.definitions[place] = (name, [], [chance.random() < 0.5])
    else:
        row = chance.randrange(len(values))
        values[row] = not values[row]
    return other


def changed_visibly(chance, one):
    """A changed copy, mostly one of which some word tells."""
    for _ in range(6):
        other = changed(chance, rewritten(chance, one))
        if expected(one, other) != "equal":
            break
    return other


def run(*words):
    done = subprocess.run([str(w) for w in words], capture_output=True, text=True, timeout=600)
    return done.returncode, done.stdout.strip(), done.stderr.strip()


def main():
    parser = argparse.ArgumentParser(description=__doc__.splitlines()[0])
    parser.add_argument("--program", default=os.environ.get("AQFP") or str(HERE / "aqfp"))
    parser.add_argument("--library", default=str(HERE / "libraries" / "a.toml"))
    parser.add_argument("--count", type=int, default=1000)
    parser.add_argument("--seed", type=int, default=1)
    given = parser.parse_args()
    counts = {"equal": 0, "differ": 0}
    no_chip = 0
    folder = pathlib.Path(tempfile.mkdtemp(prefix="aqfp-changed-"))
    chip = folder / "chip.gds"
    for number in range(given.count):
        chance = random.Random(f"{given.seed} {number}")
        one = random_circuit(chance)
        (folder / "one.blif").write_text(blif(chance, one))
        if chip.exists():
            chip.unlink()
        status, said, err = run(given.program, "build", folder / "one.blif", given.library, chip)
        if status != 0:
            no_chip += 1
            if "too large" not in err:
                sys.exit(f"changed: circuit {number}: build: status {status}: {said} {err}: {folder}")
            continue
        for other in (rewritten(chance, one), changed_visibly(chance, one)):
            (folder / "other.blif").write_text(blif(chance, other))
            due = expected(one, other)
            status, said, err = run(given.program, "equal", chip, given.library, folder / "other.blif")
            if status != 0 or said != due:
                sys.exit(f"changed: circuit {number}: due {due!r}, said {said!r}, status {status}, {err}: {folder}")
            counts["equal" if due == "equal" else "differ"] += 1
    shutil.rmtree(folder)
    print(f"{given.count} circuits: {counts['equal']} copies equal and {counts['differ']} that differ, all as all words"
          f" say; {no_chip} circuits had no chip")


if __name__ == "__main__":
    main()
