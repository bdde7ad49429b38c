#!/usr/bin/env python3
"""Random pairs of small circuits: `aqfp equal` beside the answers to all words.

    pairs.py [COUNT [SEED]]     (400 pairs, seed 1)

The second circuit of a pair is the first one rewritten, and every second one is changed besides. Prints how many pairs
were equal and how many differed, and for each mismatch both lines and where its netlists are; the status is 1 where
there is one. AQFP names the program.
"""
import dataclasses
import os
import pathlib
import random
import subprocess
import sys
import tempfile

top = pathlib.Path(__file__).resolve().parent.parent
program = os.environ.get("AQFP") or subprocess.check_output([top / ".ci/program"], text=True).removesuffix("\n")
library = top / "libraries/a.toml"


@dataclasses.dataclass
class Circuit:
    """Gates of up to three inputs, each a list of lower signals and a list of values at their words."""
    inputs: int
    gates: list
    outputs: list

    def tables(self):
        """Each output's values at all words, the least word at the lowest bit."""
        count = 1 << self.inputs
        places = range(self.inputs - 1, -1, -1)
        tables = [sum(1 << word for word in range(count) if word >> place & 1) for place in places]
        for operands, values in self.gates:
            tables.append(0)
            for place in (it for it, value in enumerate(values) if value):
                term = (1 << count) - 1
                for bit, operand in enumerate(operands):
                    term &= tables[operand] if place >> bit & 1 else ~tables[operand]
                tables[-1] |= term
        return [tables[signal] for signal in self.outputs]

    def netlist(self, letter, draw):
        """The text in BLIF, the gates in some order, each by its true or by its false rows."""
        names = [f"{letter}{i}" for i in range(self.inputs + len(self.gates))]
        blocks = []
        for number, (operands, values) in enumerate(self.gates, self.inputs):
            value = False not in values or draw.choice([True, False])  # no rows are false
            rows = ["".join("01"[place >> bit & 1] for bit in range(len(operands))) + f" {value:d}"
                    for place in range(len(values)) if values[place] == value]
            blocks.append("\n".join([" ".join([".names", *(names[it] for it in operands), names[number]]), *rows]))
        shown = [f"{letter}y{i}" for i in range(len(self.outputs))]
        blocks += [f".names {names[signal]} {name}\n1 1" for signal, name in zip(self.outputs, shown)]
        draw.shuffle(blocks)
        return "\n".join([" ".join([".inputs", *names[:self.inputs]]), " ".join([".outputs", *shown]), *blocks, ""])


def random_circuit(draw):
    inputs = draw.randint(0, 10)
    gates = []
    for number in range(inputs, inputs + draw.randint(1, 12)):
        operands = draw.sample(range(number), min(number, draw.choice([0, 1, 2, 2, 3, 3, 3])))
        gates.append((operands, [draw.random() < 0.5 for _ in range(1 << len(operands))]))
    return Circuit(inputs, gates, draw.choices(range(inputs + len(gates)), k=draw.randint(1, 4)))


def rewritten(circuit, draw):
    """The same answers from other gates: some stand twice, and some become the complement of a gate of complements."""
    gates, first, ways = [], circuit.inputs, [[i] for i in range(circuit.inputs)]
    for operands, values in circuit.gates:
        made = []
        for _ in range(draw.randint(1, 2)):
            used = [draw.choice(ways[it]) for it in operands]
            if draw.random() < 0.5:
                gates += [([it], [True, False]) for it in used]
                used = [first + len(gates) - len(used) + i for i in range(len(used))]
                gates += [(used, [not value for value in reversed(values)]), ([first + len(gates)], [True, False])]
            else:
                gates.append((used, list(values)))
            made.append(first + len(gates) - 1)
        ways.append(made)
    return Circuit(first, gates, [draw.choice(ways[it]) for it in circuit.outputs])


def turn_at(circuit, output, word):
    """Turns an output at a word of the inputs, which is a number with input 0 highest."""
    gates, first = circuit.gates + [([], [True])], circuit.inputs
    for i in range(first):
        wanted = 2 + (word >> (first - 1 - i) & 1)
        gates.append(([i, first + len(gates) - 1], [place == wanted for place in range(4)]))
    gates.append(([circuit.outputs[output], first + len(gates) - 1], [False, True, True, False]))
    circuit.gates, circuit.outputs[output] = gates, first + len(gates) - 1


def change(circuit, draw):
    outputs, last = range(len(circuit.outputs)), (1 << circuit.inputs) - 1
    if draw.random() < 0.2:
        values = draw.choice(circuit.gates)[1]
        values[draw.randrange(len(values))] ^= True
    else:
        for output in outputs if draw.random() < 0.2 else [draw.choice(outputs)]:
            turn_at(circuit, output, draw.choice([0, last, draw.randint(0, last)]))


def expected(first, second):
    for output, (a, b) in enumerate(zip(first.tables(), second.tables())):
        if a != b:
            word = ((a ^ b) & -(a ^ b)).bit_length() - 1
            return f"differ O{output} at " + (f"{word:0{first.inputs}b}" if first.inputs else "")
    return "equal"


def run(*words):
    done = subprocess.run([program, *words], capture_output=True, text=True)
    return f"status {done.returncode}: {done.stderr.strip()}" if done.returncode else done.stdout.removesuffix("\n")


def main():
    count, seed = (int(it) for it in (sys.argv[1:] + ["400", "1"][len(sys.argv) - 1:])[:2])
    draw, room = random.Random(seed), pathlib.Path(tempfile.mkdtemp(prefix="pairs"))
    equal = mismatches = 0
    for pair in range(count):
        first = random_circuit(draw)
        second = rewritten(first, draw)
        if pair % 2:
            change(second, draw)
        names = one, other, chip = [room / f"{pair}.{ending}" for ending in ("a.blif", "b.blif", "gds")]
        one.write_text(first.netlist("a", draw))
        other.write_text(second.netlist("b", draw))
        wanted, line = expected(first, second), run("build", one, library, chip)
        if chip.exists():
            line = run("equal", chip, library, other)
        equal += wanted == "equal"
        for name in names if line == wanted else [chip]:
            name.unlink(missing_ok=True)
        if line != wanted:
            mismatches += 1
            print(f"pair {pair}: '{line}' for '{wanted}', {one} and {other}")
    print(f"{count} pairs, seed {seed}: {equal} equal, {count - equal} differ, {mismatches} mismatches")
    if not mismatches:
        room.rmdir()
    return mismatches > 0


sys.exit(main())
