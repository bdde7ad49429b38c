#!/usr/bin/env python3
"""A circuit as a SPICE deck at the level of cells, for JoSIM and others.

  aqfp netlist CHIP.gds LIB CIRCUIT.blif
  spice.py CIRCUIT.blif [--net NET.blif] > CHIP.cir

The deck has one subcircuit, `chip`: its pins are the inputs I0, .., the outputs O0, .. and the four phases of
excitation ph0 to ph3. Each cell is a call of BUF, INV, ZERO, ONE, SPL2, SPL3 or MAJ, whose pins are its inputs, its
outputs and its phase. No junction, current or inductor is in it: the cells' own subcircuits are the user's, and so is
the excitation. NET.blif, the netlist that the chip was built from, names the pins as the designer did, and each net
that hands the signal of an input on, or hands a signal to an output, by that signal and its row. Other bytes than
letters, digits and _ become _ in names, and names differ in more than the size of letters. Long lines go on after +.
Which output of a splitter a wire takes is not in CIRCUIT.blif: they are given in the order of the users, since they
show one signal. The netlist has the wires' ends, and not their lengths.
"""
import re
import sys
import textwrap

sys.dont_write_bytecode = True
from aqfp_files import Arguments, Circuit, Stop, ports, run

CELLS = {"buffer": "BUF", "inverter": "INV", "zero": "ZERO", "one": "ONE", "split2": "SPL2", "split3": "SPL3",
         "majority": "MAJ"}
PHASES = ["ph0", "ph1", "ph2", "ph3"]
LONGEST = 80  # columns of a line


class Names:
    """Names for a deck, each given once; SPICE does not tell small letters from large ones."""

    def __init__(self, taken):
        self.taken, self.numbers = {name.lower() for name in taken}, {}

    def fresh(self, wanted):
        """A name like the one that is wanted."""
        base = re.sub(r"[^A-Za-z0-9_]+", "_", wanted)
        base = base.strip("_") or "net"
        name = base
        while name.lower() in self.taken:
            number = self.numbers[base.lower()] = self.numbers.get(base.lower(), 1) + 1
            name = f"{base}_{number}"
        self.taken.add(name.lower())
        return name


def pins_of(circuit, net, names):
    """The pin of each input and output, in their order."""
    own = circuit.inputs + circuit.outputs
    signals = own
    if net is not None:
        inputs, outputs = ports(net)
        if (len(inputs), len(outputs)) != (len(circuit.inputs), len(circuit.outputs)):
            raise Stop(f"{net}: {len(inputs)} inputs and {len(outputs)} outputs, and the chip has "
                       f"{len(circuit.inputs)} and {len(circuit.outputs)}")
        signals = inputs + outputs
    return {port: names.fresh(signal) for port, signal in zip(own, signals)}


def signals_of(circuit, pins):
    """The signals of inputs and outputs that cells hand on: by buffers and splitters, from inputs or to outputs."""
    found = {}
    for name, (kind, takes) in circuit.cells.items():
        if kind == "buffer" and (takes[0] in pins or takes[0] in found):
            found[name] = pins[takes[0]] if takes[0] in pins else found[takes[0]]
    for output, name in circuit.shows.items():
        while name in circuit.cells and name not in found:
            found[name] = pins[output]
            kind, takes = circuit.cells[name]
            name = takes[0] if kind == "buffer" else None
    return found


def nodes_of(circuit, base, pins, names):
    """The node of each use, by the cell that is used and the one that uses it, in turn; and the output nodes of each
    cell. A net has the name of its base, and a number where a splitter has several."""
    taken, given = {}, {}
    for name in circuit.cells:
        users = circuit.users.get(name, [])
        ends = [pins[user] if user in circuit.shows else names.fresh(base[name] + f"_{place}" * (len(users) > 1))
                for place, user in enumerate(users)]
        for user, node in zip(users, ends):
            taken.setdefault((name, user), []).append(node)
        given[name] = ends or [names.fresh(base[name])]
    return taken, given


def folded(*words):
    """A line of the deck, which goes on after + where it is long."""
    return "\n".join(textwrap.wrap(" ".join(words), LONGEST, subsequent_indent="+ ", break_long_words=False,
                                   break_on_hyphens=False))


def deck(circuit, words):
    """The lines of the deck."""
    rows, names = circuit.rows(), Names([*PHASES, "0", "gnd"])
    pins = pins_of(circuit, words.net, names)
    calls = Names(())
    carried = {} if words.net is None else signals_of(circuit, pins)
    base = {name: f"{carried[name]}_r{rows[name]}" if name in carried and name in rows else name
            for name in circuit.cells}
    taken, given = nodes_of(circuit, base, pins, names)
    yield f"* A chip of {len(circuit.cells)} cells. The cells' subcircuits are the user's:"
    yield "*   BUF a y ph   INV a y ph   ZERO y ph   ONE y ph"
    yield "*   SPL2 a y0 y1 ph   SPL3 a y0 y1 y2 ph   MAJ a b c y ph"
    yield from (f"* {port} is {pin}" for port, pin in pins.items() if port != pin)
    yield folded(".subckt chip", *pins.values(), *PHASES)
    for name, (_, takes) in circuit.cells.items():
        if circuit.kind(name) not in CELLS:
            raise Stop(f"{words.circuit}: {name} has {len(given[name])} users, more than a splitter of three")
        call = calls.fresh(f"X{name}")
        if name not in rows:
            yield f"* {call} is left out: nothing joins it to an input or an output"
            continue
        sources = [taken[source, name].pop(0) if source in circuit.cells else pins[source] for source in takes]
        yield folded(call, *sources, *given[name], PHASES[rows[name] % 4], CELLS[circuit.kind(name)])
    yield ".ends chip"


def main():
    parser = Arguments("spice", __doc__)
    parser.add_argument("circuit", metavar="CIRCUIT.blif", help="the circuit of a chip, as `aqfp netlist` stores it")
    parser.add_argument("--net", metavar="NET.blif", help="the netlist that the chip was built from")
    words = parser.parse_args()
    print(*deck(Circuit(words.circuit), words), sep="\n")


run(main)
