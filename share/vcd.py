#!/usr/bin/env python3
"""The fluxes that `aqfp trace` prints as a waveform for GTKWave and others.

  aqfp trace CHIP.gds LIB WORDS | vcd.py [--circuit CIRCUIT.blif [--net NET.blif]] [--gtkw FILE.gtkw] > CHIP.vcd

There is a signal for each cell, row by row: 1 and 0 are a flux of plus and minus one, and z is none. phase0 to phase3
are 1 while the cells of that phase hold. A tick, which is a quarter of the excitation's period, is written as 1 ns; no
such time is claimed of a chip. CIRCUIT.blif is what `aqfp netlist CHIP.gds LIB CIRCUIT.blif` stores: with it the
signals tell the kinds of the cells and the inputs and outputs of the chip. NET.blif, the netlist that the chip was
built from, names these as the designer did. FILE.gtkw is what GTKWave opens on, beside the waveform: `gtkwave CHIP.vcd
FILE.gtkw` shows the phases, the inputs and the outputs, buses as one vector each, and a tick of its ruler at each
fourth time, when a word comes. Without CIRCUIT.blif it has the phases and the cells of the first and the last row.
"""
import re
import sys

sys.dont_write_bytecode = True
from aqfp_files import Arguments, Circuit, Stop, buses, ports, run, standard_input

VALUES = str.maketrans("+-.", "10z")
LINE = re.compile(r"([0-9]{1,18}) ([0-9]{1,18}) ([-+.]*)")
WORD = 4  # ticks from one word to the next


def short(number):
    """The identifier of a signal by its number."""
    name = ""
    while True:
        name += chr(33 + number % 94)
        number //= 94
        if number == 0:
            return name


def read_trace():
    """The lines of a trace as time, row and values, and the width of each row."""
    lines, widths, now = [], {}, 0
    for number, line in enumerate(standard_input("what trace prints"), 1):
        if number == 1 and line.startswith("rows "):
            continue
        found = LINE.fullmatch(line)
        if not found or int(found[1]) < now or widths.setdefault(int(found[2]), len(found[3])) != len(found[3]):
            raise Stop(f"line {number}: not as trace prints it")
        now = int(found[1])
        lines.append((now, int(found[2]), found[3].translate(VALUES)))
    if not lines:
        raise Stop("the trace has no line: WORDS has no word")
    return lines, widths


class Names:
    """The names of a trace's signals: by row, of each cell; and by the port that a cell takes or shows, of that
    cell."""

    def __init__(self, widths, circuit_path, net_path):
        self.rows = {row: [f"c{place}" for place in range(widths[row])] for row in sorted(widths)}
        self.inputs, self.outputs = {}, {}
        if circuit_path is None:
            for row, ports_there in (min(widths), self.inputs), (max(widths), self.outputs):
                ports_there.update((name, full(row, name)) for name in self.rows[row])
        else:
            self.take_circuit(Circuit(circuit_path), circuit_path, net_path)

    def take_circuit(self, circuit, circuit_path, net_path):
        """Tells the kinds of cells and the ports, by the names of the netlist where there is one."""
        total = sum(map(len, self.rows.values()))
        if len(circuit.cells) != total:
            raise Stop(f"{circuit_path}: {len(circuit.cells)} cells, and the trace has {total}")
        given = given_names(circuit, net_path)
        shown = {}
        for output, cell in circuit.shows.items():
            shown.setdefault(cell, []).append(output)
        cells = iter(circuit.cells)
        for row, names in self.rows.items():
            for place, name in enumerate(names):
                cell = next(cells)
                takes = [source for source in circuit.cells[cell][1] if source in circuit.input_names]
                ends = shown.get(cell, [])
                names[place] = "_".join([name, circuit.kind(cell), *(given[port] for port in takes + ends)])
                self.inputs.update((port, full(row, names[place])) for port in takes)
                self.outputs.update((port, full(row, names[place])) for port in ends)
        self.inputs = {given[port]: self.inputs[port] for port in circuit.inputs if port in self.inputs}
        self.outputs = {given[port]: self.outputs[port] for port in circuit.outputs}


def full(row, name):
    """The name of a cell's signal with the scopes that it stands in."""
    return f"chip.row{row}_phase{row % 4}.{name}"


def given_names(circuit, net_path):
    """The names of a circuit's ports: their own, or those of a netlist."""
    own = circuit.inputs + circuit.outputs
    if net_path is None:
        return dict(zip(own, own))
    inputs, outputs = ports(net_path)
    if (len(inputs), len(outputs)) != (len(circuit.inputs), len(circuit.outputs)):
        raise Stop(f"{net_path}: {len(inputs)} inputs and {len(outputs)} outputs, and the chip has "
                   f"{len(circuit.inputs)} and {len(circuit.outputs)}")
    return dict(zip(own, inputs + outputs))


def wave(lines, names):
    """The lines of the waveform."""
    yield "$comment fluxes of a chip's cells, by aqfp trace; a tick is written as 1 ns $end"
    yield "$timescale 1 ns $end\n$scope module chip $end"
    for phase in range(4):
        yield f"$var wire 1 {short(phase)} phase{phase} $end"
    count, signals = 4, {}
    for row, cells in names.rows.items():
        signals[row] = [short(number) for number in range(count, count + len(cells))]
        count += len(cells)
        yield f"$scope module row{row}_phase{row % 4} $end"
        for signal, name in zip(signals[row], cells):
            yield f"$var wire 1 {signal} {name} $end"
        yield "$upscope $end"
    yield "$upscope $end\n$enddefinitions $end"
    now, last, phases = None, {row: " " * len(cells) for row, cells in names.rows.items()}, " " * 4
    for time, row, values in lines:
        if time != now:
            now = time
            yield f"#{time}"
            old, phases = phases, "".join("01"[time >= phase and (time - phase) % 4 < 2] for phase in range(4))
            yield from (new + short(phase) for phase, (new, was) in enumerate(zip(phases, old)) if new != was)
        if values != last[row]:
            yield "\n".join([new + signal for new, was, signal in zip(values, last[row], signals[row]) if new != was])
            last[row] = values
    yield f"#{now + 1}"


def vectors(cells):
    """The traces of ports for GTKWave, by the signal of each port: a bus is a vector, its highest bit first."""
    ports_there = list(cells)
    for base, bits in buses(ports_there).items():
        bits, told = sorted(bits, reverse=True), base.replace("{", "(").replace("}", ")")
        signals = " ".join(cells[ports_there[place]] for _, place in bits)
        if len(bits) == 1:
            yield f"@28\n+{{{told}}} {signals}"
        else:
            yield f"@22\n#{{{told}[{bits[0][0]}:{bits[-1][0]}]}} {signals}"


def screen(names):
    """What GTKWave opens on."""
    yield "[timestart] 0\n[treeopen] chip.\n@200\n-phases\n@28"
    yield from (f"chip.phase{phase}" for phase in range(4))
    for what, cells in ("inputs", names.inputs), ("outputs", names.outputs):
        if cells:
            yield f"@200\n-{what}"
            yield from vectors(cells)
    yield f"[ruler] 0 {WORD}"


def main():
    parser = Arguments("vcd", __doc__)
    parser.add_argument("--circuit", metavar="CIRCUIT.blif", help="the chip's circuit, as `aqfp netlist` stores it")
    parser.add_argument("--net", metavar="NET.blif", help="the netlist that the chip was built from")
    parser.add_argument("--gtkw", metavar="FILE.gtkw", help="what GTKWave opens on, which is written")
    words = parser.parse_args()
    if words.net is not None and words.circuit is None:
        raise Stop("--net wants --circuit too")
    lines, widths = read_trace()
    names = Names(widths, words.circuit, words.net)
    if words.gtkw is not None:
        text = "\n".join(screen(names)) + "\n"
        with open(words.gtkw, "w", encoding="utf-8", errors="surrogateescape") as file:
            file.write(text)
    sys.stdout.writelines(f"{line}\n" for line in wave(lines, names))


run(main)
