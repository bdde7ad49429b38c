#!/usr/bin/env python3
"""A netlist of cells, which `aqfp draw` takes, from a netlist of majorities, with buffers and splitters or without.

  cells.py NET.blif OUT.blif [--keep] [--three]

Each definition of NET.blif has at most three inputs and is a constant, a buffer, an inverter, an and or an or of two
signals, or a majority, of signals or their opposites. An and or an or becomes a majority with a constant.

With --keep the buffers and splitters that an optimiser placed stay on their levels. Only what `draw` refuses is mended:
opposites become inverters in the place of buffers, where need be after the opposites were handed on to other cells or a
row was put in; each use of a constant gets its own; inputs and outputs get buffers; and uses that a splitter lacks get
it.

Without --keep buffers are left out and made anew, in the plainest way, for one's own search to begin with: opposites
become inverters, one for each signal; each gate stands as low as can be where each use of a signal waits for the whole
of a balanced tree of splitters; the trees then branch as late as these levels allow.

With --three splitters have up to three outputs, as the kind split3 of a library. docs/cells.md says what is written.
"""
import collections
import sys

sys.dont_write_bytecode = True
from aqfp_cells import CellRows, Graph, Source, lines_of_cells
from aqfp_files import Arguments, run
from aqfp_kept import KeptGraph, KeptRows


class Rows(CellRows):
    """The rows of cells of a graph, with all buffers and splitters made anew."""

    def __init__(self, graph, most):
        self.most = most
        self.find_levels(graph)
        super().__init__(graph, self.last + 1)
        self.pins = collections.defaultdict(lambda: collections.defaultdict(list))
        roots = {}
        for (name, inverted), level in self.levels.items():
            if name in graph.majorities and not inverted:
                roots[name, inverted] = self.add(level, "majority", name, graph.majorities[name])
            elif inverted:
                roots[name, inverted] = self.add(level, "inverter", f"{name}.not", [(name, False)])
            else:
                roots[name, inverted] = self.add(level, "buffer", name, [name])
        self.ends = [self.add(self.last, "buffer", name or "constant", [(name, inverted)])
                     for name, inverted in graph.shown]
        for operand, root in roots.items():
            self.add_tree(self.levels[operand], root, self.pins.pop(operand, {}))
        self.put_in_order()

    def find_levels(self, graph):
        """The lowest level of each gate: an input's buffer, a majority, or an inverter. A signal of n uses goes through
        as many levels of splitters as a balanced tree has."""
        uses, self.levels, ready = graph.uses(), {}, {}

        def stand(operand, level):
            self.levels[operand], outputs = level, 1
            while outputs < uses[operand]:
                level, outputs = level + 1, outputs * self.most
            ready[operand] = level
            name, inverted = operand
            if not inverted and uses[name, True]:
                stand((name, True), level + 1)

        for name in graph.source.inputs:
            stand((name, False), 0)
        for name, takes in graph.majorities.items():
            stand((name, False), 1 + max(ready[each] for each in takes if each[0] is not None))
        self.last = 1 + max(ready.get(each, 0) for each in graph.shown)

    def add(self, level, kind, origin, takes, own=None):
        """A cell. What it takes but constants are pins that trees feed."""
        cell = super().add(level, kind, origin, takes, own)
        for place, operand in enumerate(takes):
            if isinstance(operand, tuple) and operand[0] is not None:
                self.pins[operand][level].append((cell, place))
        return cell

    def add_tree(self, bottom, root, pins):
        """Feeds the pins of a signal, which are listed by their levels: from the highest down, the pins of a level are
        fed by as few cells as can be, whose pins are fed with those of the level below."""
        level, wanted = max(pins, default=bottom), []
        while level > bottom:
            wanted = pins.get(level, []) + wanted
            level -= 1
            if level > bottom:
                feeds = [wanted[start:start + self.most] for start in range(0, len(wanted), self.most)]
                wanted = [(self.feed(self.add(level, "buffer", root.origin, []), fed), 0) for fed in feeds]
        self.feed(root, wanted)

    def feed(self, source, pins):
        """Lets a cell feed pins. A cell of a tree has a pin itself."""
        for cell, place in pins:
            cell.takes[place:place + 1] = [source]
        return source


def main():
    parser = Arguments("cells", __doc__)
    parser.add_argument("net", metavar="NET.blif", help="a netlist of majorities, ands, ors and inverters")
    parser.add_argument("out", metavar="OUT.blif", help="the netlist of cells")
    parser.add_argument("--three", action="store_true", help="splitters have up to three outputs, and not two")
    parser.add_argument("--keep", action="store_true", help="keeps the buffers and splitters that are there")
    words = parser.parse_args()
    source, most = Source(words.net), 3 if words.three else 2
    rows = KeptRows(KeptGraph(source), most) if words.keep else Rows(Graph(source), most)
    text = "\n".join(lines_of_cells(rows, source)) + "\n"
    with open(words.out, "w", encoding="utf-8", errors="surrogateescape") as file:
        file.write(text)
    print(f"rows {len(rows.rows)} cells {rows.count}")


run(main)
