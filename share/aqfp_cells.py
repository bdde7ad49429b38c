"""What cells.py and aqfp_kept.py share: netlists of majorities, and rows of cells that are written as a netlist."""
import collections
import itertools
import re

from aqfp_files import KINDS, Stop, statements

PASSED = {".area", ".delay", ".wire", ".end"} | {start + name for start in (".", ".default_") for name in (
    "wire_load_slope", "input_arrival", "output_required", "input_drive", "output_load", "max_input_load")}
MOST_CELLS = 2000000  # of a chip
COVERS = {kind: rows for rows, kind in KINDS.items()}
BITS = (False, True)

# For the table of an and, an or or a majority: which operands of a majority are inverted. Of two inputs the third
# operand is the constant false.
FORMS = {}
for signs in itertools.product(BITS, repeat=3):
    for inputs in 2, 3:
        words = itertools.product(BITS, repeat=inputs)
        FORMS[tuple(sum(map(bool.__xor__, (*word, False)[:3], signs)) > 1 for word in words)] = signs


# What is read

class Source:
    """A netlist of one model: inputs, outputs, and of each definition its line, the names that it takes, and rows."""

    def __init__(self, path):
        self.path, self.model, self.inputs, self.outputs, self.definitions = path, "cells", [], [], {}
        models, ended, rows = 0, False, None
        for number, words in statements(path):
            models += words[0] == ".model"
            if models > 1:
                self.stop(number, "a second model")
            if ended:
                self.stop(number, "something after .end")
            ended = words[0] == ".end"
            if not words[0].startswith(".") and rows is not None:
                rows.append("".join(words))
                continue
            rows = self.statement(number, words)
        inputs = set(self.inputs)
        if len(inputs) < len(self.inputs) or not inputs.isdisjoint(self.definitions):
            self.stop(0, "an input stands twice, or is defined")
        for number, takes, _ in (*self.definitions.values(), (0, self.outputs, ())):
            for name in takes:
                if name not in self.definitions and name not in inputs:
                    self.stop(number, f"{name} is neither an input nor defined")
        if not self.outputs:
            self.stop(0, "no outputs")

    def statement(self, number, words):
        """Takes in a statement; answers the list for its rows where it is a definition."""
        word, *names = words
        if word == ".names" and names:
            if names[-1] in self.definitions:
                self.stop(number, f"{names[-1]} is defined twice")
            rows = []
            self.definitions[names[-1]] = (number, names[:-1], rows)
            return rows
        if word == ".inputs":
            self.inputs += names
        elif word == ".outputs":
            self.outputs += names
        elif word == ".model":
            self.model = (names or ["cells"])[0]
        elif word not in PASSED:
            self.stop(number, f"{word} is not read here" if word.startswith(".") else "a row without a definition")
        return None

    def stop(self, number, what):
        raise Stop(f"{self.path}: line {number}: {what}" if number else f"{self.path}: {what}")

    def table(self, name):
        """The values of a definition, for all words of its inputs in their order."""
        number, takes, rows = self.definitions[name]
        if len(takes) > 3:
            self.stop(number, f"{name} has more than three inputs")
        if any(not re.fullmatch(f"[01-]{{{len(takes)}}}[01]", row) or row[-1] != rows[0][-1] for row in rows):
            self.stop(number, f"rows of {name} that are no cover")
        value = not rows or rows[0][-1] == "1"
        return [any(all(byte in (bit, "-") for bit, byte in zip(word, row)) for row in rows) == value
                for word in itertools.product("01", repeat=len(takes))]

    def in_order(self):
        """The names that are defined, each after those that it takes."""
        done = dict.fromkeys(self.inputs, True)
        for start in self.definitions:
            path = [] if start in done else [(start, iter(self.definitions[start][1]))]
            done.setdefault(start, False)
            while path:
                name, takes = path[-1]
                other = next(takes, None)
                if other is None:
                    done[name] = True
                    path.pop()
                    yield name
                elif other not in done:
                    done[other] = False
                    path.append((other, iter(self.definitions[other][1])))
                elif not done[other]:
                    self.stop(self.definitions[name][0], f"a cycle leads from {name} back to {other}")


class Graph:
    """The majorities of a netlist, each after those that it takes. An operand is the name of an input or of a majority
    and whether it is inverted; for a constant it is None and its value."""

    def __init__(self, source):
        self.source, self.majorities, self.operands = source, {}, {name: (name, False) for name in source.inputs}
        for name in source.in_order():
            self.operands[name] = self.operand(name)
        self.shown = [self.operands[name] for name in source.outputs]
        self.keep_used()

    def operand(self, name):
        """What a definition computes, as an operand of others."""
        takes = [self.operands[each] for each in self.source.definitions[name][1]]
        table = self.source.table(name)
        for place in reversed(range(len(takes))):
            step = 2 ** (len(takes) - 1 - place)
            if all(value == table[word ^ step] for word, value in enumerate(table)):
                table = [value for word, value in enumerate(table) if not word & step]
                takes.pop(place)
        if len(takes) < 2:
            signal, inverted = (takes or [(None, False)])[0]
            return self.alone(name, (signal, inverted ^ table[0]))
        signs = FORMS.get(tuple(table))
        if signs is None:
            self.source.stop(self.source.definitions[name][0], f"{name} is no and, or or majority")
        return self.majority(name, [(signal, inverted ^ sign)
                                    for (signal, inverted), sign in zip([*takes, (None, False)], signs)])

    def majority(self, name, takes):
        """The majority of three operands, which is one of them where two of them are of one signal."""
        for place in range(3):
            one, other, third = takes[place:] + takes[:place]
            if one[0] == other[0]:
                return self.alone(name, one if one == other else third)
        self.majorities[name] = takes
        return name, False

    def alone(self, name, operand):
        """The operand that a definition of one signal or of none is: here the signal itself."""
        return operand

    def keep_used(self):
        """Leaves out what no output needs."""
        waiting, used = [name for name, _ in self.shown], set()
        while waiting:
            name = waiting.pop()
            if name in self.majorities and name not in used:
                used.add(name)
                waiting += [each for each, _ in self.majorities[name]]
        self.majorities = {name: takes for name, takes in self.majorities.items() if name in used}

    def uses(self):
        """How many uses each operand has; the inverter of a signal is one of its uses."""
        uses = collections.Counter(each for takes in (*self.majorities.values(), self.shown) for each in takes)
        uses.update((name, False) for name, inverted in list(uses) if name is not None and inverted)
        return uses


# What is written

class Cell:
    """A cell: its kind, where it comes from, the cells or the input that it takes, its place while rows are put in
    order, and its name in the netlist that was read, where it has one."""
    __slots__ = ("kind", "origin", "takes", "place", "name", "own")

    def __init__(self, kind, origin, takes, own=None):
        self.kind, self.origin, self.takes, self.place, self.own = kind, origin, takes, 0.0, own


class CellRows:
    """Rows of cells that are filled one by one."""

    def __init__(self, graph, count):
        self.graph, self.count, self.rows = graph, 0, [[] for _ in range(count)]

    def add(self, level, kind, origin, takes, own=None):
        """A cell. A constant that it takes is a cell of its own, one below."""
        self.count += 1
        if self.count > MOST_CELLS:
            raise Stop(f"{self.graph.source.path}: more than {MOST_CELLS} cells")
        cell = Cell(kind, origin, list(takes), own)
        self.rows[level].append(cell)
        for place, operand in enumerate(takes):
            if isinstance(operand, tuple) and operand[0] is None:
                cell.takes[place] = self.add(level - 1, "one" if operand[1] else "zero", "constant", [])
                cell.takes[place].place = cell
        return cell

    def put_in_order(self):
        """Puts the cells of each row in order, from the lowest row up."""
        for row in self.rows:
            self.order_row(row)
            for place, cell in enumerate(row):
                cell.place = place

    def order_row(self, row):
        """The cells of a row in the order of the mean place of those that they take; a constant beside what goes to the
        same majority."""
        constants = [cell for cell in row if not cell.takes]
        for place, cell in enumerate(row):
            if cell.takes:
                places = [each.place for each in cell.takes if isinstance(each, Cell)] or [place]
                cell.place = sum(places) / len(places)
        for cell in constants:
            beside = [each.place for each in cell.place.takes if each.takes]
            cell.place = (beside or [len(row)])[0]
        row.sort(key=lambda cell: cell.place)


def lines_of_cells(rows, source):
    """The lines of the netlist. A cell has its own name, or the name of the signal that it comes from, its level, and a
    number where there are several."""
    taken, numbers = {*source.inputs, *source.outputs}, collections.Counter()

    def fresh(base):
        name = base
        while name in taken:
            numbers[base] += 1
            name = f"{base}.{numbers[base]}"
        taken.add(name)
        return name

    def definition(kind, takes, name):
        return [" ".join((".names", *takes, name)), *COVERS[kind]]

    yield from (f".model {source.model}", " ".join((".inputs", *source.inputs)))
    shown, names = set(source.inputs), []
    for name in source.outputs:
        names.append(fresh(f"{name}.out") if name in shown else name)
        shown.add(name)
    yield " ".join((".outputs", *names))
    for level, row in enumerate(rows.rows):
        yield f"# level {level}"
        for cell in row:
            cell.name = fresh(cell.own or f"{cell.origin}.{level}")
            takes = [each if isinstance(each, str) else each.name for each in cell.takes]
            yield from definition(cell.kind, takes, cell.name)
    yield "# names"
    for cell, name in zip(rows.ends, names):
        yield from definition("buffer", [cell.name], name)
    yield ".end"
