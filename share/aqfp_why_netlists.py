"""What the faults of a netlist in BLIF mean, for the file at hand."""
import difflib
import re
from dataclasses import dataclass, field

from aqfp_files import one_line, statements

# What to do about statements that are not read.
REMEDIES = {
    ".gate": "a cell of a library: `unmap` in ABC before `write_blif` makes covers of gates",
    ".mlatch": "a register of a library: take registers out by `dfflegalize` and `expose -evert-dff` in Yosys",
    ".latch": "a register, and a chip has none: build the next state, in Yosys by `dfflegalize -cell $_DFF_P_ x; "
              "expose -evert-dff`, in ABC by `comb` (docs/guide.md, \"Registers\")",
    ".exdc": "don't cares: delete the lines from here to .end, which only changes what an optimiser may do",
    ".search": "another file: put its text here, or flatten the design (`synth -flatten` in Yosys)",
    ".cname": "a name of a cell: write BLIF without these extensions, in Yosys `write_blif` without -cname",
    ".attr": "an attribute: in Yosys `write_blif` without -attr",
    ".param": "a parameter: in Yosys `write_blif` without -param",
    ".conn": "a connection: in Yosys `write_blif` without -conn makes a cover of it",
    ".barbuf": "a buffer of VPR: `.names a y` with the row `1 1`",
    ".blackbox": "a model without a body: write its body, or leave it out and make its ports inputs and outputs",
}
READ = (".inputs", ".outputs", ".names", ".model", ".end", ".subckt")
# How files begin that are no netlists.
BEGINNINGS = (
    (b"\x1f\x8b", "it is compressed: gunzip it first"),
    (b"\x00\x06\x00\x02", "it is a GDSII stream: a layout is no netlist"),
    (b"\xef\xbb\xbf", "it begins with a byte order mark: sed -i '1s/^\\xef\\xbb\\xbf//' takes it off"),
    (b"\xff\xfe", "it is UTF-16: save it as plain text, in UTF-8"),
    (b"\xfe\xff", "it is UTF-16: save it as plain text, in UTF-8"),
    (b"aig ", "it is an AIGER file: `read_aiger` and `write_blif` in ABC make BLIF of it"),
    (b"aag ", "it is an AIGER file: `read_aiger` and `write_blif` in ABC make BLIF of it"),
)
# What the text of other kinds of files has.
MARKS = (
    (r"\s*(//|/\*|`|module\b|\(\*)", "it seems to be Verilog: Yosys makes BLIF of it (docs/guide.md, \"A netlist\")"),
    (r"\s*(INPUT|OUTPUT)\s*\(", "it seems to be a .bench file: `read_bench` and `write_blif` in ABC make BLIF of it"),
    (r"\s*\[\w+\]\s*$|\s*\w+\s*=\s*\d+", "it seems to be a library: NET and LIB may be exchanged"),
    (r"\s*(library|entity|LIBRARY|ENTITY)\s", "it seems to be VHDL: a synthesis tool has to make BLIF of it"),
)


@dataclass
class Definition:
    """A `.names`: its line, what it takes, what it defines, and the rows of its cover."""
    line: int
    takes: list
    name: str
    rows: list = field(default_factory=list)


@dataclass
class Model:
    """A model as the text has it, whatever its faults."""
    name: str
    line: int
    inputs: list = field(default_factory=list)
    outputs: list = field(default_factory=list)
    definitions: list = field(default_factory=list)
    calls: list = field(default_factory=list)

    def drivers(self):
        """The lines that drive each signal, but for those of calls."""
        found = {}
        for name, line in self.inputs:
            found.setdefault(name, []).append(line)
        for each in self.definitions:
            found.setdefault(each.name, []).append(each.line)
        return found

    def users(self):
        """The lines that use each signal, with what they use it for."""
        found = {}
        for each in self.definitions:
            for name in each.takes:
                found.setdefault(name, []).append((each.line, f"by .names of {one_line(each.name)}"))
        for name, line in self.outputs:
            found.setdefault(name, []).append((line, "by .outputs"))
        for line, model, ports in self.calls:
            for _, actual in ports:
                found.setdefault(actual, []).append((line, f"by a call of {one_line(model)}"))
        return found


class Netlist:
    """The text of a netlist, in statements and models."""

    def __init__(self, path):
        self.path = path
        with open(path, "rb") as file:
            self.data = file.read()
        self.statements = dict(statements(path))
        self.models = [Model("", 0)]
        begun = False
        for line, words in self.statements.items():
            if words[0] == ".model" and begun:
                self.models.append(Model("".join(words[1:2]), line))
            elif words[0] == ".model":
                self.models[-1].name, self.models[-1].line = "".join(words[1:2]), line
            else:
                self.take(line, words)
            begun = True

    def take(self, line, words):
        """Takes a statement into the last model."""
        model = self.models[-1]
        if words[0] in (".inputs", ".outputs"):
            names = model.inputs if words[0] == ".inputs" else model.outputs
            names.extend((each, line) for each in words[1:])
        elif words[0] == ".names" and len(words) > 1:
            model.definitions.append(Definition(line, words[1:-1], words[-1]))
        elif words[0] == ".subckt" and len(words) > 1:
            model.calls.append((line, words[1], [tuple(each.partition("=")[::2]) for each in words[2:]]))
        elif not words[0].startswith(".") and model.definitions:
            model.definitions[-1].rows.append((line, words))

    def model_at(self, line):
        """The model that a line stands in."""
        return [each for each in self.models if each.line <= line or each is self.models[0]][-1]

    def definition_at(self, line):
        """The definition that a line, or the row in it, belongs to."""
        before = [each for each in self.model_at(line).definitions if each.line <= line]
        return before[-1] if before else None

    def raw(self, line):
        """A line of the file as it is."""
        lines = self.data.split(b"\n")
        return lines[line - 1] if 0 < line <= len(lines) else b""


def told(text):
    """A line of a file on one line, cut where it is long."""
    text = one_line(text.decode("utf-8", "surrogateescape") if isinstance(text, bytes) else text)
    return text if len(text) <= 100 else text[:97] + "..."


def other_kind(data):
    """What kind of file it may be instead of a netlist, in words."""
    for begin, what in BEGINNINGS:
        if data.startswith(begin):
            return what
    text = data[:4096].decode("latin-1")
    for line in (line for line in text.split("\n")[:40] if line.strip() and not line.lstrip().startswith("#")):
        for pattern, what in MARKS:
            if re.match(pattern, line):
                return what
    return None


def explain(path, line, kind):
    """Says what a fault of status 6 means: `line L: KIND`."""
    netlist = Netlist(path)
    if line:
        yield f"line {line} is: {told(netlist.raw(line))}"
    word, _, rest = kind.partition(" ") if kind.startswith("cycle") else (kind, "", "")
    about = {"token": about_token, "unsupported": about_unsupported, "row alone": about_row_alone,
             "row shape": about_row_shape, "row value": about_row_value, "duplicate": about_duplicate,
             "no outputs": about_outputs, "undefined": about_undefined}
    if word == "cycle":
        yield from about_cycle(netlist, rest.split(" "))
    elif word in about:
        yield from about[word](netlist, line)
    what = other_kind(netlist.data) if word not in ("cycle", "undefined", "duplicate") else None
    if what:
        yield f"{one_line(str(path))}: {what}"
    yield "look at docs/blif.md, \"Statements\" and \"Faults\""


def about_token(netlist, line):
    """A control byte, or `.names` without a signal. The line may be one of several joined ones."""
    number = line
    while True:
        text = netlist.raw(number)
        text = text.removesuffix(b"\r") if number <= netlist.data.count(b"\n") else text
        for column, byte in enumerate(text.split(b"#")[0], 1):
            if byte < 32 and byte != 9 or byte == 127:
                yield f"byte {column} of line {number} is the control byte {byte:02X}: write the file as plain text"
                return
        if not text.split(b"#")[0].endswith(b"\\"):
            break
        number += 1
    yield ".names names no signal: it takes its inputs, and then the signal that it defines"


def about_unsupported(netlist, line):
    statement = netlist.statements.get(line, [""])
    ends = [number for number, words in netlist.statements.items() if words[0] == ".end" and number < line]
    if statement[0] in REMEDIES:
        yield f"{one_line(statement[0])} is {REMEDIES[statement[0]]}"
        count = sum(words[0] == statement[0] for words in netlist.statements.values())
        yield f"the file has {count} of these statements"
    elif ends:
        yield f"the model ended at line {ends[-1]}, by .end: nothing but .model may follow"
    else:
        near = difflib.get_close_matches(statement[0], READ, 1)
        yield f"{one_line(statement[0])} is no statement that is read" + (f"; is it {near[0]}?" if near else "")


def about_row_alone(netlist, line):
    before = [(number, words) for number, words in netlist.statements.items() if number < line]
    if before:
        number, words = before[-1]
        yield f"it is a row of a cover, and line {number} before it is no .names and no row: {told(' '.join(words))}"
    else:
        yield "it is the first statement, and begins with no dot: a row of a cover follows its .names"


def about_row_shape(netlist, line):
    definition, words = netlist.definition_at(line), netlist.statements.get(line, [])
    wants = len(definition.takes)
    yield f"it is a row of .names of {one_line(definition.name)}, line {definition.line}, which takes {wants} signals"
    plane = words[0] if len(words) == 2 else None
    if not wants:
        yield "a row of no signals is a value alone, 0 or 1"
    elif plane is None:
        yield f"a row is {wants} digits together, a blank, and the value; this one has {len(words)} words"
    elif len(plane) != wants:
        yield f"its plane is {len(plane)} long, and {wants} digits are due"
    else:
        bad = next((each for each in plane if each not in "01-"), "")
        yield f"its plane has {one_line(bad)}: a digit is 0, 1 or -"


def about_row_value(netlist, line):
    definition, words = netlist.definition_at(line), netlist.statements.get(line, [""])
    first = definition.rows[0]
    if words[-1] not in ("0", "1"):
        yield f"its value is {told(words[-1])}: a value is 0 or 1"
    else:
        yield (f"its value is {words[-1]}, and that of the first row of {one_line(definition.name)}, line {first[0]}, "
               f"is {told(first[1][-1])}: all rows of a cover have one value")
        yield "write the rows of one value, and leave out the others: what no row matches has the other value"


def about_duplicate(netlist, line):
    for name, lines in netlist.model_at(line).drivers().items():
        if line in lines and len(lines) > 1:
            inputs = [at for each, at in netlist.model_at(line).inputs if each == name]
            first = min(lines)
            what = "is an input at" if first in inputs else "is defined at"
            yield f"{one_line(name)} {what} line {first} already: give one of the two another name"
            return


def about_outputs(netlist, line):
    if not netlist.statements:
        yield "the file has no statement: the tool that wrote it may have failed"
    else:
        yield f"{len(netlist.statements)} statements, and none is .outputs with a name"
    if netlist.data and b"\n" not in netlist.data and b"\r" in netlist.data:
        yield "its lines end by carriage returns alone: they have to end by line feeds"


def about_undefined(netlist, line):
    model = netlist.model_at(line)
    drivers, users = model.drivers(), model.users()
    missing = [name for name in users if name not in drivers]
    here = [name for name in missing if any(at == line for at, _ in users[name])]
    for name in here:
        yield f"{one_line(name)} is neither an input nor defined; it is used {used(users[name])}"
        near = difflib.get_close_matches(name, list(drivers), 1)
        if near:
            yield f"is it {one_line(near[0])}, which line {drivers[near[0]][0]} has?"
    if len(missing) > len(here):
        yield f"{len(missing)} signals of the file are undefined: {listed(missing)}"
    yield "`.names x` alone is the constant false"
    yield "after `synth -flatten` of Yosys `opt_clean -purge` drops aliases of nothing"


def used(users):
    """Who uses a signal, in words."""
    told_of = [f"at line {line} {who}" for line, who in users[:5]]
    return ", ".join(told_of) + (f" and {len(users) - 5} more" if len(users) > 5 else "")


def listed(names):
    """Some names, in words."""
    return " ".join(map(one_line, names[:8])) + (" .." if len(names) > 8 else "")


def about_cycle(netlist, names):
    lines = {each.name: each for model in netlist.models for each in model.definitions}
    yield f"{len(names)} signals lead in a ring:"
    for name, reads in list(zip(names, names[1:] + names[:1]))[:20]:
        where = f", line {lines[name].line}" if name in lines else ""
        yield f"  {one_line(name)} is computed from {one_line(reads)}{where}"
    yield "a chip has no feedback: cut the ring at a register (docs/guide.md, \"Registers\")"
