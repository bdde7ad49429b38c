"""What the faults of a design of several models mean, and those of a netlist to draw, for the file at hand."""
import difflib

from aqfp_files import one_line
from aqfp_why_netlists import Netlist, listed, told, used

# The functions of two inputs that are no cells, by their values for 00, 10, 01 and 11.
FUNCTIONS = {(0, 0, 0, 1): "an and", (0, 1, 1, 1): "an or",
             (0, 1, 1, 0): "an exclusive or", (1, 0, 0, 1): "an equality",
             (1, 1, 1, 0): "the opposite of an and", (1, 0, 0, 0): "the opposite of an or",
             (0, 1, 0, 0): "an and with an opposite", (0, 0, 1, 0): "an and with an opposite",
             (1, 1, 0, 1): "an or with an opposite", (1, 0, 1, 1): "an or with an opposite"}


def explain_design(path, line, kind):
    """Says what a fault of status 16 means: `line L: subckt KIND`."""
    netlist = Netlist(path)
    if line:
        yield f"line {line} is: {told(netlist.raw(line))}"
        model = netlist.model_at(line)
        yield f"it stands in the model {one_line(model.name) or 'without a name'}, which begins at line {model.line}"
    about = {"unknown model": about_unknown, "ports": about_ports, "undefined": about_undriven,
             "model twice": about_twice, "duplicate": about_driven, "recursive": about_recursive,
             "no outputs": about_no_outputs}
    if kind in about:
        yield from about[kind](netlist, line)
    yield "look at docs/blif.md, \"Designs of several models\"; `synth -flatten` in Yosys makes one model of a design"


def call_at(netlist, line):
    """The model that a call names, as the text has it, and its ports; nothing where the line is none."""
    for at, name, ports in netlist.model_at(line).calls:
        if at == line:
            return next((each for each in netlist.models if each.name == name), None), name, ports
    return None, "", []


def about_unknown(netlist, line):
    _, name, _ = call_at(netlist, line)
    names = [each.name for each in netlist.models]
    yield f"no model of the file is called {one_line(name)}; it has {listed(names)}"
    near = difflib.get_close_matches(name, names, 1)
    if near:
        yield f"is it {one_line(near[0])}?"
    if name.startswith("$"):
        yield "it is a cell of Yosys that was left: `abc -g ..` maps gates, `expose -evert-dff` takes registers out"
    yield "write the model into the text, or map its cells to .names before"


def about_ports(netlist, line):
    model, name, ports = call_at(netlist, line)
    if model is None:
        caller = netlist.model_at(line)
        both = {each for each, _ in caller.inputs} & {each for each, _ in caller.outputs}
        yield f"names that are input and output of one model: {listed(sorted(both))}: give the output a buffer"
        return
    inputs, outputs = [each for each, _ in model.inputs], [each for each, _ in model.outputs]
    formals = [formal for formal, _ in ports]
    for formal, actual in ports:
        if not formal or not actual:
            yield f"a port has nothing on one side of its `=`: {told(f'{formal}={actual}')}"
        elif formal not in inputs + outputs:
            near = difflib.get_close_matches(formal, inputs + outputs, 1)
            guess = f"; is it {one_line(near[0])}?" if near else ""
            yield f"{one_line(formal)} is no port of {one_line(name)}{guess}"
    twice = sorted({each for each in formals if formals.count(each) > 1})
    missing = [each for each in inputs if each not in formals]
    if twice:
        yield f"ports that stand twice: {listed(twice)}"
    if missing:
        yield f"inputs of {one_line(name)} without a port: {listed(missing)}"
    both = [each for each in inputs if each in outputs]
    if both:
        yield f"{one_line(name)} has inputs that are outputs too: {listed(both)}: give the output a buffer"
    yield f"{one_line(name)}, line {model.line}, has the inputs {listed(inputs)} and the outputs {listed(outputs)}"


def driven_by_calls(netlist, model):
    """The signals that calls of a model drive, with their lines."""
    for line, name, ports in model.calls:
        called = next((each for each in netlist.models if each.name == name), None)
        outputs = {each for each, _ in called.outputs} if called else ()
        yield from ((actual, line) for formal, actual in ports if formal in outputs)


def all_drivers(netlist, model):
    """The lines that drive each signal of a model, those of calls too."""
    drivers = model.drivers()
    for name, line in driven_by_calls(netlist, model):
        drivers.setdefault(name, []).append(line)
    return drivers


def about_undriven(netlist, line):
    model = netlist.model_at(line)
    drivers, users = all_drivers(netlist, model), model.users()
    for name in users:
        if name not in drivers and any(at == line for at, _ in users[name]):
            yield f"{one_line(name)} is driven by nothing; it is used {used(users[name])}"
            near = difflib.get_close_matches(name, list(drivers), 1)
            if near:
                yield f"is it {one_line(near[0])}, which line {drivers[near[0]][0]} has?"
    models = {each.name: {name for name, _ in each.outputs} for each in netlist.models}
    for at, name, ports in model.calls:
        strange = [formal for formal, _ in ports if formal not in models.get(name, ())]
        if name not in models:
            yield f"line {at} calls {one_line(name)}, which is no model of the file, so it drives nothing"
        elif any(actual not in drivers and users[actual][0][0] != at for formal, actual in ports if formal in strange):
            yield f"line {at} calls {one_line(name)}, whose outputs are {listed(sorted(models[name]))}"
    yield "`opt_clean -purge` before `write_blif` drops aliases of nothing; registers and cells of a library have to be"
    yield "made inputs or gates before (docs/guide.md, \"Registers\")"


def about_driven(netlist, line):
    for name, lines in all_drivers(netlist, netlist.model_at(line)).items():
        if line in lines and len(lines) > 1:
            yield f"{one_line(name)} is driven at the lines {' '.join(map(str, sorted(lines)))}: one of them has to go"


def about_twice(netlist, line):
    name = netlist.model_at(line).name
    first = next(each.line for each in netlist.models if each.name == name)
    yield f"the model {one_line(name)} stands at line {first} already: delete the second one where they are the same"


def about_recursive(netlist, line):
    _, name, _ = call_at(netlist, line)
    yield f"the call leads back to a model that it stands in, by {one_line(name)}: a chip can't hold itself"


def about_no_outputs(netlist, line):
    first = netlist.models[0]
    name = one_line(first.name) or "without a name"
    yield f"the first model, {name}, is the one that is built, and it names no output"
    yield "`synth -auto-top` in Yosys puts the module that no other calls first"


# Netlists of cells

def explain_cells(path, line, kind):
    """Says what a fault of status 19 means: `line L: cells KIND`."""
    netlist = Netlist(path)
    model = netlist.models[0]
    definition = next((each for each in model.definitions if each.line == line), None)
    if definition:
        yield f"line {line} defines {one_line(definition.name)} of {listed(definition.takes) or 'nothing'}"
    if len(netlist.models) > 1 or model.calls:
        yield "the file has several models: write one, since each port of a call is a buffer"
    elif kind == "cover" and definition:
        yield from about_cover(definition)
    elif kind == "uses":
        yield from about_uses(model, definition)
    elif kind == "level" and definition:
        yield from about_level(model, definition)
    elif kind == "outputs":
        yield from about_shown(model)
    yield "look at docs/cells.md, \"When it refuses\"; share/cells.py makes netlists of cells; build takes any netlist"


def values_of(definition):
    """The values of a definition for each word of its inputs, input 0 changing first."""
    count = len(definition.takes)
    rows = [words for _, words in definition.rows]
    inverted = bool(rows) and rows[0][-1] == "0"
    planes = [words[0] if len(words) > 1 else "" for words in rows]

    def matches(plane, word):
        return all(plane[i] in ("-", str(word >> i & 1)) for i in range(count))

    return tuple(int(inverted != any(matches(plane, word) for plane in planes)) for word in range(2 ** count))


def about_cover(definition):
    count = len(definition.takes)
    if len(set(definition.takes)) < count:
        yield "it takes a signal twice: a majority takes three different ones"
    elif count > 3:
        yield f"it takes {count} signals, and a cell takes three at most"
    elif count == 1:
        yield "it is a constant, and takes a signal: leave the signal out"
    elif count == 2:
        what = FUNCTIONS.get(values_of(definition), "no function of both signals")
        yield f"it is {what}; no cell takes two signals"
        if what in ("an exclusive or", "an equality"):
            yield "it takes three majorities and inverters: build and compact make them"
        yield "an and is a majority with a constant false of its own, an or with a constant true"
        yield "opposites are inverters, cells of their own"
    else:
        yield "it is no majority of its three signals: the rows are 11- 1, 1-1 1, -11 1, and opposites are inverters"


def about_uses(model, definition):
    users = model.users()
    if definition is None:
        unused = [name for name, _ in model.inputs if name not in users]
        yield f"inputs without a use: {listed(unused)}: each has one buffer, which may be without a use"
        return
    inputs = {name for name, _ in model.inputs}
    for name in definition.takes:
        if name in inputs and len(users[name]) > 1:
            times = used(users[name])
            yield f"the input {one_line(name)} is used {times}: one buffer takes it, and a splitter above that"
    uses = users.get(definition.name, [])
    if uses:
        yield f"{one_line(definition.name)} has {len(uses)} use{'s' * (len(uses) > 1)}: {used(uses)}"
    else:
        yield f"{one_line(definition.name)} has no use: delete it"
    yield "a buffer has one use, or two, or three where the library has split3; all other cells have one: put splitters"
    if any(who == "by .outputs" for _, who in uses):
        yield "an output is a name: a buffer of a buffer in the last row, once in .outputs, and nothing else takes it"


def levels_before(model, last):
    """The levels of the definitions before a line, each with its part: 0 where it hangs on inputs; others count from
    starts of their own."""
    inputs = {name for name, _ in model.inputs}
    cells = {each.name: each for each in model.definitions if each.line < last}
    near = {name: [] for name in cells}
    for name, each in cells.items():
        for source in (source for source in each.takes if source in cells):
            near[name].append((source, -1))
            near[source].append((name, 1))
    levels = {}
    anchored = [name for name, each in cells.items() if any(source in inputs for source in each.takes)]
    for part, start in enumerate(anchored + list(cells)):
        part, waiting = 0 if part < len(anchored) else part + 1, [] if start in levels else [start]
        levels.update({start: (part, 0)} if waiting else {})
        while waiting:
            name = waiting.pop()
            for other, step in near[name]:
                if other not in levels:
                    levels[other] = part, levels[name][1] + step
                    waiting.append(other)
    return levels


def about_level(model, definition):
    inputs = {name for name, _ in model.inputs}
    direct = [name for name in definition.takes if name in inputs]
    if direct:
        yield f"it takes the input {listed(direct)} itself, and is no buffer, or a splitter: put a buffer between"
        return
    levels = levels_before(model, definition.line)
    known = {name: levels[name][1] for name in definition.takes if levels.get(name, (1, 0))[0] == 0}
    if len(set(known.values())) > 1:
        stand = ", ".join(f"{one_line(name)} on {at}" for name, at in known.items())
        yield f"what it takes stands on different levels: {stand}"
        top = max(known.values())
        for name, at in known.items():
            if at < top:
                yield f"put {top - at} buffer{'s' * (top - at > 1)} between {one_line(name)} and it"
    elif known and min(known.values()) < 0 or any(at < 0 for part, at in levels.values() if part == 0):
        yield "a constant that it leads to would stand below level 0: put a buffer above each input"
    else:
        yield "no levels fit it and all definitions before it: two ways of different length lead to it"


def about_shown(model):
    inputs, users = {name for name, _ in model.inputs}, model.users()
    cells = {each.name: each for each in model.definitions}
    last = max((each.line for each in model.definitions), default=0) + 1
    levels, rows = levels_before(model, last), {}
    for name, _ in model.outputs:
        takes = cells[name].takes if name in cells else []
        if name in inputs:
            yield f"the output {one_line(name)} is an input: it needs a buffer in each row, and a name"
        elif len(users.get(name, [])) > 1:
            yield f"the output {one_line(name)} is used {used(users[name])}: a name has no other use"
        elif len(takes) == 1 and takes[0] in levels:
            rows[name] = levels[takes[0]][1]
            if len(users.get(takes[0], [])) > 1:
                times = used(users[takes[0]])
                yield f"{one_line(takes[0])}, which {one_line(name)} shows, is used {times}: it has one use"
            if rows[name] == 0:
                yield f"{one_line(takes[0])}, which {one_line(name)} shows, is on level 0: put a buffer between"
    if len(set(rows.values())) > 1:
        yield "outputs show buffers of different levels: " + ", ".join(
            f"{one_line(name)} on {at}" for name, at in list(rows.items())[:8]) + ": put buffers until all are on one"
