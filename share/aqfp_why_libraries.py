"""What the faults of a library mean, for the file at hand, and a library like it that reaches further."""
import difflib
import re

from aqfp_files import Stop, one_line

try:
    import tomllib
except ImportError:
    tomllib = None

# The numbers of a library, with their greatest values.
SIZE, MOST = 1_000_000, 2_147_483_647
NUMBERS = {"wire": SIZE, "space": SIZE, "via": SIZE, "enclose": SIZE, "pin": SIZE, "height": SIZE, "pitch": SIZE,
           "columns": 1000, "capacity": 1000, "limit": MOST}
# The inputs and the outputs of each kind.
KINDS = {"buffer": (1, 1), "inverter": (1, 1), "zero": (0, 1), "one": (0, 1), "split2": (1, 2), "split3": (1, 3),
         "majority": (3, 1)}
EVEN = ("wire", "space", "via", "enclose", "pin", "height", "pitch")
# A library that reaches as far as any.
FAR = {"capacity": 400, "limit": MOST}
FAR_REACH = FAR["capacity"] // 2


def read(path):
    """A library, read as TOML."""
    if tomllib is None:
        raise Stop("Python 3.11 is the first that reads TOML: libraries can't be looked at")
    with open(path, "rb") as file:
        data = file.read()
    try:
        return tomllib.loads(data.decode("utf-8-sig"))
    except (ValueError, RecursionError):
        raise Stop(f"{path}: Python does not read it as TOML") from None


def explain(path, kind):
    """Says what a fault of status 7 or 8 means: what follows `library: `."""
    if kind == "text":
        yield from about_text(path)
        return
    library = read(path)
    law = re.fullmatch(r"law (\d+)", kind)
    key = re.fullmatch(r"key (.+)", kind, re.DOTALL)
    value = re.fullmatch(r"(\S+) = (-?\d+)", kind)
    missing = re.fullmatch(r"missing (\w+)", kind)
    if law:
        yield from about_law(library, int(law[1]))
        yield "look at docs/library.md, \"The laws\""
    elif key:
        yield from about_key(path, library, key[1])
    elif value:
        yield from about_value(path, value[1], int(value[2]))
    elif missing:
        yield f"there is no kind {missing[1]}: each library has {', '.join(kind for kind in KINDS if kind != 'split3')}"
        yield f"write a table [{missing[1]}] with inputs and outputs; libraries/a.toml has one to copy"
        yield "look at docs/library.md, \"The kinds of cells\""


def lines_of(path):
    """The lines of a file, whatever is in it."""
    with open(path, encoding="utf-8", errors="surrogateescape", newline="") as file:
        return file.read().split("\n")


def line_told(path, number):
    """A line of a file, in words."""
    lines = lines_of(path)
    text = one_line(lines[number - 1].removesuffix("\r")) if 0 < number <= len(lines) else ""
    return f"line {number} is: {text[:100]}"


def lines_with(path, key):
    """The lines on which a key seems to stand, `K` at the top or `K.X` in the table K."""
    table, _, name = key.rpartition(".")
    found, here = [], ""
    for number, text in enumerate(lines_of(path), 1):
        header = re.match(r"\s*\[\s*[\"']?([^\]\"']*)", text)
        stands = re.match(r"\s*([^=#]*?)\s*=", text)
        if header:
            here = header[1].strip()
            if here == key:
                found.append(number)
        elif stands and ".".join(filter(None, [here, re.sub(r"[\s\"']", "", stands[1])])) == key:
            found.append(number)
        elif stands and here == "" and stands[1] == table and re.search(rf"\b{re.escape(name)}\b", text):
            found.append(number)
    return found[:3]


def about_text(path):
    """Why a text is no TOML."""
    with open(path, "rb") as file:
        data = file.read()
    try:
        text = data.decode("utf-8-sig")
        tomllib.loads(text.replace("\r\n", "\n")) if tomllib else None
        yield "it is TOML for Python: is a number past 64 bits in it? That counts as no text"
    except UnicodeDecodeError as error:
        line = data[:error.start].count(b"\n") + 1
        yield f"byte {error.start} is {data[error.start]:02X}, which is no UTF-8"
        yield line_told(path, line)
    except RecursionError:
        yield "its arrays or tables stand too deep in one another"
    except ValueError as error:
        found = re.search(r"line (\d+)", str(error))
        line = int(found[1]) if found else data.rstrip().count(b"\n") + 1
        yield f"it is no TOML: {one_line(str(error))}"
        yield line_told(path, line)
        about = lines_of(path)[line - 1].lstrip() if line <= len(lines_of(path)) else ""
        if about.startswith("."):
            yield "it seems to be a netlist: NET and LIB may be exchanged"
    yield "look at docs/library.md, \"Faults\"; libraries/a.toml is a library to copy"


def about_key(path, library, key):
    """A key that no library has, or one that is absent or has another value than it should."""
    yield from (line_told(path, line) for line in lines_with(path, key))
    top, _, below = key.partition(".")
    if key in NUMBERS:
        there = f"is {told(library[key])}, which is no integer" if key in library else "is absent"
        yield f"{key} {there}: it is a number from 1 to {NUMBERS[key]}, at the top of the file, before the first table"
        tables = [name for name, table in library.items() if isinstance(table, dict) and key in table]
        yield from (f"it stands in the table [{one_line(name)}]" for name in tables)
    elif key in KINDS:
        yield f"{key} is no table: write [{key}], and under it inputs and outputs"
    elif below in ("inputs", "outputs") and top in KINDS:
        yield f"{key} is absent or no array of integers: {KINDS[top][below == 'outputs']} columns are due in it"
    elif top in KINDS:
        yield f"{one_line(below)} is no key of a kind of cell: it has inputs and outputs"
    else:
        keys = f"name, {', '.join(NUMBERS)} and the kinds {', '.join(KINDS)}"
        yield f"{one_line(key)} is no key of a library: it has {keys}"
        near = difflib.get_close_matches(key, [*NUMBERS, *KINDS, "name"], 1)
        yield from (f"is it {each}?" for each in near)
    yield "look at docs/library.md, \"The numbers\" and \"The kinds of cells\""


def about_value(path, key, value):
    """A number out of its range."""
    yield from (line_told(path, line) for line in lines_with(path, key))
    if key in NUMBERS:
        unit = {"columns": "columns of a slot", "capacity": "tracks"}.get(key, "nanometres")
        yield f"{key} is {value}, and goes from 1 to {NUMBERS[key]} {unit}"
    else:
        yield f"{key} has the column {value}, and columns go from 0 to 2999, from the left edge of the cell"
    yield "look at docs/library.md, \"The numbers\""


def told(value):
    """A value of a library, on one line."""
    text = one_line(str(value))
    return text if len(text) <= 60 else text[:57] + "..."


def pins(library):
    """The pins of each kind that a library has: kind, which side, the pin's number and its column."""
    for kind in (kind for kind in KINDS if kind in library):
        for side in ("inputs", "outputs"):
            for pin, column in enumerate(library[kind][side]):
                yield kind, side, pin, column


def about_law(library, law):
    """Which numbers or pins break a law, and what would keep it."""
    value = {key: library.get(key, 0) for key in NUMBERS}
    wire, space, via, enclose, pin, height, pitch, columns, capacity, limit = value.values()
    sums = {3: (f"wire = {wire} is less than via + 2 * enclose = {via} + 2 * {enclose} = {via + 2 * enclose}",
                f"wire = {via + 2 * enclose}, or a smaller via or enclose"),
            4: (f"pitch = {pitch} is less than wire + space = {wire} + {space} = {wire + space}",
                f"pitch = {wire + space}"),
            5: (f"height = {height} is less than 2 * pin + space = 2 * {pin} + {space} = {2 * pin + space}",
                f"height = {2 * pin + space}"),
            12: (f"pin = {pin} is less than wire = {wire}", f"pin = {wire}"),
            13: (f"3 * columns * pitch = 3 * {columns} * {pitch} = {3 * columns * pitch} is more than {MOST}",
                 "fewer columns, or a smaller pitch"),
            14: (f"capacity = {capacity} is less than 4", "capacity = 4")}
    if law == 1:
        yield from (f"{key} = {value[key]} is odd" for key in EVEN if value[key] % 2)
        yield "take even numbers: wires, vias and pins are centred on columns and tracks"
    elif law == 2:
        yield f"columns = {columns} is odd: take an even number"
    elif law in sums:
        yield sums[law][0]
        yield f"at least that: {sums[law][1]}" if law != 13 else f"take {sums[law][1]}"
    elif law == 11:
        yield from about_reach(value)
    else:
        yield from about_pins(library, columns, law)


def about_pins(library, columns, law):
    """The pins that break a law."""
    if law == 6:
        for kind in (kind for kind in KINDS if kind in library):
            has, due = (len(library[kind]["inputs"]), len(library[kind]["outputs"])), KINDS[kind]
            if has != due:
                yield f"{kind} has {has[0]} inputs and {has[1]} outputs, and {due[0]} and {due[1]} are due"
    for kind, side, pin, column in pins(library):
        first, last = pin * columns, (pin + 1) * columns - 1
        where = f"{kind}.{side}: pin {pin} is in column {column}"
        if (law, side) in ((7, "inputs"), (8, "outputs")) and not first <= column <= last:
            yield f"{where}, and its slot has the columns {first} to {last} (columns = {columns})"
        if law == 9 and side == "inputs" and column % 2 == 0:
            yield f"{where}, which is even: inputs stand in odd columns"
        if law == 10 and side == "outputs" and column % 2:
            yield f"{where}, which is odd: outputs stand in even columns"


def reaches(value):
    """How much of the length limit the rise of a wire takes at most, the length reach, and half the capacity."""
    rise = (value["capacity"] + 1) * value["pitch"] + 2 * value["pin"] + 2 * value["wire"]
    slot = value["columns"] * value["pitch"]
    return rise, max(0, value["limit"] - rise) // slot, value["capacity"] // 2


def about_reach(value):
    """Why the length reach is less than 2."""
    rise, length, _ = reaches(value)
    slot = value["columns"] * value["pitch"]
    yield f"a wire rises by at most (capacity + 1) * pitch + 2 * pin + 2 * wire = {rise}"
    yield f"limit = {value['limit']} leaves {length} slots of columns * pitch = {slot} for its run, and 2 are due"
    yield f"at least that: limit = {rise + 2 * slot}"
    yield "or fewer tracks (capacity), or a smaller pitch"


def far_library(path):
    """The text of a library like this one whose wires reach as far as they can, and the reach of this one."""
    library = read(path)
    values = {key: library[key] for key in NUMBERS}
    _, length, half = reaches(values)
    lines = [f"{key} = {FAR.get(key, value)}" for key, value in values.items()]
    for kind in (kind for kind in KINDS if kind in library):
        lines += [f"[{kind}]", f"inputs = {library[kind]['inputs']}", f"outputs = {library[kind]['outputs']}"]
    _, far, _ = reaches({**values, **FAR})
    return "\n".join(lines) + "\n", min(length, half), min(far, FAR_REACH)
