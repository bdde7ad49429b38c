"""What the scripts of this folder share: one line for what is wrong, streams, the names of a netlist, and circuits."""
import argparse
import os
import re
import struct
import sys

# Record types of the GDSII Stream Format.
HEADER, UNITS, ENDLIB, BGNSTR, STRNAME, ENDSTR = 0x00, 0x03, 0x04, 0x05, 0x06, 0x07
BOUNDARY, PATH, SREF, AREF, TEXT, NODE, BOX = 0x08, 0x09, 0x0A, 0x0B, 0x0C, 0x15, 0x2D
LAYER, ENDEL, SNAME, STRING = 0x0D, 0x11, 0x12, 0x19
MOST_DATA = 65530  # bytes of data in a record
LAST_BIT = 65535  # of a bus
ELEMENTS = (BOUNDARY, PATH, SREF, AREF, TEXT, NODE, BOX)

# The layers that `verify` reads.
READ_LAYERS = (10, 11, 12, 14, 15, 20, 21, 22, 30)
LABELS = 30

# What the rows of a definition say of its cell, in a netlist that `aqfp netlist` wrote.
KINDS = {(): "zero", ("1",): "one", ("1 1",): "buffer", ("0 1",): "inverter", ("11- 1", "1-1 1", "-11 1"): "majority"}
PINS = {"zero": 0, "one": 0, "buffer": 1, "inverter": 1, "majority": 3}


class Stop(Exception):
    """Ends a script with one line."""


class Arguments(argparse.ArgumentParser):
    """The words of a command line; what is wrong with them is one line. The description is told as it is written."""

    def __init__(self, name, description):
        super().__init__(name, description=description, formatter_class=argparse.RawDescriptionHelpFormatter)

    def print_help(self, file=None):
        print(self.format_help(), end="", file=file)  # argparse itself passes over a full disk

    def error(self, message):
        self.exit(2, f"{self.prog}: {one_line(message)}; --help says more\n")


def one_line(text):
    """A text without line ends and other control bytes, which are told as \\x0a; so are bytes that are no UTF-8."""
    text = str(text).encode("utf-8", "surrogateescape").decode("utf-8", "backslashreplace")
    return "".join(char if char.isprintable() else f"\\x{ord(char):02x}" for char in text)


def shown_name(name):
    """A name as the lines of aqfp show it: control bytes as \\x0a, and two dots for what is past 200 bytes."""
    whole = os.fsencode(name)
    end = min(200, len(whole))
    while end and whole[end:] and 128 <= whole[end] < 192:
        end -= 1
    shown = b"".join(rb"\x%02x" % each if each < 32 or each == 127 else bytes([each]) for each in whole[:end])
    return os.fsdecode(shown + b".." if whole[end:] else shown)


def open_streams():
    """Makes the standard streams UTF-8 with lines that end by a line feed alone; other bytes go through as they are."""
    if sys.stdin is not None:
        sys.stdin.reconfigure(encoding="utf-8", errors="surrogateescape", newline="\n")
    if sys.stdout is None:
        raise Stop("standard output is closed")
    sys.stdout.reconfigure(encoding="utf-8", errors="surrogateescape")


def named(file):
    """The name of the file of an error, which may be bytes, a number or nothing."""
    return os.fsdecode(file) if isinstance(file, (str, bytes)) else "standard input or output"


def run(main):
    """Runs a script: what stops it is one line on standard error, with status 1."""
    name = sys.argv[0].rpartition("/")[2].removesuffix(".py")
    try:
        open_streams()
        try:
            main()
        finally:
            sys.stdout.flush()
        return
    except Stop as stop:
        message = str(stop)
    except BrokenPipeError:
        message = None
    except OSError as error:
        message = f"{named(error.filename)}: {error.strerror}"
    except MemoryError:
        message = "out of memory"
    except KeyboardInterrupt:
        message = "interrupted"
    if message is not None and sys.stderr is not None:
        print(f"{name}: {one_line(message)}", file=sys.stderr)
        sys.stderr.flush()
    os._exit(1)  # sys.exit would write once more what standard output did not take


def standard_input(what):
    """The lines of standard input, without their ends; it is told where there are none, or where a keyboard would have
    to type them."""
    if sys.stdin is None or sys.stdin.isatty():
        raise Stop(f"{what} is missing on standard input")
    lines = [line.removesuffix("\r") for line in sys.stdin.read().split("\n")]
    if lines == [""]:
        raise Stop(f"standard input is empty: {what} is missing")
    return lines[:-1] if lines[-1] == "" else lines


def tokens(line):
    """What blanks and tabs part, and nothing else: a name may hold any other blank."""
    return [token for token in line.replace("\t", " ").split(" ") if token]


# Streams

def load_stream(path):
    """The bytes of a file, which begin as a stream does."""
    with open(path, "rb") as file:
        data = file.read()
    if data[:2] == b"\x1f\x8b":
        raise Stop(f"{path}: compressed; gunzip it first")
    if data[:4] != b"\x00\x06\x00\x02":
        raise Stop(f"{path}: no GDSII stream")
    return data


def records(data, path, place=0):
    """The records of a stream from a place up to ENDLIB: the type, and where it begins and ends."""
    while place + 4 <= len(data):
        length, kind = struct.unpack_from(">HB", data, place)
        if length < 4 or length % 2 or place + length > len(data):
            break
        yield kind, place, place + length
        if kind == ENDLIB:
            return
        place += length
    raise Stop(f"{path}: no whole stream: it breaks off at byte {place}")


def pieces(data, path):
    """A stream in pieces: its elements, each whole, and each record outside of elements. With each piece go the type of
    its first record and the name of the structure that it stands in."""
    begin, first, structure = None, None, None
    for kind, start, end in records(data, path):
        if begin is not None:
            if kind == ENDEL:
                yield first, structure, data[begin:end]
                begin = None
            elif kind in ELEMENTS or kind in (BGNSTR, ENDSTR, ENDLIB):
                raise Stop(f"{path}: no whole stream: an element at byte {begin} does not end")
        elif kind in ELEMENTS:
            if structure is None:
                raise Stop(f"{path}: an element at byte {start} stands in no structure")
            begin, first = start, kind
        else:
            if kind == STRNAME:
                structure = text_of(data[start + 4:end])
            yield kind, structure, data[start:end]
            if kind == ENDSTR:
                structure = None


def text_of(data):
    """The text that is the data of a record."""
    return data.rstrip(b"\0").decode("latin-1")


def field(element, wanted, path):
    """The data of an element's record of one type."""
    place = 0
    while place < len(element):
        length, kind = struct.unpack_from(">HB", element, place)
        if kind == wanted:
            return element[place + 4:place + length]
        place += length
    raise Stop(f"{path}: an element without a record of type {wanted:02X}")


def layer_of(element, path):
    """The layer of an element."""
    return struct.unpack(">H", field(element, LAYER, path)[:2].rjust(2, b"\0"))[0]


def record(kind, data_type, data):
    """A record; data of odd length gets a zero byte."""
    data += b"\0" * (len(data) % 2)
    if len(data) > MOST_DATA:
        raise Stop(f"{len(data)} bytes are too many for a record, which holds {MOST_DATA}")
    return struct.pack(">HBB", len(data) + 4, kind, data_type) + data


def database_unit(data, path):
    """The database unit of a stream, in metres."""
    for kind, start, end in records(data, path):
        if kind == UNITS and end - start == 20:
            sign, fraction = data[start + 12], int.from_bytes(data[start + 13:start + 20], "big")
            if fraction > 0:
                return fraction / 2 ** 56 * 16.0 ** ((sign & 127) - 64)
    raise Stop(f"{path}: no UNITS, or a database unit of nothing")


# Netlists

def statements(path):
    """The lines of a netlist in BLIF with their numbers, as lists of tokens: comments dropped, joined lines joined. A
    comment goes to the end of its line; a backslash that then ends the line joins the next one."""
    with open(path, encoding="utf-8", errors="surrogateescape", newline="\n") as file:
        text = file.read()
    joined, first = [], 0
    for number, line in enumerate(text.split("\n"), 1):
        line = line.removesuffix("\r").partition("#")[0]
        first = first or number
        joined += tokens(line.removesuffix("\\"))
        if line.endswith("\\"):
            continue
        if joined:
            yield first, joined
        joined, first = [], 0
    if joined:
        yield first, joined


def ports(path):
    """The inputs and the outputs of a netlist, of the first model where it has several."""
    lines = list(statements(path))
    models = sum(words[0] == ".model" for _, words in lines)
    several = models > 1 or any(words[0] == ".subckt" for _, words in lines)
    inputs, outputs = [], []
    for place, (_, words) in enumerate(lines):
        if words[0] == ".end" or several and words[0] == ".model" and place > 0:
            break
        if words[0] == ".inputs":
            inputs += words[1:]
        if words[0] == ".outputs":
            outputs += words[1:]
    if not outputs:
        raise Stop(f"{path}: no netlist with outputs")
    return inputs, outputs


# Circuits

class Circuit:
    """The circuit of a chip, read from the netlist that `aqfp netlist` writes. A cell has a kind and the names that it
    takes, which are inputs `I..` or cells `n..`; an output shows a cell. A buffer with two or three users is a
    splitter.
    """

    def __init__(self, path):
        self.inputs, self.outputs = ports(path)
        self.cells, self.shows, self.users, self.input_names = {}, {}, {}, set(self.inputs)
        definition = None
        for number, words in statements(path):
            if words[0] == ".names":
                self.add(definition, path)
                if len(words) == 1:
                    raise Stop(f"{path}: line {number}: .names of nothing")
                definition = (number, words[1:], [])
            elif definition and not words[0].startswith("."):
                definition[2].append(" ".join(words))
            else:
                self.add(definition, path)
                definition = None
        self.add(definition, path)
        for name in self.outputs:
            if name not in self.shows:
                raise Stop(f"{path}: output {name} shows no cell: not as `aqfp netlist` writes it")

    def add(self, definition, path):
        """Takes in one definition."""
        if definition is None:
            return
        number, (*takes, name), rows = definition
        kind = KINDS.get(tuple(rows))
        shows = name in self.outputs
        known = all(each in self.cells or not shows and each in self.input_names for each in takes)
        if (kind is None or len(takes) != PINS[kind] or not known or name in self.cells or name in self.shows
                or name in self.input_names or shows and kind != "buffer"):
            raise Stop(f"{path}: line {number}: not as `aqfp netlist` writes it")
        for each in takes:
            self.users.setdefault(each, []).append(name)
        if shows:
            self.shows[name] = takes[0]
        else:
            self.cells[name] = (kind, takes)

    def kind(self, name):
        """The kind of a cell, splitters told apart."""
        kind, users = self.cells[name][0], len(self.users.get(name, []))
        if kind == "buffer" and users > 1:
            return f"split{users}"
        return kind

    def rows(self):
        """The row of each cell: one above what it takes; cells that take inputs stand in row 0, cells at outputs in the
        last. A cell that no chain of wires joins to either is left out."""
        near = {name: [] for name in self.cells}
        for name, (_, takes) in self.cells.items():
            for source in takes:
                if source in self.cells:
                    near[name].append((source, -1))
                    near[source].append((name, 1))
        rows = {}

        def spread(start, row):
            """The rows of all cells that wires join to one."""
            found, waiting = {start: row}, [start]
            while waiting:
                name = waiting.pop()
                for other, step in near[name]:
                    if other not in found:
                        found[other] = found[name] + step
                        waiting.append(other)
            return found

        for name, (_, takes) in self.cells.items():
            if name not in rows and any(source in self.input_names for source in takes):
                rows.update(spread(name, 0))
        ends = list(dict.fromkeys(self.shows.values()))
        last = next((rows[end] for end in ends if end in rows), None)
        if last is None:
            last = max(-min(spread(end, 0).values()) for end in ends)
        for end in ends:
            if end not in rows:
                rows.update(spread(end, last))
        return rows


def bus(name):
    """The name of a bus and the place of a bit in it, for `a[3]`, `a<3>` and `a(3)`; else the name and nothing."""
    found = re.fullmatch(r"(.+)(?:\[([0-9]+)\]|<([0-9]+)>|\(([0-9]+)\))", name, re.DOTALL)
    if not found:
        return name, None
    return found[1], index_of(found[2] or found[3] or found[4], name)


def index_of(digits, name):
    """The number of a bit."""
    if len(digits.lstrip("0")) > len(str(LAST_BIT)) or int(digits[-9:]) > LAST_BIT:
        raise Stop(f"signal {shortened(name)}: the last bit of a bus has the number {LAST_BIT}")
    return int(digits[-9:])


def shortened(text):
    """The begin of a long text."""
    return text if len(text) <= 60 else f"{text[:60]}.."


def buses(names):
    """The buses of a list of signals, as lists of pairs of a bit's weight and the place of its signal in the list; the
    lowest number is the lowest bit. Names without brackets, as `a0` and `a1`, are a bus where their numbers follow one
    another and no other signal has the bus's name. A signal alone is a bus of one bit, by its whole name."""
    found, plain = {}, {}
    for name, place in {name: place for place, name in reversed(list(enumerate(names)))}.items():
        base, bit = bus(name)
        numbered = re.fullmatch(r"(.*[^0-9])([0-9]{1,9})", name, re.DOTALL)
        if bit is None and numbered:
            plain.setdefault(numbered[1], []).append((int(numbered[2]), place))
        else:
            found.setdefault(base, []).append((bit, place))
    for base, bits in plain.items():
        numbers = sorted({number for number, _ in bits})
        if base in found or not 1 < len(bits) == len(numbers) == numbers[-1] - numbers[0] + 1 <= LAST_BIT:
            for _, place in bits:
                found.setdefault(names[place], []).append((None, place))
        else:
            found[base] = bits
    in_order = sorted(found.items(), key=lambda item: min(place for _, place in item[1]))
    return {base: weighed(base, bits, names) for base, bits in in_order}


def weighed(base, bits, names):
    """The bits of a bus with their weights."""
    if len({bit for bit, _ in bits}) < len(bits) or len(bits) > 1 and any(bit is None for bit, _ in bits):
        one, other = sorted(shortened(names[place]) for _, place in bits)[:2]
        raise Stop(f"{one} and {other} are bits of the bus {shortened(base)} that can't be told apart")
    lowest = min(bit or 0 for bit, _ in bits)
    return [((bit or 0) - lowest, place) for bit, place in bits]
