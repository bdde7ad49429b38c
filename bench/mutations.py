"""Inputs that are changed at random: streams by record and element, netlists by line and name, libraries by key, words
by line. Each function takes what it changes and a source of chance, and gives what it made of it."""
import re
import struct

EDGES = [0, 1, -1, 2, 255, 256, 999, 1000, 32767, -32768, 10**6, 2**31 - 1, -(2**31), 5 * 10**8, -(5 * 10**8)]
LAYERS = [0, 10, 11, 12, 14, 15, 20, 21, 22, 30, 50, 65535]
BEGINS = {0x08, 0x09, 0x0A, 0x0B, 0x0C, 0x15, 0x2D}  # the record types with which elements begin
END_OF_ELEMENT, BEGIN_STRUCTURE, END_STRUCTURE = 0x11, 0x05, 0x07
NUMBERS = {2: ">h", 3: ">i"}  # the data types of numbers
ODD = [b"\x00", b"\x07", b"\x1b[31m", b"\x7f", b"\xff", b"\xc3\xa9", b"\t", b"\r", b"\n", b" ", b"\\", b"#",
       b"\xef\xbb\xbf"]
WORDS = [b".names", b".inputs", b".outputs", b".model", b".end", b".subckt", b".latch", b".exdc", b"\\", b"#", b"=",
         b"a", b"y", b"0", b"1", b"-", b"11", b"0-1", b"a=b", b".gate", b"$true"]
VALUES = ["0", "1", "-1", "999", "1000000", "2147483647", "-2147483648", "9223372036854775807", "9223372036854775808",
          "1.5", "true", '"x"', "[]", "[1]", "[1, 2]", "[-1]", "[3, 1, 5]", "{}", "1979-05-27", "0x10", "1_000", "inf"]


# ---- streams

def records_of(stream):
    """The records of a stream, and what follows them as one more."""
    records, at = [], 0
    while at + 4 <= len(stream):
        length = struct.unpack_from(">H", stream, at)[0]
        if length < 4 or at + length > len(stream):
            break
        records.append(stream[at:at + length])
        at += length
        if records[-1][2] == 0x04:
            break
    return records + ([stream[at:]] if at < len(stream) else [])


def spans(records, begins, end):
    """Where elements or structures begin and end."""
    found, begin = [], None
    for place, record in enumerate(records):
        kind = record[2] if len(record) >= 4 else None
        if kind in begins:
            begin = place
        elif kind == end and begin is not None:
            found.append((begin, place + 1))
            begin = None
    return found


def a_record(kind, data_type, data=b""):
    return struct.pack(">HBB", min(65535, 4 + len(data)), kind, data_type) + data


def points(*numbers):
    return a_record(0x10, 3, struct.pack(f">{len(numbers)}i", *(max(-(2**31), min(it, 2**31 - 1)) for it in numbers)))


def element(draw):
    """An element of some kind, as tools write it, with numbers by chance."""
    layer = a_record(0x0D, 2, struct.pack(">H", draw.choice(LAYERS)))
    near = [draw.randrange(0, 40000) for _ in range(4)]
    x0, y0, x1, y1 = near if draw.random() < 0.8 else [draw.choice(EDGES) for _ in range(4)]
    ring = points(x0, y0, x1, y0, x1, y1, x0, y1, x0, y0)
    kind = draw.randrange(5)
    if kind == 0:
        body = a_record(0x08, 0) + layer + a_record(0x0E, 2, struct.pack(">h", draw.choice([0, 1, 2]))) + ring
    elif kind == 1:
        body = (a_record(0x09, 0) + layer + a_record(0x0E, 2, b"\0\0") + a_record(0x0F, 3, struct.pack(">i", 1000))
                + points(x0, y0, x1, y0, x1, y1))
    elif kind == 2:
        body = (a_record(0x0A, 0) + a_record(0x12, 6, draw.choice([b"BUF\0", b"TOP\0", b"MAJ\0", b"INV\0", b"NONE"]))
                + a_record(0x1A, 1, struct.pack(">H", draw.choice([0, 0x8000, 4])))
                + points(x0, y0))
    elif kind == 3:
        columns, rows = draw.choice([1, 2, 3, 50]), draw.choice([1, 2, 3, 50])
        body = (a_record(0x0B, 0) + a_record(0x12, 6, b"BUF\0") + a_record(0x13, 2, struct.pack(">2h", columns, rows))
                + points(x0, y0, x0 + 8000 * columns, y0, x0, y0 + 12000 * rows))
    else:
        body = (a_record(0x0C, 0) + a_record(0x0D, 2, struct.pack(">H", 30)) + a_record(0x16, 2, b"\0\0")
                + points(x0, y0) + a_record(0x19, 6, draw.choice([b"I0", b"O0", b"I9"])))
    return records_of(body + a_record(0x11, 0))


def change_number(record, draw):
    """One number of a record is another."""
    form = NUMBERS.get(record[3])
    if form is None or len(record) < 4 + struct.calcsize(form):
        return change_byte(record, draw)
    size = struct.calcsize(form)
    at = 4 + size * draw.randrange((len(record) - 4) // size)
    old = struct.unpack_from(form, record, at)[0]
    new = draw.choice([*EDGES, old + 1, old - 1, -old, old + 1000, old - 2000, old * 2])
    most = 2 ** (8 * size - 1)
    return record[:at] + struct.pack(form, (new + most) % (2 * most) - most) + record[at + size:]


def change_byte(data, draw):
    if not data:
        return b"\0"
    at = draw.randrange(len(data))
    return data[:at] + bytes([draw.randrange(256)]) + data[at + 1:]


def change_record(records, draw):
    """One record is left out, stands twice or elsewhere, or has another type, length or number."""
    at = draw.randrange(len(records))
    it = records[at]
    way = draw.randrange(8)
    if way == 0:
        return records[:at] + records[at + 1:]
    if way == 1:
        return records[:at] + [it] * draw.choice([2, 2, 3, 100]) + records[at + 1:]
    if way == 2:
        other = draw.randrange(len(records))
        records[at], records[other] = records[other], it
        return records
    if way == 3 and len(it) >= 4:
        it = it[:2] + bytes([draw.choice([*BEGINS, 0, 4, 5, 6, 7, 0x0D, 0x0E, 0x0F, 0x10, 0x11, 0x1F, 0x3A])]) + it[3:]
    elif way == 4 and len(it) >= 4:
        it = struct.pack(">H", draw.choice([0, 2, 3, 4, 5, 6, len(it) + 2, len(it) - 2, 65535, 32768]) % 65536) + it[2:]
    elif way == 5 and len(it) >= 4:
        data = it[4:] + it[4:8] if draw.random() < 0.5 else it[4:-2]
        it = a_record(it[2], it[3], data)
    elif len(it) >= 4:
        it = change_number(it, draw)
    return records[:at] + [it] + records[at + 1:]


def change_span(records, draw):
    """One element or structure is left out, stands twice or elsewhere, or there is one more."""
    is_structure = draw.random() < 0.15
    found = spans(records, {BEGIN_STRUCTURE}, END_STRUCTURE) if is_structure else spans(records, BEGINS, END_OF_ELEMENT)
    if not found:
        return change_record(records, draw)
    begin, end = draw.choice(found)
    it = records[begin:end]
    way = draw.randrange(6)
    if way == 0:
        return records[:begin] + records[end:]
    if way == 1:
        return records[:begin] + it * draw.choice([2, 2, 3, 200]) + records[end:]
    if way == 2:
        return records[:begin] + element(draw) + records[begin:]
    if way == 3:
        at = draw.choice(found)[0]
        return records[:at] + it + records[at:]
    numbers = [place for place in range(begin, end) if records[place][2] in (0x10, 0x0D, 0x0E, 0x12, 0x19, 0x13)]
    for place in draw.sample(numbers, min(len(numbers), draw.choice([1, 1, 2]))):
        records[place] = change_number(records[place], draw)
    return records


def change_stream(stream, draw):
    if draw.random() < 0.1:
        return change_bytes(stream, draw)
    records = records_of(stream)
    for _ in range(draw.choice([1, 1, 1, 2, 3])):
        if records:
            records = draw.choice([change_record, change_span, change_span])(records, draw)
    return b"".join(records)


def change_bytes(data, draw):
    """Bytes are others, left out or more; or the end is cut off."""
    for _ in range(draw.choice([1, 1, 2, 4])):
        at = draw.randrange(len(data) + 1)
        way = draw.randrange(5)
        if way == 0:
            data = data[:at]
        elif way == 1:
            data = data[:at] + draw.choice(ODD) + data[at:]
        elif way == 2:
            data = data[:at] + data[at + draw.choice([1, 2, 7]):]
        elif way == 3:
            data = data[:at] + data[draw.randrange(len(data) + 1):]
        else:
            data = change_byte(data, draw)
    return data


# ---- netlists

def change_line(lines, draw):
    """One line is left out, stands twice or elsewhere, is broken in two or joined with the next."""
    at = draw.randrange(len(lines))
    it = lines[at]
    way = draw.randrange(6)
    if way == 0:
        return lines[:at] + lines[at + 1:]
    if way == 1:
        return lines[:at] + [it] * draw.choice([2, 2, 3, 50]) + lines[at + 1:]
    if way == 2:
        other = draw.randrange(len(lines))
        lines[at], lines[other] = lines[other], it
        return lines
    if way == 3:
        cut = draw.randrange(len(it) + 1)
        return lines[:at] + [it[:cut] + draw.choice([b"", b"\\"]), it[cut:]] + lines[at + 1:]
    if way == 4:
        return lines[:at] + [it + draw.choice([b" ", b"\\", b""]) + b"".join(lines[at + 1:at + 2])] + lines[at + 2:]
    line = b" ".join(draw.choice(WORDS) for _ in range(draw.randrange(1, 5)))
    return lines[:at] + [line] + lines[at:]


def change_word(lines, draw):
    """One word of a line is left out, stands twice, is another's or has another byte or length."""
    names = [word for line in lines for word in line.split()] or [b"a"]
    at = draw.randrange(len(lines))
    words = lines[at].split() or [b"a"]
    place = draw.randrange(len(words))
    it = words[place]
    way = draw.randrange(7)
    if way == 0:
        del words[place]
    elif way == 1:
        words.insert(place, it)
    elif way == 2:
        words[place] = draw.choice(names)
    elif way == 3:
        words.insert(place, draw.choice(names + WORDS))
    elif way == 4:
        words[place] = it + draw.choice(ODD)
    elif way == 5:
        words[place] = it * draw.choice([2, 30, 3000]) if draw.random() < 0.2 else change_byte(it, draw)
    else:
        words[place] = bytes(draw.choice(b"01-") if byte in b"01-" else byte for byte in it)
    return lines[:at] + [b" ".join(words)] + lines[at + 1:]


def change_netlist(text, draw):
    if draw.random() < 0.1:
        return change_bytes(text, draw)
    lines = text.split(b"\n")
    for _ in range(draw.choice([1, 1, 1, 2, 3])):
        lines = draw.choice([change_line, change_word, change_word])(lines or [b""], draw)
    return b"\n".join(lines)


# ---- libraries and words

def odd_key(draw):
    """A key that no library has, by TOML's escapes or as it is."""
    key = draw.choice(["x", "a\\nb", "\\u001b[31mred", "\\u007f", "\\t", "\\u0000", "\u00e9" * 3, "", "k" * 199,
                       "k" * 200, "k" * 201, "\u00e9" * 100, "\u00e9" * 101, "a" + "\u00e9" * 100, "\\n" * 300,
                       "\U0001d11e" * 60])
    return f'"{key}"' if draw.random() < 0.95 else '"' + "k" * 60000 + '"'


def change_value(value, draw):
    """One number of a value is another, near it."""
    found = list(re.finditer(r"\d+", value.partition("#")[0]))
    if not found:
        return value
    it = draw.choice(found)
    old = int(it.group())
    new = draw.choice([old + 1, old - 1, old + 2, old - 2, old * 2, old * 3, old // 2, 0])
    return value[:it.start()] + str(new) + value[it.end():]


def change_key(lines, draw):
    """One key is left out, stands twice or elsewhere, or has another name or value; or there is one more."""
    keys = [place for place, line in enumerate(lines) if "=" in line.partition("#")[0]] or [0]
    at = draw.choice(keys)
    key, sign, rest = lines[at].partition("=")
    way = draw.choice([0, 1, 2, 3, 4, 5, 5, 5, 5, 6])
    if way == 0:
        return lines[:at] + lines[at + 1:]
    if way == 1:
        other = draw.choice(keys)
        return lines[:other] + [lines[at]] + lines[other:]
    if way == 2:
        lines[at] = f"{draw.choice([odd_key(draw), key + 'x', key[:-2], 'inputs', 'buffer.x'])} {sign}{rest}"
    elif way == 3:
        return lines[:at] + [f"{odd_key(draw)} = {draw.choice(VALUES)}"] + lines[at:]
    elif way == 4:
        tables = [place for place, line in enumerate(lines) if line.startswith("[")]
        place = draw.choice(tables or [at])
        lines[place] = draw.choice(["[buffer]", "[x]", "[split3]", "[majority]", f"[{odd_key(draw)}]", "[a.b]",
                                    "[[buffer]]", ""])
    elif way == 5:
        lines[at] = f"{key}={change_value(rest, draw)}"
    else:
        lines[at] = f"{key}= {draw.choice(VALUES)}"
    return lines


def change_library(text, draw):
    if draw.random() < 0.1:
        return change_bytes(text, draw)
    lines = text.decode().split("\n")
    for _ in range(draw.choice([1, 1, 1, 2, 3])):
        lines = change_key(lines or [""], draw)
    return "\n".join(lines).encode()


def change_words(text, draw):
    if draw.random() < 0.3:
        return change_bytes(text, draw)
    return b"\n".join(change_line(text.split(b"\n"), draw))
