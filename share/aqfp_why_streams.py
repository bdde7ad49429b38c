"""What the faults of a stream mean, for the file at hand: the element at a byte."""
import struct

from aqfp_files import (AREF, BGNSTR, ELEMENTS, ENDEL, LAYER, SNAME, SREF, STRNAME, field, pieces, one_line,
                        text_of)

NAMES = {0x00: "HEADER", 0x01: "BGNLIB", 0x02: "LIBNAME", 0x03: "UNITS", 0x04: "ENDLIB", 0x05: "BGNSTR",
         0x06: "STRNAME", 0x07: "ENDSTR", 0x08: "BOUNDARY", 0x09: "PATH", 0x0A: "SREF", 0x0B: "AREF", 0x0C: "TEXT",
         0x0D: "LAYER", 0x0E: "DATATYPE", 0x0F: "WIDTH", 0x10: "XY", 0x11: "ENDEL", 0x12: "SNAME", 0x13: "COLROW",
         0x15: "NODE", 0x16: "TEXTTYPE", 0x17: "PRESENTATION", 0x19: "STRING", 0x1A: "STRANS", 0x1B: "MAG",
         0x1C: "ANGLE", 0x1F: "REFLIBS", 0x20: "FONTS", 0x21: "PATHTYPE", 0x22: "GENERATIONS", 0x23: "ATTRTABLE",
         0x26: "ELFLAGS",
         0x2A: "NODETYPE", 0x2B: "PROPATTR", 0x2C: "PROPVALUE", 0x2D: "BOX", 0x2E: "BOXTYPE", 0x2F: "PLEX",
         0x30: "BGNEXTN", 0x31: "ENDEXTN", 0x36: "FORMAT", 0x37: "MASK", 0x38: "ENDMASKS", 0x39: "LIBDIRSIZE"}
UNITS, DATATYPE, XY, STRANS, MAG, ANGLE, PATHTYPE = 0x03, 0x0E, 0x10, 0x1A, 0x1B, 0x1C, 0x21
TURNED = {STRANS: "it has more in it than a mirroring", MAG: "what is referenced is magnified: only 1 is read",
          ANGLE: "it is turned by another angle than 0, 90, 180 or 270 degrees",
          PATHTYPE: "its path has round ends or ends of a length of their own: flush (0) and square (2) ones are read"}
BEGINNINGS = ((b"\x1f\x8b", "it is compressed: gunzip it first"), (b"PK", "it is a zip archive: unpack it first"),
              (b"%SEMI-OASIS", "it is an OASIS file: save it as GDSII"),
              (b"rows ", "a counts line lies at its begin: the chip went to standard output; name a file as OUT"))
ADVICE = {"truncated": "the file breaks off: save or copy it anew",
          "length": "the file is damaged, or no GDSII stream: save it anew",
          "data type": "the file is damaged, or no GDSII stream: save it anew",
          "order": "the records stand in another order than GDSII has them: save the layout anew, by KLayout",
          "not a rectangle": "draw with right angles and some area; share/strip.py takes out layers of one's own",
          "several tops": "delete the other structures, or share/strip.py --top NAME takes out what NAME doesn't need",
          "no top": "save the layout with its structures",
          "unknown name": "save the layout with all structures that are referenced"}


def explain(path, byte, kind):
    """Says what a fault of status 11 means: `stream: byte O: KIND`."""
    with open(path, "rb") as file:
        data = file.read()
    yield f"the file has {len(data)} bytes"
    other = next((what for begin, what in BEGINNINGS if data.startswith(begin)), None)
    if other is None and data[:4] != b"\x00\x06\x00\x02":
        other = "it begins as no GDSII stream does: is another file meant?"
    if other:
        yield f"{one_line(str(path))}: {other}"
    if data[:2] == b"\0\6":
        yield from about_record(data, byte, kind)
    if kind == "several tops":
        yield from about_tops(path, data)
    if kind in ADVICE:
        yield ADVICE[kind]
    yield "look at docs/stream.md, \"Faults\" and \"Wide streams\""


def about_tops(path, data):
    """The structures that none references."""
    found = list(pieces(data, path))
    referenced = {text_of(field(piece, SNAME, path)) for kind, _, piece in found if kind in (SREF, AREF)}
    tops = [one_line(name) for kind, name, _ in found if kind == STRNAME and name not in referenced]
    yield f"no reference leads to {', '.join(tops[:8])}" + (" .." if len(tops) > 8 else "")


def walk(data, end):
    """The records before a byte and the one at it: the place, the type, and the length that it says."""
    place = 0
    while place <= end and place + 4 <= len(data):
        length, kind = struct.unpack_from(">HB", data, place)
        yield place, kind, length
        if length < 4:
            return
        place += length


def about_record(data, byte, kind):
    """The record at a byte, the structure and the element that it stands in."""
    structure, element, here = None, None, None
    for place, record, length in walk(data, byte):
        if record == STRNAME:
            structure = text_of(data[place + 4:place + length])
        if record in ELEMENTS:
            element = place, record
        elif record == ENDEL and place < byte:
            element = None
        here = place, record, length
    if here is None or here[0] != byte:
        yield f"no record begins at byte {byte}: what stands there is {data[byte:byte + 8].hex(' ') or 'nothing'}"
        return
    _, record, length = here
    values = data[byte + 4:byte + max(4, length)]
    if record == BGNSTR and data[byte + length + 2:byte + length + 3] == bytes([STRNAME]):
        name_length = struct.unpack_from(">H", data, byte + length)[0]
        structure, element = text_of(data[byte + length + 4:byte + length + name_length]), None
    name = NAMES.get(record, "of no known type")
    yield f"the record at byte {byte} is {name}, type {record:02X}, {length} bytes long"
    if structure is not None:
        yield f"it stands in the structure {one_line(structure)}"
    if element is not None:
        yield f"it is of the {NAMES[element[1]]} that begins at byte {element[0]}{layer_told(data, element[0])}"
    yield from about_value(data, record, kind, values)


def layer_told(data, place):
    """The layer and the datatype of an element, in words: they stand at its begin."""
    found = {}
    begin = data[place:place + 100]
    for at, record, length in walk(begin, len(begin)):
        if record == ENDEL:
            break
        if record in (LAYER, DATATYPE) and length == 6 and at + 6 <= len(begin):
            found.setdefault(record, struct.unpack_from(">H", begin, at + 4)[0])
    return f", layer {found[LAYER]} datatype {found.get(DATATYPE, 0)}" if LAYER in found else ""


def about_value(data, record, kind, values):
    """What the data of a record says."""
    if record == XY and len(values) >= 8:
        points = list(struct.iter_unpack(">2i", values[:len(values) // 8 * 8]))
        told = " ".join(f"{x},{y}" for x, y in points[:8]) + (" .." if len(points) > 8 else "")
        yield f"its {len(points)} points, in nanometres: {told}"
    elif record == UNITS and kind == "value":
        sign, fraction = values[8], int.from_bytes(values[9:16], "big")
        unit = fraction / 2 ** 56 * 16.0 ** ((sign & 127) - 64)
        yield f"its database unit is {unit:.4g} m, and 1e-09 m is due: save with a database unit of 0.001 micrometres"
    elif record in TURNED and kind == "unsupported":
        yield TURNED[record]
    elif record == SNAME and kind == "unknown name":
        yield f"it names the structure {one_line(text_of(values))}, which is not in the file"
    elif record == BGNSTR and kind == "unsupported":
        yield "a chain of more than 64 references goes down from it, as from a loop or from above one: flatten a part"
    elif kind == "unsupported":
        yield "figures that are read are boundaries and paths: draw it as one of these, or take its layer out"
