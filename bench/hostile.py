#!/usr/bin/env python3
"""Layouts that are drawn against a check.

    hostile.py KIND COUNT WIRE.gds OUT.gds OUT.words

WIRE.gds is a stored chip. For most kinds it gets about COUNT shapes or labels more, far away, by a structure that is
referenced; for the others a row of cells is drawn in its place. OUT.words has one word for the chip.
"""
import random
import struct
import sys

M1, VIA, M2, EVEN, ODD, FRAME, INPUT, OUTPUT, LABELS, OTHER = 10, 11, 12, 14, 15, 20, 21, 22, 30, 50
FAR = 500_000_000


def record(code, data=b""):
    return struct.pack(">HH", 4 + len(data), code) + data


def words(*numbers):
    return struct.pack(f">{len(numbers)}H", *numbers)


def points(*numbers):
    return struct.pack(f">{len(numbers)}i", *numbers)


def box(layer, datatype, x0, y0, x1, y1):
    return (record(0x0800) + record(0x0D02, words(layer)) + record(0x0E02, words(datatype))
            + record(0x1003, points(x0, y0, x1, y0, x1, y1, x0, y1, x0, y0)) + record(0x1100))


def label(text, x, y):
    text = text.encode()
    return (record(0x0C00) + record(0x0D02, words(LABELS)) + record(0x1602, words(0)) + record(0x1003, points(x, y))
            + record(0x1906, text + b"\0" * (len(text) % 2)) + record(0x1100))


def square(layer, x, y, side=1000, datatype=0):
    return box(layer, datatype, x, y, x + side, y + side)


def grid(count, pitch=2000):
    """Places in a square sheet."""
    side = max(1, int(count ** 0.5))
    return [(k % side * pitch, k // side * pitch) for k in range(count)], side * pitch


def far_shapes(kind, count):
    """The shapes far away from the chip of a wire."""
    half, third = count // 2, count // 3
    if kind == "other":  # equal, on a layer that means nothing
        return [square(OTHER, 0, 0)] * count
    if kind == "equal":  # equal, one after the other
        return [square(M1, 0, 0)] * count
    if kind == "mixed":  # heaps of both metals at one place, in turn in the file
        return [square(M1, 0, 0), square(M2, 0, 0)] * half
    if kind == "vias":  # heaps of vias and of metal around them, in turn in the file
        return [box(M1, 0, 0, 0, 2600, 2600), box(VIA, 0, 1000, 1000, 1600, 1600), box(M2, 0, 0, 0, 2600, 2600)] * third
    if kind == "plates":  # equal plates, and on them small squares
        places, size = grid(half)
        return [it for x, y in places for it in (box(M1, 0, -5000, -5000, size, size), square(M1, x, y))]
    if kind == "shells":  # equal plates of both metals, and between them vias
        places, size = grid(third)
        return [it for x, y in places for it in (box(M1, 0, -5000, -5000, size, size), square(VIA, x, y, 600),
                                                 box(M2, 0, -5000, -5000, size, size))]
    if kind == "corner":  # a crowd in a small part of a wide sheet
        return [square(M1, x, y) for x, y in grid(count)[0]]
    if kind == "bars":  # tracks as wide as the sheet, and small squares beside them
        return [box(M2, 0, -FAR, k * 2000, 0, k * 2000 + 1000) if k % 2 else square(M1, 0, k * 2000)
                for k in range(count)]
    if kind == "high":  # the same, upright
        return [box(M2, 0, k * 2000, -FAR, k * 2000 + 1000, 0) if k % 2 else square(M1, -2000, k * 2000)
                for k in range(count)]
    if kind == "cross":  # tracks as wide as the crowd, and upright ones of the other metal across all of them
        size = half * 2000
        return [it for k in range(half) for it in (box(M2, 0, 0, k * 2000, size, k * 2000 + 1000),
                                                   box(M1, 0, k * 2000, 0, k * 2000 + 1000, size))]
    if kind == "sizes":  # widths over nine orders, each in a row of its own
        made = []
        for k in range(count):
            wide = int(10 ** random.uniform(3, 9))
            x = random.randrange(-FAR, FAR - wide + 1) if wide < 2 * FAR else -FAR
            made.append(box(M1, 0, x, (k - half) * 2000, x + wide, (k - half) * 2000 + 1000))
        return made
    if kind == "nested":  # squares around one centre, each of another size: all overlap
        return [box(M1, 0, -k, -k, 1000 + k, 1000 + k) for k in range(count)]
    raise SystemExit(f"hostile: no kind {kind}")


def cells(count, frames=1, inputs=1, wide=False):
    """A row of buffers: frames, then pins, labels and the line over them. Frame or input pin may be repeated."""
    made = []
    for k in range(count):
        made += [box(FRAME, 1, k * 8000, 0, k * 8000 + 8000, 10000)] * frames
    for k in range(count):
        x0, x1 = (k * 8000, k * 8000 + 8000) if wide else (k * 8000 + 1500, k * 8000 + 2500)
        made += [box(INPUT, 0, x0, 0, x1, 1000)] * inputs + [square(OUTPUT, k * 8000 + 3500, 9000)]
        made += [label(f"I{k}", k * 8000 + 2000, 500), label(f"O{k}", k * 8000 + 4000, 9500)]
    made += [box(EVEN, 0, -1000, 0, count * 8000 + 1000, 10000), box(EVEN, 2, -3000, 0, -1000, 10000)]
    return made


def row_of_cells(kind, count):
    """The shapes and labels of a row of cells, and how many cells it has."""
    half = count // 2
    if kind == "row":  # a chip that keeps all rules, with all frames in one row
        return cells(count // 5), count // 5
    if kind == "chain":  # the input pins of neighbours touch
        return cells(count // 5, wide=True), count // 5
    if kind == "frames":  # one frame, stacked, before its pins
        return cells(1, frames=count), 1
    if kind == "pins":  # one pin, stacked, before its frame
        return cells(1, inputs=count)[1:] + cells(1)[:1], 1
    across = half // 5 * 8000
    if kind == "covers":  # rectangles that mean nothing over all cells, equal
        return cells(half // 5) + [box(OTHER, 0, -5000, -5000, across, 12000)] * half, half // 5
    if kind == "lines":  # bars of the other line over all cells, equal
        return cells(half // 5) + [box(ODD, 0, -5000, 0, across, 10000)] * half, half // 5
    if kind == "tracks":  # equal tracks along the upper edges of all cells
        return cells(half // 5) + [box(M2, 0, 0, 10000, across, 11000)] * half, half // 5
    if kind == "labels":  # labels all on one pin
        return cells(1) + [label("I0", 2000, 500)] * count, 1
    if kind == "tags":  # labels all on one pin, under a heap of metal
        return cells(1) + [square(M1, 1500, 0), label("I0", 2000, 500)] * half, 1
    return None, 0


def stored(path):
    """The records of a stream, up to its end."""
    read, at, data = [], 0, open(path, "rb").read()
    while at < len(data):
        length = struct.unpack(">H", data[at:at + 2])[0]
        read.append(data[at:at + length])
        at += length
        if read[-1][2:4] == b"\x04\x00":
            break
    return read


def array(name, columns, rows, x, y, step_x, step_y):
    """So many references in columns and rows."""
    return (record(0x0B00) + record(0x1206, name) + record(0x1302, words(columns, rows))
            + record(0x1003, points(x, y, x + columns * step_x, y, x, y + rows * step_y)) + record(0x1100))


def structure(name, body):
    return record(0x0502, words(*[1970, 1, 1, 0, 0, 0] * 2)) + record(0x0606, name) + body + record(0x0700)


def with_more(source, structures, elements):
    """A stored chip with structures before its top one, and elements at the end of this."""
    read = stored(source)
    first = [n for n, it in enumerate(read) if it[2:4] == b"\x05\x02"]
    ends = [n for n, it in enumerate(read) if it[2:4] == b"\x07\x00"]
    return b"".join([*read[:first[-1]], structures, *read[first[-1]:ends[-1]], elements, *read[ends[-1]:]])


def main():
    random.seed(1)
    kind, count, source, target, word_file = sys.argv[1], int(sys.argv[2]), *sys.argv[3:]
    drawn, inputs = row_of_cells(kind, count)
    if drawn is None:
        inputs = 1
        more = structure(b"HP", b"".join(far_shapes(kind, count)))
        place = record(0x0A00) + record(0x1206, b"HP") + record(0x1003, points(FAR, FAR)) + record(0x1100)
        made = with_more(source, more, place)
    else:
        read = stored(source)
        first = next(n for n, it in enumerate(read) if it[2:4] == b"\x05\x02")
        made = b"".join([*read[:first], structure(b"TOP\0", b"".join(drawn)), record(0x0400)])
    open(target, "wb").write(made)
    open(word_file, "w").write("01"[count % 2] * inputs + "\n")


if __name__ == "__main__":
    main()
