#!/usr/bin/env python3
"""What layouts cost whose arrays make many shapes of few bytes, beside ordinary chips of as many shapes.

    hostile_arrays.py [--seconds N] [--short] [KIND ..]

Each kind is the chip of a wire with arrays far away from it, of three sizes, doubled each time, and is read by
`verify`, `report` and `shapes`. Printed are its shapes and bytes, what was said, seconds of processor time and
megabytes at most, both over those of the chip of an adder with as many shapes; then the exponents with which both grow
with the shapes. --short begins at an eighth of the size. docs/measuring.md says the kinds and what is wanted; the
status is 1 where a figure is above. AQFP names the program. Needs GNU time."""
import argparse
import pathlib
import sys
import tempfile

from hostile import FAR, M1, OTHER, array, box, square, structure, with_more
from hostile_texts import A_BIT, adder
from measured import Run, Series, TOP, least, own_memory, program

BITS = (16, 32, 64)  # of the ordinary adders
WIDE = 1_000  # columns of a wide array


def steps(layer, side, step):
    """A row of squares that begin so many nanometres apart."""
    return lambda count: (structure(b"SQ", square(layer, 0, 0, side)), array(b"SQ", count, 1, -FAR, FAR, step, 0))


def sheet(layer, parts):
    """Squares that lie apart, in so many arrays of one structure each."""
    def made(count):
        names = [b"S%03d" % k for k in range(parts)]
        rows = count // parts // WIDE
        places = [(-FAR + k % 4 * WIDE * 2000, FAR + k // 4 * rows * 2000) for k in range(parts)]
        return (b"".join(structure(name, square(layer, 0, 0)) for name in names),
                b"".join(array(name, WIDE, rows, *place, 2000, 2000) for name, place in zip(names, places)))
    return made


def nested(count):
    """An array of an array."""
    inner = structure(b"SQ", square(M1, 0, 0)) + structure(b"RO", array(b"SQ", WIDE, 1, 0, 0, 2000, 0))
    return inner, array(b"RO", 1, count // WIDE, -FAR, FAR, 0, 2000)


def columns(count):
    """Bars of one metal, of which each overlaps the next one of its column alone."""
    high = count // WIDE
    return structure(b"BA", box(M1, 0, 0, 0, 1000, 2000)), array(b"BA", WIDE, high, -FAR, FAR, 4000, 1500)


# For each kind what is made, the least size, and whether all its shapes really touch.
KINDS = {"other": (sheet(OTHER, 1), 1_920_000, False), "arrays": (sheet(OTHER, 24), 1_920_000, False),
         "metal": (sheet(M1, 1), 1_920_000, False), "nested": (nested, 1_920_000, False),
         "columns": (columns, 500_000, False), "steps": (steps(M1, 20_000, 1), 4_000, True),
         "wide_steps": (steps(M1, 20_000, 10_000), 8_000, False),
         "other_steps": (steps(OTHER, 20_000, 1), 8_000, False)}


class Reader:
    """The commands that read a layout, and the ordinary chips that they read first."""

    def __init__(self, folder, seconds):
        self.path, self.folder, self.seconds = program(), folder, seconds
        self.library, self.chip, self.words = TOP / "libraries/a.toml", folder / "chip.gds", folder / "words"
        self.own = own_memory(self.path, folder)
        self.plain = {"verify": [], "report": [], "shapes": []}
        for bits in BITS:
            self.built(adder(bits * A_BIT))
            self.words.write_text("01" * bits + "1\n")
            shapes = self.shapes()
            for command, runs in self.plain.items():
                run = self.ran(command)
                runs.append((shapes, run))
                print(f"{command} of an adder of {bits} bits, {shapes:,} shapes: {run.said}, {run.seconds:.2f} s, "
                      f"{run.megabytes:.1f} MB, {run.megabytes * 2 ** 20 / shapes:.0f} bytes a shape", flush=True)
        self.built(".inputs a\n.outputs y\n.names a y\n1 1\n")
        self.words.write_text("0\n1\n")
        self.wire = folder / "wire.gds"
        self.chip.rename(self.wire)

    def built(self, text):
        """Stores the chip of a netlist."""
        net = self.folder / "net.blif"
        net.write_text(text)
        Run([self.path, "build", net, self.library, self.chip], self.folder, self.seconds)

    def shapes(self):
        """How many shapes and labels the layout has: the line of a number that is too large tells it."""
        said = Run([self.path, "shapes", self.chip, str(2 ** 62), "0"], self.folder, self.seconds).said
        return int(said.split()[-1]) if " of " in said else 0

    def ran(self, command):
        """What a command takes for the layout."""
        more = {"verify": [self.library, self.words], "report": [self.library], "shapes": ["0", "1"]}[command]
        return least([self.path, command, self.chip, *more], self.folder, self.seconds)


def main():
    words = argparse.ArgumentParser(description=__doc__, formatter_class=argparse.RawDescriptionHelpFormatter)
    words.add_argument("--seconds", type=int, default=120)
    words.add_argument("--short", action="store_true")
    words.add_argument("kinds", nargs="*", choices=[*KINDS, []])
    words = words.parse_args()
    above = 0
    with tempfile.TemporaryDirectory(prefix="aqfp_hostile_") as folder:
        reader = Reader(pathlib.Path(folder), words.seconds)
        for kind in words.kinds or KINDS:
            make, least, is_pairs = KINDS[kind]
            most = float("inf") if is_pairs else 3
            series = {command: Series(f"{command} {kind}", plain, reader.own, most, 3, most if is_pairs else 1.3)
                      for command, plain in reader.plain.items()}
            for size in [(max(least // 8, 2_000) if words.short else least) << k for k in range(3)]:
                reader.chip.write_bytes(with_more(reader.wire, *make(size)))
                shapes, stored = reader.shapes(), reader.chip.stat().st_size
                for command, each in series.items():
                    run = reader.ran(command)
                    a_shape = run.megabytes * 2 ** 20 / max(shapes, 1)
                    each.add(size, shapes, f"{shapes:,} shapes in {stored:,} bytes, {a_shape:.0f} bytes each", run)
            above += sum(each.end() for each in series.values())
    return 1 if above else 0


if __name__ == "__main__":
    sys.exit(main())
