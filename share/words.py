#!/usr/bin/env python3
"""Words for a chip by the names of its netlist, and a chip's answers by theirs.

  words.py to NET.blif < LINES > WORDS        lines as `a=9 b=0x1f carry=1` become the lines of WORDS
  words.py from NET.blif < PRINTED            what `aqfp verify` prints becomes lines as `y=1 carry=1`

The signals a[0], a[1], .. are the bus a, whose value is one number; the lowest index is its lowest bit. So are a<0>,
a(0) and, where the numbers follow one another, a0, a1, ... Numbers are decimal, or hexadecimal after 0x, or binary
after 0b. Each line names each input once, by its bus or by itself; lines that are empty or begin with # are passed
over, but an empty line is a word for a netlist without inputs. Buses whose signals can't be told apart, as a and a[0],
are refused.
"""
import re
import sys

sys.dont_write_bytecode = True
from aqfp_files import LAST_BIT, Arguments, Stop, buses, ports, run, shortened, standard_input, tokens

NUMBER = re.compile(r"0[xX]([0-9a-fA-F]+)|0[bB]([01]+)|([0-9]+)")


def number_of(text):
    """A number as it is written, or nothing. A decimal one that no bus can hold is a number too, and too large."""
    found = NUMBER.fullmatch(text)
    if not found:
        return None
    if found[3]:
        digits = found[3].lstrip("0") or "0"
        return int(digits) if len(digits) * 3 <= LAST_BIT else 1 << LAST_BIT + 1
    return int(found[1] or found[2], 16 if found[1] else 2)


def bits_of(line, number, targets, names):
    """The bit of each input, as a line gives them."""
    given = [None] * len(names)
    for part in tokens(line):
        name, equals, text = part.rpartition("=")
        told = shortened(part)
        if not equals:
            raise Stop(f"line {number}: {told} is no NAME=VALUE")
        if name not in targets:
            raise Stop(f"line {number}: the netlist has no input {shortened(name)}")
        bits = targets[name]
        if any(given[place] is not None for _, place in bits):
            raise Stop(f"line {number}: {told} gives what stands there twice")
        value = number_of(text)
        if value is None:
            raise Stop(f"line {number}: {told}: no number")
        if value & ~sum(1 << weight for weight, _ in bits):
            raise Stop(f"line {number}: {told} does not fit in {len(bits)} bit" + "s" * (len(bits) > 1))
        for weight, place in bits:
            given[place] = value >> weight & 1
    return given


def to_words(names):
    """Lines with names to lines of digits."""
    targets = {name: [(0, place)] for place, name in enumerate(names)} | buses(names)
    holders = {place: bus for bus, bits in targets.items() for _, place in bits}
    for number, line in enumerate(standard_input("a line as a=9 b=8"), 1):
        if names and not tokens(line) or line.startswith("#"):
            continue
        given = bits_of(line, number, targets, names)
        if None in given:
            raise Stop(f"line {number}: {holders[given.index(None)]} is missing")
        print(*given, sep="")


def from_words(names):
    """Lines of digits to lines with names."""
    shown = buses(names)
    for number, line in enumerate(standard_input("what verify prints"), 1):
        digits = line.strip(" \t")
        if number == 1 and digits.startswith("rows "):
            continue
        if len(digits) != len(names) or set(digits) - set("01"):
            raise Stop(f"line {number}: no answer of {len(names)} outputs")
        values = {name: sum(int(digits[place]) << weight for weight, place in bits) for name, bits in shown.items()}
        print(*(f"{name}={value}" for name, value in values.items()))


def main():
    if hasattr(sys, "set_int_max_str_digits"):
        sys.set_int_max_str_digits(0)  # buses are as wide as LAST_BIT says, so numbers are not longer than their bits
    parser = Arguments("words", __doc__)
    parser.add_argument("way", choices=("to", "from"), help="to words, or from answers")
    parser.add_argument("net", metavar="NET.blif", help="the netlist that the chip was built from")
    words = parser.parse_args()
    inputs, outputs = ports(words.net)
    if words.way == "to":
        to_words(inputs)
    else:
        from_words(outputs)


run(main)
