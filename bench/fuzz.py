#!/usr/bin/env python3
"""Commands over inputs that are changed at random: streams by record and element, netlists by line and name, libraries
by key, words by line (mutations.py).

    fuzz.py [--runs N] [--seed S] [--only CASE] [--keep FOLDER] [--jobs N]     (300,000 runs, seed 1, three at once)

Prints what was otherwise than docs/measuring.md says, with its case and what FOLDER has of it, and how many runs there
were; the status is 1 where something was. AQFP names the program.
"""
import argparse
import collections
import os
import pathlib
import random
import resource
import shutil
import subprocess
import sys
import tempfile

sys.dont_write_bytecode = True
from mutations import change_library, change_netlist, change_stream, change_words
from room import (COMMANDS, LIBRARY_FAULTS, NET_FAULTS, STREAM_FAULTS, WAITS, Ended, command, files_of, in_turn, name,
                  program, top, wrong_status)

EXAMPLES = ["wire", "and2", "either", "constant", "twice", "majority", "full_adder", "full_adder_cells", "decoder3",
            "full_adder_mig"]
BUILD, COMPACT, DRAW, NETLIST, VERIFY, TRACE, EQUAL, REPORT, SHAPES, _ = COMMANDS
DRAW_NET = command("draw net.blif a.toml out", NET_FAULTS, LIBRARY_FAULTS, {19})
OF_OUT = command("report out a.toml", STREAM_FAULTS, LIBRARY_FAULTS)
OUT_TO_NET = command("equal out a.toml net.blif", STREAM_FAULTS, LIBRARY_FAULTS, NET_FAULTS, {17})
OUT_TO_CELLS = command("equal out a.toml cells.blif", STREAM_FAULTS, LIBRARY_FAULTS, NET_FAULTS, {17})
CHIP_TO_OUT = command("equal chip.gds a.toml out", STREAM_FAULTS, LIBRARY_FAULTS, NET_FAULTS, {17})
MOST_MEMORY = 6 << 30
LONGEST = 2000  # bytes of a line: a name of 200 bytes, each of which may be written in four, and what is said of it

# What is changed, how, how often, by which commands it is read, and with which statuses all of them refuse it.
Target = collections.namedtuple("Target", "file change weight commands shared")
TARGETS = [
    Target("chip.gds", change_stream, 40, [VERIFY, TRACE, REPORT, EQUAL, NETLIST, SHAPES], (7, 8, 10, 11, 12)),
    Target("net.blif", change_netlist, 35, [EQUAL, BUILD, COMPACT, DRAW_NET], (6, 16)),
    Target("cells.blif", change_netlist, 10, [DRAW], ()),
    Target("a.toml", change_library, 25, [VERIFY, REPORT, EQUAL, BUILD, COMPACT, DRAW, NETLIST], (7, 8)),
    Target("net.words", change_words, 5, [VERIFY, TRACE], (13,)),
]


def make_bases(work):
    """The files of each example, with each library; and those of one of them beside the layouts that tools drew."""
    bases = []
    for example in EXAMPLES:
        for kept in ("a", "b"):
            shutil.copy(top / f"libraries/{kept}.toml", work / "a.toml")
            shutil.copy(top / f"examples/{example}.blif", work / "net.blif")
            shutil.copy(top / f"examples/{example}.words", work / "net.words")
            verb = "compact" if kept == "b" else "build"
            for words in (f"{verb} net.blif a.toml chip.gds", "netlist chip.gds a.toml cells.blif"):
                subprocess.run([program, *words.split()], cwd=work, check=True, stdout=subprocess.DEVNULL)
            bases.append(files_of(work))
    return bases, [{**bases[0], "chip.gds": it.read_bytes()} for it in sorted((top / "examples/layouts").glob("*.gds"))]


def run(room, command):
    try:
        ended = subprocess.run([program, *command.words.split()], cwd=room, capture_output=True, timeout=WAITS,
                               stdin=subprocess.DEVNULL)
    except subprocess.TimeoutExpired:
        return Ended(124, b"", b"", {})
    return Ended(ended.returncode, ended.stdout, ended.stderr, {})


def wrong_run(command, ended):
    """What is wrong with one run, whatever others say."""
    wrong = wrong_status(command, ended)
    if not wrong and any(byte < 32 or byte == 127 for byte in ended.err[:-1]):
        wrong = f"a line with control bytes: {ended.err[:200]!r}"
    if not wrong and len(ended.err) > LONGEST:
        wrong = f"a line of {len(ended.err)} bytes: {ended.err[:80]!r}"
    if not wrong and ended.status not in (0, 5, 14) and ended.out:
        wrong = f"status {ended.status} with {ended.out[:80]!r}"
    return wrong


class Case:
    """One input that was changed, and the runs over it."""

    def __init__(self, room, bases, seed, number):
        draw = random.Random(f"{seed} {number}")
        self.room = room
        self.target = draw.choices(TARGETS, [it.weight for it in TARGETS])[0]
        ours, drawn = bases
        files = dict(draw.choice(ours + drawn if self.target.file == "chip.gds" else ours))
        files[self.target.file] = self.target.change(files[self.target.file], draw)
        for file, held in files.items():
            (room / file).write_bytes(held)
        self.files, self.ended, self.wrong = files, [], ""

    def run(self, command):
        ended = run(self.room, command)
        self.ended.append((command, ended))
        wrong = wrong_run(command, ended)
        self.note(wrong and f"{command.words}: {wrong}")
        return ended

    def note(self, wrong):
        self.wrong = self.wrong or wrong

    def try_all(self):
        for command in self.target.commands:
            ended = self.run(command)
            out = self.room / "out"
            if out.exists() != (command.stores and ended.status == 0):
                self.note(f"{command.words}: status {ended.status}, and OUT is{'' if out.exists() else ' not'} there")
            if out.exists():
                self.try_stored(command, ended)
                out.unlink()
        self.note(self.disagreement())
        left = {file.name for file in self.room.iterdir()} ^ set(self.files)
        self.note(left and f"other files: {' '.join(sorted(left))}")

    def try_stored(self, command, made):
        """What is stored is equal to what it was made of, and has what was printed."""
        other = {BUILD: OUT_TO_NET, COMPACT: OUT_TO_NET, DRAW_NET: OUT_TO_NET, DRAW: OUT_TO_CELLS, NETLIST: CHIP_TO_OUT}
        compared = self.run(other[command])
        is_equal = (compared.status, compared.out) == (0, b"equal\n") or b"functions" in compared.err
        said = f"{compared.out[:80]} {compared.err[:80]}"
        self.note(not is_equal and f"{command.words}, then {other[command].words}: {said}")
        if command is not NETLIST:
            counted = self.run(OF_OUT)
            self.note(counted.out.split(b"\n")[0] + b"\n" != made.out and f"{command.words}: {made.out[:80]}, but "
                      f"{counted.out[:80]} is counted")

    def disagreement(self):
        """Commands that read the same files refuse them with the same line; `shapes` tries no rule and no library."""
        shared = {}
        for command, ended in self.ended[:]:
            if command in self.target.commands:
                of_all = ended.status in self.target.shared and b"functions" not in ended.err
                shared[command.verb] = ended.err if of_all else b""
        if shared.get("shapes") == b"" and next(iter(shared.values())).startswith((b"aqfp: rule", b"aqfp: library")):
            del shared["shapes"]
        if len(set(shared.values())) > 1:
            return f"commands disagree: {({verb: err[:80] for verb, err in shared.items()})}"
        return ""


def try_case(rooms, bases, words, number):
    room = pathlib.Path(tempfile.mkdtemp(dir=rooms))
    case = Case(room, bases, words.seed, number)
    case.try_all()
    if case.wrong:
        kept = pathlib.Path(words.keep) / f"case{number}"
        shutil.copytree(room, kept, dirs_exist_ok=True)
    shutil.rmtree(room)
    return number, case


def cases(rooms, bases, words):
    """The cases, one batch after another, until there were enough runs."""
    if words.only is not None:
        yield try_case(rooms, bases, words, words.only)
        return
    runs, number = 0, 0
    while runs < words.runs:
        for it in in_turn(lambda n: try_case(rooms, bases, words, n), range(number, number + 60), words.jobs):
            runs += len(it[1].ended)
            yield it
        number += 60


def main():
    words = argparse.ArgumentParser()
    words.add_argument("--runs", type=int, default=300_000)
    words.add_argument("--seed", type=int, default=1)
    words.add_argument("--only", type=int)
    words.add_argument("--jobs", type=int, default=3)
    words.add_argument("--keep", default=os.path.join(tempfile.gettempdir(), "aqfp_fuzz"))
    words = words.parse_args()
    resource.setrlimit(resource.RLIMIT_AS, (MOST_MEMORY, MOST_MEMORY))
    statuses, changed, otherwise = collections.Counter(), collections.Counter(), 0
    shared_memory = "/dev/shm" if os.access("/dev/shm", os.W_OK) else None
    with tempfile.TemporaryDirectory(prefix="aqfp_fuzz_", dir=shared_memory) as rooms:
        made = pathlib.Path(rooms) / "bases"
        made.mkdir()
        for number, case in cases(rooms, make_bases(made), words):
            changed[case.target.file] += 1
            statuses.update(ended.status for _, ended in case.ended)
            if case.wrong:
                otherwise += 1
                print(f"{name}: case {number} of seed {words.seed}, {case.target.file}: {case.wrong}", flush=True)
    ended = ", ".join(f"{count:,} with {status}" for status, count in sorted(statuses.items()))
    print(f"{name}: {sum(statuses.values()):,} runs over {sum(changed.values()):,} changed inputs "
          f"({', '.join(f'{file} {count:,}' for file, count in changed.items())}): {ended}; {otherwise} otherwise")
    return 1 if otherwise else 0


sys.exit(main())
