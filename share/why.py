#!/usr/bin/env python3
"""What the line of a command that failed means, for the files at hand.

  why.py COMMAND WORDS..

COMMAND and WORDS are those of the command that failed, as `why.py build NET.blif LIB.toml OUT.gds`. The command is run
once more, with OUT in a folder of its own, so no file is changed. Its line is told, then what it means here: the line
of the text, the signal, the number, the element or the shapes, and what to look at next. AQFP names the program, if it
is not found beside this folder or as a command.

Ends with 0 where there was something to say, also that the command works.
"""
import difflib
import os
import pathlib
import re
import shutil
import sys
import tempfile

sys.dont_write_bytecode = True
import aqfp_why_designs
import aqfp_why_layouts
import aqfp_why_libraries
import aqfp_why_netlists
import aqfp_why_streams
from aqfp_files import Arguments, ports, run, one_line, shown_name
from aqfp_program import answer

FORMS = {"build": ("NET", "LIB", "OUT"), "compact": ("NET", "LIB", "OUT"), "draw": ("NET", "LIB", "OUT"),
         "verify": ("GDS", "LIB", "WORDS"), "trace": ("GDS", "LIB", "WORDS"), "netlist": ("GDS", "LIB", "OUT"),
         "equal": ("GDS", "LIB", "NET"), "report": ("GDS", "LIB"), "shapes": ("GDS", "A", "B"), "sample": ("N",)}
FILES = {"NET": 16_777_216, "WORDS": 16_777_216, "LIB": 1_048_576, "GDS": 268_435_456}
SHORTER = {"NET": "flatten less, write shorter names, drop comments", "WORDS": "check in several runs",
           "LIB": "a library has a few hundred bytes: is another file meant?",
           "GDS": "one structure a kind of cell, as build writes it"}


class Command:
    """A command that was run once more: its words by what they stand for, and its answer."""

    def __init__(self, words, folder):
        self.name = words[0]
        form = FORMS.get(self.name, ())
        self.words = dict(zip(form, words[1:])) if len(words) == len(form) + 1 else {}
        self.folder = folder
        given = list(words)
        if "OUT" in self.words:
            given[1 + form.index("OUT")] = str(folder / "out")
        self.status, self.out, self.line = answer(*given)

    def file(self, name):
        """What a name of the line stands for, as NET, and the file's name as it was given."""
        for role in FILES:
            if role in self.words and name in (self.words[role], shown_name(self.words[role])):
                return role, self.words[role]
        return "file", name


def is_text(word):
    """Whether a word is UTF-8."""
    return not any("\udc80" <= each <= "\udcff" for each in word)


def usage(command, words):
    """The command line matches no command."""
    if command.name not in FORMS:
        near = difflib.get_close_matches(command.name, list(FORMS), 1)
        yield f"there is no command {one_line(command.name)}" + (f"; is it {near[0]}?" if near else "")
        yield f"the commands are {', '.join(FORMS)}"
        return
    form = FORMS[command.name]
    given = " ".join(map(one_line, words[1:])) or "none"
    yield f"{command.name} takes {' '.join(form)}; given is {given}"
    yield from (f"{one_line(each)} is no UTF-8, and words have to be: give the file another name"
                for each in words[1:] if not is_text(each))
    options = [each for each in words[1:] if each.startswith("-")]
    if options and len(words) != len(form) + 1:
        yield f"there are no options: {one_line(options[0])} is a word as others"
    if command.name in ("sample", "shapes") and len(words) == len(form) + 1:
        yield "a number has decimal digits without a leading zero: N is from 1 to 64, A and B are below 2^64"


def absent(command, name):
    """No file has the name."""
    role, path = command.file(name)
    if role in command.words:
        yield f"it is {role}, the word {list(command.words).index(role) + 1} after {command.name}"
    folder = os.path.dirname(path) or "."
    if not os.path.isdir(folder):
        yield f"there is no folder {one_line(folder)}; the working folder is {one_line(os.getcwd())}"
        return
    if os.path.islink(path):
        yield f"it is a link to {one_line(os.readlink(path))}, which is not there"
    there = os.listdir(folder)
    near = difflib.get_close_matches(os.path.basename(path), there, 3)
    near += [each for each in there if each.lower() == os.path.basename(path).lower() and each not in near]
    if near:
        yield f"the folder {one_line(folder)} has {', '.join(map(one_line, near))}"
    else:
        here = one_line(os.getcwd())
        yield f"the folder {one_line(folder)} has {len(there)} other files; the working folder is {here}"


def too_long(command, name):
    """A file is above its limit."""
    role, path = command.file(name)
    size = os.stat(path).st_size
    if size:
        yield f"it has {size} bytes, and {role} may have {FILES.get(role, 0)}"
    else:
        yield "its size is not known: it is no plain file"
    yield SHORTER.get(role, "")


def unread(command, name):
    """A file could not be read."""
    _, path = command.file(name)
    if os.path.isdir(path):
        yield "it is a folder: name a file in it"
    elif not os.access(path, os.R_OK):
        yield f"it may not be read by this user: its rights are {os.stat(path).st_mode & 0o777:o}"
    else:
        yield "it is there, and may be read now: was its disk or network away?"


def is_drafted(path):
    """Whether a draft is made beside what a path leads to: a regular file that nobody holds open, or none."""
    is_open = os.path.abspath(path).startswith(("/dev/", "/proc/"))
    return not is_open and (os.path.isfile(path) or not os.path.exists(path))


def unwritten(path):
    """Why OUT may not be written, as far as it is to be seen."""
    folder = os.path.dirname(path) or "."
    name = one_line(path)
    if not os.path.lexists(folder):
        yield f"OUT: there is no folder {one_line(folder)}: make it"
    elif not os.path.isdir(folder):
        yield f"OUT: {one_line(folder)} is no folder"
    elif os.path.isdir(path) or path.endswith("/"):
        yield f"OUT: {name} is a folder: name a file in it"
    elif os.path.exists(path) and not os.access(path, os.W_OK):
        yield f"OUT: {name} may not be written by this user"
    elif is_drafted(path) and not os.access(os.path.dirname(os.path.realpath(path)), os.W_OK):
        yield f"OUT: no file may be made by this user in {one_line(folder)}, where a draft of OUT is made"
    elif len(os.fsencode(os.path.basename(path))) > 255:
        yield f"OUT: {name} is too long a name for a file"
    elif os.path.abspath(path).startswith(("/dev/stdout", "/proc/self/fd", "/dev/fd", "/dev/pts", "/dev/tty")):
        yield f"OUT: {name} is standard output, which has the counts line too: name another file"
    elif shutil.disk_usage(folder).free < 2 ** 28:
        yield f"OUT: its disk has {shutil.disk_usage(folder).free} bytes left: free some, or name another disk"


def write_failed(command):
    """OUT could not be written, or standard output took no more."""
    reasons = list(unwritten(command.words["OUT"])) if "OUT" in command.words else []
    yield from reasons or ["OUT seems to be writable; standard output may have been closed, as by `| head`"]
    yield "make the folder or free the disk, then run the command again: a file under OUT is as it was"


def out_of_memory(command):
    """Memory ran out."""
    for role in FILES:
        if role in command.words and os.path.exists(command.words[role]):
            yield f"{role} has {os.stat(command.words[role]).st_size} bytes"
    yield "docs/limits.md says what memory each command takes; `ulimit -v` says whether memory is limited here"


def no_shape(command, number, count):
    """The layout has no shape or label of a number."""
    last = f"their numbers go from 0 to {count - 1}, those of labels come last" if count else "it has none at all"
    yield f"{one_line(command.words['GDS'])} has {count} shapes and labels: {last}"
    yield "take the numbers of the line of the broken rule, and the file that it was said of: share/check.py does both"


def other_widths(command, numbers):
    """The chip and the netlist have other numbers of inputs or of outputs."""
    inputs, outputs = ports(command.words["NET"])
    yield f"the chip has {numbers[0]} inputs and {numbers[1]} outputs; {one_line(command.words['NET'])} has"
    yield f"{numbers[2]} inputs: {aqfp_why_netlists.listed(inputs)}"
    yield f"{numbers[3]} outputs: {aqfp_why_netlists.listed(outputs)}"
    yield "take the netlist that the chip is meant to be; of several models the first one counts"
    yield "`aqfp netlist` stores the chip's circuit, to be looked at"


def explainers(command, words):
    """For each status the form of its line, and what explains it."""
    net, library, gds = (command.words.get(role, "") for role in ("NET", "LIB", "GDS"))
    about_library = (r"library: (.*)", lambda kind: aqfp_why_libraries.explain(library, kind))
    return {
        1: (r"usage: .*", lambda: usage(command, words)),
        2: (r"(.*): absent", lambda name: absent(command, name)),
        3: (r"(.*): too long", lambda name: too_long(command, name)),
        4: (r"(.*): read failed", lambda name: unread(command, name)),
        5: (r"write failed", lambda: write_failed(command)),
        6: (r"line (\d+): (.*)", lambda line, kind: aqfp_why_netlists.explain(net, int(line), kind)),
        7: about_library,
        8: about_library,
        10: (r"too large: (\d+) (\w+)", lambda number, what: aqfp_why_layouts.explain_size(command, int(number), what)),
        11: (r"stream: byte (\d+): (.*)", lambda byte, kind: aqfp_why_streams.explain(gds, int(byte), kind)),
        12: (r"rule ([EG]\d): shapes (\d+) (\d+)", lambda *found: aqfp_why_layouts.explain_rule(command, *found)),
        13: (r"words: line (\d+)", lambda line: aqfp_why_layouts.explain_words(command, int(line))),
        14: (r"out of memory", lambda: out_of_memory(command)),
        16: (r"line (\d+): subckt (.*)", lambda line, kind: aqfp_why_designs.explain_design(net, int(line), kind)),
        17: (r"widths: (\d+) (\d+) and (\d+) (\d+)", lambda *numbers: other_widths(command, numbers)),
        18: (r"no shape (\d+) of (\d+)", lambda number, count: no_shape(command, int(number), int(count))),
        19: (r"line (\d+): cells (.*)", lambda line, kind: aqfp_why_designs.explain_cells(net, int(line), kind)),
    }


def explained(command, words):
    """What the command's line means, line by line."""
    if command.status == 0:
        reasons = list(unwritten(command.words["OUT"])) if "OUT" in command.words else []
        if reasons:
            yield "the work itself is done without a fault; where the line is `aqfp: write failed`, status 5:"
            yield from reasons
        else:
            yield "nothing is wrong: the command ends with status 0"
            yield "where its line is `aqfp: write failed`, status 5, standard output took no more, as by `| head`"
        return
    pattern, explain = explainers(command, words).get(command.status, ("", None))
    found = re.fullmatch(pattern, command.line.removeprefix("aqfp: "), re.DOTALL)
    if found and explain:
        yield from explain(*found.groups())
    elif command.status in (126, 127):
        yield "the program itself could not be started: it is for another machine, or lacks memory"
    yield "each line and status stands in docs/statuses.md"


def main():
    parser = Arguments("why", __doc__)
    parser.add_argument("command", metavar="COMMAND", help="build, compact, draw, verify, trace, netlist, equal, ..")
    parser.add_argument("words", metavar="WORDS", nargs="*", help="the words that it was given")
    given = sys.argv[1:]
    parser.parse_args(given if given in ([], ["-h"], ["--help"]) else ["--", *given])
    sys.stdout.reconfigure(errors="backslashreplace")
    with tempfile.TemporaryDirectory() as folder:
        command = Command(given, pathlib.Path(folder))
        print(f"{one_line(command.line) or 'done'} (status {command.status})")
        for line in explained(command, given):
            print(f"  {line}")


run(main)
